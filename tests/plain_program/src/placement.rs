//! Document 01, "Projection" from "Arc" on, and document 02, T-02: a gate to its position, its cell and its mark.

use crate::sine::{by_q, Tables, Q};
use std::ops::RangeInclusive;

pub const FARTHEST: i64 = 46_000_000;
pub const LAST_AZIMUTH: i64 = 3_599_999;
pub const MOST_COLUMNS_OR_ROWS: i64 = 1_500;

pub const RANGES: RangeInclusive<i64> = 0..=FARTHEST;
pub const AZIMUTHS: RangeInclusive<i64> = 0..=LAST_AZIMUTH;
pub const LATITUDES: RangeInclusive<i64> = 200_000..=750_000;
pub const LONGITUDES: RangeInclusive<i64> = -1_800_000..=1_800_000;
pub const CORNERS: RangeInclusive<i64> = -2_000_000_000..=2_000_000_000; // corner x and y of RADOLAN
pub const SIDES: RangeInclusive<i64> = 10_000..=10_000_000; // of RADOLAN
pub const FIRST_CELLS: RangeInclusive<i64> = -10_000..=10_000; // I and J of HRAP
pub const SIZES: RangeInclusive<i64> = 1..=MOST_COLUMNS_OR_ROWS; // columns and rows

pub const RADOLAN_KIND: i64 = 1;
pub const HRAP_KIND: i64 = 2;
pub const HRAP_SIDE: i64 = 476_250;

/// T-02: a gate is marked less than this behind an edge line, and at most this before one.
pub const MARKED_WITHIN: i64 = 50;

#[derive(Clone, Copy, Debug, PartialEq, Eq)]
pub struct Site {
    pub latitude: i64,
    pub longitude: i64,
}

#[derive(Clone, Copy, Debug, PartialEq, Eq)]
pub struct Grid {
    pub kind: i64,
    /// Corner x of RADOLAN, I of HRAP.
    pub x: i64,
    /// Corner y of RADOLAN, J of HRAP.
    pub y: i64,
    /// Of a RADOLAN cell. For HRAP it plays no part, and is HRAP_SIDE where a record is read.
    pub side: i64,
    pub columns: i64,
    pub rows: i64,
}

/// A position, its cell where it has one, and its mark, which it has inside and outside.
#[derive(Clone, Copy, Debug, PartialEq, Eq)]
pub struct Placement {
    pub x: i64,
    pub y: i64,
    pub cell: Option<u32>,
    pub mark: bool,
}

/// Refusal 4.
pub(crate) fn check_site(site: Site) -> Result<(), u32> {
    let good = LATITUDES.contains(&site.latitude) && LONGITUDES.contains(&site.longitude);
    good.then_some(()).ok_or(4)
}

/// Refusal 5.
pub(crate) fn check_grid(grid: Grid) -> Result<(), u32> {
    let (x, y) = (&grid.x, &grid.y);
    let cells_good = match grid.kind {
        RADOLAN_KIND => CORNERS.contains(x) && CORNERS.contains(y) && SIDES.contains(&grid.side),
        HRAP_KIND => FIRST_CELLS.contains(x) && FIRST_CELLS.contains(y),
        _ => false,
    };
    let good = cells_good && SIZES.contains(&grid.columns) && SIZES.contains(&grid.rows);
    good.then_some(()).ok_or(5)
}

pub(crate) struct Sphere {
    radius: i64,
    meridian: i64,
    k: i64,
}

pub(crate) const RADOLAN: Sphere = Sphere {
    radius: 637_004_000,
    meridian: 100_000,
    k: 1_188_665_646,
};

pub(crate) const HRAP: Sphere = Sphere {
    radius: 637_120_000,
    meridian: -1_050_000,
    k: 1_188_882_105,
};

/// The cells of a good grid, of either kind.
pub(crate) struct Window {
    corner_x: i64,
    corner_y: i64,
    side: i64,
    columns: i64,
    rows: i64,
}

impl Window {
    pub(crate) fn of_radolan(grid: Grid) -> Window {
        Window {
            corner_x: grid.x,
            corner_y: grid.y,
            side: grid.side,
            columns: grid.columns,
            rows: grid.rows,
        }
    }

    #[inline(always)] // so that the side is a constant where the cells are worked
    pub(crate) fn of_hrap(grid: Grid) -> Window {
        Window {
            corner_x: (grid.x - 401) * HRAP_SIDE,
            corner_y: (grid.y - 1_601) * HRAP_SIDE,
            side: HRAP_SIDE,
            columns: grid.columns,
            rows: grid.rows,
        }
    }

    #[inline(always)]
    pub(crate) fn cell(&self, (x, y): (i64, i64)) -> Option<u32> {
        let column = (x - self.corner_x).div_euclid(self.side);
        let row = (y - self.corner_y).div_euclid(self.side);
        let inside = (0..self.columns).contains(&column) && (0..self.rows).contains(&row);
        inside.then_some((row * self.columns + column) as u32)
    }

    /// A coordinate less the corner's is near an edge line. The lines go on beyond the grid, on both sides.
    #[inline(always)]
    fn near_a_line(&self, from_corner: i64) -> bool {
        let remainder = from_corner.rem_euclid(self.side);
        remainder < MARKED_WITHIN || remainder >= self.side - MARKED_WITHIN
    }

    #[inline(always)]
    pub(crate) fn mark(&self, (x, y): (i64, i64)) -> bool {
        self.near_a_line(x - self.corner_x) || self.near_a_line(y - self.corner_y)
    }
}

/// Sine and cosine of one angle.
#[derive(Clone, Copy)]
pub(crate) struct Pair {
    sine: i64,
    cosine: i64,
}

pub(crate) fn pair(tables: &Tables, angle: i64) -> Pair {
    Pair {
        sine: tables.sine(angle),
        cosine: tables.cosine(angle),
    }
}

/// Sine and cosine of the arc.
pub(crate) fn arc(sphere: &Sphere, range: i64) -> Pair {
    let d = (range * Q).div_euclid(sphere.radius);
    let d2 = by_q(d * d);
    let d3 = by_q(d2 * d);
    let d4 = by_q(d2 * d2);
    let d5 = by_q(d4 * d);
    Pair {
        sine: d - d3.div_euclid(6) + d5.div_euclid(120),
        cosine: Q - d2.div_euclid(2) + d4.div_euclid(24),
    }
}

/// What the site and the grid's kind decide of a position.
pub(crate) struct Survey {
    latitude: Pair,
    longitude: Pair, // of longitude less central meridian
    k: i64,
}

impl Survey {
    #[inline(always)] // so that K is a constant where the positions are worked
    pub(crate) fn new(tables: &Tables, sphere: &Sphere, site: Site) -> Survey {
        Survey {
            latitude: pair(tables, site.latitude),
            longitude: pair(tables, site.longitude - sphere.meridian),
            k: sphere.k,
        }
    }

    /// X and Y.
    #[inline(always)]
    pub(crate) fn position(&self, azimuth: Pair, arc: Pair) -> (i64, i64) {
        let (sp, cp) = (self.latitude.sine, self.latitude.cosine);
        let (sl, cl) = (self.longitude.sine, self.longitude.cosine);
        let w = by_q(arc.sine * azimuth.cosine);
        let e = by_q(arc.sine * azimuth.sine);
        let n = by_q(sp * arc.cosine + cp * w);
        let m = by_q(cp * arc.cosine - sp * w);
        let u = by_q(e * cl + m * sl);
        let v = by_q(m * cl - e * sl);
        let x = (self.k * u).div_euclid(Q + n);
        let y = (-self.k * v).div_euclid(Q + n);
        (x, y)
    }
}

fn place_checked(
    tables: &Tables,
    sphere: &Sphere,
    window: &Window,
    site: Site,
    azimuth: i64,
    range: i64,
) -> Placement {
    let survey = Survey::new(tables, sphere, site);
    let (x, y) = survey.position(pair(tables, azimuth), arc(sphere, range));
    Placement {
        x,
        y,
        cell: window.cell((x, y)),
        mark: window.mark((x, y)),
    }
}

/// The placement of one gate, or the first of the refusals 3, 4, 5 and 7.
pub fn place(
    tables: &Tables,
    site: Site,
    grid: Grid,
    azimuth: i64,
    range: i64,
) -> Result<Placement, u32> {
    if !RANGES.contains(&range) {
        return Err(3);
    }
    check_site(site)?;
    check_grid(grid)?;
    if !AZIMUTHS.contains(&azimuth) {
        return Err(7);
    }
    let (sphere, window) = match grid.kind {
        RADOLAN_KIND => (&RADOLAN, Window::of_radolan(grid)),
        _ => (&HRAP, Window::of_hrap(grid)),
    };
    Ok(place_checked(tables, sphere, &window, site, azimuth, range))
}

#[cfg(test)]
mod tests {
    use super::*;

    const WIDE_HRAP: Grid = Grid {
        kind: HRAP_KIND,
        x: 0,
        y: 0,
        side: HRAP_SIDE,
        columns: 1_500,
        rows: 1_500,
    };

    const GOOD: Site = Site {
        latitude: 510_000,
        longitude: 100_000,
    };

    /// That of document 01's case.
    const RASTER: Grid = Grid {
        kind: RADOLAN_KIND,
        x: -52_346_220,
        y: -465_864_470,
        side: 100_000,
        columns: 900,
        rows: 900,
    };

    fn placed(latitude: i64, longitude: i64, grid: Grid) -> Result<Placement, u32> {
        let site = Site {
            latitude,
            longitude,
        };
        place(&Tables::new(), site, grid, 0, 0)
    }

    #[test]
    fn hrap_on_its_meridian() {
        let placement = placed(600_000, -1_050_000, WIDE_HRAP).unwrap();
        assert_eq!(placement.x, 0);
        assert!((placement.y + 318_560_000).abs() <= 51);
        assert_eq!(placement.cell, Some(932 * 1_500 + 401));
    }

    #[test]
    fn radolan_on_its_meridian() {
        let placement = placed(510_000, 100_000, RASTER).unwrap();
        assert_eq!(placement.x, 0);
        assert_eq!(placement.cell, Some(404_623));
    }

    #[test]
    fn edges_belong_east_and_north() {
        let window = Window {
            corner_x: 0,
            corner_y: 0,
            side: 10_000,
            columns: 2,
            rows: 1,
        };
        assert_eq!(window.cell((-1, 0)), None);
        assert_eq!(window.cell((0, 0)), Some(0));
        assert_eq!(window.cell((9_999, 0)), Some(0));
        assert_eq!(window.cell((10_000, 0)), Some(1));
        assert_eq!(window.cell((0, 10_000)), None);
    }

    /// The mark of a position with these remainders, so many cells from the corner on both axes.
    fn marked(side: i64, cells: i64, x: i64, y: i64) -> bool {
        let window = Window {
            corner_x: 7,
            corner_y: -11,
            side,
            columns: 2,
            rows: 1,
        };
        window.mark((7 + cells * side + x, -11 + cells * side + y))
    }

    #[test]
    fn marks_near_edge_lines() {
        for side in [10_000, HRAP_SIDE, 10_000_000] {
            let middle = side / 2;
            let remainders = [
                (0, true),
                (49, true),
                (50, false),
                (side - 51, false),
                (side - 50, true),
                (side - 1, true),
            ];
            for (remainder, mark) in remainders {
                for cells in [-2, -1, 0, 1, 2] {
                    assert_eq!(marked(side, cells, remainder, middle), mark);
                    assert_eq!(marked(side, cells, middle, remainder), mark);
                    assert!(marked(side, cells, remainder, 0));
                }
            }
        }
    }

    #[test]
    fn gates_inside_and_outside_have_a_mark() {
        let inside_and_mark = |x| {
            let placement = placed(510_000, 100_000, Grid { x, ..RASTER }).unwrap();
            (placement.cell.is_some(), placement.mark)
        };
        assert_eq!(inside_and_mark(-52_346_220), (true, false));
        assert_eq!(inside_and_mark(0), (true, true));
        assert_eq!(inside_and_mark(100_000), (false, true));
        assert_eq!(inside_and_mark(130_000), (false, false));
    }

    #[test]
    fn latitude_limits() {
        assert!(placed(200_000, 0, WIDE_HRAP).is_ok());
        assert!(placed(750_000, 0, WIDE_HRAP).is_ok());
        assert_eq!(placed(199_999, 0, WIDE_HRAP), Err(4));
        assert_eq!(placed(750_001, 0, WIDE_HRAP), Err(4));
    }

    #[test]
    fn one_gate_is_checked_by_3_4_5_7() {
        let tables = Tables::new();
        let bad = Site {
            latitude: 0,
            longitude: 0,
        };
        let none = Grid {
            columns: 0,
            ..WIDE_HRAP
        };
        assert_eq!(place(&tables, bad, none, 3_600_000, 46_000_001), Err(3));
        assert_eq!(place(&tables, bad, none, 3_600_000, 46_000_000), Err(4));
        assert_eq!(place(&tables, GOOD, none, 3_600_000, 46_000_000), Err(5));
        assert_eq!(
            place(&tables, GOOD, WIDE_HRAP, 3_600_000, 46_000_000),
            Err(7)
        );
        assert!(place(&tables, GOOD, WIDE_HRAP, 3_599_999, 46_000_000).is_ok());
    }

    const BEYOND: i64 = 1 << 32;

    /// Numbers that 32 bits do not hold, also with a good number in the low 32.
    #[test]
    fn numbers_of_every_size() {
        let tables = Tables::new();
        for wrong in [-1, i64::MIN, i64::MAX, BEYOND, BEYOND + 5, 5 - BEYOND] {
            assert_eq!(place(&tables, GOOD, RASTER, 0, wrong), Err(3));
            assert_eq!(place(&tables, GOOD, RASTER, wrong, 0), Err(7));
        }
        for wrong in [i64::MIN, i64::MAX, BEYOND + 510_000] {
            assert_eq!(placed(wrong, 100_000, RASTER), Err(4));
            assert_eq!(placed(510_000, wrong, RASTER), Err(4));
        }
        for kind in [0, 3, -1, BEYOND + RADOLAN_KIND, BEYOND + HRAP_KIND] {
            let grid = Grid { kind, ..WIDE_HRAP };
            assert_eq!(placed(510_000, 100_000, grid), Err(5));
        }
    }

    #[test]
    fn the_side_of_hrap_plays_no_part() {
        for side in [0, i64::MIN, i64::MAX] {
            let grid = Grid { side, ..WIDE_HRAP };
            let placement = placed(600_000, -1_050_000, grid);
            assert_eq!(placement, placed(600_000, -1_050_000, WIDE_HRAP));
        }
    }
}
