//! Draws of sites and grids.

use crate::draw::Draw;
use plain_program::placement::{
    place, Grid, Site, CORNERS, FARTHEST, FIRST_CELLS, HRAP_KIND, HRAP_SIDE, LATITUDES, LONGITUDES,
    MARKED_WITHIN, RADOLAN_KIND, SIDES, SIZES,
};
use plain_program::sine::Tables;
use std::ops::RangeInclusive;

pub fn grid_kind(draw: &mut Draw) -> i64 {
    draw.one_of(&[RADOLAN_KIND, HRAP_KIND])
}

pub fn good_site(draw: &mut Draw) -> Site {
    let meridian = draw.one_of(&[100_000, -1_050_000]);
    Site {
        latitude: draw.good(LATITUDES),
        longitude: match draw.below(8) {
            0 => meridian + draw.within(-1..=1),
            _ => draw.good(LONGITUDES),
        },
    }
}

/// Spoils latitude or longitude.
pub fn spoil_site(draw: &mut Draw, site: &mut Site) {
    match draw.below(2) {
        0 => site.latitude = draw.wrong(LATITUDES),
        _ => site.longitude = draw.wrong(LONGITUDES),
    }
}

/// X and Y of a good gate by the plain program, on the sphere of the grid's kind.
pub fn position(tables: &Tables, kind: i64, site: Site, azimuth: i64, range: i64) -> (i64, i64) {
    let any_good = Grid {
        kind,
        x: 0,
        y: 0,
        side: HRAP_SIDE,
        columns: 1,
        rows: 1,
    };
    let placement = place(tables, site, any_good, azimuth, range).expect("a good gate");
    (placement.x, placement.y)
}

/// The remainders by the side at which the cell or the mark is another than one centimetre before.
fn changes(side: i64) -> [i64; 3] {
    [0, MARKED_WITHIN, side - MARKED_WITHIN]
}

/// A range from `near` to `far` at which the mesh number is another than one centimetre before; `far` where both have the same.
fn crossing(near: i64, far: i64, mesh_number: impl Fn(i64) -> i64) -> i64 {
    let (mut low, mut high) = (near, far);
    let before = mesh_number(low);
    while high - low > 1 {
        let middle = low + (high - low) / 2;
        if mesh_number(middle) == before {
            low = middle;
        } else {
            high = middle;
        }
    }
    high
}

/// A range at which the ray crosses a line of the HRAP mesh, or its marks begin or end beside one, if any on the part that is drawn.
pub fn range_at_mesh_line(draw: &mut Draw, tables: &Tables, site: Site, azimuth: i64) -> i64 {
    let near = draw.good(0..=FARTHEST - 10);
    let far = draw.good(near + 10..=FARTHEST);
    let (west_east, change) = (draw.one_in(2), draw.one_of(&changes(HRAP_SIDE)));
    crossing(near, far, |range| {
        let (x, y) = position(tables, HRAP_KIND, site, azimuth, range);
        (if west_east { x - change } else { y - change }).div_euclid(HRAP_SIDE)
    })
}

/// The number of columns or rows before a gate: mostly inside, else the last before or the first behind the grid.
fn cells_before(draw: &mut Draw, size: i64) -> i64 {
    draw.good(-1..=size)
}

/// A corner so that so many cells lie between it and the gate, which is often within two centimetres of where cell or mark changes.
fn radolan_corner(draw: &mut Draw, gate: i64, side: i64, size: i64) -> i64 {
    let offset = match draw.below(2) {
        0 => draw.one_of(&changes(side)) + draw.within(-2..=1),
        _ => draw.within(0..=side - 1),
    };
    let corner = gate - cells_before(draw, size) * side - offset;
    corner.clamp(*CORNERS.start(), *CORNERS.end())
}

fn radolan_side(draw: &mut Draw) -> i64 {
    let (least, most) = SIDES.into_inner();
    let drawn_most = draw.one_of(&[20_000, 100_000, 1_000_000, most]);
    draw.good(least..=drawn_most)
}

fn radolan_near(draw: &mut Draw, (x, y): (i64, i64), columns: i64, rows: i64) -> Grid {
    let side = radolan_side(draw);
    Grid {
        kind: RADOLAN_KIND,
        x: radolan_corner(draw, x, side, columns),
        y: radolan_corner(draw, y, side, rows),
        side,
        columns,
        rows,
    }
}

fn hrap_near(draw: &mut Draw, (x, y): (i64, i64), columns: i64, rows: i64) -> Grid {
    Grid {
        kind: HRAP_KIND,
        x: x.div_euclid(HRAP_SIDE) + 401 - cells_before(draw, columns),
        y: y.div_euclid(HRAP_SIDE) + 1_601 - cells_before(draw, rows),
        side: HRAP_SIDE,
        columns,
        rows,
    }
}

/// A good grid of at most `most` columns and rows with the position inside or not far outside.
pub fn grid_near(draw: &mut Draw, kind: i64, position: (i64, i64), most: i64) -> Grid {
    let (columns, rows) = (draw.good(1..=most), draw.good(1..=most));
    match kind {
        RADOLAN_KIND => radolan_near(draw, position, columns, rows),
        _ => hrap_near(draw, position, columns, rows),
    }
}

/// What is good for x and y.
fn places(kind: i64) -> RangeInclusive<i64> {
    match kind {
        RADOLAN_KIND => CORNERS,
        _ => FIRST_CELLS,
    }
}

/// A good grid anywhere.
pub fn grid_anywhere(draw: &mut Draw, kind: i64, most: i64) -> Grid {
    Grid {
        kind,
        x: draw.good(places(kind)),
        y: draw.good(places(kind)),
        side: match kind {
            RADOLAN_KIND => radolan_side(draw),
            _ => HRAP_SIDE,
        },
        columns: draw.good(1..=most),
        rows: draw.good(1..=most),
    }
}

/// Spoils one number of the grid.
pub fn spoil_grid(draw: &mut Draw, grid: &mut Grid) {
    match draw.below(6) {
        0 => grid.kind = draw.wrong(RADOLAN_KIND..=HRAP_KIND),
        1 => grid.x = draw.wrong(places(grid.kind)),
        2 => grid.y = draw.wrong(places(grid.kind)),
        3 => grid.side = draw.wrong(SIDES),
        4 => grid.columns = draw.wrong(SIZES),
        _ => grid.rows = draw.wrong(SIZES),
    }
}
