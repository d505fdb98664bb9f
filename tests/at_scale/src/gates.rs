//! Single gates: answer, cell, position and mark by the library, as the crate and as C have it, and by the plain program.

use crate::calls;
use crate::draw::Draw;
use crate::handed_in::{grid_numbers, site_numbers, Named};
use crate::outcome::{compare_answers, Outcome};
use crate::sites_and_grids::{
    good_site, grid_anywhere, grid_kind, grid_near, position, range_at_mesh_line, spoil_grid,
    spoil_site,
};
use plain_program::placement::{
    place, Grid, Site, AZIMUTHS, FARTHEST, HRAP_KIND, MOST_COLUMNS_OR_ROWS, RANGES,
};
use plain_program::sine::Tables;

#[derive(Debug)]
pub struct Case {
    site: Site,
    grid: Grid,
    azimuth: i64,
    range: i64,
}

impl Case {
    fn handed_in(&self) -> Vec<Named> {
        let own = [("azimuth", self.azimuth), ("range", self.range)];
        [&site_numbers(self.site)[..], &grid_numbers(self.grid), &own].concat()
    }
}

/// Anywhere, at a limit, or at a multiple of a quarter or of a tenth of a degree.
fn good_azimuth(draw: &mut Draw) -> i64 {
    match draw.below(8) {
        0 => draw.within(0..=3) * 900_000,
        1 => draw.within(0..=3_599) * 1_000,
        _ => draw.good(AZIMUTHS),
    }
}

fn near_its_grid(draw: &mut Draw, tables: &Tables) -> Case {
    let (site, kind) = (good_site(draw), grid_kind(draw));
    let (azimuth, range) = (good_azimuth(draw), draw.good(RANGES));
    let near = position(tables, kind, site, azimuth, range);
    Case {
        site,
        grid: grid_near(draw, kind, near, MOST_COLUMNS_OR_ROWS),
        azimuth,
        range,
    }
}

/// A gate within a few centimetres of a line of the HRAP mesh, or of where the mark changes beside one.
fn near_a_mesh_line(draw: &mut Draw, tables: &Tables) -> Case {
    let (site, azimuth) = (good_site(draw), good_azimuth(draw));
    let crossed = range_at_mesh_line(draw, tables, site, azimuth);
    let range = (crossed + draw.within(-3..=3)).clamp(0, FARTHEST);
    let near = position(tables, HRAP_KIND, site, azimuth, range);
    Case {
        site,
        grid: grid_near(draw, HRAP_KIND, near, MOST_COLUMNS_OR_ROWS),
        azimuth,
        range,
    }
}

fn on_a_grid_anywhere(draw: &mut Draw) -> Case {
    let kind = grid_kind(draw);
    Case {
        site: good_site(draw),
        grid: grid_anywhere(draw, kind, MOST_COLUMNS_OR_ROWS),
        azimuth: good_azimuth(draw),
        range: draw.good(RANGES),
    }
}

fn spoil(draw: &mut Draw, case: &mut Case) {
    match draw.below(4) {
        0 => case.range = draw.wrong(RANGES),
        1 => spoil_site(draw, &mut case.site),
        2 => spoil_grid(draw, &mut case.grid),
        _ => case.azimuth = draw.wrong(AZIMUTHS),
    }
}

/// A good gate with one to three numbers spoiled.
fn spoiled(draw: &mut Draw, tables: &Tables) -> Case {
    let mut case = near_its_grid(draw, tables);
    for _ in 0..draw.within(1..=3) {
        spoil(draw, &mut case);
    }
    case
}

fn any_numbers(draw: &mut Draw) -> Case {
    Case {
        site: Site {
            latitude: draw.any(),
            longitude: draw.any(),
        },
        grid: Grid {
            kind: draw.any(),
            x: draw.any(),
            y: draw.any(),
            side: draw.any(),
            columns: draw.any(),
            rows: draw.any(),
        },
        azimuth: draw.any(),
        range: draw.any(),
    }
}

pub fn draw(draw: &mut Draw, tables: &Tables) -> Case {
    match draw.below(16) {
        0..=8 => near_its_grid(draw, tables),
        9..=10 => near_a_mesh_line(draw, tables),
        11 => on_a_grid_anywhere(draw),
        12..=14 => spoiled(draw, tables),
        _ => any_numbers(draw),
    }
}

pub fn compare(case: &Case, tables: &Tables) -> Outcome {
    let Case {
        site,
        grid,
        azimuth,
        range,
    } = *case;
    let plain = place(tables, site, grid, azimuth, range);
    let library = calls::place(site, grid, azimuth, range);
    let as_c = calls::place_as_c(site, grid, azimuth, range);
    let difference = compare_answers("place", &library, &plain)
        .or_else(|| compare_answers("uldrevin_place", &as_c, &plain));
    let marked = plain.map_or(0, |placement| usize::from(placement.mark));
    Outcome {
        marked: Some(marked),
        ..Outcome::new("place", &plain, 1, case.handed_in(), difference)
    }
}
