//! Draws of alterations by a caller: of a sweep's state, and of its sums near their widths.

use crate::cell_sums::CellSums;
use crate::draw::Draw;
use crate::scan_input::ScanInput;
use crate::sweep_step::{number_of, Step, NUMBERS};
use plain_program::placement::{
    CORNERS, FIRST_CELLS, HRAP_KIND, LATITUDES, LONGITUDES, RADOLAN_KIND, RANGES, SIDES, SIZES,
};
use plain_program::scan::{
    tally, Entries, LentSums, BY_QUALITY, GATES, OUTSIDE, PLAIN, RAYS, SPACINGS,
};
use plain_program::sine::Tables;
use plain_program::sweep::{Sweep, CLOSED, OPEN};
use std::collections::BTreeSet;
use std::ops::RangeInclusive;

/// What is good for a number of the state.
fn good_numbers(sweep: &Sweep, name: &str) -> RangeInclusive<i64> {
    match name {
        "latitude" => LATITUDES,
        "longitude" => LONGITUDES,
        "rays" => RAYS,
        "gates" => GATES,
        "first" => RANGES,
        "spacing" => SPACINGS,
        "kind" => RADOLAN_KIND..=HRAP_KIND,
        "x" | "y" if sweep.head.grid.kind == RADOLAN_KIND => CORNERS,
        "x" | "y" => FIRST_CELLS,
        "side" => SIDES,
        "columns" | "rows" => SIZES,
        "weighting" => PLAIN..=BY_QUALITY,
        "taken" => 0..=sweep.head.rays,
        _ => OPEN..=CLOSED,
    }
}

/// A number of the state becomes its neighbour, another good one, or a wrong one. `sweep` is the state as it should be.
fn alter_number(draw: &mut Draw, sweep: &Sweep) -> Step {
    let any = draw.one_of(&NUMBERS);
    let name = draw.one_of(&[any, any, any, any, "rays", "gates", "taken", "closed"]);
    let good = good_numbers(sweep, name);
    let number = match draw.below(4) {
        0 => *number_of(&mut sweep.clone(), name) + draw.one_of(&[-1, 1]),
        1 => draw.good(good),
        _ => draw.wrong(good),
    };
    Step::AlterState(name, number)
}

/// Rays and taken together, often alike, so that 17 does not come before the others; also about the limit at which far numbers count.
fn alter_counts(draw: &mut Draw, sweep: &Sweep) -> Vec<Step> {
    let limit = i64::from(u32::MAX);
    let (wrong, about) = (draw.wrong(RAYS), limit + draw.within(-2..=1));
    let counts = [0, sweep.taken, 721, -1, limit, about, wrong];
    let rays = draw.one_of(&counts);
    let other = draw.one_of(&counts);
    let taken = draw.one_of(&[rays, rays, rays.wrapping_sub(1), other]);
    vec![
        Step::AlterState("rays", rays),
        Step::AlterState("taken", taken),
    ]
}

/// One to three numbers altered, or two so that the lengths of the lists stay good.
pub fn alter_state(draw: &mut Draw, sweep: &Sweep) -> Vec<Step> {
    let grid = sweep.head.grid;
    match draw.below(8) {
        0 => vec![
            Step::AlterState("columns", grid.rows),
            Step::AlterState("rows", grid.columns),
        ],
        1 => alter_counts(draw, sweep),
        _ => (0..draw.within(1..=3))
            .map(|_| alter_number(draw, sweep))
            .collect(),
    }
}

/// The cells of good rays' gates, measured or not, with what the rays add to each.
fn reached(tables: &Tables, rays: &ScanInput) -> Vec<CellSums> {
    let cells = (rays.head.grid.columns * rays.head.grid.rows) as usize;
    let gates = rays.values.len();
    let mut ledger = vec![0; gates];
    let entries = Entries {
        ledger: &mut ledger,
        marks: &mut vec![0; gates],
    };
    let (mut counts, mut quality_sums) = (vec![0; cells], vec![0; cells]);
    let (mut value_sums, mut weighted_sums) = (vec![0; cells], vec![0; cells]);
    let sums = LentSums {
        counts: &mut counts,
        quality_sums: &mut quality_sums,
        value_sums: &mut value_sums,
        weighted_sums: &mut weighted_sums,
    };
    tally(tables, &rays.head, rays.given(), entries, sums).expect("good rays");
    let reached: BTreeSet<u32> = ledger.into_iter().filter(|&cell| cell != OUTSIDE).collect();
    let sums = |cell: usize| CellSums {
        cell,
        count: counts[cell],
        quality_sum: quality_sums[cell],
        value_sum: value_sums[cell],
        weighted_sum: weighted_sums[cell],
    };
    reached
        .into_iter()
        .map(|cell| sums(cell as usize))
        .collect()
}

/// A sum to which so much can just be added, or just not, or by one or two otherwise.
fn near_width(draw: &mut Draw, most: u64, added: u64) -> u64 {
    let room = most - added;
    match draw.below(6) {
        0 => room.saturating_sub(1),
        1 => room,
        2..=3 => room.saturating_add(1).min(most),
        4 => room.saturating_add(2).min(most),
        _ => most,
    }
}

/// Sums of a cell that the rays reach, so that one of its four widths or more are just passed or just not; or of cell 0 where they reach
/// none.
pub fn sums_near_a_width(draw: &mut Draw, tables: &Tables, rays: &ScanInput) -> CellSums {
    let reached = reached(tables, rays);
    let added = match reached.len() {
        0 => CellSums::default(),
        _ => draw.one_of(&reached),
    };
    let (narrow, wide) = (u64::from(u32::MAX), u64::MAX);
    let mut altered = CellSums {
        cell: added.cell,
        ..CellSums::default()
    };
    for _ in 0..draw.within(1..=2) {
        match draw.below(4) {
            0 => altered.count = near_width(draw, narrow, added.count.into()) as u32,
            1 => altered.quality_sum = near_width(draw, narrow, added.quality_sum.into()) as u32,
            2 => altered.value_sum = near_width(draw, wide, added.value_sum),
            _ => altered.weighted_sum = near_width(draw, wide, added.weighted_sum),
        }
    }
    altered
}
