//! The plain program on the same scene and lists.

use at_scale::library::from_head;
use plain_program::scan::{self, Entries, Given, LentSums, Sums};
use plain_program::sine::Tables;

use crate::scene::{Lists, Scene};

pub fn tally(tables: &Tables, scene: &Scene, lists: &mut Lists) -> Result<(), u32> {
    let given = Given {
        azimuths: &scene.azimuths,
        values: &scene.values,
        qualities: &scene.qualities,
    };
    let tally = &mut lists.tally;
    let entries = Entries {
        ledger: &mut tally.ledger,
        marks: &mut tally.marks,
    };
    let sums = LentSums {
        counts: &mut tally.sums.counts,
        quality_sums: &mut tally.sums.quality_sums,
        value_sums: &mut tally.sums.value_sums,
        weighted_sums: &mut tally.sums.weighted_sums,
    };
    scan::tally(tables, &from_head(scene.head), given, entries, sums)
}

pub fn publish(weighting: i64, lists: &mut Lists) -> Result<(), u32> {
    let sums = Sums {
        counts: &lists.tally.sums.counts,
        quality_sums: &lists.tally.sums.quality_sums,
        value_sums: &lists.tally.sums.value_sums,
        weighted_sums: &lists.tally.sums.weighted_sums,
    };
    let cells = &mut lists.cells;
    scan::publish(weighting, sums, &mut cells.means, &mut cells.cell_qualities)
}
