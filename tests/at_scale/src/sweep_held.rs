//! What a caller of a sweep holds, and the calls on it by the plain program and by the library.

use crate::output_lists::Lists;
use crate::sweep_calls;
use crate::sweep_step::Step;
use plain_program::scan::{Entries, LentSums, Sums};
use plain_program::sine::Tables;
use plain_program::sweep::Sweep;

/// What a caller holds.
#[derive(Clone)]
pub struct Held {
    pub state: Sweep,
    pub lists: Lists,
}

impl Held {
    /// Says where the two differ first.
    pub fn compare(&self, other: &Held, name: &str) -> Option<String> {
        let states = (self.state != other.state).then(|| {
            let (mine, others) = (self.state, other.state);
            format!("the library leaves the state {mine:?}, {name} {others:?}")
        });
        states.or_else(|| self.lists.compare(&other.lists, name))
    }
}

/// Puts the new state in the place of the old one, or gives the refusal.
fn answer(new: Result<Sweep, u32>, state: &mut Sweep) -> u32 {
    match new {
        Ok(new) => {
            *state = new;
            0
        }
        Err(number) => number,
    }
}

/// The answer of the plain program to a step that is a call.
pub fn by_plain_program(step: &Step, tables: &Tables, held: &mut Held) -> u32 {
    let Held { state, lists } = held;
    let (Step::Open(_, lengths) | Step::Take(_, lengths) | Step::Close(lengths)) = step else {
        return 0;
    };
    let sums = LentSums {
        counts: lists.counts.first(lengths.counts),
        quality_sums: lists.quality_sums.first(lengths.quality_sums),
        value_sums: lists.value_sums.first(lengths.value_sums),
        weighted_sums: lists.weighted_sums.first(lengths.weighted_sums),
    };
    let new = match step {
        Step::Open(head, _) => Sweep::open(*head, sums),
        Step::Take(group, _) => {
            let entries = Entries {
                ledger: lists.ledger.first(lengths.ledger),
                marks: lists.marks.first(lengths.marks),
            };
            state.take(tables, group.given(), entries, sums)
        }
        _ => {
            let sums = Sums {
                counts: sums.counts,
                quality_sums: sums.quality_sums,
                value_sums: sums.value_sums,
                weighted_sums: sums.weighted_sums,
            };
            let means = lists.means.first(lengths.means);
            let cell_qualities = lists.cell_qualities.first(lengths.cell_qualities);
            state.close(sums, means, cell_qualities)
        }
    };
    answer(new, state)
}

/// The library's answer to a step that is a call.
pub fn by_library(step: &Step, as_c: bool, held: &mut Held) -> u32 {
    let Held { state, lists } = held;
    let (Step::Open(_, lengths) | Step::Take(_, lengths) | Step::Close(lengths)) = step else {
        return 0;
    };
    let sums = &mut uldrevin::SumLists {
        counts: lists.counts.first(lengths.counts),
        quality_sums: lists.quality_sums.first(lengths.quality_sums),
        value_sums: lists.value_sums.first(lengths.value_sums),
        weighted_sums: lists.weighted_sums.first(lengths.weighted_sums),
    };
    let entries = &mut uldrevin::EntryLists {
        ledger: lists.ledger.first(lengths.ledger),
        marks: lists.marks.first(lengths.marks),
    };
    let means = lists.means.first(lengths.means);
    let cell_qualities = lists.cell_qualities.first(lengths.cell_qualities);
    match (step, as_c) {
        (Step::Open(head, _), true) => sweep_calls::open_as_c(head, sums, state),
        (Step::Open(head, _), false) => sweep_calls::open(head, sums, state),
        (Step::Take(group, _), true) => {
            sweep_calls::take_as_c(state, group.gate_lists(), entries, sums)
        }
        (Step::Take(group, _), false) => {
            sweep_calls::take(state, group.gate_lists(), entries, sums)
        }
        (_, true) => sweep_calls::close_as_c(state, sums, means, cell_qualities),
        (_, false) => sweep_calls::close(state, sums, means, cell_qualities),
    }
}
