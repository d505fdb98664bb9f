//! Draws of sweeps: a scan divided at random, with refused calls between, and in some of them alterations by the caller.

use crate::draw::Draw;
use crate::output_lists::Lengths;
use crate::scan_input::{scan_of, Shape};
use crate::sweep_caller::Caller;
use crate::sweep_step::Step;
use plain_program::scan::{MOST_GATES, MOST_RAYS};
use plain_program::sine::Tables;
use plain_program::sweep::Sweep;

#[derive(Debug)]
pub struct Case {
    /// What the state holds before the first step.
    pub begin: Sweep,
    pub steps: Vec<Step>,
    /// The lengths of the lists of all steps; a step may lend shorter or longer parts of them.
    pub lengths: Lengths,
    pub margin: usize,
    /// The seed of what the lists hold before.
    pub contents: u64,
    /// Whether the library is called by the functions as C has them, whatever the numbers.
    pub as_c: bool,
}

/// Mostly small, so that many are worked; seldom with many rays and gates.
fn shape(draw: &mut Draw) -> Shape {
    let (rays, gates, most_cells) = match draw.below(3_000) {
        0 => (MOST_RAYS, MOST_GATES, 100),
        1..=60 => (100, 100, 40),
        _ => (10, 20, 8),
    };
    Shape {
        rays: draw.good(1..=rays),
        gates: draw.good(1..=gates),
        most_cells,
    }
}

pub fn draw(draw: &mut Draw, tables: &Tables) -> Case {
    let shape = shape(draw);
    let scan = scan_of(draw, tables, shape);
    let alters = !draw.one_in(3);
    let mut caller = Caller::new(tables, scan, alters);
    if draw.one_in(4) {
        caller.open_refused(draw);
    }
    let mut begin = caller.state();
    let never_opened = alters && draw.one_in(16);
    if !never_opened {
        begin.taken = draw.any();
        begin.closed = draw.any();
        caller.open();
    }
    caller.feed(draw);
    if alters {
        for _ in 0..draw.within(0..=3) {
            caller.alter_sums_to_publish(draw);
        }
    }
    caller.close(draw, 16);
    caller.after_closing(draw);
    if draw.one_in(8) {
        caller.open();
        caller.feed(draw);
        caller.close(draw, 16);
    }
    Case {
        begin,
        lengths: caller.exact,
        steps: caller.steps,
        margin: draw.one_of(&[0, 1, 5]),
        contents: draw.bits(),
        as_c: draw.one_in(2),
    }
}
