//! A caller who feeds a scan to a sweep, as steps that are drawn.

use crate::cell_sums::{sums_to_publish, CellSums};
use crate::draw::Draw;
use crate::output_lists::Lengths;
use crate::scan_input::{spoil_contents, spoil_lengths, spoil_number, ScanInput};
use crate::sweep_alter::{alter_state, sums_near_a_width};
use crate::sweep_step::Step;
use plain_program::scan::{GATES, RAYS};
use plain_program::sine::Tables;
use plain_program::sweep::{Sweep, OPEN};

/// How a scan is divided.
#[derive(Clone, Copy)]
enum Manner {
    OneByOne,
    Whole,
    Groups,
}

fn manner(draw: &mut Draw, rays: i64) -> Manner {
    match draw.below(8) {
        0..=1 if rays <= 40 => Manner::OneByOne,
        0..=2 => Manner::Whole,
        _ => Manner::Groups,
    }
}

/// What the steps of a case are drawn from, and those drawn.
pub struct Caller<'a> {
    tables: &'a Tables,
    scan: ScanInput,
    /// The lengths of the lists of the whole scan.
    pub exact: Lengths,
    /// Rays of the scan that were fed.
    fed: usize,
    /// Whether the caller alters state and sums.
    alters: bool,
    pub steps: Vec<Step>,
}

impl<'a> Caller<'a> {
    pub fn new(tables: &'a Tables, scan: ScanInput, alters: bool) -> Caller<'a> {
        let cells = scan.head.grid.columns * scan.head.grid.rows;
        Caller {
            tables,
            exact: Lengths::exact(scan.values.len(), cells as usize),
            scan,
            fed: 0,
            alters,
            steps: Vec::new(),
        }
    }

    fn rays(&self) -> usize {
        self.scan.head.rays as usize
    }

    /// The state as it should be.
    pub fn state(&self) -> Sweep {
        Sweep {
            head: self.scan.head,
            taken: self.fed as i64,
            closed: OPEN,
        }
    }

    /// Exact lengths, at times with one spoiled.
    fn lengths(&self, draw: &mut Draw, spoiled_in: usize) -> Lengths {
        let mut lengths = self.exact;
        if draw.one_in(spoiled_in) {
            lengths.spoil(draw);
        }
        lengths
    }

    pub fn open(&mut self) {
        self.fed = 0;
        self.steps.push(Step::Open(self.scan.head, self.exact));
    }

    /// Opening that is mostly refused. Where it is not, the sweep goes on with fewer rays to come than announced.
    pub fn open_refused(&mut self, draw: &mut Draw) {
        let (wrong_head, wrong_lengths) =
            draw.one_of(&[(true, false), (false, true), (true, true)]);
        let mut head = self.scan.head;
        if wrong_head {
            match draw.below(4) {
                0 => head.rays = draw.wrong(RAYS),
                1 => head.gates = draw.wrong(GATES),
                _ => spoil_number(draw, &mut head),
            }
        }
        let mut lengths = self.exact;
        if wrong_lengths {
            lengths.spoil(draw);
        }
        self.steps.push(Step::Open(head, lengths));
    }

    fn take(&mut self, group: ScanInput) {
        self.steps.push(Step::Take(group, self.exact));
    }

    /// A group that is mostly refused: one or two things spoiled in it, or none or too many rays.
    fn take_refused(&mut self, draw: &mut Draw) {
        let left = self.rays() - self.fed;
        let some = draw.below(left.max(1)) + 1;
        let count = draw.one_of(&[0, 1, some, some, left, left + 1, left + 1 + some]);
        let mut group = self.scan.rays_from(self.fed, count);
        let least = i64::from((1..=left).contains(&count));
        for _ in 0..draw.within(least..=2) {
            match draw.below(3) {
                0 => spoil_lengths(draw, &mut group),
                _ => spoil_contents(draw, &mut group),
            }
        }
        let lengths = self.lengths(draw, 3);
        self.steps.push(Step::Take(group, lengths));
    }

    pub fn close(&mut self, draw: &mut Draw, spoiled_in: usize) {
        let lengths = self.lengths(draw, spoiled_in);
        self.steps.push(Step::Close(lengths));
    }

    /// A call with an altered state, which mostly is not handed on afterwards.
    fn call_with_altered_state(&mut self, draw: &mut Draw) {
        self.steps.push(Step::Keep);
        let altered = alter_state(draw, &self.state());
        self.steps.extend(altered);
        match draw.below(4) {
            0..=1 => self.close(draw, 8),
            2 => self.take_refused(draw),
            _ => self.take(self.scan.rays_from(self.fed, 1)),
        }
        if !draw.one_in(8) {
            self.steps.push(Step::Restore);
        }
    }

    /// A group whose sums come to their widths, and mostly small sums after it, so that the next group is taken.
    fn take_at_a_width(&mut self, draw: &mut Draw, group: &ScanInput) {
        let altered = sums_near_a_width(draw, self.tables, group);
        self.steps.push(Step::AlterSums(altered));
        self.steps.push(Step::Keep);
        if draw.one_in(8) {
            self.take_refused(draw);
        }
        if draw.one_in(2) {
            // One ray fewer: where the whole group passes a width, the rest of it may not.
            let fewer = group.azimuths.len() - 1;
            self.take(self.scan.rays_from(self.fed + 1, fewer));
            self.steps.push(Step::Restore);
        }
        if !draw.one_in(4) {
            self.take(group.clone());
            self.steps.push(Step::Restore);
            let small = CellSums {
                cell: altered.cell,
                count: 1,
                quality_sum: 2,
                value_sum: 3,
                weighted_sum: 4,
            };
            self.steps.push(Step::AlterSums(small));
        }
    }

    pub fn alter_sums_to_publish(&mut self, draw: &mut Draw) {
        let cell = draw.below(self.exact.counts);
        let altered = sums_to_publish(draw, cell);
        self.steps.push(Step::AlterSums(altered));
    }

    /// None to three calls between the good ones, most of them refused.
    fn between(&mut self, draw: &mut Draw, next: &ScanInput) {
        let most = draw.one_of(&[0, 1, 3]);
        for _ in 0..draw.within(0..=most) {
            match draw.below(if self.alters { 14 } else { 6 }) {
                0..=3 => self.take_refused(draw),
                4 => self.close(draw, 4),
                5 => self.open_refused(draw),
                6..=9 => self.call_with_altered_state(draw),
                _ if !next.azimuths.is_empty() => self.take_at_a_width(draw, next),
                _ => self.alter_sums_to_publish(draw),
            }
        }
    }

    fn group_size(&self, draw: &mut Draw, manner: Manner) -> usize {
        let left = self.rays() - self.fed;
        match manner {
            Manner::OneByOne => 1,
            Manner::Whole => left,
            Manner::Groups if draw.one_in(4) => 1,
            Manner::Groups => draw.good(1..=left as i64) as usize,
        }
    }

    /// All rays, divided, with other calls between.
    pub fn feed(&mut self, draw: &mut Draw) {
        let manner = manner(draw, self.scan.head.rays);
        while self.fed < self.rays() {
            let count = self.group_size(draw, manner);
            let group = self.scan.rays_from(self.fed, count);
            self.between(draw, &group);
            self.take(group);
            self.fed += count;
        }
        let none = self.scan.rays_from(0, 0);
        self.between(draw, &none);
    }

    /// Calls after the last, mostly refused.
    pub fn after_closing(&mut self, draw: &mut Draw) {
        for _ in 0..draw.within(0..=3) {
            match draw.below(if self.alters { 6 } else { 4 }) {
                0 => self.take_refused(draw),
                1 => self.take(self.scan.rays_from(0, 1)),
                2 => self.close(draw, 4),
                3 => self.open_refused(draw),
                _ => self.call_with_altered_state(draw),
            }
        }
    }
}
