//! The kinds of cases. A case is drawn from its own seed, so that it can be worked again alone.

use crate::draw::Draw;
use crate::outcome::Outcome;
use crate::{gates, publishing, records_read, records_written, scans, sweep_draw, sweeps};
use plain_program::sine::Tables;
use std::panic::catch_unwind;

#[derive(Clone, Copy, Debug, PartialEq, Eq)]
pub enum Kind {
    Gate,
    Scan,
    Sums,
    Sweep,
    Written,
    Read,
}

pub const KINDS: [Kind; 6] = [
    Kind::Gate,
    Kind::Scan,
    Kind::Sums,
    Kind::Sweep,
    Kind::Written,
    Kind::Read,
];

impl Kind {
    /// As it is given on the command line.
    pub fn word(self) -> &'static str {
        match self {
            Kind::Gate => "gate",
            Kind::Scan => "scan",
            Kind::Sums => "sums",
            Kind::Sweep => "sweep",
            Kind::Written => "written",
            Kind::Read => "read",
        }
    }

    /// As it stands in the table.
    pub fn title(self) -> &'static str {
        match self {
            Kind::Gate => "single gates",
            Kind::Scan => "whole scans",
            Kind::Sums => "sums published",
            Kind::Sweep => "sweeps",
            Kind::Written => "records written",
            Kind::Read => "records read",
        }
    }

    fn compare(self, seed: u64, tables: &Tables) -> Outcome {
        let draw = &mut Draw::new(seed);
        match self {
            Kind::Gate => gates::compare(&gates::draw(draw, tables), tables),
            Kind::Scan => scans::compare(&scans::draw(draw, tables), tables),
            Kind::Sums => publishing::compare(&publishing::draw(draw)),
            Kind::Sweep => sweeps::compare(&sweep_draw::draw(draw, tables), tables),
            Kind::Written => records_written::compare(&records_written::draw(draw, tables)),
            Kind::Read => records_read::compare(&records_read::draw(draw, tables)),
        }
    }

    /// Works one case. A panic is a difference too, so that its seed is told.
    pub fn work(self, seed: u64, tables: &Tables) -> Outcome {
        catch_unwind(|| self.compare(seed, tables)).unwrap_or_else(|_| Outcome {
            answers: Vec::new(),
            gates: 0,
            marked: None,
            handed_in: Vec::new(),
            difference: Some("a panic".to_string()),
        })
    }

    /// All that is handed in.
    pub fn input(self, seed: u64, tables: &Tables) -> String {
        let draw = &mut Draw::new(seed);
        match self {
            Kind::Gate => format!("{:?}", gates::draw(draw, tables)),
            Kind::Scan => format!("{:?}", scans::draw(draw, tables)),
            Kind::Sums => format!("{:?}", publishing::draw(draw)),
            Kind::Sweep => format!("{:?}", sweep_draw::draw(draw, tables)),
            Kind::Written => format!("{:?}", records_written::draw(draw, tables)),
            Kind::Read => format!("{:?}", records_read::draw(draw, tables)),
        }
    }
}
