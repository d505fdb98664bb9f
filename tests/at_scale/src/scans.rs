//! Whole scans, tallied once and published plain and by quality: the answers and all lists that are written by the library and by the
//! plain program.

use crate::calls;
use crate::draw::Draw;
use crate::handed_in::scan_numbers;
use crate::outcome::{compare_answers, Answer, Outcome};
use crate::output_lists::{count_marked, Lengths, Lists};
use crate::publishing::publish_both;
use crate::scan_input::{scan_of, spoil, ScanInput, Shape};
use plain_program::placement::MOST_COLUMNS_OR_ROWS;
use plain_program::scan::{tally, Entries, LentSums, BY_QUALITY, MOST_GATES, MOST_RAYS, PLAIN};
use plain_program::sine::Tables;

pub const TALLY: &str = "tally";

#[derive(Debug)]
pub struct Case {
    scan: ScanInput,
    /// Those in which it is published, one behind the other.
    weightings: [i64; 2],
    lengths: Lengths,
    margin: usize,
    /// The seed of what the lent lists hold before.
    contents: u64,
}

/// Mostly small, so that many are worked; seldom up to the largest.
fn shape(draw: &mut Draw) -> Shape {
    let (rays, gates, most_cells) = match draw.below(3_000) {
        0 => (MOST_RAYS, MOST_GATES, MOST_COLUMNS_OR_ROWS),
        1..=100 => (100, 200, 200),
        _ => (12, 40, 30),
    };
    Shape {
        rays: draw.good(1..=rays),
        gates: draw.good(1..=gates),
        most_cells,
    }
}

fn good(draw: &mut Draw, tables: &Tables) -> Case {
    let shape = shape(draw);
    let scan = scan_of(draw, tables, shape);
    let cells = scan.head.grid.columns * scan.head.grid.rows;
    Case {
        lengths: Lengths::exact(scan.values.len(), cells as usize),
        scan,
        weightings: draw.one_of(&[[PLAIN, BY_QUALITY], [BY_QUALITY, PLAIN]]),
        margin: draw.one_of(&[0, 1, 5]),
        contents: draw.bits(),
    }
}

/// One scan in three has one to three things spoiled.
pub fn draw(draw: &mut Draw, tables: &Tables) -> Case {
    let mut case = good(draw, tables);
    if draw.one_in(3) {
        for _ in 0..draw.within(1..=3) {
            match draw.below(6) {
                0 => case.lengths.spoil(draw),
                _ => spoil(draw, &mut case.scan),
            }
        }
    }
    case
}

fn by_plain_program(case: &Case, tables: &Tables, lists: &mut Lists) -> Result<(), u32> {
    let entries = Entries {
        ledger: lists.ledger.lent(),
        marks: lists.marks.lent(),
    };
    let sums = LentSums {
        counts: lists.counts.lent(),
        quality_sums: lists.quality_sums.lent(),
        value_sums: lists.value_sums.lent(),
        weighted_sums: lists.weighted_sums.lent(),
    };
    tally(tables, &case.scan.head, case.scan.given(), entries, sums)
}

fn by_library(case: &Case, lists: &mut Lists) -> Result<(), u32> {
    let entries = &mut uldrevin::EntryLists {
        ledger: lists.ledger.lent(),
        marks: lists.marks.lent(),
    };
    let sums = &mut uldrevin::SumLists {
        counts: lists.counts.lent(),
        quality_sums: lists.quality_sums.lent(),
        value_sums: lists.value_sums.lent(),
        weighted_sums: lists.weighted_sums.lent(),
    };
    calls::tally(&case.scan.head, case.scan.gate_lists(), entries, sums)
}

/// The tally, then both sheets from the sums that it left. After a refused tally those are what the lists held before, and are published
/// all the same.
pub fn compare(case: &Case, tables: &Tables) -> Outcome {
    let before = Lists::new(&case.lengths, case.margin, case.contents);
    let (mut with_plain, mut with_library) = (before.clone(), before.clone());
    let plain = by_plain_program(case, tables, &mut with_plain);
    let library = by_library(case, &mut with_library);
    let unchanged = || match plain {
        Ok(()) => None,
        Err(_) => with_library.compare(&before, "before stood"),
    };
    let mut difference = compare_answers(TALLY, &library, &plain)
        .or_else(|| with_library.compare(&with_plain, "the plain program"))
        .or_else(unchanged);
    let mut answers = vec![Answer {
        call: TALLY,
        number: plain.err().unwrap_or(0),
    }];
    for weighting in case.weightings {
        let (answer, other) = publish_both(weighting, &mut with_plain, &mut with_library);
        answers.push(answer);
        difference = difference.or(other);
    }
    let (gates, marked) = match plain {
        Ok(()) => (
            case.scan.values.len(),
            count_marked(with_plain.marks.read()),
        ),
        Err(_) => (0, 0),
    };
    Outcome {
        answers,
        gates,
        marked: Some(marked),
        handed_in: scan_numbers(&case.scan.head),
        difference,
    }
}
