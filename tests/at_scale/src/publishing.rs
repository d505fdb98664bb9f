//! Cells published from sums: those that a scan's tally left, and any others.

use crate::calls;
use crate::cell_sums::{sums_to_publish, CellSums};
use crate::draw::Draw;
use crate::outcome::{compare_answers, Answer, Outcome};
use crate::output_lists::{Lengths, Lists};
use plain_program::scan::{publish, Sums, BY_QUALITY, PLAIN};

pub const PUBLISH: &str = "publish";

/// Plain, or any number for by quality.
pub fn weighting(draw: &mut Draw) -> i64 {
    let any = draw.wrong(PLAIN..=BY_QUALITY);
    draw.one_of(&[PLAIN, BY_QUALITY, any])
}

fn by_plain_program(weighting: i64, lists: &mut Lists) -> Result<(), u32> {
    let sums = Sums {
        counts: lists.counts.read(),
        quality_sums: lists.quality_sums.read(),
        value_sums: lists.value_sums.read(),
        weighted_sums: lists.weighted_sums.read(),
    };
    let (means, cell_qualities) = (lists.means.lent(), lists.cell_qualities.lent());
    publish(weighting, sums, means, cell_qualities)
}

pub fn by_library(weighting: i64, lists: &mut Lists) -> Result<(), u32> {
    let sums = uldrevin::SumLists {
        counts: lists.counts.lent(),
        quality_sums: lists.quality_sums.lent(),
        value_sums: lists.value_sums.lent(),
        weighted_sums: lists.weighted_sums.lent(),
    };
    let (means, cell_qualities) = (lists.means.lent(), lists.cell_qualities.lent());
    calls::publish(weighting, &sums, means, cell_qualities)
}

/// Publishes from the same lists by both, and says how the library differs, also in what it is not to write.
pub fn publish_both(
    weighting: i64,
    plain_lists: &mut Lists,
    library_lists: &mut Lists,
) -> (Answer, Option<String>) {
    let before = library_lists.clone();
    let plain = by_plain_program(weighting, plain_lists);
    let library = by_library(weighting, library_lists);
    let unchanged = || match plain {
        Ok(()) => None,
        Err(_) => library_lists.compare(&before, "before stood"),
    };
    let difference = compare_answers(PUBLISH, &library, &plain)
        .or_else(|| library_lists.compare(plain_lists, "the plain program"))
        .or_else(unchanged);
    let number = plain.err().unwrap_or(0);
    let answer = Answer {
        call: PUBLISH,
        number,
    };
    (answer, difference)
}

/// Sums that no tally made.
#[derive(Debug)]
pub struct Case {
    weighting: i64,
    lengths: Lengths,
    margin: usize,
    /// The seed of what the lists hold before, the sums too where none of these follow.
    contents: u64,
    sums: Vec<CellSums>,
}

/// Mostly few cells, so that many cases are worked; at times none.
fn length(draw: &mut Draw) -> usize {
    let most = match draw.below(100) {
        0 => 20_000,
        1..=20 => 1_000,
        _ => 40,
    };
    draw.good(0..=most) as usize
}

/// One case in four has one or two lengths spoiled.
pub fn draw(draw: &mut Draw) -> Case {
    let mut lengths = Lengths::exact(0, length(draw));
    if draw.one_in(4) {
        for _ in 0..draw.within(1..=2) {
            lengths.spoil_published(draw);
        }
    }
    let shortest = lengths.shortest_sums();
    let chosen: Vec<usize> = (0..shortest).filter(|_| !draw.one_in(8)).collect();
    Case {
        weighting: weighting(draw),
        lengths,
        margin: draw.one_of(&[0, 1, 5]),
        contents: draw.bits(),
        sums: chosen
            .into_iter()
            .map(|cell| sums_to_publish(draw, cell))
            .collect(),
    }
}

pub fn compare(case: &Case) -> Outcome {
    let mut plain = Lists::new(&case.lengths, case.margin, case.contents);
    for sums in &case.sums {
        sums.put(&mut plain);
    }
    let mut library = plain.clone();
    let (answer, difference) = publish_both(case.weighting, &mut plain, &mut library);
    Outcome {
        answers: vec![answer],
        gates: 0,
        marked: None,
        handed_in: vec![("weighting", case.weighting)],
        difference,
    }
}
