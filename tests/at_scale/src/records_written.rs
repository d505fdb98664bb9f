//! Records written: the answer and the whole buffer by the library and by the plain program.

use crate::calls;
use crate::draw::Draw;
use crate::handed_in::scan_numbers;
use crate::lent_list::LentList;
use crate::outcome::{compare_answers, Outcome};
use crate::record_bytes::length_of;
use crate::scan_input::{scan_of, spoil, ScanInput, Shape};
use plain_program::placement::MOST_COLUMNS_OR_ROWS;
use plain_program::record::{write, MOST_GATES_TO_WRITE};
use plain_program::scan::{MOST_GATES, MOST_RAYS};
use plain_program::sine::Tables;

#[derive(Debug)]
pub struct Case {
    scan: ScanInput,
    buffer_length: usize,
    margin: usize,
    /// The seed of what the buffer holds before.
    contents: u64,
}

/// Rays and gates in a ray about the most gates that are written: 32,767, one more, or near it.
fn about_the_most(draw: &mut Draw) -> (i64, i64) {
    let rays = draw.good(33..=MOST_RAYS);
    let near = (rays, MOST_GATES_TO_WRITE as i64 / rays + 1);
    draw.one_of(&[(217, 151), (64, 512), (512, 64), near])
}

fn shape(draw: &mut Draw) -> Shape {
    let (rays, gates) = match draw.below(200) {
        0..=2 => about_the_most(draw),
        3 => (draw.good(1..=MOST_RAYS), draw.good(1..=40)),
        4 => (draw.good(1..=20), draw.good(1..=MOST_GATES)),
        _ => (draw.good(1..=8), draw.good(1..=12)),
    };
    Shape {
        rays,
        gates,
        most_cells: MOST_COLUMNS_OR_ROWS,
    }
}

/// Exact, longer or shorter than the record.
fn buffer_length(draw: &mut Draw, exact: usize) -> usize {
    match draw.below(4) {
        0 => exact,
        1 => draw.wrong_length(exact),
        _ => exact + draw.below(100),
    }
}

/// One scan in four has one to three things spoiled.
pub fn draw(draw: &mut Draw, tables: &Tables) -> Case {
    let shape = shape(draw);
    let mut scan = scan_of(draw, tables, shape);
    let exact = length_of(&scan);
    if draw.one_in(4) {
        for _ in 0..draw.within(1..=3) {
            spoil(draw, &mut scan);
        }
    }
    Case {
        scan,
        buffer_length: buffer_length(draw, exact),
        margin: draw.one_of(&[0, 1, 5]),
        contents: draw.bits(),
    }
}

pub fn compare(case: &Case) -> Outcome {
    let draw = &mut Draw::new(case.contents);
    let before = LentList::new(draw, case.margin, case.buffer_length, |bits| bits as u8);
    let (mut with_plain, mut with_library) = (before.clone(), before.clone());
    let (scan, head) = (&case.scan, &case.scan.head);
    let plain = write(head, scan.given(), with_plain.lent());
    let library = calls::write(head, scan.gate_lists(), with_library.lent());
    let unchanged = || match plain {
        Ok(_) => None,
        Err(_) => with_library.compare("buffer", &before, "before stood"),
    };
    let difference = compare_answers("write", &library, &plain)
        .or_else(|| with_library.compare("buffer", &with_plain, "the plain program"))
        .or_else(unchanged);
    Outcome::new(
        "write",
        &plain,
        scan.values.len(),
        scan_numbers(head),
        difference,
    )
}
