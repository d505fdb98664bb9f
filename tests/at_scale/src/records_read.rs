//! Records read: the head, every field's part and the three lists by the library and by the plain program.

use crate::damage::{damage_bytes, damage_fields};
use crate::draw::Draw;
use crate::lent_list::LentList;
use crate::library::from_head;
use crate::outcome::{compare_answers, Outcome};
use crate::record_bytes::{fields_of, joined};
use crate::scan_input::{scan_of, spoil_contents, spoil_number, ScanInput, Shape};
use plain_program::placement::MOST_COLUMNS_OR_ROWS;
use plain_program::record;
use plain_program::scan::{Head, MOST_GATES, MOST_RAYS};
use plain_program::sine::Tables;

#[derive(Debug)]
pub struct Case {
    /// The record stands between the first `before` and the last `after` of these bytes.
    bytes: Vec<u8>,
    before: usize,
    after: usize,
    /// The lengths of azimuths, values and qualities that are lent.
    lengths: [usize; 3],
    margin: usize,
    /// The seed of what the lent lists hold before.
    contents: u64,
}

impl Case {
    fn record(&self) -> &[u8] {
        &self.bytes[self.before..self.bytes.len() - self.after]
    }
}

/// A number of rays or gates that a record can say but that is refused. The lists still fit the lengths of two bytes.
fn wrong_count(draw: &mut Draw, most: i64) -> i64 {
    let far = draw.good(most + 1..=2_000);
    draw.one_of(&[0, most + 1, most + 2, far])
}

/// Mostly small; at times large, or with rays or gates wrong.
fn shape(draw: &mut Draw) -> Shape {
    let (rays, gates) = match draw.below(200) {
        0 => (draw.good(1..=MOST_RAYS), draw.good(1..=40)),
        1 => (draw.good(1..=20), draw.good(1..=MOST_GATES)),
        2..=7 => (wrong_count(draw, MOST_RAYS), draw.good(0..=2)),
        8..=13 => (draw.good(0..=2), wrong_count(draw, MOST_GATES)),
        _ => (draw.good(1..=8), draw.good(1..=12)),
    };
    Shape {
        rays,
        gates,
        most_cells: MOST_COLUMNS_OR_ROWS,
    }
}

/// A scan whose record is in order, with none to two numbers spoiled.
fn scan(draw: &mut Draw, tables: &Tables) -> ScanInput {
    let shape = shape(draw);
    let mut scan = scan_of(draw, tables, shape);
    if draw.one_in(4) {
        spoil_number(draw, &mut scan.head);
    }
    if draw.one_in(6) {
        spoil_contents(draw, &mut scan);
    }
    scan
}

/// The bytes of a scan's record, damaged in none to two places.
fn damaged(draw: &mut Draw, scan: &ScanInput) -> Vec<u8> {
    let (in_fields, in_bytes) = match draw.below(8) {
        0..=3 => (0, 0),
        4 => (0, 1),
        5 => (1, 0),
        6 => (1, 1),
        _ => (2, 0),
    };
    let mut fields = fields_of(scan);
    for _ in 0..in_fields {
        damage_fields(draw, &mut fields);
    }
    let mut record = joined(&fields);
    for _ in 0..in_bytes {
        damage_bytes(draw, &mut record);
    }
    record
}

fn lengths(draw: &mut Draw, scan: &ScanInput) -> [usize; 3] {
    let mut lengths = [scan.azimuths.len(), scan.values.len(), scan.qualities.len()];
    if draw.one_in(8) {
        let list = draw.below(3);
        lengths[list] = draw.wrong_length(lengths[list]);
    }
    lengths
}

pub fn draw(draw: &mut Draw, tables: &Tables) -> Case {
    let scan = scan(draw, tables);
    let record = match draw.below(64) {
        0 => {
            let length = draw.below(100);
            draw.bytes(length)
        }
        _ => damaged(draw, &scan),
    };
    let before = draw.one_of(&[0, 1, 5]);
    // A record that is cut has its other bytes still behind it, where a reader must not look.
    let after = match draw.below(8) {
        0 => draw.below(record.len() + 1),
        1 => draw.below(record.len().min(60) + 1),
        _ => 0,
    };
    Case {
        bytes: [draw.bytes(before), record].concat(),
        before,
        after,
        lengths: lengths(draw, &scan),
        margin: draw.one_of(&[0, 1, 5]),
        contents: draw.bits(),
    }
}

/// The part of one field: it is the same bytes of the caller's record, not only equal ones. A refusal has the head's number.
fn compare_field(record: &[u8], head: &Result<Head, u32>, number: u32) -> Option<String> {
    let place = |part: &[u8]| (!part.is_empty()).then_some((part.as_ptr(), part.len()));
    let library = uldrevin::record_field(record, number)
        .map(place)
        .map_err(|refusal| refusal.number);
    let plain = head.map(|_| place(record::field(record, number)));
    compare_answers(&format!("field {number}"), &library, &plain)
}

#[derive(Clone)]
struct Lists {
    azimuths: LentList<u32>,
    values: LentList<u16>,
    qualities: LentList<u8>,
}

impl Lists {
    fn new(case: &Case) -> Lists {
        let draw = &mut Draw::new(case.contents);
        let [azimuths, values, qualities] = case.lengths;
        Lists {
            azimuths: LentList::new(draw, case.margin, azimuths, |bits| bits as u32),
            values: LentList::new(draw, case.margin, values, |bits| bits as u16),
            qualities: LentList::new(draw, case.margin, qualities, |bits| bits as u8),
        }
    }

    fn compare(&self, other: &Lists, name: &str) -> Option<String> {
        self.azimuths
            .compare("azimuths", &other.azimuths, name)
            .or_else(|| self.values.compare("values", &other.values, name))
            .or_else(|| self.qualities.compare("qualities", &other.qualities, name))
    }
}

/// The answer of the call that fills the lists, and how the library differs in it.
fn compare_lists(case: &Case) -> (Result<Head, u32>, Option<String>) {
    let record = case.record();
    let before = Lists::new(case);
    let (mut with_plain, mut with_library) = (before.clone(), before.clone());
    let plain = record::read(
        record,
        with_plain.azimuths.lent(),
        with_plain.values.lent(),
        with_plain.qualities.lent(),
    );
    let library = uldrevin::read_record_into(
        record,
        with_library.azimuths.lent(),
        with_library.values.lent(),
        with_library.qualities.lent(),
    )
    .map(from_head)
    .map_err(|refusal| refusal.number);
    let unchanged = || match plain {
        Ok(_) => None,
        Err(_) => with_library.compare(&before, "before stood"),
    };
    let difference = compare_answers("read", &library, &plain)
        .or_else(|| with_library.compare(&with_plain, "the plain program"))
        .or_else(unchanged);
    (plain, difference)
}

pub fn compare(case: &Case) -> Outcome {
    let record = case.record();
    let head = record::head(record);
    let library_head = uldrevin::record_head(record)
        .map(from_head)
        .map_err(|refusal| refusal.number);
    let mut numbers = (0..=8).chain([256, 257, u32::MAX]);
    let (plain, in_lists) = compare_lists(case);
    let difference = compare_answers("head", &library_head, &head)
        .or_else(|| numbers.find_map(|number| compare_field(record, &head, number)))
        .or(in_lists);
    Outcome::new("read", &plain, case.lengths[1], Vec::new(), difference)
}
