//! The bytes of a scan's record with any numbers in it, also those that a writer refuses.

use crate::scan_input::ScanInput;
use plain_program::placement::{Grid, RADOLAN_KIND};

/// A field as it stands in the bytes. The length need not be that of the content.
#[derive(Clone)]
pub struct Field {
    pub tag: u8,
    pub length: u16,
    pub content: Vec<u8>,
}

fn field(tag: u8, content: Vec<u8>) -> Field {
    Field {
        tag,
        length: content.len() as u16,
        content,
    }
}

/// The low bytes of each number, the highest first.
fn numbers(list: &[(i64, usize)]) -> Vec<u8> {
    let low_bytes =
        |&(number, bytes): &(i64, usize)| number.to_be_bytes().into_iter().skip(8 - bytes);
    list.iter().flat_map(low_bytes).collect()
}

fn grid(grid: Grid) -> Vec<u8> {
    let size = [(grid.columns, 2), (grid.rows, 2)];
    let cells = match grid.kind {
        RADOLAN_KIND => numbers(&[(grid.x, 4), (grid.y, 4), (grid.side, 4)]),
        _ => numbers(&[(grid.x, 2), (grid.y, 2)]),
    };
    [numbers(&[(grid.kind, 1)]), cells, numbers(&size)].concat()
}

/// The seven fields.
pub fn fields_of(scan: &ScanInput) -> Vec<Field> {
    let head = &scan.head;
    let shape = numbers(&[
        (head.rays, 2),
        (head.gates, 2),
        (head.first, 4),
        (head.spacing, 4),
    ]);
    let azimuths = scan.azimuths.iter().flat_map(|number| number.to_be_bytes());
    let values = scan.values.iter().flat_map(|number| number.to_be_bytes());
    vec![
        field(
            1,
            numbers(&[(head.site.latitude, 4), (head.site.longitude, 4)]),
        ),
        field(2, shape),
        field(3, grid(head.grid)),
        field(4, numbers(&[(head.weighting, 1)])),
        field(5, azimuths.collect()),
        field(6, values.collect()),
        field(7, scan.qualities.clone()),
    ]
}

pub fn joined(fields: &[Field]) -> Vec<u8> {
    let mut record = Vec::new();
    for field in fields {
        record.push(field.tag);
        record.extend(field.length.to_be_bytes());
        record.extend(&field.content);
    }
    record
}

/// The length of the record of a scan whose lists have exact lengths.
pub fn length_of(scan: &ScanInput) -> usize {
    let grid = grid(scan.head.grid).len();
    let lists = 4 * scan.azimuths.len() + 2 * scan.values.len() + scan.qualities.len();
    7 * 3 + 8 + 12 + grid + 1 + lists
}
