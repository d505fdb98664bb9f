//! Document 01, "Scan record": a scan as bytes, read and written.

use crate::placement::{Grid, Site, HRAP_KIND, HRAP_SIDE, RADOLAN_KIND};
use crate::scan::{check_contents, check_gate_lengths, check_head, Given, Head, PLAIN};

const RADOLAN_LENGTH: usize = 17;
const HRAP_LENGTH: usize = 9;

/// More are not written.
pub const MOST_GATES_TO_WRITE: usize = 32_767;

fn bytes_at<const N: usize>(bytes: &[u8], place: usize) -> [u8; N] {
    std::array::from_fn(|k| bytes[place + k])
}

fn u16_at(bytes: &[u8], place: usize) -> i64 {
    i64::from(u16::from_be_bytes(bytes_at(bytes, place)))
}

fn u32_at(bytes: &[u8], place: usize) -> i64 {
    i64::from(u32::from_be_bytes(bytes_at(bytes, place)))
}

fn i16_at(bytes: &[u8], place: usize) -> i64 {
    i64::from(i16::from_be_bytes(bytes_at(bytes, place)))
}

fn i32_at(bytes: &[u8], place: usize) -> i64 {
    i64::from(i32::from_be_bytes(bytes_at(bytes, place)))
}

/// Takes the next field off the front of `rest`: its header is there, its tag, one of the lengths allowed, its content is there.
fn take_field<'a>(rest: &mut &'a [u8], tag: u8, lengths: &[i64]) -> Result<&'a [u8], u32> {
    let [found, high, low, after @ ..] = *rest else {
        return Err(11);
    };
    if *found != tag {
        return Err(12);
    }
    let length = u16::from_be_bytes([*high, *low]);
    if !lengths.contains(&i64::from(length)) {
        return Err(13);
    }
    if after.len() < usize::from(length) {
        return Err(11);
    }
    let (content, remainder) = after.split_at(usize::from(length));
    *rest = remainder;
    Ok(content)
}

/// The contents of the seven fields, or a refusal of 11 to 14.
fn contents(record: &[u8]) -> Result<[&[u8]; 7], u32> {
    let mut rest = record;
    let site = take_field(&mut rest, 1, &[8])?;
    let shape = take_field(&mut rest, 2, &[12])?;
    let grid = take_field(&mut rest, 3, &[RADOLAN_LENGTH as i64, HRAP_LENGTH as i64])?;
    let kind = match grid.len() {
        RADOLAN_LENGTH => RADOLAN_KIND,
        _ => HRAP_KIND,
    };
    if i64::from(grid[0]) != kind {
        return Err(13);
    }
    let weighting = take_field(&mut rest, 4, &[1])?;
    if weighting[0] > 1 {
        return Err(13);
    }
    let (rays, gates) = (u16_at(shape, 0), u16_at(shape, 2));
    let azimuths = take_field(&mut rest, 5, &[4 * rays])?;
    let values = take_field(&mut rest, 6, &[2 * rays * gates])?;
    let qualities = take_field(&mut rest, 7, &[rays * gates])?;
    if !rest.is_empty() {
        return Err(14);
    }
    Ok([site, shape, grid, weighting, azimuths, values, qualities])
}

/// The grid that field 3 holds; its kind agrees with its length.
fn grid_of(content: &[u8]) -> Grid {
    match content.len() {
        RADOLAN_LENGTH => Grid {
            kind: RADOLAN_KIND,
            x: i32_at(content, 1),
            y: i32_at(content, 5),
            side: u32_at(content, 9),
            columns: u16_at(content, 13),
            rows: u16_at(content, 15),
        },
        _ => Grid {
            kind: HRAP_KIND,
            x: i16_at(content, 1),
            y: i16_at(content, 3),
            side: HRAP_SIDE,
            columns: u16_at(content, 5),
            rows: u16_at(content, 7),
        },
    }
}

fn head_of([site, shape, grid, weighting, ..]: [&[u8]; 7]) -> Head {
    Head {
        site: Site {
            latitude: i32_at(site, 0),
            longitude: i32_at(site, 4),
        },
        rays: u16_at(shape, 0),
        gates: u16_at(shape, 2),
        first: u32_at(shape, 4),
        spacing: u32_at(shape, 8),
        grid: grid_of(grid),
        weighting: i64::from(weighting[0]),
    }
}

fn azimuths_of(content: &[u8]) -> impl Iterator<Item = u32> + '_ {
    content
        .chunks_exact(4)
        .map(|number| u32::from_be_bytes(bytes_at(number, 0)))
}

fn values_of(content: &[u8]) -> impl Iterator<Item = u16> + '_ {
    content
        .chunks_exact(2)
        .map(|number| u16::from_be_bytes(bytes_at(number, 0)))
}

/// The head and the contents of the fields, or the refusal of a call that lends no lists.
fn checked(record: &[u8]) -> Result<(Head, [&[u8]; 7]), u32> {
    let contents = contents(record)?;
    let head = head_of(contents);
    check_head(&head)?;
    check_contents(azimuths_of(contents[4]), contents[6])?;
    Ok((head, contents))
}

/// The head of a good record, or the number by which the record is refused.
pub fn head(record: &[u8]) -> Result<Head, u32> {
    checked(record).map(|(head, _)| head)
}

/// The content of a field as a part of the record; an empty part for a refused record or a number other than 1 to 7.
pub fn field(record: &[u8], number: u32) -> &[u8] {
    match (checked(record), number) {
        (Ok((_, contents)), 1..=7) => contents[number as usize - 1],
        _ => &[],
    }
}

/// Fills the three lists and answers the head, or answers the refusal and leaves the lists alone.
pub fn read(
    record: &[u8],
    azimuths: &mut [u32],
    values: &mut [u16],
    qualities: &mut [u8],
) -> Result<Head, u32> {
    let contents = contents(record)?;
    let head = head_of(contents);
    check_head(&head)?;
    check_gate_lengths(&head, azimuths.len(), values.len(), qualities.len())?;
    check_contents(azimuths_of(contents[4]), contents[6])?;
    for (azimuth, held) in azimuths.iter_mut().zip(azimuths_of(contents[4])) {
        *azimuth = held;
    }
    for (value, held) in values.iter_mut().zip(values_of(contents[5])) {
        *value = held;
    }
    qualities.copy_from_slice(contents[6]);
    Ok(head)
}

/// The content of field 3. Every number of a good grid fits its bytes.
fn grid_content(grid: Grid) -> Vec<u8> {
    let cells = match grid.kind {
        RADOLAN_KIND => [grid.x as i32, grid.y as i32, grid.side as i32]
            .map(i32::to_be_bytes)
            .concat(),
        _ => [grid.x as i16, grid.y as i16]
            .map(i16::to_be_bytes)
            .concat(),
    };
    let size = [grid.columns as u16, grid.rows as u16].map(u16::to_be_bytes);
    [&[grid.kind as u8][..], &cells, &size.concat()].concat()
}

/// The contents of the seven fields of a good scan.
fn written_contents(head: &Head, given: Given) -> [Vec<u8>; 7] {
    let big_endian = |number: &u32| number.to_be_bytes();
    [
        [head.site.latitude as i32, head.site.longitude as i32]
            .map(i32::to_be_bytes)
            .concat(),
        [
            &(head.rays as u16).to_be_bytes()[..],
            &(head.gates as u16).to_be_bytes(),
            &(head.first as u32).to_be_bytes(),
            &(head.spacing as u32).to_be_bytes(),
        ]
        .concat(),
        grid_content(head.grid),
        vec![u8::from(head.weighting != PLAIN)],
        given.azimuths.iter().flat_map(big_endian).collect(),
        given
            .values
            .iter()
            .flat_map(|value| value.to_be_bytes())
            .collect(),
        given.qualities.to_vec(),
    ]
}

/// The fields one behind the other, each with its tag and length.
fn joined(contents: &[Vec<u8>; 7]) -> Vec<u8> {
    let mut record = Vec::new();
    for (tag, content) in (1u8..).zip(contents) {
        record.push(tag);
        record.extend((content.len() as u16).to_be_bytes());
        record.extend(content);
    }
    record
}

/// Writes the record to the front of the buffer and answers its length, or answers the refusal and leaves the buffer alone.
pub fn write(head: &Head, given: Given, buffer: &mut [u8]) -> Result<usize, u32> {
    check_head(head)?;
    check_gate_lengths(
        head,
        given.azimuths.len(),
        given.values.len(),
        given.qualities.len(),
    )?;
    check_contents(given.azimuths.iter().copied(), given.qualities)?;
    if given.values.len() > MOST_GATES_TO_WRITE {
        return Err(15);
    }
    let record = joined(&written_contents(head, given));
    let place = buffer.get_mut(..record.len()).ok_or(16u32)?;
    place.copy_from_slice(&record);
    Ok(record.len())
}

#[cfg(test)]
mod tests {
    use super::*;
    use crate::example::EXAMPLE;

    const GIVEN: Given = Given {
        azimuths: &[0],
        values: &[1, 7],
        qualities: &[90, 10],
    };

    /// The example as document 01 lays it out, byte by byte.
    const BYTES: [u8; 61] = [
        1, 0, 8, 0, 9, 0x27, 0xc0, 0xff, 0xef, 0xfa, 0x70, // latitude, longitude
        2, 0, 12, 0, 1, 0, 2, 0, 0, 0, 0, 0, 1, 0x86, 0xa0, // rays, gates, first, spacing
        3, 0, 9, 2, 1, 0x90, 3, 0xa4, 0, 2, 0, 1, // kind, I, J, columns, rows
        4, 0, 1, 1, // by quality
        5, 0, 4, 0, 0, 0, 0, // azimuth
        6, 0, 4, 0, 1, 0, 7, // values
        7, 0, 2, 90, 10, // qualities
    ];

    fn changed(place: usize, byte: u8) -> Result<Head, u32> {
        let mut record = BYTES;
        record[place] = byte;
        head(&record)
    }

    #[test]
    fn written() {
        let mut buffer = [255; 62];
        assert_eq!(write(&EXAMPLE, GIVEN, &mut buffer), Ok(61));
        assert_eq!(buffer[..61], BYTES);
        assert_eq!(buffer[61], 255);
        assert_eq!(write(&EXAMPLE, GIVEN, &mut [0; 60]), Err(16));
    }

    #[test]
    fn read_back() {
        let (mut azimuths, mut values, mut qualities) = ([9], [9; 2], [9; 2]);
        let answer = read(&BYTES, &mut azimuths, &mut values, &mut qualities);
        assert_eq!(answer, Ok(EXAMPLE));
        assert_eq!((azimuths, values, qualities), ([0], [1, 7], [90, 10]));
        let answer = read(&BYTES, &mut azimuths, &mut [0; 3], &mut qualities);
        assert_eq!(answer, Err(6));
    }

    #[test]
    fn parts() {
        assert_eq!(field(&BYTES, 7), [90, 10]);
        assert_eq!(field(&BYTES, 7).as_ptr(), &BYTES[59]);
        assert!(field(&BYTES, 0).is_empty() && field(&BYTES, 8).is_empty());
        assert!(field(&BYTES[..60], 1).is_empty());
    }

    #[test]
    fn refused_in_order() {
        assert_eq!(head(&BYTES), Ok(EXAMPLE));
        assert_eq!(head(&[]), Err(11));
        assert_eq!(head(&BYTES[..60]), Err(11));
        assert_eq!(changed(11, 3), Err(12));
        assert_eq!(changed(29, 1), Err(13)); // the kind and the length disagree
        assert_eq!(changed(41, 2), Err(13)); // weighting
        assert_eq!(changed(14, 78), Err(13)); // 19,969 rays, whose azimuths no length says
        assert_eq!(head(&[&BYTES[..], &[0]].concat()), Err(14));
        assert_eq!(changed(34, 6), Err(5)); // 1,538 columns
        assert_eq!(changed(45, 1), Err(7));
        assert_eq!(changed(60, 101), Err(8));
    }
}
