//! Damages of a record: in a field, among the fields, or in the bytes.

use crate::draw::Draw;
use crate::record_bytes::Field;

fn low_bytes_agree(draw: &mut Draw, shape: &mut [u8]) {
    let steps = draw.within(1..=3) as u8;
    // 16,384 rays more leave the low 16 bits of 4 x rays; 32,768 gates more those of 2 x rays x gates.
    match draw.below(2) {
        0 => shape[0] = shape[0].wrapping_add(64 * steps),
        _ => shape[2] = shape[2].wrapping_add(128),
    }
}

/// Rays or gates in field 2 become others, and the lists stay.
fn damage_counts(draw: &mut Draw, fields: &mut [Field]) {
    let Some(field) = fields.get_mut(1).filter(|field| field.content.len() == 12) else {
        return;
    };
    let place = draw.one_of(&[0, 1, 2, 3]);
    match draw.below(3) {
        0 => low_bytes_agree(draw, &mut field.content),
        1 => field.content[place] = field.content[place].wrapping_add(draw.one_of(&[1, 255])),
        _ => field.content[place] = draw.bits() as u8,
    }
}

/// The kind of field 3 or the weighting of field 4: the first byte of its content.
fn damage_first_byte(draw: &mut Draw, fields: &mut [Field]) {
    let place = draw.one_of(&[2, 3]);
    let byte = draw.bits() as u8;
    let changed = draw.one_of(&[0, 1, 2, 3, 255, byte]);
    if let Some(first) = fields
        .get_mut(place)
        .and_then(|field| field.content.first_mut())
    {
        *first = changed;
    }
}

fn damage_tag(draw: &mut Draw, field: &mut Field) {
    let any = draw.bits() as u8;
    field.tag = draw.one_of(&[0, 8, 255, field.tag ^ 1, field.tag.wrapping_add(1), any]);
}

fn damage_length(draw: &mut Draw, field: &mut Field) {
    let any = draw.bits() as u16;
    let (less, more) = (field.length.wrapping_sub(1), field.length.wrapping_add(1));
    let swapped = field.length.swap_bytes();
    field.length = draw.one_of(&[0, less, more, 9, 17, 65_535, swapped, any]);
}

/// The content gets shorter or longer, and its length says so.
fn damage_content(draw: &mut Draw, field: &mut Field) {
    let length = draw.wrong_length(field.content.len()).min(65_535);
    field.content.resize(length, 0);
    field.length = length as u16;
}

/// Two fields change places, one is left out, or one stands twice.
fn damage_order(draw: &mut Draw, fields: &mut Vec<Field>) {
    let (one, other) = (draw.below(fields.len()), draw.below(fields.len()));
    match draw.below(3) {
        0 => fields.swap(one, other),
        1 if fields.len() > 1 => drop(fields.remove(one)),
        _ => fields.insert(one, fields[other].clone()),
    }
}

/// Damages the fields in one place.
pub fn damage_fields(draw: &mut Draw, fields: &mut Vec<Field>) {
    let place = draw.below(fields.len());
    match draw.below(6) {
        0 => damage_counts(draw, fields),
        1 => damage_first_byte(draw, fields),
        2 => damage_tag(draw, &mut fields[place]),
        3 => damage_length(draw, &mut fields[place]),
        4 => damage_content(draw, &mut fields[place]),
        _ => damage_order(draw, fields),
    }
}

/// Changes one byte to another, or by one bit.
fn damage_byte(draw: &mut Draw, record: &mut [u8]) {
    if record.is_empty() {
        return;
    }
    // The fields 1 to 4 and the header of field 5 take 53 bytes at most.
    let (early, anywhere) = (draw.below(record.len().min(53)), draw.below(record.len()));
    let place = draw.one_of(&[early, anywhere, record.len() - 1]);
    match draw.below(2) {
        0 => record[place] ^= 1 << draw.below(8),
        _ => record[place] = draw.bits() as u8,
    }
}

fn lengthen(draw: &mut Draw, record: &mut Vec<u8>) {
    let more = draw.one_of(&[1, 2, 3, 4, 20]);
    match draw.below(2) {
        0 => record.resize(record.len() + more, 0),
        _ => record.extend(draw.bytes(more)),
    }
}

/// Damages the bytes in one place.
pub fn damage_bytes(draw: &mut Draw, record: &mut Vec<u8>) {
    match draw.below(3) {
        0 => lengthen(draw, record),
        _ => damage_byte(draw, record),
    }
}
