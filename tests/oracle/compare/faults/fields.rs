//! Faults of fields and views.
use oracle::fields::Field;
use oracle::rules::Refusal;

use super::{good, numbered, otherwise, outcome, swapped};
use crate::library::PROVED;
use crate::told::{Outcome, Told, View};

pub fn a_bit_past(dump: &[u32], lengths: &[u8], field: Field) -> Told<u32> {
    let past = field.bit_start <= 255 && u32::from(field.bit_start) + u32::from(field.bit_count) == 257;
    (PROVED.read_field_u32)(dump, lengths, Field { bit_count: field.bit_count - u16::from(past), ..field })
}

pub fn empty_at_256(dump: &[u32], lengths: &[u8], field: Field) -> Told<u32> {
    let empty = field.bit_start == 256 && field.bit_count == 0;
    (PROVED.read_field_u16)(dump, lengths, Field { bit_start: field.bit_start - u16::from(empty), ..field })
}

pub fn place_before_block(dump: &[u32], lengths: &[u8], field: Field) -> Told<u32> {
    let read = PROVED.read_field_u16;
    swapped(read(dump, lengths, field), 4, 5, || read(dump, lengths, Field { block: 0, ..field }))
}

pub fn stops_at_word(dump: &[u32], lengths: &[u8], field: Field) -> Told<u32> {
    let read = PROVED.read_field_u32;
    let told = read(dump, lengths, field);
    let in_word = field.bit_count.min(32 - field.bit_start % 32);
    if told.refused.number() == 0 { read(dump, lengths, Field { bit_count: in_word, ..field }) } else { told }
}

pub fn shift_by_32(dump: &[u32], lengths: &[u8], field: Field) -> Told<u32> {
    let read = PROVED.read_field_u32;
    let told = read(dump, lengths, field);
    let whole = field.bit_start % 32 == 0 && field.bit_count >= 32;
    let next = read(dump, lengths, Field { bit_start: field.bit_start.saturating_add(32), bit_count: 32, ..field });
    if told.refused.number() == 0 && whole { good(told.value | next.value) } else { told }
}

pub fn before_last_word(dump: &[u32], lengths: &[u8], field: Field) -> Told<u32> {
    let last = field.block == 10 && (224..=255).contains(&field.bit_start);
    (PROVED.read_field_u8)(dump, lengths, Field { bit_start: field.bit_start - 32 * u16::from(last), ..field })
}

pub fn longer_dump(dump: &[u32], lengths: &[u8], field: Field) -> Told<u32> {
    (PROVED.read_field_u8)(&dump[..dump.len().min(88)], lengths, field)
}

pub fn refusal_with_value(dump: &[u32], lengths: &[u8], field: Field) -> Told<u32> {
    let told = (PROVED.read_field_u8)(dump, lengths, field);
    if told.refused.number() == 0 { told } else { Told { value: field.bit_count.into(), ..told } }
}

/// 4 with a record.
fn with_record(refusal: Refusal, record: u8) -> Refusal {
    if refusal.number == 4 { Refusal { record: Some(record), ..refusal } } else { refusal }
}

pub fn block_as_record(dump: &[u32], lengths: &[u8], field: Field) -> Told<u32> {
    let told = (PROVED.read_field_u16)(dump, lengths, field);
    Told { refused: otherwise(told.refused, |refusal| with_record(refusal, field.block)), ..told }
}

/// C's bytes stay as they are: 0 is what it has where no record is told.
pub fn record_in_rust(dump: &[u32], lengths: &[u8], field: Field) -> Told<u32> {
    let mut told = (PROVED.read_field_u32)(dump, lengths, field);
    told.refused.in_rust = told.refused.in_rust.map(|refusal| with_record(refusal, 0));
    told
}

pub fn written_on_refusal(dump: &[u32], lengths: &[u8], field: Field, bytes: &mut [u8]) -> Outcome {
    let told = (PROVED.read_field_le)(dump, lengths, field, bytes);
    if told != outcome(0) {
        bytes.iter_mut().take(1).for_each(|byte| *byte = 0);
    }
    told
}

pub fn rest_stays(dump: &[u32], lengths: &[u8], field: Field, bytes: &mut [u8]) -> Outcome {
    let held = usize::from(field.bit_count).div_ceil(8).min(bytes.len());
    (PROVED.read_field_le)(dump, lengths, field, &mut bytes[..held])
}

pub fn always_field(field: &[u32], reference: &[u32], lengths: &[u8], board: u8, block: u8) -> View {
    View { board: 0, ..(PROVED.view)(field, reference, lengths, board, block) }
}

pub fn block_before_dump(field: &[u32], reference: &[u32], lengths: &[u8], board: u8, block: u8) -> View {
    let view = (PROVED.view)(field, reference, lengths, board, block);
    if view.refused.number() == 1 && block > 10 { View { refused: numbered(4), ..view } } else { view }
}

pub fn viewed_block_as_record(field: &[u32], reference: &[u32], lengths: &[u8], board: u8, block: u8) -> View {
    let view = (PROVED.view)(field, reference, lengths, board, block);
    View { refused: otherwise(view.refused, |refusal| with_record(refusal, block)), ..view }
}

pub fn both_checked(field: &[u32], reference: &[u32], lengths: &[u8], board: u8, block: u8) -> View {
    let other = (PROVED.view)(field, reference, lengths, 1 - board.min(1), block);
    if board <= 1 && other.refused.number() == 1 { other } else { (PROVED.view)(field, reference, lengths, board, block) }
}
