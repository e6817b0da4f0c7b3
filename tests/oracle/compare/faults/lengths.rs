//! Faults of block lengths.
use oracle::fields::Field;
use oracle::rules::{self, BLOCKS, EIGHTS, MOST, Refusal};
use oracle::{document, s2};

use super::{good, numbered, otherwise, refused};
use crate::library::PROVED;
use crate::told::{Outcome, Refused, Told, View};

/// Eleven eights in place of a good list.
pub fn in_eights(lengths: &[u8]) -> &[u8] {
    if rules::lengths(lengths).is_ok() { &EIGHTS } else { lengths }
}

/// The first eleven entries.
pub fn first_eleven(lengths: &[u8]) -> &[u8] {
    &lengths[..lengths.len().min(BLOCKS)]
}

/// Eleven eights in place of no entries.
pub fn none_is_eights(lengths: &[u8]) -> &[u8] {
    if lengths.is_empty() { &EIGHTS } else { lengths }
}

/// The list with another length for some blocks.
fn changed(lengths: &[u8], change: impl Fn(usize, u8) -> u8) -> Vec<u8> {
    lengths.iter().enumerate().map(|(block, length)| change(block, *length)).collect()
}

/// Nine words for eight.
pub fn nine_is_eight(lengths: &[u8]) -> Vec<u8> {
    changed(lengths, |_, length| if length == 9 { MOST } else { length })
}

/// All of the list but its last entry.
pub fn last_passed_over(lengths: &[u8]) -> Vec<u8> {
    changed(lengths, |block, length| if block == BLOCKS - 1 { length.min(MOST) } else { length })
}

/// Ten entries and an eight.
pub fn ten_and_an_eight(lengths: &[u8]) -> Vec<u8> {
    let missing = BLOCKS - BLOCKS.min(lengths.len());
    if missing == 1 { [lengths, &[MOST]].concat() } else { lengths.to_vec() }
}

/// The list as it is looked at up to a block, or for that block alone.
fn looked_at(lengths: &[u8], block: u8, alone: bool) -> Vec<u8> {
    let seen = |k: usize| k == usize::from(block) || k < block.into() && !alone;
    changed(lengths, |k, length| if seen(k) { length } else { length.min(MOST) })
}

pub fn up_to_the_block(dump: &[u32], lengths: &[u8], field: Field) -> Told<u32> {
    (PROVED.read_field_u16)(dump, &looked_at(lengths, field.block, false), field)
}

pub fn the_block_alone(field: &[u32], reference: &[u32], lengths: &[u8], board: u8, block: u8) -> View {
    (PROVED.view)(field, reference, &looked_at(lengths, block, true), board, block)
}

/// Where the block of a field ends, by a good list.
fn end(lengths: &[u8], block: u8) -> Option<u32> {
    rules::lengths(lengths).and_then(|list| rules::block(list, block)).ok().map(|words| 32 * u32::from(words))
}

/// How far a field reaches past its block's end, below 0 where it ends before it.
fn past(lengths: &[u8], field: Field) -> Option<i64> {
    let reaches = i64::from(field.bit_start) + i64::from(field.bit_count);
    end(lengths, field.block).map(|end| reaches - i64::from(end))
}

pub fn a_bit_past(dump: &[u32], lengths: &[u8], field: Field) -> Told<u32> {
    let a_bit = past(lengths, field) == Some(1);
    (PROVED.read_field_u16)(dump, if a_bit { in_eights(lengths) } else { lengths }, field)
}

pub fn last_bit_refused(dump: &[u32], lengths: &[u8], field: Field) -> Told<u32> {
    let told = (PROVED.read_field_u32)(dump, lengths, field);
    let at_end = past(lengths, field) == Some(0) && field.bit_count > 0;
    if told.refused.number() == 0 && at_end { refused(5) } else { told }
}

pub fn empty_at_the_end_refused(dump: &[u32], lengths: &[u8], field: Field) -> Told<u32> {
    let told = (PROVED.read_field_u8)(dump, lengths, field);
    let at_end = past(lengths, field) == Some(0) && field.bit_count == 0;
    if told.refused.number() == 0 && at_end { refused(5) } else { told }
}

pub fn empty_anywhere(dump: &[u32], lengths: &[u8], field: Field) -> Told<u32> {
    (PROVED.read_field_u8)(dump, if field.bit_count == 0 { in_eights(lengths) } else { lengths }, field)
}

/// A list shifted by one, so that a block has the length of the one after it.
pub fn next_blocks_length(dump: &[u32], lengths: &[u8], field: Field) -> Told<u32> {
    let next = |block: usize| lengths.get(block + 1).copied().unwrap_or(MOST);
    (PROVED.read_field_u32)(
        dump,
        &changed(lengths, |block, length| if length > MOST { length } else { next(block).min(MOST) }),
        field,
    )
}

/// What lies outside is left out, and not refused.
pub fn cut_off(dump: &[u32], lengths: &[u8], field: Field, bytes: &mut [u8]) -> Outcome {
    let left = end(lengths, field.block).and_then(|end| end.checked_sub(field.bit_start.into()));
    let bit_count = left.map_or(field.bit_count, |left| field.bit_count.min(left as u16));
    (PROVED.read_field_le)(dump, lengths, Field { bit_count, ..field }, bytes)
}

pub fn eight_words_viewed(field: &[u32], reference: &[u32], lengths: &[u8], board: u8, block: u8) -> View {
    (PROVED.view)(field, reference, in_eights(lengths), board, block)
}

pub fn blocks_without_padding(field: &[u32], reference: &[u32], lengths: &[u8], board: u8, block: u8) -> View {
    let view = (PROVED.view)(field, reference, lengths, board, block);
    let before = || lengths[..block.into()].iter().map(|length| u32::from(*length)).sum();
    if view.refused == Refused::NOT { View { first: before(), ..view } } else { view }
}

pub fn no_words_at_the_start(field: &[u32], reference: &[u32], lengths: &[u8], board: u8, block: u8) -> View {
    let view = (PROVED.view)(field, reference, lengths, board, block);
    if view.words == 0 { View { board: 0, first: 0, ..view } } else { view }
}

pub fn no_words_refused(field: &[u32], reference: &[u32], lengths: &[u8], board: u8, block: u8) -> View {
    let view = (PROVED.view)(field, reference, lengths, board, block);
    let none = view.refused == Refused::NOT && view.words == 0;
    if none { View { refused: numbered(4), board: 0, first: 0, words: 0 } } else { view }
}

/// The record that the block's own length shuts out isn't told.
pub fn record_lost(chip: u8, lengths: &[u8], map: &[u8]) -> Outcome {
    let told = (PROVED.check_map)(chip, lengths, map);
    let in_whole_blocks = (PROVED.check_map)(chip, in_eights(lengths), map);
    let lost = |refusal: Refusal| Refusal { record: Some(0), ..refusal };
    if in_whole_blocks.refused == Refused::NOT { Outcome { refused: otherwise(told.refused, lost) } } else { told }
}

pub fn list_passed_over(chip: u8, lengths: &[u8], map: &[u8]) -> Outcome {
    let told = (PROVED.check_map)(chip, lengths, map);
    if told.refused.number() == 20 { (PROVED.check_map)(chip, &EIGHTS, map) } else { told }
}

/// Whether a field lies inside its block.
fn inside(lengths: &[u8], field: Field) -> bool {
    past(lengths, field).is_some_and(|past| past <= 0)
}

/// The fields that a parameter's reading reads, from its own tag's on.
fn chain(version: u8, unit: u8, atten: u8, param: u8) -> impl Iterator<Item = Field> {
    document::fields(document::tag(version, unit, atten, param))
}

/// The higher voltage's chains go up: the first tag's field ends before those after it.
pub fn first_tag_alone(dump: &[u32], lengths: &[u8], version: u8, unit: u8, atten: u8) -> Told<i32> {
    let told = (PROVED.s2_reading_vhigh)(dump, lengths, version, unit, atten);
    let first = || chain(version, unit, atten, s2::VHIGH).next().is_some_and(|field| inside(lengths, field));
    let taken = told.refused.number() == 5 && first();
    if taken { (PROVED.s2_reading_vhigh)(dump, &EIGHTS, version, unit, atten) } else { told }
}

/// The initial voltage's go down.
pub fn last_tag_alone(dump: &[u32], lengths: &[u8], version: u8, unit: u8, atten: u8) -> Told<i32> {
    let told = (PROVED.s2_reading_vinit)(dump, lengths, version, unit, atten);
    let last = || chain(version, unit, atten, s2::VINIT).last().is_some_and(|field| inside(lengths, field));
    let taken = told.refused.number() == 5 && last();
    if taken { (PROVED.s2_reading_vinit)(dump, &EIGHTS, version, unit, atten) } else { told }
}

/// Version 2 has no reading of the lower voltage.
pub fn unpaired_refused(dump: &[u32], lengths: &[u8], version: u8, unit: u8, atten: u8) -> Told<i32> {
    let told = (PROVED.s2_reading_vlow)(dump, lengths, version, unit, atten);
    let unpaired = told.refused.number() == 0 && version == 2;
    if unpaired && lengths[2] < MOST { refused(5) } else { told }
}

pub fn table_of_block_1(dump: &[u32], lengths: &[u8], version: u8, unit: u8, atten: u8) -> Told<i32> {
    let other = |block: usize, length: u8| if block == 2 { lengths[1].min(MOST) } else { length };
    let list = if rules::lengths(lengths).is_ok() { changed(lengths, other) } else { lengths.to_vec() };
    (PROVED.s2_reading_vinit)(dump, &list, version, unit, atten)
}

/// What a skipped eFuse gives where a field lies outside.
pub fn skipped_outside(dump: &[u32], lengths: &[u8], version: u8, unit: u8, atten: u8) -> Told<i32> {
    let told = (PROVED.s2_reading_vinit)(dump, lengths, version, unit, atten);
    if told.refused.number() == 5 { (PROVED.s2_skipped_vinit)(version, unit, atten) } else { told }
}

pub fn table_before_version(dump: &[u32], lengths: &[u8], map: &[u8], unit: u8, atten: u8) -> Told<u16> {
    let told = (PROVED.s2_init_code)(dump, lengths, map, unit, atten);
    let reading = || (PROVED.s2_reading_vinit)(dump, lengths, 2, unit, atten);
    if told.refused.number() == 12 && reading().refused.number() == 5 { refused(5) } else { told }
}

/// A code's answer with another refusal, where it is refused with 5 for what it reads.
fn told_of_table(told: Told<u16>, other: impl FnOnce(Refusal) -> Refusal) -> Told<u16> {
    let of_table = told.refused.in_rust == Some(Refusal::numbered(5));
    if of_table { Told { refused: otherwise(told.refused, other), ..told } } else { told }
}

pub fn table_as_record(dump: &[u32], lengths: &[u8], map: &[u8], unit: u8, atten: u8) -> Told<u16> {
    let block = |refusal: Refusal| Refusal { record: Some(2), ..refusal };
    told_of_table((PROVED.s2_cal_code)(dump, lengths, map, unit, atten), block)
}

/// C's bytes stay as they are: 0 is what it has where no record is told.
pub fn record_in_rust(dump: &[u32], lengths: &[u8], map: &[u8], unit: u8, atten: u8) -> Told<u16> {
    told_of_table((PROVED.s2_init_code)(dump, lengths, map, unit, atten), |refusal| Refusal { record: Some(0), ..refusal })
}

pub fn code_past_the_table(dump: &[u32], lengths: &[u8], map: &[u8], unit: u8, atten: u8) -> Told<u16> {
    let told = (PROVED.s2_cal_code)(dump, lengths, map, unit, atten);
    let of_table = told.refused.in_rust == Some(Refusal::numbered(5));
    let reading = || (PROVED.s2_reading_vhigh)(dump, &EIGHTS, 2, unit, atten).value;
    if of_table { good(reading() as u16) } else { told }
}
