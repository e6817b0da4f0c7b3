//! Faults of orders: two refusals of a call exchanged.
use oracle::fields::Field;
use oracle::rules::EIGHTS;
use suongkivat::Sample;

use super::{refused, swapped};
use crate::library::PROVED;
use crate::told::{Outcome, Told, View};

/// A dump that isn't refused.
pub const WHOLE: [u32; 88] = [0; 88];

/// A call that asks for 20 before 1.
macro_rules! list_before_dump {
    ($call:ident($($arg:ident),*)) => {
        |dump, lengths, $($arg),*| {
            let ask = |dump: &[u32]| (PROVED.$call)(dump, lengths, $($arg),*);
            swapped(ask(dump), 1, 20, || ask(&orders::WHOLE))
        }
    };
}

/// A call that asks for 20 after the number that follows it.
macro_rules! list_after {
    ($number:literal, $call:ident($($arg:ident),*)) => {
        |dump, lengths, $($arg),*| {
            let ask = |lengths: &[u8]| (PROVED.$call)(dump, lengths, $($arg),*);
            swapped(ask(lengths), 20, $number, || ask(&EIGHTS))
        }
    };
}

pub(super) use {list_after, list_before_dump};

/// The other call is asked on a copy: a refusal leaves what is lent as it was.
pub fn bytes_list_before_dump(dump: &[u32], lengths: &[u8], field: Field, bytes: &mut [u8]) -> Outcome {
    let told = (PROVED.read_field_le)(dump, lengths, field, bytes);
    swapped(told, 1, 20, || (PROVED.read_field_le)(&WHOLE, lengths, field, &mut bytes.to_vec()))
}

pub fn bytes_list_after_block(dump: &[u32], lengths: &[u8], field: Field, bytes: &mut [u8]) -> Outcome {
    let told = (PROVED.read_field_le)(dump, lengths, field, bytes);
    swapped(told, 20, 4, || (PROVED.read_field_le)(dump, &EIGHTS, field, &mut bytes.to_vec()))
}

pub fn view_list_before_board(field: &[u32], reference: &[u32], lengths: &[u8], board: u8, block: u8) -> View {
    let ask = |board| (PROVED.view)(&WHOLE, &WHOLE, lengths, board, block);
    swapped((PROVED.view)(field, reference, lengths, board, block), 15, 20, || ask(0))
}

pub fn view_list_before_dump(field: &[u32], reference: &[u32], lengths: &[u8], board: u8, block: u8) -> View {
    let told = (PROVED.view)(field, reference, lengths, board, block);
    swapped(told, 1, 20, || (PROVED.view)(&WHOLE, &WHOLE, lengths, board, block))
}

pub fn view_list_after_block(field: &[u32], reference: &[u32], lengths: &[u8], board: u8, block: u8) -> View {
    let ask = |lengths: &[u8]| (PROVED.view)(field, reference, lengths, board, block);
    swapped(ask(lengths), 20, 4, || ask(&EIGHTS))
}

pub fn map_list_after_length(chip: u8, lengths: &[u8], map: &[u8]) -> Outcome {
    let ask = |lengths: &[u8]| (PROVED.check_map)(chip, lengths, map);
    swapped(ask(lengths), 20, 2, || ask(&EIGHTS))
}

pub fn sample_list_before_board(sample: Sample, field: &[u32], reference: &[u32], lengths: &[u8], map: &[u8]) -> Told<u16> {
    let told = (PROVED.sample)(sample, field, reference, lengths, map);
    let on_board_0 = Sample { board: 0, last: 0, ..sample };
    swapped(told, 15, 20, || (PROVED.sample)(on_board_0, &WHOLE, &WHOLE, lengths, map))
}

pub fn sample_list_before_dump(sample: Sample, field: &[u32], reference: &[u32], lengths: &[u8], map: &[u8]) -> Told<u16> {
    let told = (PROVED.sample)(sample, field, reference, lengths, map);
    swapped(told, 1, 20, || (PROVED.sample)(sample, &WHOLE, &WHOLE, lengths, map))
}

pub fn sample_list_after_map(sample: Sample, field: &[u32], reference: &[u32], lengths: &[u8], map: &[u8]) -> Told<u16> {
    let ask = |lengths: &[u8]| (PROVED.sample)(sample, field, reference, lengths, map);
    swapped(ask(lengths), 20, 2, || ask(&EIGHTS))
}

/// What is read first is the table, and 7 comes after it.
pub fn table_before_unit(dump: &[u32], lengths: &[u8], version: u8, unit: u8, atten: u8) -> Told<i32> {
    let ask = |unit, atten| (PROVED.s2_reading_vhigh)(dump, lengths, version, unit, atten);
    swapped(ask(unit, atten), 7, 5, || ask(0, 0))
}

/// The count is asked for before the map and what is decoded by it.
pub fn count_before_underflow(sample: Sample, field: &[u32], reference: &[u32], lengths: &[u8], map: &[u8]) -> Told<u16> {
    let told = (PROVED.sample)(sample, field, reference, lengths, map);
    if told.refused.number() == 9 && sample.raw.0 > 4095 { refused(8) } else { told }
}
