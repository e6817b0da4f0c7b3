//! Faults of samples and logs.
use suongkivat::{Count, Sample};

use super::refused;
use crate::library::PROVED;
use crate::told::{Next, Told};

pub fn field_dump(sample: Sample, field: &[u32], _reference: &[u32], lengths: &[u8], map: &[u8]) -> Told<u16> {
    (PROVED.sample)(sample, field, field, lengths, map)
}

pub fn raw_before_board(sample: Sample, field: &[u32], reference: &[u32], lengths: &[u8], map: &[u8]) -> Told<u16> {
    if sample.raw > Count(4095) { refused(8) } else { (PROVED.sample)(sample, field, reference, lengths, map) }
}

pub fn last_byte_8(sample: Sample, field: &[u32], reference: &[u32], lengths: &[u8], map: &[u8]) -> Told<u16> {
    (PROVED.sample)(Sample { last: if sample.last == 8 { 4 } else { sample.last }, ..sample }, field, reference, lengths, map)
}

pub fn torn_is_end(log: &[u8]) -> Next {
    (PROVED.next_sample)(if log.len() < 4 { &[] } else { log })
}

pub fn high_byte_first(log: &[u8]) -> Next {
    let mut next = (PROVED.next_sample)(log);
    next.sample.raw.0 = next.sample.raw.0.swap_bytes();
    next
}

pub fn whole_records_alone(log: &[u8]) -> Next {
    (PROVED.next_sample)(if log.len().is_multiple_of(4) { log } else { &log[..log.len() % 4] })
}
