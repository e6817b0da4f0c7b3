//! Sample logs: the next sample, and a sample's answer.
use oracle::codes::Codes;
use oracle::noise::Noise;
use oracle::rules::{EIGHTS, MapChip};
use oracle::{Dump, answers};
use suongkivat::{Count, Sample};

use crate::fields::Boards;
use crate::input::Input;
use crate::library::Library;
use crate::strewn::{Strewn, plain_map, strewn};
use crate::tally::{Compared, Tally, told};
use crate::told::{Next, Refused};

fn wanted_next(log: &[u8]) -> Next {
    let answer = answers::next_sample(log);
    let refused = Refused::of(&answer);
    let sample = answer.ok().flatten();
    let (raw, board, last) = sample.unwrap_or_default();
    Next { refused, whole: sample.is_some().into(), sample: Sample { raw: Count(raw), board, last } }
}

pub fn next(library: &Library, tally: &mut Tally, log: &[u8]) -> Compared {
    tally.same("next_sample", || Input::default().log(log), (library.next_sample)(log), || wanted_next(log))
}

/// Every raw, board and last byte; logs of every length up to some samples.
pub fn next_samples(library: &Library, tally: &mut Tally, noise: &mut Noise) -> Compared {
    for length in 0..=4 {
        next(library, tally, &vec![0; length])?;
    }
    for raw in 0..=65535u16 {
        let [low, high] = raw.to_le_bytes();
        next(library, tally, &[low, high, 0, 0])?;
        next(library, tally, &[0, 1, low, high])?;
    }
    for _ in 0..10_000 {
        let log: Vec<u8> = (0..24).map(|_| noise.byte()).collect();
        (0..=log.len()).try_for_each(|length| next(library, tally, &log[..length]))?;
    }
    Ok(())
}

pub fn sample(library: &Library, tally: &mut Tally, (boards, map): (Boards, &[u8]), sample: Sample) -> Compared {
    let (field, reference, lengths) = boards;
    let Sample { raw: Count(raw), board, last } = sample;
    let input = || {
        let input = Input::default().number("raw", raw).number("board", board).number("last byte", last);
        input.dump(field).dump(reference).lengths(lengths).map(map)
    };
    let ours = (library.sample)(sample, field, reference, lengths, map);
    tally.same("sample", input, ours, || told(answers::sample(field, reference, lengths, map, raw, board, last)))
}

/// Counts where an answer changes its way, and past the last.
const COUNTS: [u16; 10] = [0, 1, 2879, 2912, 2943, 2945, 4094, 4095, 4096, 65535];

/// A board of noise, by Vref or by two points, under the plain map: a code is in the low bits of its word, nine at most.
fn board(noise: &mut Noise, reserve: u32) -> Dump {
    let mut dump = noise.dump();
    let codes = Codes::any(noise, reserve).bits();
    dump.iter_mut().zip(codes).for_each(|(word, bits)| *word = *word & !0x1FF | bits);
    dump
}

/// Every board and last byte on two boards; any sample on any boards, with faults.
pub fn samples(library: &Library, tally: &mut Tally, noise: &mut Noise) -> Compared {
    let plain = plain_map(MapChip::Esp32);
    let (field, reference) = (board(noise, 0), board(noise, 1));
    for (board, last) in (0..=255).flat_map(|board| (0..=255).map(move |last| (board, last))) {
        for raw in COUNTS {
            sample(library, tally, ((&field, &reference, &EIGHTS), &plain), Sample { raw: Count(raw), board, last })?;
        }
    }
    for _ in 0..1_000_000 {
        let (noisy, reserve) = (noise.dump(), noise.below(2));
        let plainly = board(noise, reserve);
        let Strewn { dump: field, lengths, map, .. } = strewn(noise, MapChip::Esp32, &noisy);
        let count = noise.below(4096) as u16;
        let raw = noise.pick(&[count, count, count, 4096, 65535]);
        let (board, last) = (noise.pick(&[0, 0, 1, 1, 2]), noise.below(9) as u8);
        let boards = if noise.once_in(2) { [&field[..], &plainly] } else { [&plainly[..], &field] };
        let map = if noise.once_in(2) { &map } else { &plain };
        sample(library, tally, ((boards[0], boards[1], &lengths), map), Sample { raw: Count(raw), board, last })?;
    }
    Ok(())
}
