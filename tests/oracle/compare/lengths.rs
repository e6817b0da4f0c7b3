//! Block lengths: fields, views, maps and the S2's table in blocks of every length, and bad lists in every call that takes one.
use oracle::dumps::any_place;
use oracle::fields::{Field, MOST_BYTES, field_of};
use oracle::maps::{any_map, good_of};
use oracle::noise::Noise;
use oracle::rules::{BLOCKS, EIGHTS, Lengths, MOST, RECORD};
use oracle::{dumps, lengths};

use crate::fields::{into_bytes, read, view};
use crate::fuses::Fuses;
use crate::library::Library;
use crate::maps::{CHIPS, any_list, check, decoding, decodings};
use crate::strewn::{any_unit_and_atten, good_units_and_attens};
use crate::tally::{Compared, Tally};
use crate::{s2, strewn};

/// Every block with every length; the others have any.
fn every_length(noise: &mut Noise) -> Vec<(u8, Lengths)> {
    let all = (0..BLOCKS as u8).flat_map(|block| (0..=MOST).map(move |length| (block, length)));
    all.map(|(block, length)| (block, lengths::with(lengths::any(noise), block, length))).collect()
}

/// Every start with counts that end at a block's end, beside it and elsewhere, in every block of every length.
pub fn fields(library: &Library, tally: &mut Tally, noise: &mut Noise) -> Compared {
    let dump = noise.dump();
    for (block, list) in every_length(noise) {
        let (fuses, end) = (Fuses { dump: &dump, lengths: &list }, 32 * u16::from(list[usize::from(block)]));
        for bit_start in (0..=258).chain([511, 512, 32768, 65535]) {
            let left = end.saturating_sub(bit_start);
            for bit_count in [0, 1, 2, 31, 32, 33, left.saturating_sub(1), left, left + 1, 255, 256, 65535] {
                let field = Field { block, bit_start, bit_count };
                read(library, tally, fuses, field)?;
                into_bytes(library, tally, fuses, field, noise.below(MOST_BYTES as u32 + 1) as usize)?;
            }
        }
    }
    Ok(())
}

/// Every block of every length on both boards and on ones that there aren't; every block under any list.
pub fn views(library: &Library, tally: &mut Tally, noise: &mut Noise) -> Compared {
    let (field, reference) = (noise.dump(), noise.dump());
    for (block, list) in every_length(noise) {
        [0, 1, 2, 255].into_iter().try_for_each(|board| view(library, tally, (&field, &reference, &list), board, block))?;
    }
    for _ in 0..1000 {
        let list = lengths::any(noise);
        for (board, block) in (0..=2).flat_map(|board| (0..=255).map(move |block| (board, block))) {
            view(library, tally, (&field, &reference, &list), board, block)?;
        }
    }
    Ok(())
}

/// Good maps with each record's block of every length; with each record at the end of a block of every length, and a bit past it; any maps
/// under any lists.
pub fn maps(library: &Library, tally: &mut Tally, noise: &mut Noise) -> Compared {
    for (number, chip) in CHIPS {
        let dump = noise.dump();
        let mut ask = |noise: &mut Noise, list: &Lengths, map: &[u8]| {
            check(library, tally, number, list, map)?;
            decodings(library, tally, noise, chip, Fuses { dump: &dump, lengths: list }, map)
        };
        for good in good_of(noise, chip) {
            for (k, words) in (0..good.len() / RECORD).flat_map(|k| (0..=MOST).map(move |words| (k, words))) {
                let Field { block, bit_count, .. } = field_of(&good, k);
                let lists = [EIGHTS, lengths::least(&good)].map(|list| lengths::with(list, block, words));
                lists.iter().try_for_each(|list| ask(noise, list, &good))?;
                let Some(last) = (32 * u16::from(words)).checked_sub(bit_count) else { continue };
                for start in [last, last + 1] {
                    let mut map = good.clone();
                    map[RECORD * k + 2..RECORD * k + 4].copy_from_slice(&start.to_le_bytes());
                    ask(noise, &lists[0], &map)?;
                }
            }
        }
        for _ in 0..2000 {
            let map = any_map(noise, chip);
            let list = any_list(noise, &map);
            ask(noise, &list, &map)?;
        }
    }
    Ok(())
}

/// The block of the S2's table, of so many words.
fn table_of(noise: &mut Noise, words: u8) -> Lengths {
    lengths::with(lengths::any(noise), 2, words)
}

/// The S2's readings of every version, unit, attenuation and parameter, and its codes, with a table's block of every length.
pub fn s2(library: &Library, tally: &mut Tally, noise: &mut Noise) -> Compared {
    for words in 0..=MOST {
        for dump in [dumps::ZEROS, dumps::ONES, noise.dump(), noise.dump()] {
            let list = table_of(noise, words);
            s2::every().try_for_each(|asked| s2::reading(library, tally, Fuses { dump: &dump, lengths: &list }, asked))?;
        }
        for _ in 0..1000 {
            let (dump, list) = (noise.dump(), table_of(noise, words));
            s2::paired().try_for_each(|asked| s2::reading(library, tally, Fuses { dump: &dump, lengths: &list }, asked))?;
        }
        for version in (0..=255).chain([2; 256]) {
            let (dump, map) = s2::holding(noise, version, 8);
            let list = lengths::with(any_list(noise, &map), 2, words);
            let fuses = Fuses { dump: &dump, lengths: &list };
            good_units_and_attens().try_for_each(|at| s2::calls(library, tally, fuses, &map, at))?;
        }
    }
    Ok(())
}

/// Every call that takes a list, on boards of noise with fields anywhere.
fn every_call(library: &Library, tally: &mut Tally, noise: &mut Noise, list: &[u8]) -> Compared {
    let (dump, reference) = (noise.dump(), noise.dump());
    let fuses = Fuses { dump: &dump, lengths: list };
    let count = noise.below(33);
    let field = any_place(noise, count);
    read(library, tally, fuses, field)?;
    into_bytes(library, tally, fuses, field, 4)?;
    view(library, tally, (&dump, &reference, list), noise.below(2) as u8, field.block)?;
    let (unit, atten) = any_unit_and_atten(noise);
    s2::reading(library, tally, fuses, (noise.pick(&[1, 2]), unit, atten))?;
    for (number, chip) in CHIPS {
        let map = any_map(noise, chip);
        check(library, tally, number, list, &map)?;
        decoding(library, tally, noise, chip, fuses, &map, (unit, atten))?;
    }
    Ok(())
}

/// Lists of every number of entries, lists with every byte at every place, any good ones and any bad ones.
pub fn lists(library: &Library, tally: &mut Tally, noise: &mut Noise) -> Compared {
    let mut all: Vec<Vec<u8>> = (0..=24).map(|entries| vec![MOST; entries]).collect();
    all.extend((0..=24).map(|entries| vec![0; entries]));
    all.extend((0..BLOCKS as u8).flat_map(|block| (0..=255).map(move |byte| lengths::with(EIGHTS, block, byte).to_vec())));
    all.extend((0..20_000).map(|_| lengths::any(noise).to_vec()));
    all.extend((0..20_000).map(|_| strewn::bad_list(noise)));
    all.iter().try_for_each(|list| every_call(library, tally, noise, list))
}
