//! From an input that differs to the smallest that is reached by making one thing plainer at a time, as long as it still differs.
use oracle::Dump;
use oracle::rules::{EIGHTS, MapChip};

use crate::input::Input;
use crate::maps;
use crate::strewn::plain_map;

/// The smallest; the input itself where nothing plainer differs.
pub fn smallest(call: &str, input: Input, differs: impl Fn(&Input) -> bool) -> Input {
    let mut smallest = input;
    while let Some(smaller) = plainer(call, &smallest).into_iter().find(&differs) {
        smallest = smaller;
    }
    smallest
}

/// The input with one thing made plainer: nothing can be made plainer for ever.
fn plainer(call: &str, input: &Input) -> Vec<Input> {
    let mut plainer = Vec::new();
    for (k, dump) in input.dumps.iter().enumerate() {
        plainer.extend(plainer_dumps(dump).map(|dump| {
            let mut input = input.clone();
            input.dumps[k] = dump;
            input
        }));
    }
    if let Some(lengths) = &input.lengths {
        let lists = plainer_bytes(lengths, &EIGHTS);
        plainer.extend(lists.into_iter().map(|lengths| Input { lengths: Some(lengths), ..input.clone() }));
    }
    if let Some((name, bytes)) = &input.bytes {
        let maps = plainer_bytes(bytes, &plain_bytes(call, input));
        plainer.extend(maps.into_iter().map(|bytes| Input { bytes: Some((*name, bytes)), ..input.clone() }));
    }
    // The last numbers first: a count or a length before the record that it is asked of.
    for (k, (_, value)) in input.numbers.iter().enumerate().rev().filter(|(_, (_, value))| *value > 0) {
        plainer.extend([0, value / 2, value - 1].map(|value| {
            let mut input = input.clone();
            input.numbers[k].1 = value;
            input
        }));
    }
    plainer
}

/// A dump of 88 words; with one word 0; with one bit 0.
fn plainer_dumps(dump: &[u32]) -> impl Iterator<Item = Vec<u32>> {
    const WHOLE: usize = size_of::<Dump>() / size_of::<u32>();
    let with = |k: usize, word: u32| {
        let mut dump = dump.to_vec();
        dump[k] = word;
        dump
    };
    let whole = (dump.len() != WHOLE).then(|| {
        let mut whole = dump.to_vec();
        whole.resize(WHOLE, 0);
        whole
    });
    let held = || dump.iter().copied().enumerate().filter(|(_, word)| *word != 0);
    let without_word = held().map(move |(k, _)| with(k, 0));
    let bits = held().flat_map(|(k, word)| (0..32).map(move |bit| (k, word, 1 << bit)));
    let without_bit =
        bits.filter(|(_, word, bit)| word & bit != 0 && word != bit).map(move |(k, word, bit)| with(k, word & !bit));
    whole.into_iter().chain(without_word).chain(without_bit)
}

/// What a call's bytes are made plainer towards: its chip's plain map, and zeros for a call without a chip.
fn plain_bytes(call: &str, input: &Input) -> Vec<u8> {
    let chip = match call {
        "check_map" => maps::chip_of(input.value("chip")),
        "decode" | "sample" => Some(MapChip::Esp32),
        _ if call.starts_with("s2_") => Some(MapChip::S2),
        _ if call.starts_with("c6_") => Some(MapChip::C6),
        _ => None,
    };
    chip.map_or_else(|| vec![0; input.lent_bytes().len()], plain_map)
}

/// The plain length, and from there on with one byte as in the plain ones.
fn plainer_bytes(bytes: &[u8], plain: &[u8]) -> Vec<Vec<u8>> {
    if bytes.len() != plain.len() {
        let mut whole = bytes.to_vec();
        whole.resize(plain.len(), 0);
        return vec![whole];
    }
    let others = bytes.iter().zip(plain).enumerate().filter(|(_, (byte, plain))| byte != plain);
    let with = |k: usize, byte: u8| {
        let mut bytes = bytes.to_vec();
        bytes[k] = byte;
        bytes
    };
    others.map(|(k, (_, plain))| with(k, *plain)).collect()
}
