//! Sample logs for the desk program.
use oracle::noise::Noise;

/// A board, unit and attenuation, as one number: board × 8 + last byte.
pub type Key = u8;

pub const KEYS: std::ops::Range<Key> = 0..16;

/// What makes a key that of the other board, of the other unit, and of the other attenuations, bit by bit.
const OTHER_BOARD: Key = 8;
const OTHER_UNIT: Key = 4;
const OTHER_ATTENUATIONS: [Key; 3] = [1, 2, 3];

/// Counts at which an answer changes its way, and beside them; the last ones are refused.
const COUNTS: [u16; 12] = [0, 2879, 2880, 2881, 2912, 2943, 2944, 2945, 4094, 4095, 4096, 65535];

/// The most samples that the desk program reads at once.
const BLOCK: usize = 4096;

pub fn sample(raw: u16, board: u8, last: u8) -> [u8; 4] {
    let [low, high] = raw.to_le_bytes();
    [low, high, board, last]
}

fn of_key(raw: u16, key: Key) -> [u8; 4] {
    sample(raw, key / 8, key % 8)
}

/// The log of document 01's example.
pub fn example() -> Vec<u8> {
    vec![0x00, 0x00, 0x00, 0x03, 0x40, 0x0B, 0x01, 0x03, 0x00, 0x10, 0x00, 0x03]
}

/// A few samples of each kind, with every fault that a sample can have and a torn end: for files that are damaged elsewhere.
pub fn probe() -> Vec<u8> {
    let samples = [
        sample(0, 0, 0),
        sample(2880, 1, 7),
        sample(4096, 0, 3),
        sample(2912, 1, 4),
        sample(65535, 1, 0),
        sample(100, 2, 0),
        sample(100, 0, 8),
        sample(4096, 1, 255),
        sample(4095, 0, 7),
    ];
    torn(samples.concat(), 2)
}

/// The log with some bytes of a further record.
pub fn torn(mut log: Vec<u8>, bytes: usize) -> Vec<u8> {
    log.extend_from_slice(&sample(4095, 1, 7)[..bytes]);
    log
}

/// Every key after every key, itself included.
pub fn every_change() -> Vec<Key> {
    let mut keys = Vec::new();
    for key in KEYS {
        keys.push(key);
        (key + 1..KEYS.end).for_each(|other| keys.extend([key, other]));
    }
    keys.push(0);
    keys
}

/// Keys with rising counts from the first on.
pub fn rising(keys: &[Key], first: u16) -> Vec<u8> {
    keys.iter().zip(first..).flat_map(|(key, raw)| of_key(raw, *key)).collect()
}

/// All keys in orders in which the attenuation, the unit or the board changes at every sample, up and down, and the counts up to
/// the last one.
pub fn orders() -> Vec<u8> {
    let orders: [fn(Key) -> Key; 4] =
        [|i| i, |i| 15 - i, |i| i % 2 * OTHER_UNIT + i / 2 % 4 + i / 8 * OTHER_BOARD, |i| i % 2 * OTHER_BOARD + i / 2];
    let keys: Vec<Key> = orders.into_iter().flat_map(|order| KEYS.map(order)).collect();
    rising(&keys, 4096 - keys.len() as u16)
}

/// A key and the others that it is asked in turn with: there, again, and back. Where only one of the two is decoded, the table has to
/// stay.
fn in_turn<const N: usize>(others: [Key; N]) -> Vec<u8> {
    let pairs = KEYS.flat_map(|key| others.map(|other| (key, key ^ other)));
    let keys: Vec<Key> = pairs.flat_map(|(key, other)| [key, other, other, key]).collect();
    rising(&keys, 2850)
}

/// Each key with its other board's and with its other unit's.
pub fn between() -> Vec<u8> {
    in_turn([OTHER_BOARD, OTHER_UNIT])
}

/// Each key with the three other attenuations of its board and unit.
pub fn attenuations() -> Vec<u8> {
    in_turn(OTHER_ATTENUATIONS)
}

/// Every count of the list, key by key.
pub fn counts_by_key() -> Vec<u8> {
    KEYS.flat_map(|key| COUNTS.map(|raw| of_key(raw, key))).flatten().collect()
}

/// Every count of the list, each with all keys.
pub fn keys_by_count() -> Vec<u8> {
    COUNTS.into_iter().flat_map(|raw| KEYS.map(move |key| of_key(raw, key))).flatten().collect()
}

/// Good boards and bad ones with good last bytes and bad ones, at counts on both sides of the last one; the first sample's would
/// be 255 as a key.
pub fn boards() -> Vec<u8> {
    let mut log = sample(7, 31, 7).to_vec();
    for board in [0, 1, 2, 3, 32, 128, 255] {
        for last in [7, 8, 255, 0] {
            [4095, 4096].into_iter().for_each(|raw| log.extend(sample(raw, board, last)));
        }
    }
    log
}

/// As many samples as the desk program reads at once, with short lines: one key, then another.
pub fn one_block() -> Vec<u8> {
    (0..BLOCK).flat_map(|i| of_key((i % 10) as u16, if i < 1000 { 0 } else { OTHER_BOARD })).collect()
}

/// More than it reads at once. The key changes now and then, but not at the start of the second block.
pub fn past_one_block(noise: &mut Noise) -> Vec<u8> {
    let mut key = 0;
    let mut one = |i| {
        if i % 7 == 0 {
            key = noise.below(KEYS.end.into()) as Key;
        }
        of_key(noise.below(4100) as u16, key)
    };
    (0..BLOCK + 300).flat_map(&mut one).collect()
}

/// Anything, mostly good.
pub fn any(noise: &mut Noise) -> Vec<u8> {
    let mut log = Vec::new();
    for _ in 0..noise.within(20, 40) {
        let mut one = of_key(noise.below(4100) as u16, noise.below(KEYS.end.into()) as Key);
        if noise.once_in(8) {
            one[noise.below(4) as usize] = noise.byte();
        }
        log.extend(one);
    }
    torn(log, noise.below(4) as usize)
}
