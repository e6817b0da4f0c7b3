//! Document 01's rules as formulas, with none of the crate's code, to compare the two: tables apart, which document 01 leaves
//! to the crate.
use crate::Dump;
use crate::fields::Field;
use crate::line::Record;

fn bit(dump: &Dump, block: u8, k: u32) -> u32 {
    dump[8 * usize::from(block) + k as usize / 32] >> (k % 32) & 1
}

/// Bit k of the result is bit start + k of the block for k below the smaller of the bit count and 8n, else zero.
pub fn bytes(dump: &Dump, field: Field, n: usize) -> Vec<u8> {
    let bits = u32::from(field.bit_count).min(8 * n as u32);
    let mut bytes = vec![0; n];
    for k in 0..bits {
        bytes[k as usize / 8] |= (bit(dump, field.block, u32::from(field.bit_start) + k) << (k % 8)) as u8;
    }
    bytes
}

/// Sign and magnitude over a width.
pub fn sign_magnitude(bits: u32, width: u32) -> i32 {
    let half = 1 << (width - 1);
    if bits >= half { -((bits - half) as i32) } else { bits as i32 }
}

/// With the sign bit set the value is minus ((0 - bits, wrapping) mod half).
pub fn two_point_code(bits: u32, half: u32) -> i32 {
    if bits >= half { -((0u32.wrapping_sub(bits) % half) as i32) } else { bits as i32 }
}

const TWO_POINT_SCALE: [[i64; 4]; 2] = [[65504, 86975, 120389, 224310], [65467, 86861, 120416, 224708]];
const TWO_POINT_OFFSET: [[i64; 4]; 2] = [[0, 1, 27, 54], [0, 9, 26, 66]];
const VREF_SCALE: [[i64; 4]; 2] = [[57431, 76236, 105481, 196602], [57236, 76175, 105678, 197170]];
const VREF_OFFSET: [[i64; 4]; 2] = [[75, 78, 107, 142], [63, 66, 89, 128]];

/// What two points give: a, t, and document 02's b, #104, the whole number 850 - t + offset, which can be negative.
#[derive(Debug, Clone, Copy)]
pub struct TwoPoints {
    pub a: i64,
    pub t: i64,
    pub b: i64,
}

/// By the bits of the codes.
pub fn two_points(unit: usize, atten: usize, low: u32, high: u32) -> TwoPoints {
    by_codes(unit, atten, two_point_code(low, 64), two_point_code(high, 256))
}

/// By what the codes mean.
pub fn by_codes(unit: usize, atten: usize, low: i32, high: i32) -> TwoPoints {
    let low = i64::from([278, 421][unit] + 4 * low);
    let high = i64::from([3265, 3406][unit] + 4 * high);
    let d = high - low;
    let a = (700 * TWO_POINT_SCALE[unit][atten] + d / 2) / d;
    let t = (700 * high + d / 2) / d;
    TwoPoints { a, t, b: 850 - t + TWO_POINT_OFFSET[unit][atten] }
}

pub fn vref(code: u32) -> i64 {
    i64::from(1100 + 7 * sign_magnitude(code, 5))
}

/// a and b of a Vref.
pub fn by_vref(unit: usize, atten: usize, vref: i64) -> (i64, i64) {
    (vref * VREF_SCALE[unit][atten] / 4096, VREF_OFFSET[unit][atten])
}

const LUT_LOW: [[i64; 20]; 2] = [
    [2240, 2297, 2352, 2405, 2457, 2512, 2564, 2616, 2664, 2709, 2754, 2795, 2832, 2868, 2903, 2937, 2969, 3000, 3030, 3060],
    [2238, 2293, 2347, 2399, 2451, 2507, 2561, 2613, 2662, 2710, 2754, 2792, 2831, 2869, 2904, 2937, 2968, 2999, 3029, 3059],
];
const LUT_HIGH: [[i64; 20]; 2] = [
    [2667, 2706, 2745, 2780, 2813, 2844, 2873, 2901, 2928, 2956, 2982, 3006, 3032, 3059, 3084, 3110, 3135, 3160, 3184, 3209],
    [2657, 2698, 2738, 2774, 2807, 2838, 2867, 2894, 2921, 2946, 2971, 2996, 3020, 3043, 3067, 3092, 3116, 3139, 3162, 3185],
];

fn line(record: Record, raw: i64) -> i64 {
    (i64::from(record.coeff_a) * raw + 32768) / 65536 + i64::from(record.coeff_b)
}

/// The lookup at a count from 2880 on: over both the reference voltage and the count, to the nearest by 6400 of 12800.
fn lookup(record: Record, raw: i64) -> i64 {
    let unit = usize::from(record.unit);
    let vref = i64::from(record.vref);
    let i = ((raw - 2880) / 64) as usize;
    let along = raw - 2880 - 64 * i as i64;
    let at = |k: usize| LUT_LOW[unit][k] * (1200 - vref) + LUT_HIGH[unit][k] * (vref - 1000);
    (at(i) * (64 - along) + at(i + 1) * along + 6400) / 12800
}

/// Attenuation 3: line below 2880, blend 2880 to 2944, lookup above. Others: line.
pub fn convert(record: Record, raw: u16) -> i64 {
    let raw = i64::from(raw);
    let line = line(record, raw);
    if record.atten != 3 || raw < 2880 {
        return line;
    }
    let lookup = lookup(record, raw);
    if raw > 2944 {
        return lookup;
    }
    let x = raw - 2880;
    (line * 64 + lookup * x - line * x + 32) / 64
}

/// S2 entries by tag: first bit, bits, multiplier, base, the tag it depends on.
const TAGS: [(u16, u16, i32, i32, usize); 33] = [
    (0, 0, 0, 0, 0),
    (208, 6, 4, 2231, 0),
    (214, 6, 4, 1643, 0),
    (220, 6, 4, 1290, 0),
    (226, 6, 4, 701, 0),
    (232, 6, 4, 2305, 0),
    (238, 6, 4, 1693, 0),
    (244, 6, 4, 1343, 0),
    (250, 6, 4, 723, 0),
    (144, 8, 4, 5775, 0),
    (152, 8, 4, 5693, 0),
    (160, 8, 4, 5723, 0),
    (168, 8, 4, 6209, 0),
    (176, 8, 4, 5817, 0),
    (184, 8, 4, 5703, 0),
    (192, 8, 4, 5731, 0),
    (200, 8, 4, 6157, 0),
    (197, 6, 2, 169, 19),
    (203, 6, 2, -26, 19),
    (209, 9, 2, 126, 22),
    (218, 7, 2, 387, 19),
    (225, 7, 2, 177, 22),
    (232, 10, 2, 5815, 0),
    (242, 7, 2, 27, 22),
    (249, 7, 2, 410, 22),
    (147, 8, 2, 1519, 0),
    (155, 6, 2, 88, 25),
    (161, 5, 2, 8, 26),
    (166, 6, 2, 70, 27),
    (172, 8, 2, 1677, 0),
    (180, 6, 2, 23, 29),
    (186, 5, 2, 6, 30),
    (191, 6, 2, 13, 31),
];

/// A tag's field.
fn field(tag: usize) -> Field {
    let (bit_start, bit_count, ..) = TAGS[tag];
    Field { block: 2, bit_start, bit_count }
}

/// The fields that a tag's reading reads: its own, that of the tag it depends on, and so on down to tag 0, which has none.
pub fn fields(tag: usize) -> impl Iterator<Item = Field> {
    let depends = |tag: &usize| Some(TAGS[*tag].4);
    std::iter::successors(Some(tag), depends).take_while(|tag| *tag != 0).map(field)
}

/// A tag's reading, down to tag 0; without a dump the field term is dropped.
pub fn reading(dump: Option<&Dump>, tag: usize) -> i32 {
    let (.., multiplier, base, depends) = TAGS[tag];
    if tag == 0 {
        return 0;
    }
    let field = field(tag);
    let bits = |dump| u32::from_le_bytes(bytes(dump, field, 4).try_into().expect("four bytes"));
    let term = dump.map_or(0, |dump| sign_magnitude(bits(dump), field.bit_count.into()) * multiplier);
    term + base + reading(dump, depends)
}

/// Tags: unit x 4 + attenuation after 1, 9, 17 or 25; 0 for a version and parameter that don't pair.
pub fn tag(version: u8, unit: u8, atten: u8, param: u8) -> usize {
    let first = match (version, param) {
        (1, 0) => 1,
        (1, 1) => 9,
        (2, 1) => 17,
        (2, 2) => 25,
        _ => return 0,
    };
    first + usize::from(unit * 4 + atten)
}
