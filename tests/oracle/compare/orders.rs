//! The order of refusals: every call that takes a list of block lengths, with every choice of its faults at once. The number has to be
//! that of the first of them by the order that is written down here for each call.
use oracle::codes::Codes;
use oracle::dumps::Builder;
use oracle::fields::field_of;
use oracle::maps::any_map;
use oracle::noise::Noise;
use oracle::rules::{EIGHTS, MapChip, RECORD};
use oracle::together::choices;
use oracle::{Dump, lengths};

use crate::ask::ask;
use crate::input::Input;
use crate::library::Library;
use crate::s2;
use crate::strewn::any_unit_and_atten;
use crate::tally::{Compared, Difference, Tally};

/// What may be wrong with what a call is handed.
#[derive(Debug, Clone, Copy, PartialEq)]
enum Fault {
    Board,
    Dump,
    List,
    Block,
    Place,
    Unit,
    Map,
    RecordId,
    RecordByte,
    RecordBlock,
    RecordPlace,
    RecordCount,
    Version,
    Underflow,
    Table,
    Raw,
}

use Fault::*;

impl Fault {
    fn number(self) -> u8 {
        match self {
            Dump => 1,
            Map => 2,
            RecordId => 3,
            Block | RecordBlock => 4,
            Place | RecordPlace | Table => 5,
            RecordCount => 6,
            Unit => 7,
            Raw => 8,
            Underflow => 9,
            Version => 12,
            Board => 15,
            RecordByte => 18,
            List => 20,
        }
    }
}

/// A map's, in their order.
const MAP: [Fault; 6] = [Map, RecordId, RecordByte, RecordBlock, RecordPlace, RecordCount];

/// The calls with their faults in order.
fn orders() -> Vec<(&'static str, Vec<Fault>)> {
    let with_map = |before: &[Fault], after: &[Fault]| [before, &MAP, after].concat();
    let field = vec![Dump, List, Block, Place];
    let reading = vec![Dump, List, Unit, Table];
    let s2_code = with_map(&[Dump, List, Unit], &[Version, Table]);
    let c6_code = with_map(&[Dump, List, Unit], &[Version]);
    vec![
        ("read_field_u8", field.clone()),
        ("read_field_le", field),
        ("view", vec![Board, Dump, List, Block]),
        ("check_map", with_map(&[List], &[])),
        ("decode", with_map(&[Dump, List, Unit], &[Underflow])),
        ("s2_version", with_map(&[Dump, List], &[])),
        ("s2_flash_encryption", with_map(&[Dump, List], &[])),
        ("s2_reading_vlow", reading.clone()),
        ("s2_reading_vhigh", reading.clone()),
        ("s2_reading_vinit", reading),
        ("s2_init_code", s2_code.clone()),
        ("s2_cal_code", s2_code),
        ("c6_init_code", c6_code.clone()),
        ("c6_cal_code", c6_code),
        ("c6_get_chan_compens", with_map(&[Dump, List, Unit], &[])),
        ("sample", with_map(&[Board, Dump, List], &[Underflow, Raw])),
    ]
}

/// A board by two points, decoded at both units, or refused with 9 at both.
fn esp32_board(noise: &mut Noise, underflow: bool) -> (Dump, Vec<u8>) {
    let (low, high) = if underflow { (0x3F, 0x101) } else { (0x05, 0x1F0) };
    let mut dump = Builder::new(noise.dump());
    let map = Codes::any(noise, 1).with(0, low, high).with(1, low, high).place(noise, &mut dump);
    (dump.dump, map)
}

/// A board of that version, with no field of its map in the block of the table.
fn s2_board(noise: &mut Noise, version: u32) -> (Dump, Vec<u8>) {
    loop {
        let (dump, map) = s2::holding(noise, version, 8);
        if (0..2).all(|k| field_of(&map, k).block != 2) {
            return (dump, map);
        }
    }
}

/// What the call is handed, with the faults that its board has, and no other.
fn on_board(noise: &mut Noise, call: &str, has: impl Fn(Fault) -> bool) -> Input {
    let (unit, atten) = any_unit_and_atten(noise);
    let at = Input::default().number("unit", unit).number("attenuation", atten).lengths(&EIGHTS);
    match call {
        "view" => {
            let input = Input::default().number("board", noise.below(2)).number("block", noise.below(11));
            input.dump(&noise.dump()).dump(&noise.dump()).lengths(&EIGHTS)
        }
        "check_map" => {
            let (number, chip) = noise.pick(&crate::maps::CHIPS);
            Input::default().number("chip", number).lengths(&EIGHTS).map(&any_map(noise, chip))
        }
        "decode" => {
            let (dump, map) = esp32_board(noise, has(Underflow));
            at.dump(&dump).map(&map)
        }
        "sample" => {
            let (dump, map) = esp32_board(noise, has(Underflow));
            let input = Input::default().number("raw", noise.below(4096)).number("board", noise.below(2));
            input.number("last byte", 4 * unit + atten).dump(&dump).dump(&dump).lengths(&EIGHTS).map(&map)
        }
        "s2_reading_vlow" => at.number("version", 1u8).dump(&noise.dump()),
        "s2_reading_vhigh" => at.number("version", noise.within(1, 2)).dump(&noise.dump()),
        "s2_reading_vinit" => at.number("version", 2u8).dump(&noise.dump()),
        _ if call.starts_with("s2_") => {
            let (dump, map) = s2_board(noise, if has(Version) { 3 } else { 2 });
            at.dump(&dump).map(&map)
        }
        _ if call.starts_with("c6_") => {
            let minor = if has(Version) { 0 } else { noise.within(1, 255) };
            at.number("minor", minor).number("channel", noise.byte()).dump(&noise.dump()).map(&any_map(noise, MapChip::C6))
        }
        _ => {
            let input = Input::default().number("block", noise.below(11)).number("bit start", noise.below(200));
            input.number("bit count", noise.below(56)).number("bytes lent", 4u8).dump(&noise.dump()).lengths(&EIGHTS)
        }
    }
}

/// Makes a record of the map lie outside its block: by its start, or by a list that is too short for it. That one may be too short for
/// others too, which come after the first record.
fn misplace_record(noise: &mut Noise, input: &mut Input, k: usize) {
    let (_, map) = input.bytes.as_mut().expect("a map");
    let field = field_of(map, k);
    if k == 0 && noise.once_in(2) {
        let words = (field.bit_start + field.bit_count).div_ceil(32);
        let list = input.lengths.as_mut().expect("block lengths");
        list[usize::from(field.block)] = noise.below(words.into()) as u8;
    } else {
        map[RECORD * k + 3] = noise.pick(&[1, 255]);
    }
}

/// Spoils a record of the map. A count of 0 would bring one back into its block that a short list leaves outside.
fn spoil_record(noise: &mut Noise, input: &mut Input, faults: &[Fault], k: usize) {
    let has = |fault| faults.contains(&fault);
    if has(RecordPlace) {
        misplace_record(noise, input, k);
    }
    let Some((_, map)) = &mut input.bytes else { return };
    let record = &mut map[RECORD * k..][..RECORD];
    if has(RecordId) {
        record[0] = record[0].wrapping_add(noise.pick(&[1, 255]));
    }
    if has(RecordByte) {
        record[noise.within(5, 7) as usize] = noise.pick(&[1, 128, 255]);
    }
    if has(RecordBlock) {
        record[1] = noise.pick(&[11, 255]);
    }
    if has(RecordCount) {
        record[4] = if has(RecordPlace) { 255 } else { 0 };
    }
}

/// Spoils what is neither the board's nor a record's.
fn spoil(noise: &mut Noise, input: &mut Input, fault: Fault) {
    match fault {
        Board if input.has("last byte") && noise.once_in(2) => input.set("last byte", noise.pick(&[8, 255])),
        Board => input.set("board", noise.pick(&[2, 3, 255])),
        Block => input.set("block", noise.pick(&[11, 12, 255])),
        Place => input.set("bit start", noise.pick(&[256, 257, 65535])),
        Unit => {
            let (name, value) = noise.pick(&[("unit", 2), ("unit", 255), ("attenuation", 4), ("attenuation", 255)]);
            input.set(name, value);
        }
        Raw => input.set("raw", noise.pick(&[4096, 65535])),
        Dump => {
            let words = noise.pick(&[0, 87, 89]);
            input.dumps.iter_mut().for_each(|dump| dump.resize(words, 0));
        }
        Table => input.lengths.as_mut().expect("block lengths")[2] = noise.below(5) as u8,
        List => {
            let good = input.lent_lengths().try_into().expect("a good list");
            let bad = lengths::bad(good);
            input.lengths = Some(bad[noise.below(bad.len() as u32) as usize].clone());
        }
        Map => {
            let (_, map) = input.bytes.as_mut().expect("a map");
            let length = noise.pick(&[map.len() - 1, map.len() + 1, map.len() + RECORD]);
            map.resize(length, 0);
        }
        _ => (),
    }
}

/// The call's input with these faults. Records come before the map's length, and lengths that are too short before a bad list.
fn input_with(noise: &mut Noise, call: &str, faults: &[Fault]) -> Input {
    let mut input = on_board(noise, call, |fault| faults.contains(&fault));
    let records = (input.lent_bytes().len() / RECORD) as u32;
    let k = if records == 0 || noise.once_in(2) { 0 } else { noise.below(records) as usize };
    spoil_record(noise, &mut input, faults, k);
    let others = [Board, Dump, Block, Place, Unit, Raw, Table, List, Map].into_iter();
    others.filter(|fault| faults.contains(fault)).for_each(|fault| spoil(noise, &mut input, fault));
    input
}

/// The order, where the answers have it too.
fn held(tally: &Tally, call: &'static str, input: &Input, faults: &[Fault]) -> Compared {
    let number = faults.first().map_or(0, |fault| fault.number());
    if tally.last == number {
        return Ok(());
    }
    let (ours, wanted) = (format!("refusal {}", tally.last), format!("refusal {number}, by the first of {faults:?}"));
    Err(Box::new(Difference { call, input: input.clone(), ours, wanted }))
}

pub fn orders_of_refusals(library: &Library, tally: &mut Tally, noise: &mut Noise) -> Compared {
    for _ in 0..20 {
        for (call, order) in orders() {
            for choice in choices(order.len() as u32) {
                let faults: Vec<Fault> =
                    order.iter().copied().zip(choice).filter_map(|(fault, there)| there.then_some(fault)).collect();
                let input = input_with(noise, call, &faults);
                ask(library, tally, call, &input)?;
                held(tally, call, &input, &faults)?;
            }
        }
    }
    Ok(())
}
