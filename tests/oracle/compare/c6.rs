//! The C6: versions, codes, channels, millivolts.
use oracle::answers;
use oracle::maps::any_map;
use oracle::noise::Noise;
use oracle::plain::dump_and_map;
use oracle::rules::{MapChip, RECORD};

use crate::fuses::{Fuses, whole};
use crate::input::Input;
use crate::library::Library;
use crate::strewn::{good_units_and_attens, strewn};
use crate::tally::{Compared, Tally, told};

/// Minor versions: 0 has no calibration, 1 the first, all others the second.
const MINORS: [u8; 5] = [0, 1, 2, 3, 255];

/// Records of the map: the calibration codes' and the channels' first ones.
const FIRST_CAL: usize = 4;
const FIRST_CHANNEL: usize = 8;

/// A minor version or a channel, with a unit and an attenuation.
type At = (u8, (u8, u8));

fn input(fuses: Fuses, map: &[u8], (unit, atten): (u8, u8)) -> Input {
    Input::default().number("unit", unit).number("attenuation", atten).fuses(fuses).map(map)
}

pub fn version(library: &Library, tally: &mut Tally, minor: u8) -> Compared {
    let input = || Input::default().number("minor", minor);
    tally.same("c6_version", input, (library.c6_version)(minor), || answers::c6_version(minor))
}

pub fn cal_mv(library: &Library, tally: &mut Tally, (minor, (unit, atten)): At) -> Compared {
    let input = || Input::default().number("minor", minor).number("unit", unit).number("attenuation", atten);
    let wanted = || told(answers::c6_cal_mv(minor, unit, atten));
    tally.same("c6_cal_mv", input, (library.c6_cal_mv)(minor, unit, atten), wanted)
}

pub fn init_code(library: &Library, tally: &mut Tally, fuses: Fuses, map: &[u8], (minor, at): At) -> Compared {
    let Fuses { dump, lengths } = fuses;
    let ours = (library.c6_init_code)(dump, lengths, map, minor, at.0, at.1);
    let input = || input(fuses, map, at).number("minor", minor);
    tally.same("c6_init_code", input, ours, || told(answers::c6_init_code(dump, lengths, map, minor, at.0, at.1)))
}

pub fn cal_code(library: &Library, tally: &mut Tally, fuses: Fuses, map: &[u8], (minor, at): At) -> Compared {
    let Fuses { dump, lengths } = fuses;
    let ours = (library.c6_cal_code)(dump, lengths, map, minor, at.0, at.1);
    let input = || input(fuses, map, at).number("minor", minor);
    tally.same("c6_cal_code", input, ours, || told(answers::c6_cal_code(dump, lengths, map, minor, at.0, at.1)))
}

pub fn compensation(library: &Library, tally: &mut Tally, fuses: Fuses, map: &[u8], (channel, at): At) -> Compared {
    let Fuses { dump, lengths } = fuses;
    let ours = (library.c6_get_chan_compens)(dump, lengths, map, at.0, channel, at.1);
    let input = || input(fuses, map, at).number("channel", channel);
    let wanted = || told(answers::c6_chan_compens(dump, lengths, map, at.0, channel, at.1));
    tally.same("c6_get_chan_compens", input, ours, wanted)
}

/// Every call that a map's fields answer, by a minor version or of a channel.
pub fn calls(
    library: &Library,
    tally: &mut Tally,
    fuses: Fuses,
    map: &[u8],
    (minor, channel): (u8, u8),
    at: (u8, u8),
) -> Compared {
    init_code(library, tally, fuses, map, (minor, at))?;
    cal_code(library, tally, fuses, map, (minor, at))?;
    compensation(library, tally, fuses, map, (channel, at))
}

/// A minor version, and a channel.
pub fn any_minor_and_channel(noise: &mut Noise) -> (u8, u8) {
    (noise.pick(&MINORS), noise.byte())
}

/// Minor versions with good units and attenuations.
fn minors() -> impl Iterator<Item = At> {
    MINORS.into_iter().flat_map(|minor| good_units_and_attens().map(move |at| (minor, at)))
}

/// Every init code of every width, in the field of each attenuation.
fn init_codes(library: &Library, tally: &mut Tally) -> Compared {
    for (width, code) in (1..=15).flat_map(|width| (0..1 << width).map(move |code| (width, code))) {
        let (dump, mut map) = dump_and_map(MapChip::C6, &[code; 4]);
        (0..4).for_each(|k| map[RECORD * k + 4] = width);
        minors().try_for_each(|asked| init_code(library, tally, whole(&dump), &map, asked))?;
    }
    Ok(())
}

/// Every calibration code, and every channel code with every channel.
fn other_codes(library: &Library, tally: &mut Tally) -> Compared {
    for code in 0..1024 {
        let mut values = [0; 8];
        values[FIRST_CAL..].fill(code);
        let (dump, map) = dump_and_map(MapChip::C6, &values);
        minors().try_for_each(|asked| cal_code(library, tally, whole(&dump), &map, asked))?;
    }
    for (code, channel) in (0..16).flat_map(|code| (0..=255u8).map(move |channel| (code, channel))) {
        let mut values = [0; 15];
        values[FIRST_CHANNEL + usize::from(channel.min(6))] = code;
        let (dump, map) = dump_and_map(MapChip::C6, &values);
        good_units_and_attens().try_for_each(|at| compensation(library, tally, whole(&dump), &map, (channel, at)))?;
    }
    Ok(())
}

pub fn codes(library: &Library, tally: &mut Tally, noise: &mut Noise) -> Compared {
    init_codes(library, tally)?;
    other_codes(library, tally)?;
    for _ in 0..20_000 {
        let (dump, map) = (noise.dump(), any_map(noise, MapChip::C6));
        for asked in minors() {
            init_code(library, tally, whole(&dump), &map, asked)?;
            cal_code(library, tally, whole(&dump), &map, asked)?;
        }
        for channel in [0, 1, 2, 3, 4, 5, 6, 7, 255] {
            let at = (noise.below(2) as u8, noise.below(4) as u8);
            compensation(library, tally, whole(&dump), &map, (channel, at))?;
        }
    }
    Ok(())
}

/// Every minor version, with every unit and with attenuations past the last.
pub fn versions(library: &Library, tally: &mut Tally, _noise: &mut Noise) -> Compared {
    for minor in 0..=255 {
        version(library, tally, minor)?;
        let mut at = (0..=255).flat_map(|unit| (0..=8).chain([255]).map(move |atten| (unit, atten)));
        at.try_for_each(|at| cal_mv(library, tally, (minor, at)))?;
    }
    Ok(())
}

/// Any fields under any map, with faults.
pub fn refused(library: &Library, tally: &mut Tally, noise: &mut Noise) -> Compared {
    for _ in 0..400_000 {
        let dump = noise.dump();
        let strewn = strewn(noise, MapChip::C6, &dump);
        calls(library, tally, strewn.fuses(), &strewn.map, any_minor_and_channel(noise), strewn.at)?;
    }
    Ok(())
}
