//! Fields at 8, 16 and 32 bits and into bytes; the view of a block.
use oracle::fields::{Field, MOST_BYTES};
use oracle::noise::Noise;
use oracle::rules::{Answer, EIGHTS};
use oracle::{Dump, answers, dumps};

use crate::fuses::{Fuses, whole};
use crate::input::Input;
use crate::library::Library;
use crate::tally::{Compared, Lent, Tally, outcome, told};
use crate::told::{Refused, Told, View};

/// Every start and count up to the first past a block's end, and some far ones.
fn starts_and_counts() -> impl Iterator<Item = (u16, u16)> {
    let numbers = || (0..=257).chain([258, 511, 512, 32768, 65535]);
    numbers().flat_map(move |start| numbers().map(move |count| (start, count)))
}

/// Blocks 0 to 10, the first that there isn't, and the last number.
fn blocks() -> impl Iterator<Item = u8> {
    (0..=11).chain([255])
}

fn any_dumps(noise: &mut Noise) -> [Dump; 6] {
    [dumps::ZEROS, dumps::ONES, noise.dump(), noise.dump(), noise.dump(), noise.dump()]
}

/// Numbers of words that no dump has.
pub const NO_DUMP: [u8; 5] = [0, 1, 87, 89, dumps::MOST_WORDS];

fn input(fuses: Fuses, field: Field) -> Input {
    let input = Input::default().number("block", field.block).number("bit start", field.bit_start);
    input.number("bit count", field.bit_count).fuses(fuses)
}

/// The readings by width: the call's name, ours, and document 01's by the crate.
type Width = (&'static str, fn(&[u32], &[u8], Field) -> Told<u32>, fn(&[u32], &[u8], Field) -> Answer<u32>);

fn widths(library: &Library) -> [Width; 3] {
    use answers::{read_field_u8, read_field_u16, read_field_u32};
    [
        ("read_field_u8", library.read_field_u8, |dump, lengths, field| read_field_u8(dump, lengths, field).map(u32::from)),
        ("read_field_u16", library.read_field_u16, |dump, lengths, field| read_field_u16(dump, lengths, field).map(u32::from)),
        ("read_field_u32", library.read_field_u32, read_field_u32),
    ]
}

/// A field at every width.
pub fn read(library: &Library, tally: &mut Tally, fuses: Fuses, field: Field) -> Compared {
    let Fuses { dump, lengths } = fuses;
    widths(library).into_iter().try_for_each(|(call, ours, wanted)| {
        tally.same(call, || input(fuses, field), ours(dump, lengths, field), || told(wanted(dump, lengths, field)))
    })
}

pub fn fields(library: &Library, tally: &mut Tally, noise: &mut Noise) -> Compared {
    for dump in any_dumps(noise) {
        for block in blocks() {
            for (bit_start, bit_count) in starts_and_counts() {
                read(library, tally, whole(&dump), Field { block, bit_start, bit_count })?;
            }
        }
        for (words, block) in NO_DUMP.into_iter().flat_map(|words| [0, 10, 11].map(|block| (words, block))) {
            for (bit_start, bit_count) in [(0, 0), (0, 1), (255, 1), (255, 2), (256, 0)] {
                read(library, tally, whole(&dumps::lent(&dump, words)), Field { block, bit_start, bit_count })?;
            }
        }
    }
    Ok(())
}

/// What lent memory holds before a call.
const BEFORE: u8 = 0xA5;

/// Lends the first n of some more bytes, and compares them all after the call.
pub fn into_bytes(library: &Library, tally: &mut Tally, fuses: Fuses, field: Field, n: usize) -> Compared {
    let Fuses { dump, lengths } = fuses;
    let behind = 8;
    let mut bytes = vec![BEFORE; n + behind];
    let ours = (library.read_field_le)(dump, lengths, field, &mut bytes[..n]);
    let wanted = || {
        let answer = answers::read_field_le(dump, lengths, field, n);
        let mut after = vec![BEFORE; n + behind];
        answer.iter().for_each(|read| after[..n].copy_from_slice(read));
        Lent(outcome(&answer), after)
    };
    tally.same("read_field_le", || input(fuses, field).number("bytes lent", n as u64), Lent(ours, bytes), wanted)
}

pub fn bytes(library: &Library, tally: &mut Tally, noise: &mut Noise) -> Compared {
    for dump in any_dumps(noise) {
        for n in [0, 1, 2, 3, 4, 5, 8, 16, 31, 32, 33, MOST_BYTES] {
            for block in [0, 5, 10, 11] {
                for (bit_start, bit_count) in starts_and_counts() {
                    into_bytes(library, tally, whole(&dump), Field { block, bit_start, bit_count }, n)?;
                }
            }
            for words in NO_DUMP {
                let field = Field { block: 11, bit_start: 256, bit_count: 1 };
                into_bytes(library, tally, whole(&dumps::lent(&dump, words)), field, n)?;
            }
        }
    }
    Ok(())
}

/// A field dump, a reference dump, and how many words their blocks have.
pub type Boards<'a> = (&'a [u32], &'a [u32], &'a [u8]);

pub fn view(library: &Library, tally: &mut Tally, (field, reference, lengths): Boards, board: u8, block: u8) -> Compared {
    let input = || {
        let input = Input::default().number("board", board).number("block", block);
        input.dump(field).dump(reference).lengths(lengths)
    };
    let wanted = || {
        let answer = answers::view(field, reference, lengths, board, block);
        let refused = Refused::of(&answer);
        let answers::View { board, first, words } = answer.unwrap_or_default();
        View { refused, board, first: first as u32, words: words as u32 }
    };
    tally.same("view", input, (library.view)(field, reference, lengths, board, block), wanted)
}

/// Every board and block on dumps of any length.
pub fn views(library: &Library, tally: &mut Tally, noise: &mut Noise) -> Compared {
    let (field, reference) = (noise.dump(), noise.dump());
    for (field_words, reference_words) in [(88, 88), (87, 88), (88, 87), (0, 89), (dumps::MOST_WORDS, 0)] {
        let boards = [dumps::lent(&field, field_words), dumps::lent(&reference, reference_words)];
        for (board, block) in (0..=255).flat_map(|board| (0..=255).map(move |block| (board, block))) {
            view(library, tally, (&boards[0], &boards[1], &EIGHTS), board, block)?;
        }
    }
    Ok(())
}
