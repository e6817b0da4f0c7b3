//! The desk's cases: sets of the program's files, good and damaged, with all that it has to write on them.
use std::collections::BTreeSet;
use std::fs;
use std::path::Path;

use oracle::codes::{ATTENS, Codes};
use oracle::desk::{DUMP_FILE, output};
use oracle::dumps::{Builder, ONES, ZEROS};
use oracle::fields::{Field, field_of};
use oracle::lengths;
use oracle::maps::{any_map, of_length, spoil};
use oracle::noise::Noise;
use oracle::plain::{dump_and_map, record};
use oracle::rules::{EIGHTS, MapChip, RECORD, SAMPLE};

use crate::logs;

/// A file's bytes; none where it is missing.
type File = Option<Vec<u8>>;

/// The files of a case.
#[derive(Clone, Default)]
struct Case {
    field: File,
    reference: File,
    lengths: File,
    map: File,
    samples: File,
}

impl Case {
    /// All that the program writes.
    fn output(&self) -> String {
        let [field, reference, map, samples] =
            [&self.field, &self.reference, &self.map, &self.samples].map(|file| file.as_deref().unwrap_or_default());
        output(field, reference, self.lengths.as_deref(), map, samples)
    }

    /// The same with another log.
    fn on(&self, samples: Vec<u8>) -> Self {
        Self { samples: Some(samples), ..self.clone() }
    }

    /// The same with another map.
    fn mapped(&self, map: Vec<u8>) -> Self {
        Self { map: Some(map), ..self.clone() }
    }

    /// The same with block lengths.
    fn under(&self, lengths: impl Into<Vec<u8>>) -> Self {
        Self { lengths: Some(lengths.into()), ..self.clone() }
    }
}

fn dump_file(words: &[u32]) -> Vec<u8> {
    words.iter().flat_map(|word| word.to_le_bytes()).collect()
}

/// A dump of noise whose mapped fields hold the codes.
fn board(noise: &mut Noise, map: &[u8], codes: Codes) -> Vec<u8> {
    let mut dump = Builder::new(noise.dump());
    for (k, bits) in codes.bits().into_iter().enumerate() {
        dump.write(field_of(map, k), bits);
    }
    dump_file(&dump.dump)
}

/// A map with a word of block 0 for each field.
fn plain_map() -> Vec<u8> {
    dump_and_map(MapChip::Esp32, &[]).1
}

/// A map with its fields at the ends of blocks and across the edges of bytes and words.
fn scattered_map() -> Vec<u8> {
    let places = [(10, 251), (0, 255), (3, 29), (7, 249), (4, 90), (9, 247)];
    let rows = MapChip::Esp32.rows().into_iter().zip(places);
    let place = |block, bit_start, bit_count: u8| Field { block, bit_start, bit_count: bit_count.into() };
    rows.flat_map(|((id, _, count), (block, start))| record(id, place(block, start, count))).collect()
}

/// Two-point codes that are good at both units.
fn two_point(noise: &mut Noise) -> Codes {
    Codes::any(noise, 1).with(0, 0x05, 0x1F0).with(1, 0x7D, 0x00C)
}

/// A two-point board and a Vref board under a map, with the short log.
fn good(noise: &mut Noise, map: Vec<u8>) -> Case {
    let two_point = two_point(noise);
    let vref = Codes::any(noise, 0).with_vref(0x1B);
    let (field, reference) = (board(noise, &map, two_point), board(noise, &map, vref));
    let [field, reference, map, samples] = [field, reference, map, logs::probe()].map(Some);
    Case { field, reference, map, samples, lengths: None }
}

/// Document 01's example, whose output it gives.
fn example() -> Case {
    let zeros = dump_file(&ZEROS);
    let [field, reference, map, samples] = [zeros.clone(), zeros, plain_map(), logs::example()].map(Some);
    let case = Case { field, reference, map, samples, lengths: None };
    assert_eq!(case.output(), "0 F 0 142\n1 R 2880 2462\n2 F 4096 refused 8\n");
    case
}

/// The log of every change of key. A table that isn't refilled shows at every one: no two keys in turn have the same answer.
fn every_change(case: &Case) -> Case {
    let keys = logs::every_change();
    let before: Vec<u8> = keys[..1].iter().chain(&keys).copied().take(keys.len()).collect();
    let answers = |keys: &[u8]| -> Vec<String> {
        let text = case.on(logs::rising(keys, 2800)).output();
        text.lines().map(|line| line.rsplit(' ').next().expect("an answer").to_string()).collect()
    };
    for (i, (old, new)) in answers(&before).into_iter().zip(answers(&keys)).enumerate() {
        assert!(old != new || keys[i] == before[i], "sample {i} would be the same without a refill");
    }
    case.on(logs::rising(&keys, 2800))
}

/// Both boards at every count of the list, with every change of key, and with samples of bad boards.
fn good_cases(good: &Case) -> Vec<Case> {
    let swapped = Case { field: good.reference.clone(), reference: good.field.clone(), ..good.clone() };
    vec![
        good.clone(),
        good.on(logs::counts_by_key()),
        swapped.on(logs::keys_by_count()),
        good.on(logs::orders()),
        every_change(&swapped),
        good.on(logs::boards()),
        good.on(logs::between()),
    ]
}

/// At which attenuations a unit's codes are decoded, and not refused with 9.
fn decoded_at(codes: Codes, unit: u8) -> [bool; 4] {
    ATTENS.map(|atten| codes.decoded(unit, atten).is_ok())
}

/// Boards that are decoded at one unit only, and others at the ends of the rules.
fn code_cases(noise: &mut Noise, good: &Case, map: &[u8]) -> Vec<Case> {
    let codes = two_point(noise);
    let mut with = |codes: Codes| Some(board(noise, map, codes));
    // The last codes of unit 0 that are accepted at 0 dB; refused with 9 at unit 0 only, whatever the attenuation; at unit 1 only; one
    // code zero, so Vref.
    let [last, below_0, below_1] = [codes.with(0, 0x3F, 0x1BD), codes.with(0, 0x3F, 0x101), codes.with(1, 0x3F, 0x101)];
    assert_eq!([decoded_at(last, 0), decoded_at(below_0, 0), decoded_at(below_1, 1)], [[true; 4], [false; 4], [false; 4]]);
    let (accepted, refused_at_0, refused_at_1) = (with(last), with(below_0), with(below_1));
    let one_zero = with(codes.with(1, 0, 0x1FF));
    let ones = Some(dump_file(&ONES));
    let case = |field: &File, reference: &File| Case { field: field.clone(), reference: reference.clone(), ..good.clone() };
    vec![
        case(&accepted, &refused_at_0).on(logs::between()),
        case(&refused_at_1, &refused_at_0).on(logs::between()),
        case(&one_zero, &refused_at_1).on(logs::between()),
        case(&refused_at_0, &refused_at_1),
        case(&ones, &one_zero).on(logs::orders()),
        case(&refused_at_0, &None),
        case(&Some(Vec::new()), &refused_at_1),
    ]
}

/// Boards whose b is negative at some attenuations only: one that is refused at 0 dB of unit 0 and answered from 2.5 dB on, which is
/// document 02's, and one that is answered at 11 dB alone of unit 1. Attenuations, units and boards change from sample to sample.
fn attenuation_cases(noise: &mut Noise, good: &Case, map: &[u8]) -> Vec<Case> {
    let codes = two_point(noise);
    let mut with = |codes: Codes| Some(board(noise, map, codes));
    let (from_2_5_db, at_11_db) = (codes.with(0, 0x3F, 0x1BC), codes.with(1, 0x3F, 0x180));
    assert_eq!(decoded_at(from_2_5_db, 0), [false, true, true, true]);
    assert_eq!(decoded_at(at_11_db, 1), [false, false, false, true]);
    let both = with(from_2_5_db.with(1, 0x3F, 0x180));
    let (refused_at_0_db, answered_at_11_db) = (with(from_2_5_db), with(at_11_db));
    let case = |field: &File, reference: &File| Case { field: field.clone(), reference: reference.clone(), ..good.clone() };
    vec![
        case(&refused_at_0_db, &answered_at_11_db).on(logs::attenuations()),
        case(&answered_at_11_db, &refused_at_0_db).on(logs::between()),
        case(&both, &both).on(logs::orders()),
        case(&both, &None).on(logs::counts_by_key()),
    ]
}

/// A file at other lengths, and missing.
fn cut(file: &File, lengths: &[usize]) -> Vec<File> {
    let whole = file.as_ref().expect("a file");
    let lengths = lengths.iter().map(|length| Some(of_length(whole.clone(), *length)));
    lengths.chain([None]).collect()
}

/// Each dump at other lengths and missing, alone and with other faults, which its number comes before or after.
fn dump_cases(good: &Case) -> Vec<Case> {
    let lengths = [DUMP_FILE - 1, DUMP_FILE + 1, 0, 348, 356, 2 * DUMP_FILE];
    let mut cases = Vec::new();
    for field in cut(&good.field, &lengths) {
        cases.push(Case { field, ..good.clone() });
    }
    for reference in cut(&good.reference, &lengths) {
        cases.push(Case { reference, ..good.clone() });
    }
    cases.push(Case { field: None, reference: None, ..good.clone() });
    cases.push(Case { field: None, ..good.on(logs::between()) });
    cases.push(Case { field: None, map: None, ..good.clone() });
    cases.push(Case { reference: Some(Vec::new()), ..good.mapped(changed(&[(5, 0, 7)])) });
    cases.push(Case::default());
    cases
}

/// The plain map with the given bytes: its record, the place in it, and the byte.
fn changed(bytes: &[(usize, usize, u8)]) -> Vec<u8> {
    let mut map = plain_map();
    bytes.iter().for_each(|(k, at, byte)| map[RECORD * k + at] = *byte);
    map
}

/// The map at other lengths and missing, with one fault in its first record, a middle one or its last, with faults whose order
/// matters, and beside codes that underflow.
fn map_cases(noise: &mut Noise, good: &Case) -> Vec<Case> {
    let mut maps = cut(&good.map, &[47, 49, 0, 8, 40, 56, 96]);
    maps.extend([MapChip::S2, MapChip::C6].map(|chip| Some(any_map(noise, chip))));
    for (k, zero) in [(0, 5), (3, 6), (5, 7)] {
        let (id, count) = (k as u8 + 1, MapChip::Esp32.rows()[k].1);
        let id_and_zero = [(0, id + 1), (zero, 1)];
        let block_and_start = [(1, 11), (3, 1), (2, (257 - u16::from(count)) as u8)];
        let counts = [(4, count - 1), (4, count + 1)];
        for (at, byte) in id_and_zero.into_iter().chain(block_and_start).chain(counts) {
            maps.push(Some(changed(&[(k, at, byte)])));
        }
    }
    // Within a record 18, 4, 5, 6; a record's fault before the next record's; the length before all.
    maps.push(Some(changed(&[(1, 7, 9), (1, 1, 255), (1, 3, 2), (1, 4, 0)])));
    maps.push(Some(changed(&[(1, 1, 255), (1, 3, 2), (1, 4, 0)])));
    maps.push(Some(changed(&[(1, 3, 2), (1, 4, 0)])));
    maps.push(Some(changed(&[(2, 4, 8), (3, 0, 0)])));
    maps.push(Some(changed(&[(0, 2, 252), (4, 1, 11)])));
    maps.push(Some(of_length(changed(&[(0, 0, 2)]), 47)));
    let mut cases: Vec<Case> = maps.into_iter().map(|map| Case { map, ..good.clone() }).collect();
    let underflow = two_point(noise).with(0, 0x3F, 0x101);
    let field = Some(board(noise, &plain_map(), underflow));
    cases.push(Case { field, ..good.mapped(changed(&[(5, 4, 8)])) });
    cases
}

/// Maps with each byte that should be zero and isn't, in the first record, a middle one and the last; with a wrong id beside one, which
/// comes before it; and in two records, of which the first is told.
fn stray_byte_cases(good: &Case) -> Vec<Case> {
    let mut maps = Vec::new();
    for k in [0, 3, 5] {
        maps.extend([5, 6, 7].map(|at| changed(&[(k, at, 128)])));
        maps.push(changed(&[(k, 0, 0), (k, 6, 1)]));
    }
    maps.push(changed(&[(2, 7, 1), (3, 0, 0)]));
    maps.push(changed(&[(2, 4, 0), (3, 5, 1)]));
    maps.into_iter().map(|map| good.mapped(map)).collect()
}

/// Logs that are missing or empty, with torn ends alone, after samples, after a refused one, and around the samples that are read
/// at once.
fn log_cases(noise: &mut Noise, good: &Case) -> Vec<Case> {
    let mut cases = vec![Case { samples: None, ..good.clone() }, good.on(Vec::new())];
    let three = logs::counts_by_key()[..3 * SAMPLE].to_vec();
    for bytes in 1..SAMPLE {
        cases.push(good.on(logs::torn(Vec::new(), bytes)));
        cases.push(good.on(logs::torn(three.clone(), bytes)));
        cases.push(good.on(logs::torn(logs::sample(0, 2, 0).to_vec(), bytes)));
    }
    cases.push(Case { field: None, reference: None, map: None, ..good.on(logs::torn(three, 3)) });
    cases.push(good.on(logs::one_block()));
    cases.push(good.on(logs::torn(logs::one_block(), 1)));
    cases.push(good.on(logs::torn(logs::past_one_block(noise), 3)));
    cases
}

/// Dumps and maps of noise, a map in three with a fault.
fn any_case(noise: &mut Noise) -> Case {
    let mut map = any_map(noise, MapChip::Esp32);
    if noise.once_in(3) {
        let k = noise.below(6) as usize;
        spoil(noise, &mut map[RECORD * k..][..RECORD]);
    }
    let [field, reference] = [noise.dump(), noise.dump()].map(|dump| Some(dump_file(&dump)));
    Case { field, reference, map: Some(map), samples: Some(logs::any(noise)), lengths: None }
}

/// Good lists: all eights, the least lengths that the map fits, with logs whose key changes. Then each record of a map outside its
/// block's own length, a block of no words, and a last record whose field would need a word more.
fn good_lists(plain: &Case, scattered: &Case) -> Vec<Case> {
    let mut cases = vec![plain.under(EIGHTS), scattered.under(EIGHTS).on(logs::orders())];
    cases.push(plain.under(lengths::least(&plain_map())));
    cases.push(plain.under(lengths::least(&plain_map())).on(logs::between()));
    cases.push(scattered.under(lengths::least(&scattered_map())).on(logs::orders()));
    cases.push(plain.under(lengths::outside(&plain_map(), 0)));
    cases.push(plain.under(lengths::with(EIGHTS, 0, 0)));
    cases.push(plain.under(lengths::with(EIGHTS, 1, 0)));
    cases.extend((0..6).map(|k| scattered.under(lengths::outside(&scattered_map(), k))));
    cases.extend([7, 6].map(|words| plain.under(lengths::with(EIGHTS, 0, words)).mapped(changed(&[(5, 2, 192)]))));
    cases
}

/// Bad lists: of every kind; with samples that name no board; the list and the map in each other's files; the map's in both, and the list's.
fn bad_lists(plain: &Case) -> Vec<Case> {
    let mut lists: Vec<Vec<u8>> = lengths::bad(EIGHTS);
    lists.extend([24, DUMP_FILE].map(|bytes| vec![8; bytes]));
    lists.push(vec![0; 12]);
    let mut cases: Vec<Case> = lists.into_iter().map(|list| plain.under(list)).collect();
    cases.push(plain.under([]).on(logs::boards()));
    cases.push(plain.under(plain_map()).mapped(EIGHTS.into()));
    cases.push(plain.under(plain_map()));
    cases.push(plain.under(EIGHTS).mapped(EIGHTS.into()));
    cases
}

/// Lists, good ones, short ones and bad ones, beside other faults, which 20 comes before or after: of dumps, of maps and their records,
/// of boards that are refused with 9; with no other file.
fn lists_with_faults(noise: &mut Noise, plain: &Case) -> Vec<Case> {
    let underflow = two_point(noise).with(0, 0x3F, 0x101);
    let refused_at_0 = Some(board(noise, &plain_map(), underflow));
    let least = lengths::least(&plain_map());
    let mut cases = Vec::new();
    for list in [least.to_vec(), lengths::outside(&plain_map(), 0).to_vec(), lengths::with(least, 10, 9).to_vec()] {
        let plain = plain.under(list);
        cases.push(Case { field: None, ..plain.clone() });
        cases.push(Case { reference: Some(vec![0; DUMP_FILE - 1]), ..plain.clone() });
        cases.push(Case { map: None, ..plain.clone() });
        cases.push(Case { field: refused_at_0.clone(), ..plain.on(logs::between()) });
        for changes in [(0, 0, 9), (4, 5, 1), (2, 1, 11), (3, 1, 1), (5, 4, 8)] {
            cases.push(plain.mapped(changed(&[changes])));
        }
        cases.push(plain.mapped(of_length(plain_map(), 47)));
        cases.push(Case { samples: plain.samples.clone(), lengths: plain.lengths.clone(), ..Case::default() });
        cases.push(Case { lengths: plain.lengths, ..Case::default() });
    }
    cases
}

/// Noise, under any lengths and under the least that the map fits.
fn any_lists(noise: &mut Noise) -> Vec<Case> {
    let mut cases = Vec::new();
    for _ in 0..4 {
        let map = any_map(noise, MapChip::Esp32);
        let case = any_case(noise).mapped(map.clone());
        cases.extend([lengths::any(noise), lengths::least(&map)].map(|list| case.under(list)));
    }
    cases
}

/// The cases that have a file of block lengths.
fn with_lengths(plain: &Case, scattered: &Case) -> Vec<Case> {
    let noise = &mut Noise::new(13);
    let mut cases = good_lists(plain, scattered);
    cases.extend(bad_lists(plain));
    cases.extend(lists_with_faults(noise, plain));
    cases.extend(any_lists(noise));
    cases
}

/// The cases without block lengths, and those with them.
fn cases() -> [Vec<Case>; 2] {
    let noise = &mut Noise::new(12);
    let plain = good(noise, plain_map());
    let scattered = good(noise, scattered_map());
    let mut cases = vec![example()];
    cases.extend(good_cases(&plain));
    cases.extend(good_cases(&scattered));
    cases.extend(code_cases(noise, &plain, &plain_map()));
    cases.extend(dump_cases(&plain));
    cases.extend(map_cases(noise, &plain));
    cases.extend(log_cases(noise, &plain));
    cases.extend((0..8).map(|_| any_case(noise)));
    cases.extend(attenuation_cases(noise, &plain, &plain_map()));
    cases.extend(stray_byte_cases(&plain));
    [cases, with_lengths(&plain, &scattered)]
}

/// The refusals that some line has.
fn refusals(text: &str) -> BTreeSet<u8> {
    let numbers = text.lines().filter_map(|line| line.split_once("refused "));
    numbers.map(|(_, number)| number.parse().expect("a number")).collect()
}

/// The files of one kind, each once, in the order in which cases first have them.
struct Kind {
    letter: char,
    files: Vec<Vec<u8>>,
}

impl Kind {
    /// The number that no file has.
    const MISSING: u8 = 255;

    fn new(letter: char) -> Self {
        Self { letter, files: Vec::new() }
    }

    fn number(&mut self, file: &File) -> u8 {
        let Some(file) = file else { return Self::MISSING };
        let known = self.files.iter().position(|other| other == file);
        let number = known.unwrap_or_else(|| {
            self.files.push(file.clone());
            self.files.len() - 1
        });
        assert!(number < Self::MISSING.into(), "too many files");
        number as u8
    }

    /// Writes the files and gives their size.
    fn save(self, folder: &Path) -> usize {
        for (number, file) in self.files.iter().enumerate() {
            fs::write(folder.join(format!("{}{number:03}", self.letter)), file).expect("a file");
        }
        self.files.iter().map(Vec::len).sum()
    }
}

/// The files of all cases by their kinds.
struct Kinds {
    dumps: Kind,
    maps: Kind,
    logs: Kind,
    lengths: Kind,
}

impl Kinds {
    fn new() -> Self {
        Self { dumps: Kind::new('d'), maps: Kind::new('m'), logs: Kind::new('s'), lengths: Kind::new('l') }
    }

    /// The numbers of a case's files; a file of block lengths is the last.
    fn numbers(&mut self, case: &Case) -> [u8; 5] {
        let Self { dumps, maps, logs, lengths } = self;
        let boards = [&case.field, &case.reference].map(|file| dumps.number(file));
        [boards[0], boards[1], maps.number(&case.map), logs.number(&case.samples), lengths.number(&case.lengths)]
    }

    /// How many files there are of each kind.
    fn counts(&self) -> [usize; 4] {
        [&self.dumps, &self.maps, &self.logs, &self.lengths].map(|kind| kind.files.len())
    }

    /// Writes all files and gives their size.
    fn save(self, folder: &Path) -> usize {
        [self.dumps, self.maps, self.logs, self.lengths].into_iter().map(|kind| kind.save(folder)).sum()
    }
}

/// Writes crates/desk_cases/data and crates/desk_cases/stdout, and gives the size of the data.
pub fn save(root: &str) -> usize {
    let (mut kinds, mut stdout) = (Kinds::new(), String::new());
    let [without, with] = cases();
    // A case without block lengths has no number for them.
    let numbers: Vec<u8> = without.iter().flat_map(|case| kinds.numbers(case)[..4].to_vec()).collect();
    let with_lengths: Vec<u8> = with.iter().flat_map(|case| kinds.numbers(case)).collect();
    for (number, case) in without.iter().chain(&with).enumerate() {
        stdout += &format!("case {number}\n{}", case.output());
    }
    // 7 needs a last byte above 7, which is 15; 10 to 14 belong to other calls.
    assert_eq!(refusals(&stdout), BTreeSet::from([1, 2, 3, 4, 5, 6, 8, 9, 15, 16, 18, 20]));
    let program = Path::new(root).join("crates").join("desk_cases");
    let data = program.join("data");
    let _ = fs::remove_dir_all(&data);
    fs::create_dir_all(&data).expect("a folder");
    fs::write(data.join("cases"), &numbers).expect("the cases");
    fs::write(data.join("lengths_cases"), &with_lengths).expect("the cases");
    fs::write(program.join("stdout"), &stdout).expect("the output");
    let (cases, counts) = ([without.len(), with.len()], kinds.counts());
    println!("desk_cases: {cases:?} cases, {counts:?} dumps, maps, logs and lists, {} bytes of output", stdout.len());
    numbers.len() + with_lengths.len() + kinds.save(&data)
}
