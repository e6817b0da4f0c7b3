//! Nothing of include/suongkivat.h is forgotten or declared otherwise: the header's text, written as Rust, is the text of raw.rs; its
//! numbers and words are the crate's.
use crate::{
    Chip, Reason, Source, BLOCKS, C6_MAP_BYTES, COUNTS, DUMP_WORDS, EIGHTS, ESP32_MAP_BYTES, S2_MAP_BYTES, SAMPLE_BYTES,
    VERSION,
};

const HEADER: &str = include_str!("../../../../include/suongkivat.h");
const RULES: &str = include_str!("../../../../docs/RULES.md");
const RAW: &str = include_str!("../raw.rs");
const CARGO: &str = include_str!("../../Cargo.toml");

/// A text with single spaces and without C's comments.
fn plain(text: &str) -> String {
    let parts = text.split("/*").enumerate();
    let code: Vec<&str> = parts.map(|(k, part)| if k == 0 { part } else { part.split_once("*/").expect("closed").1 }).collect();
    code.join(" ").split_whitespace().collect::<Vec<_>>().join(" ")
}

/// What stands between two words, each time that both are there.
fn between<'a>(text: &'a str, first: &str, last: &str) -> Vec<&'a str> {
    text.split(first).skip(1).map(|rest| rest.split_once(last).unwrap_or_else(|| panic!("{last} after {first}")).0).collect()
}

/// `const uint8_t *map` as `map: *const u8`.
fn declared(parameter: &str) -> String {
    let (kind, name) = parameter.trim().rsplit_once(' ').expect("a type and a name");
    let rust = match kind.trim_start_matches("const ") {
        "uint8_t" => "u8",
        "uint16_t" => "u16",
        "uint32_t" => "u32",
        "int32_t" => "i32",
        "size_t" => "usize",
        other => other,
    };
    let pointer = match (name.starts_with('*'), kind.starts_with("const ")) {
        (true, true) => "*const ",
        (true, false) => "*mut ",
        _ => "",
    };
    format!("{}: {pointer}{rust}", name.trim_start_matches('*'))
}

fn listed(parameters: &str, end: char) -> String {
    parameters.split(end).filter(|parameter| !parameter.trim().is_empty()).map(declared).collect::<Vec<_>>().join(", ")
}

/// The header's calls as raw.rs declares them.
fn header_calls(header: &str) -> Vec<String> {
    let header = plain(header);
    let calls = header.split(';').filter(|part| part.contains(" skv_"));
    calls
        .map(|call| {
            let (before, parameters) = call.trim_end().strip_suffix(')').and_then(|call| call.split_once('(')).expect("a call");
            let mut words = before.rsplitn(3, ' ');
            let (name, answer) = (words.next().expect("a name"), words.next().expect("an answer"));
            format!("fn {name}({}) -> {}", listed(parameters, ','), answer.replace("uint8_t", "u8"))
        })
        .collect()
}

fn raw_calls() -> Vec<String> {
    let raw = plain(RAW);
    let calls = between(&raw, "extern \"C\" {", " }")[0];
    calls.split(';').map(|call| call.trim().to_string()).filter(|call| !call.is_empty()).collect()
}

/// The header's structs as rows of raw.rs, without sizes and places.
fn header_structs(header: &str) -> Vec<String> {
    let header = plain(header);
    let row = |part: &str| {
        let (name, fields) = part.split_once(" {").expect("a struct");
        format!("{name} {{ {} }}", listed(fields, ';'))
    };
    let mut rows: Vec<_> = between(&header, "typedef struct ", "}").into_iter().map(row).collect();
    rows.sort();
    rows
}

fn raw_structs() -> Vec<String> {
    let lines = RAW.lines().map(str::trim).filter(|line| line.starts_with("Skv") && line.ends_with('}'));
    let row = |line: &str| {
        let (name, fields) = line.split_once(" = ").expect("a size");
        let (_, fields) = fields.trim_end_matches(" }").split_once(" { ").expect("fields");
        let fields = fields.split(", ").map(|field| field.split(" = ").next().expect("a field").replace(" as 0", ""));
        format!("{name} {{ {} }}", fields.collect::<Vec<_>>().join(", "))
    };
    let mut rows: Vec<_> = lines.map(row).collect();
    rows.sort();
    rows
}

/// The lines `SKV_NAME = number, /* words */` of the header's enums.
fn enumerated(header: &str) -> Vec<(&str, usize, &str)> {
    let lines = header.lines().map(str::trim).filter(|line| line.starts_with("SKV_"));
    let parts = lines.map(|line| {
        let (name, rest) = line.split_once(" = ").expect("a number");
        let (number, words) = rest.split_once("/*").unwrap_or((rest, ""));
        (name, number.trim_matches([' ', ',']).parse().expect("a number"), words.trim_end_matches("*/").trim())
    });
    parts.collect()
}

/// `MapByte` as `SKV_MAP_BYTE`.
fn c_name(reason: Reason) -> String {
    let name = format!("{reason:?}");
    let parted = name.char_indices().map(|(k, c)| if k > 0 && c.is_uppercase() { format!("_{c}") } else { c.to_string() });
    format!("SKV_{}", parted.collect::<String>().to_uppercase())
}

/// The text of a link alone.
fn without_links(text: &str) -> String {
    let parts = text.split('[').enumerate();
    parts
        .map(|(k, part)| match part.split_once("](") {
            Some((words, rest)) if k > 0 => format!("{words}{}", rest.split_once(')').expect("closed").1),
            _ => part.to_string(),
        })
        .collect()
}

#[test]
fn every_call_is_declared_as_in_the_header() {
    assert_eq!(raw_calls(), header_calls(HEADER));
}

#[test]
fn every_struct_is_declared_as_in_the_header() {
    assert_eq!(raw_structs(), header_structs(HEADER));
}

/// What the two tests above rest on: a header with a call, a parameter or a field more, or another type, isn't that of raw.rs.
#[test]
fn another_header_shows() {
    let changed = |from: &str, to: &str| {
        assert_eq!(HEADER.matches(from).count(), 1, "{from}");
        HEADER.replace(from, to)
    };
    let more = changed("/* Maps. */", "uint8_t skv_new(uint8_t unit);");
    assert_eq!(header_calls(&more).len(), raw_calls().len() + 1);
    for (from, to) in [
        ("skv_check_map(uint8_t chip, ", "skv_check_map("),
        ("skv_check_record(SkvLineRecord record)", "skv_check_record(SkvSample record)"),
        ("uint8_t skv_c6_version", "uint16_t skv_c6_version"),
        ("const uint8_t *log", "uint8_t *log"),
    ] {
        assert_ne!(header_calls(&changed(from, to)), raw_calls(), "{from}");
    }
    for (from, to) in [
        ("int32_t value;\n} SkvReading", "uint32_t value;\n} SkvReading"),
        ("uint8_t source;", ""),
        ("uint8_t attenuation;\n    uint8_t source;", "uint8_t source;\n    uint8_t attenuation;"),
        ("uint8_t record;\n    uint8_t place;", "uint8_t place;\n    uint8_t record;"),
        ("uint16_t mv;", "uint16_t v;"),
    ] {
        assert_ne!(header_structs(&changed(from, to)), raw_structs(), "{from}");
    }
}

#[test]
fn every_refusal_has_the_headers_number_name_and_words() {
    let first = enumerated(HEADER).iter().position(|(name, ..)| *name == "SKV_NONE").expect("the refusals");
    let after = enumerated(HEADER).iter().position(|(name, ..)| *name == "SKV_ESP32").expect("the chips");
    let ours: Vec<_> =
        Reason::ALL.iter().map(|reason| (c_name(*reason), usize::from(reason.number()), reason.words())).collect();
    let header: Vec<_> =
        enumerated(HEADER)[first + 1..after].iter().map(|(name, number, words)| (name.to_string(), *number, *words)).collect();
    assert_eq!(ours, header);
}

#[test]
fn what_to_do_is_what_the_rules_say() {
    for reason in Reason::ALL {
        let row = RULES.lines().find(|line| line.starts_with(&format!("| {} | `{}` |", reason.number(), c_name(*reason))));
        let cells: Vec<&str> = row.unwrap_or_else(|| panic!("no row of {reason}")).split('|').collect();
        let told = without_links(cells[4]);
        assert!(told.trim().starts_with(reason.advice()), "{reason}: {told}");
    }
}

#[test]
fn chips_sources_and_lengths_are_the_headers() {
    let mut ours: Vec<_> = Chip::ALL.iter().map(|(name, chip)| (format!("SKV_{name}"), usize::from(chip.0))).collect();
    let lengths = [
        ("SKV_DUMP_WORDS", DUMP_WORDS),
        ("SKV_BLOCKS", BLOCKS),
        ("SKV_ESP32_MAP_BYTES", ESP32_MAP_BYTES),
        ("SKV_S2_MAP_BYTES", S2_MAP_BYTES),
        ("SKV_C6_MAP_BYTES", C6_MAP_BYTES),
        ("SKV_SAMPLE_BYTES", SAMPLE_BYTES),
        ("SKV_COUNTS", COUNTS),
    ];
    ours.extend(lengths.map(|(name, length)| (name.to_string(), length)));
    let sources = [("SKV_TWO_POINT", Source::TWO_POINT), ("SKV_VREF", Source::VREF)];
    ours.extend(sources.map(|(name, source)| (name.to_string(), usize::from(source.0))));
    ours.sort();
    let refusals: Vec<_> = Reason::ALL.iter().map(|reason| c_name(*reason)).chain(["SKV_NONE".to_string()]).collect();
    let all = enumerated(HEADER).into_iter().map(|(name, number, _)| (name.to_string(), number));
    let mut header: Vec<_> = all.filter(|(name, _)| !refusals.contains(name)).collect();
    header.sort();
    assert_eq!(ours, header);
}

#[test]
fn eleven_eights_are_the_headers() {
    assert_eq!(between(HEADER, "#define SKV_EIGHTS {", "}"), [EIGHTS.map(|eight| eight.to_string()).join(", ")]);
}

#[test]
fn the_version_is_the_headers() {
    assert_eq!(between(HEADER, "#define SKV_VERSION \"", "\""), [VERSION]);
    assert_eq!(between(CARGO, "\nversion = \"", "\""), [format!("{VERSION}.0")]);
}
