//! The header and `sys` declare what the Rattle source exports: every function with its parameters,
//! and every record with its fields, by name, type and order.

use std::collections::BTreeMap;
use std::fs;
use std::path::{Path, PathBuf};

/// Names with their types. The length of a slice may have any name: it is left empty.
type Named = Vec<(String, String)>;
/// Functions by name: parameters, and the return type.
type Functions = BTreeMap<String, (Named, String)>;

/// A Rattle type, as it is written in C and in Rust.
const TYPES: [(&str, &str, &str); 19] = [
    ("", "void", ""),
    ("bool", "bool", "bool"),
    ("f32", "float", "f32"),
    ("u8", "uint8_t", "u8"),
    ("u16", "uint16_t", "u16"),
    ("u32", "uint32_t", "u32"),
    ("u64", "uint64_t", "u64"),
    ("usize", "size_t", "usize"),
    ("&mut f32", "float *", "&mut f32"),
    ("&mut usize", "size_t *", "&mut usize"),
    ("&mut [f32]", "float *", "*mut f32"),
    ("&[f32]", "const float *", "*const f32"),
    ("&mut [u8]", "uint8_t *", "*mut u8"),
    ("&[u8]", "const uint8_t *", "*const u8"),
    (
        "&[VoiceRecord]",
        "const struct DovetableVoice *",
        "*const VoiceRecord",
    ),
    (
        "[u16; MOST_VOICES]",
        "uint16_t[DOVETABLE_MOST_VOICES]",
        "[u16; MOST_VOICES]",
    ),
    (
        "[VoiceRecord; MOST_VOICES]",
        "struct DovetableVoice[DOVETABLE_MOST_VOICES]",
        "[VoiceRecord; MOST_VOICES]",
    ),
    (
        "[usize; STRIPS]",
        "size_t[DOVETABLE_STRIPS]",
        "[usize; STRIPS]",
    ),
    (
        "[PlainScene; STRIPS]",
        "struct DovetableScene[DOVETABLE_STRIPS]",
        "[Scene; STRIPS]",
    ),
];

/// A Rattle record, as it is named in C and in Rust.
const RECORDS: [(&str, &str, &str); 11] = [
    ("VoiceRecord", "struct DovetableVoice", "VoiceRecord"),
    ("Settings", "struct DovetableSettings", "Settings"),
    ("PlainScene", "struct DovetableScene", "Scene"),
    ("PlainSceneRead", "struct DovetableSceneRead", "SceneRead"),
    ("Bank", "struct DovetableBank", "Bank"),
    ("PlainBanked", "struct DovetableBanked", "Banked"),
    ("Mixer", "struct DovetableMixer", "Mixer"),
    ("PlainFiled", "struct DovetableFiled", "Filed"),
    ("PlainTurned", "struct DovetableTurned", "Turned"),
    ("PlainServed", "struct DovetableServed", "Served"),
    ("StripScenes", "struct DovetableStripScenes", "StripScenes"),
];

#[derive(Clone, Copy, PartialEq)]
enum Language {
    C,
    Rust,
}

fn root() -> PathBuf {
    Path::new(env!("CARGO_MANIFEST_DIR")).join("../..")
}

fn read(file: &str) -> String {
    fs::read_to_string(root().join(file)).unwrap()
}

fn one_space(text: &str) -> String {
    text.split_whitespace().collect::<Vec<_>>().join(" ")
}

/// Without `//` comments.
fn code(text: &str) -> String {
    let kept = text.lines().map(|line| line.split("//").next().unwrap());
    kept.collect::<Vec<_>>().join("\n")
}

/// Without `/* */` comments.
fn c_code(text: &str) -> String {
    let mut parts = text.split("/*");
    let first = parts.next().unwrap().to_string();
    parts.fold(first, |kept, part| kept + part.split_once("*/").unwrap().1)
}

/// `name: type` for each part between commas.
fn colon_names(text: &str) -> Named {
    let parts = text
        .split(',')
        .map(one_space)
        .filter(|part| !part.is_empty());
    let pair = |part: String| {
        let (name, kind) = part.split_once(": ").unwrap();
        (name.trim_start_matches("pub ").into(), kind.into())
    };
    parts.map(pair).collect()
}

/// `type name` or `type name[length]` for each part; `void` stands for no parameters.
fn c_names<'a>(parts: impl Iterator<Item = &'a str>) -> Named {
    let pair = |part: String| {
        let (part, length) = part.split_at(part.find('[').unwrap_or(part.len()));
        let start = part.rfind([' ', '*']).unwrap() + 1;
        let kind = part[..start].trim_end();
        (part[start..].into(), format!("{kind}{length}"))
    };
    let parts = parts.map(one_space);
    let named = parts.filter(|part| !part.is_empty() && part != "void");
    named.map(pair).collect()
}

/// The text between a beginning and the next end.
fn between<'a>(text: &'a str, begin: &str, end: &str) -> &'a str {
    let after = text.split_once(begin).expect(begin).1;
    after.split_once(end).expect(end).0
}

fn crossing(named: &Named, language: Language) -> Named {
    let mut all = Named::new();
    for (name, kind) in named {
        all.push((name.clone(), written(kind, language)));
        if kind.starts_with('&') && kind.ends_with(']') {
            all.push((String::new(), written("usize", language)));
        }
    }
    all
}

fn written(kind: &str, language: Language) -> String {
    let found = TYPES.iter().chain(&RECORDS).find(|row| row.0 == kind);
    let &(_, c, rust) = found.unwrap_or_else(|| panic!("{kind} has no row"));
    String::from(if language == Language::C { c } else { rust })
}

/// The text of the files of a crate, without comments.
fn rattle(name: &str) -> String {
    let folder = root().join("crates").join(name).join("src");
    let files = fs::read_dir(folder)
        .unwrap()
        .map(|file| file.unwrap().path());
    let text: Vec<_> = files
        .map(|file| fs::read_to_string(file).unwrap())
        .collect();
    code(&text.concat())
}

/// What the Rattle source exports, as it is written in a language.
fn exported(language: Language) -> Functions {
    let text = rattle("spectral_dsp_c");
    let function = |part: &str| {
        let (name, rest) = part.split_once('(').unwrap();
        let (parameters, rest) = rest.split_once(')').unwrap();
        let back = rest
            .lines()
            .next()
            .unwrap()
            .trim()
            .trim_start_matches("-> ");
        let parameters = crossing(&colon_names(parameters), language);
        (name.to_string(), (parameters, written(back, language)))
    };
    text.split("pub extern \"C\" fn ")
        .skip(1)
        .map(function)
        .collect()
}

/// Removes the names of lengths, each of which follows a slice.
fn same_names(declared: &mut Functions, expected: &Functions) {
    for (name, (parameters, _)) in declared {
        let Some((others, _)) = expected.get(name) else {
            continue;
        };
        for (parameter, other) in parameters.iter_mut().zip(others) {
            if other.0.is_empty() {
                parameter.0.clear();
            }
        }
    }
}

fn in_header() -> Functions {
    let text = c_code(&read("include/dovetable.h"));
    let function = |part: &str| {
        let (head, parameters) = part.split_once('(')?;
        let named = c_names([head].into_iter());
        let (name, back) = named.into_iter().next()?;
        let parameters = c_names(parameters.trim_end_matches(')').split(','));
        name.starts_with("dovetable_")
            .then_some((name, (parameters, back)))
    };
    text.split(';').filter_map(function).collect()
}

fn in_sys() -> Functions {
    let text = code(&read("bindings/rust/src/sys.rs"));
    let (_, block) = text.split_once("unsafe extern \"C\" {").unwrap();
    let function = |part: &str| {
        let (name, rest) = part.split_once("fn ")?.1.split_once('(')?;
        let (parameters, back) = rest.split_once(')')?;
        let back = back.trim().trim_start_matches("-> ").to_string();
        Some((name.to_string(), (colon_names(parameters), back)))
    };
    block.split(';').filter_map(function).collect()
}

#[test]
fn every_function() {
    for (language, mut declared) in [(Language::C, in_header()), (Language::Rust, in_sys())] {
        let expected = exported(language);
        assert!(!expected.is_empty());
        same_names(&mut declared, &expected);
        assert_eq!(declared, expected);
    }
}

/// The crates that have the records, by the start of their names.
const HOMES: [&str; 4] = ["crossing", "mixer", "voice_bank", "voice_records"];

/// The text of these crates.
fn homes() -> String {
    let crates = fs::read_dir(root().join("crates")).unwrap();
    let names = crates.map(|one| one.unwrap().file_name().into_string().unwrap());
    let named = names.filter(|name| HOMES.iter().any(|home| name.starts_with(home)));
    named.map(|name| rattle(&name)).collect()
}

#[test]
fn every_record() {
    let (header, sys) = (
        c_code(&read("include/dovetable.h")),
        code(&read("bindings/rust/src/sys.rs")),
    );
    let rattle = homes();
    let fields =
        |text: &str, name| colon_names(between(text, &format!("pub struct {name} {{"), "}"));
    for (name, c_name, rust_name) in RECORDS {
        let exported = fields(&rattle, name);
        assert!(!exported.is_empty());
        let c_fields = between(&header, &format!("{c_name} {{"), "}");
        assert_eq!(
            c_names(c_fields.split(';')),
            crossing(&exported, Language::C)
        );
        assert_eq!(fields(&sys, rust_name), crossing(&exported, Language::Rust));
    }
}
