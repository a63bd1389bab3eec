//! The tables of constants that the port's files hold, made from their rules and laid out as they
//! stand there: in code as an array, in specs and proofs as a list, and one of them in rows too.

use crate::functions::{exp2, log2};
use crate::spectral_dsp::{
    DISPLAY_OCTAVES, MAX_PARTIALS, MIN_DISPLAY_FREQUENCY_HZ, MOTION_COMPENSATION_SAMPLES,
    MaskWorkspace,
};
use crate::tables::{HALF_ANGLE_COSINES, POWERS, SINES};
use std::ops::Range;
use std::path::{Path, PathBuf};

/// The longest line.
const COLUMNS: usize = 100;
/// The longest entry of an array that has several entries a line.
const SHORT: usize = 10;
/// The entries of a row of P, where it stands in rows.
const ROW: usize = 32;

enum Entries {
    Whole(Vec<u64>),
    Floats(Vec<f32>),
}

struct Table {
    /// The crate that has it.
    name: &'static str,
    /// The file with the array, and the line above its entries.
    array: [&'static str; 2],
    /// The file with the list, and the line above its entries.
    list: [&'static str; 2],
    entries: fn() -> Entries,
}

const TABLES: [Table; 6] = [
    Table {
        name: "power",
        array: ["src/table.rt", "const POWERS: [u32; (1 << HIGH_BITS) + 1] = ["],
        list: ["specs/Table.antt", "power_table ="],
        entries: || Entries::Whole(POWERS.to_vec()),
    },
    Table {
        name: "sine",
        array: ["src/table.rt", "const HALF_ANGLE_COSINES: [u32; 9] = ["],
        list: ["specs/Table.antt", "half_angle_cosines ="],
        entries: || Entries::Whole(HALF_ANGLE_COSINES.to_vec()),
    },
    Table {
        name: "sine",
        array: ["src/table.rt", "const SINES: [u32; 257] = ["],
        list: ["specs/Table.antt", "sine_table ="],
        entries: || Entries::Whole(SINES.to_vec()),
    },
    Table {
        name: "gaussian",
        array: ["src/lib.rt", "const GAUSSIANS: [f32; 1025] = ["],
        list: ["specs/Table.antt", "gaussian_bits ="],
        entries: || Entries::Floats(MaskWorkspace::default().gaussian.to_vec()),
    },
    Table {
        name: "lobes",
        array: ["src/octaves.rt", "const OCTAVES: [f32; 25] = ["],
        list: ["proofs/Logged.antt", "octave_bits ="],
        entries: partial_octaves,
    },
    Table {
        name: "motion_compensation",
        array: ["src/octaves.rt", "const OCTAVES: OctaveTable = ["],
        list: ["specs/Octaves.antt", "octave_bits ="],
        entries: sample_octaves,
    },
];

/// Entry n is log2(n), the octaves of partial n above the fundamental. There is no partial 0.
fn partial_octaves() -> Entries {
    Entries::Floats((0..=MAX_PARTIALS).map(|n| log2(n as f32)).collect())
}

/// The octaves of each sample of the moving field above the lowest frequency shown.
fn sample_octaves() -> Entries {
    let samples = MOTION_COMPENSATION_SAMPLES;
    let octaves = |index: usize| {
        let octave = (index as f32 + 0.5) / samples as f32 * DISPLAY_OCTAVES;
        let frequency = MIN_DISPLAY_FREQUENCY_HZ * exp2(octave);
        log2(frequency / MIN_DISPLAY_FREQUENCY_HZ)
    };
    Entries::Floats((0..samples).map(octaves).collect())
}

impl Entries {
    /// In code a float is the shortest decimal that gives it.
    fn in_code(&self) -> Vec<String> {
        match self {
            Self::Whole(entries) => entries.iter().map(u64::to_string).collect(),
            Self::Floats(entries) => entries.iter().map(|x| format!("{x:?}")).collect(),
        }
    }

    /// In specs and proofs a float is its bits.
    fn in_specs(&self) -> Vec<String> {
        let bits = |x: &f32| format!("0x{:08x}", x.to_bits());
        match self {
            Self::Whole(entries) => entries.iter().map(u64::to_string).collect(),
            Self::Floats(entries) => entries.iter().map(bits).collect(),
        }
    }
}

/// As many parts a line as fit.
fn filled(indent: &str, parts: impl Iterator<Item = String>) -> String {
    let mut lines = vec![String::from(indent)];
    for part in parts {
        let last = lines.last_mut().expect("there is a line");
        if last.chars().count() + part.chars().count() <= COLUMNS {
            last.push_str(&part);
        } else {
            lines.push(format!("{indent}{part}"));
        }
    }
    lines.join("\n") + "\n"
}

/// As `rt fmt` lays an array out: as many entries a line as fit where each is short, else one.
fn array_lines(entries: &[String]) -> String {
    if entries.iter().all(|entry| entry.len() <= SHORT) {
        return filled("   ", entries.iter().map(|entry| format!(" {entry},"))) + "];\n";
    }
    let lines = entries.iter().map(|entry| format!("    {entry},\n"));
    lines.collect::<String>() + "];\n"
}

fn list_lines(entries: &[String]) -> String {
    let parts = entries.iter().map(|entry| format!(" {entry} ∷"));
    filled("   ", parts.chain([String::from(" []")]))
}

/// Row after row of entries as the arms of a `match`, and the table's end in the last arm.
fn row_lines(entries: &[String]) -> String {
    let row = |(k, entries): (usize, &[String])| {
        let entries = entries.iter().map(|entry| format!(" {entry},"));
        let arguments = [String::from(" i,")].into_iter().chain(entries);
        let lines = filled("           ", arguments);
        format!("        {k} => of_row(\n{lines}        ),\n")
    };
    let (end, entries) = entries.split_last().expect("a table has an end");
    let rows: String = entries.chunks(ROW).enumerate().map(row).collect();
    format!("{rows}        _ => {end},\n    }}\n}}\n")
}

/// A table as one file of the port has it.
pub struct Block {
    /// The crate.
    pub name: &'static str,
    /// The file, from the repository's root.
    pub file: String,
    opening: &'static str,
    /// The lines of the table, the opening one first.
    pub text: String,
}

impl Block {
    fn new(name: &'static str, [file, opening]: [&'static str; 2], lines: String) -> Self {
        Self {
            name,
            file: format!("crates/{name}/{file}"),
            opening,
            text: format!("{opening}\n{lines}"),
        }
    }

    pub fn path(&self) -> PathBuf {
        let root = Path::new(env!("CARGO_MANIFEST_DIR")).join("..");
        root.join(&self.file)
    }

    /// Where a file's text has the table: from the opening line to the next empty line.
    pub fn place(&self, text: &str) -> Option<Range<usize>> {
        let start = text.find(&format!("\n{}", self.opening))? + 1;
        let length = text[start..].find("\n\n").map(|end| end + 1);
        Some(start..length.map_or(text.len(), |length| start + length))
    }

    /// Whether a file's text has the table, entry for entry.
    pub fn stands_in(&self, text: &str) -> bool {
        let place = self.place(text);
        place.is_some_and(|place| text[place] == self.text)
    }
}

/// Each table as its two files have it, and P in rows.
pub fn blocks() -> Vec<Block> {
    let in_rows = ["src/entries.rt", "    match j / 32 {"];
    let rows = row_lines(&Entries::Whole(POWERS.to_vec()).in_code());
    let mut blocks = vec![Block::new("single_power", in_rows, rows)];
    for table in &TABLES {
        let entries = (table.entries)();
        let array = array_lines(&entries.in_code());
        let list = list_lines(&entries.in_specs());
        blocks.push(Block::new(table.name, table.array, array));
        blocks.push(Block::new(table.name, table.list, list));
    }
    blocks
}
