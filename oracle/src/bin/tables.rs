//! The port's tables of constants, made from their rules.
//!
//!     tables [CRATE ..]           print the tables of these crates, each below its file's name
//!     tables --check [CRATE ..]   exit 1 where a file holds something else
//!     tables --write [CRATE ..]   put the tables into their files
//!
//! Where no crate is named: all of them.

use oracle::port_tables::{Block, blocks};
use std::process::ExitCode;

fn print(block: &Block) -> bool {
    println!("{}:\n{}", block.file, block.text);
    true
}

fn read(block: &Block) -> String {
    std::fs::read_to_string(block.path()).unwrap_or_default()
}

fn check(block: &Block) -> bool {
    let good = block.stands_in(&read(block));
    let verdict = if good { "as its rule says" } else { "DIFFERS" };
    println!("{}: {verdict}", block.file);
    good
}

fn write(block: &Block) -> bool {
    let mut text = read(block);
    let Some(place) = block.place(&text) else {
        println!("{}: the table's first line is not there", block.file);
        return false;
    };
    text.replace_range(place, &block.text);
    std::fs::write(block.path(), text).expect("the file can be written");
    println!("{}: written", block.file);
    true
}

fn main() -> ExitCode {
    let words: Vec<String> = std::env::args().skip(1).collect();
    let words: Vec<&str> = words.iter().map(String::as_str).collect();
    let (act, names): (fn(&Block) -> bool, &[&str]) = match &words[..] {
        ["--check", names @ ..] => (check, names),
        ["--write", names @ ..] => (write, names),
        names => (print, names),
    };
    let blocks = blocks();
    let known = |name: &&str| blocks.iter().any(|block| block.name == *name);
    if !names.iter().all(known) {
        eprintln!("usage: tables [--check | --write] [CRATE ..]");
        return ExitCode::from(2);
    }
    let wanted = |block: &&Block| names.is_empty() || names.contains(&block.name);
    let done: Vec<bool> = blocks.iter().filter(wanted).map(act).collect();
    ExitCode::from(u8::from(done.contains(&false)))
}
