//! README's two examples are lines of the programs that the tests run, in their order.

use std::fs;
use std::path::Path;

fn read(file: &str) -> String {
    let root = Path::new(env!("CARGO_MANIFEST_DIR")).join("../..");
    fs::read_to_string(root.join(file)).unwrap()
}

/// The lines of the README's block in a language.
fn block(language: &str) -> Vec<String> {
    let text = read("README.md");
    let after = text.split_once(&format!("```{language}\n")).unwrap().1;
    let lines = after.split_once("```").unwrap().0.lines();
    let lines = lines.map(|line| line.trim().to_string());
    lines.filter(|line| !line.is_empty()).collect()
}

fn is_taken_from(lines: &[String], program: &str, prefix: &str) {
    let text = read(program);
    let mut rest = text.lines().map(|line| {
        let line = line.trim();
        line.strip_prefix(prefix).unwrap_or(line).trim()
    });
    assert!(!lines.is_empty());
    for line in lines {
        assert!(rest.any(|other| other == line), "{program} lacks: {line}");
    }
}

#[test]
fn the_rust_example_is_the_doc_example() {
    is_taken_from(&block("rust"), "bindings/rust/src/lib.rs", "//!");
}

#[test]
fn the_c_example_is_the_c_program() {
    is_taken_from(&block("c"), "bindings/c/example.c", "");
}
