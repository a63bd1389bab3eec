#!/usr/bin/env python3
"""Counts the places in crates/*/src that docs/DESIGN-PASS.md speaks of, point by point.

    python3 tools/places.py [-v]        at the top of the repository; -v names each place
"""
import glob
import re
import sys

FUNCTION = re.compile(r"\bfn (\w+)(?:<[^(]*>)?\(([^)]*)\)(?: -> ([^\n{]*))?")


def sources():
    for path in sorted(glob.glob("crates/*/src/*.rt")):
        with open(path) as file:
            yield path, file.read()


def lines(pattern, only=""):
    """The lines of src/ that match, each with its place."""
    found = []
    for path, text in sources():
        if only in path:
            for number, line in enumerate(text.split("\n"), 1):
                if re.search(pattern, line) and not line.lstrip().startswith("//"):
                    found.append(f"{path}:{number} {line.strip()}")
    return found


def functions(holds):
    """The functions of whose name, parameters and result something holds."""
    found = []
    for path, text in sources():
        for name, parameters, result in FUNCTION.findall(text):
            given = [p.strip() for p in parameters.split(",") if p.strip()]
            if holds(name, given, result or ""):
                found.append(f"{path} {name}")
    return found


def beside(given):
    names = [p.split(":")[0] for p in given]
    return "count" in names and any("[" in p for p in given)


POINTS = [
    ("1 own enums with a case Refused or Nobody", lines(r"^    (Refused\(|Nobody\b)")),
    ("1 an answer or a flag beside a value, in a struct", lines(r"^ +pub (outcome|named|number): ")),
    ("1 a flag beside the slice that it speaks of", lines(r"\btabled: bool")),
    ("1 refusals and kinds by number", lines(r"^pub const [A-Z_]+: u8 = ", "answer")
     + lines(r"^pub const [A-Z_]+_FORM: u8")),
    ("1 searches that answer a length for none", functions(
        lambda name, given, result: re.match(r"(first|search|place_in)", name) is not None
        and result.strip() == "usize")),
    ("3 loops by while or loop", lines(r"^ *(while|loop)\b")),
    ("3 loops by for", lines(r"^ *for \w.* in ")),
    ("4 tests joined by a function or a branch", lines(r"\bboth\(|\{ false \}|^ +false$")),
    ("4 conversions by a function of their own", functions(
        lambda name, given, result: name in {
            "voice_of", "plain_voice", "voices_of", "plain_voices", "gather", "motion_of",
            "config_of", "plain_settings", "scene_of", "plain_scene", "shape_of", "shape_number",
            "pitch_of", "form_of", "note_of", "number_of", "wide", "lesser", "greater",
            "copy", "fill", "fill_first"})),
    ("5 a clause that a table is the table", lines(
        r"\.now ≡ (power_table|sine_table|gaussian_table|partial_octaves)")),
    ("5 functions of eight or more parameters", functions(lambda n, given, r: len(given) >= 8)),
    ("6 functions of a slice or an array and a count beside it", functions(
        lambda n, given, r: beside(given))),
    ("7 matches on which function or call", lines(r"^ *(Function|Calls|Voices)::\w+ => ")),
]


def proofs():
    total = 0
    for path in glob.glob("crates/*/proofs/**/*.antt", recursive=True):
        with open(path) as file:
            total += file.read().count("\n")
    return total


if __name__ == "__main__":
    for title, places in POINTS:
        print(f"{len(places):5} {title}")
        if "-v" in sys.argv[1:]:
            for place in places:
                print("     ", place)
    print(f"{proofs():5} 8 lines of proofs")
