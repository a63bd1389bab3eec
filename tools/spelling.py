#!/usr/bin/env python3
"""Brings the names of definitions and lemmas to today's spelling: words in small letters joined by
underscores; a dash still joins the names that a lemma's name is made of.

    python3 tools/spelling.py        once, at the top of the repository

Turned are the names that specs/ and proofs/ declare, wherever specs, proofs, clauses, must-fail
edits and the documents cite them. A name of src/ is spelled so already and stays. What
capitals mean in a clause where the code declares a constant of the same name is the code's
constant, so a constant of specs/ that is more than one word is spelled in small letters; the
refusals keep their capitals, since no clause sees the code's by their bare names."""
import glob
import re

WORD = re.compile(r"[^\W_]['\w-]*", re.UNICODE)

# Not names of definitions: units, local names of two letters, a word of SVG.
LEFT = {"dB", "kHz", "eC", "rC", "hF", "cB", "viewBox"}

REFUSALS = {
    "SIZE-OR-RATE": "SIZE_OR_RATE",
    "VOICE-COUNT": "VOICE_COUNT",
    "TABLE-ENTRY": "TABLE_ENTRY",
    "LIST-VALUE": "LIST_VALUE",
}

# Where the plain rule would give a name that means something else already.
APART = {
    "binHz": "bin_hertz",
    "firstBin": "first_bin_of",
    "lastBin": "last_bin_of",
    "LAST-ENTRY": "last_place",
    "STRIPS": "strip_count",
    "TAU": "tau",
    "getD": "get_or",
    "recordVoices": "voices_of_record",
    "squareRoot": "square_root_of",
    "taken_out": "taken_out_lem",
}

# Definitions whose dashes join no names.
WHOLE = """highest-rate lowest-rate minus-two plus-zero with-sign with-one-more all-ask bottom-up
    top-down least-divisor louder-G one-hard-right with-G-raised with-hard-left with-hard-right
    A-by-hertz 330-hertz 440-hertz at-point broad-weight detail-weight five-eighths half-right
    in-tune least-ratio middle-weight minus-zero most-hertz most-ratio other-zeros""".split()

CONSTANT = re.compile(r"[A-Z][A-Z0-9]*(-[A-Z0-9]+)+")
CAMEL = re.compile(r"[a-z][a-z0-9']*[A-Z][A-Za-z0-9']*")


def snake(word):
    return re.sub(r"(?<=[a-z0-9])([A-Z])", r"_\1", word).lower()


def of_part(part):
    if part in APART:
        return APART[part]
    if CAMEL.fullmatch(part) and part not in LEFT:
        return snake(part)
    return part


def spelled(name):
    if name in REFUSALS:
        return REFUSALS[name]
    if name in APART:
        return APART[name]
    if name in WHOLE or CONSTANT.fullmatch(name):
        return name.replace("-", "_").lower()
    return "-".join(of_part(part) for part in name.split("-"))


def files(*patterns):
    return sorted(p for pattern in patterns for p in glob.glob(pattern, recursive=True))


def main():
    proofs = files("crates/**/*.antt")
    sources = files("crates/*/src/**/*.rt", "crates/*/must-fail/*.edit")
    pages = files("README.md", "docs/*.md")
    known = {}
    for path in proofs:
        with open(path, encoding="utf-8") as file:
            for name in WORD.findall(file.read()):
                if spelled(name) != name:
                    known[name] = spelled(name)

    def of_line(line, code):
        def one(match):
            name = match.group(0)
            # The code's constants of these names stay.
            if code and name in ("STRIPS", "TAU"):
                return name
            return known.get(name, name)

        return WORD.sub(one, line)

    def turned(path, text):
        if path.endswith(".md"):
            return re.sub(r"`[^`\n]*`", lambda quoted: of_line(quoted.group(0), False), text)
        of_code = path.endswith(".rt") or "\nfile: src/" in "\n" + text
        return "".join(
            of_line(line, of_code and not re.search(r"ghost use|requires|ensures", line))
            for line in text.splitlines(True)
        )

    for path in proofs + sources + pages:
        with open(path, encoding="utf-8") as file:
            text = file.read()
        new = turned(path, text)
        if new != text:
            with open(path, "w", encoding="utf-8") as file:
                file.write(new)


main()
