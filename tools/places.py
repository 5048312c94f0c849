#!/usr/bin/env python3
"""Counts the places in src/ where an older form of Rust stands, by the points of docs/DESIGN-PASS.md.

usage: python3 tools/places.py [--list] [FOLDER]      at the top; FOLDER is another checkout
"""

import glob
import os
import re
import sys

def functions(text):
    """Each function: its name, its signature with the clauses, and its body."""
    for m in re.finditer(r"^( *)(?:pub(?:\(crate\))? )?fn (\w+).*?^\1\{\n.*?^\1\}$|^( *)(?:pub(?:\(crate\))? )?fn (\w+)[^\n]*\{\n.*?^\3\}$", text, re.M | re.S):
        name = m.group(2) or m.group(4)
        whole = m.group(0)
        yield name, whole, text.count("\n", 0, m.start()) + 1


def found(pattern, text, flags=re.M):
    for m in re.finditer(pattern, text, flags):
        yield text.count("\n", 0, m.start()) + 1, m.group(0).strip().split("\n")[0]


def flags(text):
    for name, whole, line in functions(text):
        head = re.split(r"\n\s*(?:requires|ensures|\{)|\{\n", whole, maxsplit=1)[0]
        if "&mut" in head and re.search(r"-> bool\s*$", head.strip()):
            yield line, "fn " + name


def shapes(text):
    for m in re.finditer(r"enum (\w+)[^{]*\{(.*?)^\}", text, re.M | re.S):
        variants = re.findall(r"^    (\w+)", m.group(2), re.M)
        if len(variants) == 2 and re.search(r"^    \w+ ?[({]", m.group(2), re.M):
            yield text.count("\n", 0, m.start()) + 1, "enum " + m.group(1)


def returning_loops(text):
    for m in re.finditer(r"^( *)for [^\n]*\{\n(.*?)^\1\}$", text, re.M | re.S):
        if re.search(r"\breturn\b", m.group(2)):
            yield text.count("\n", 0, m.start()) + 1, m.group(0).split("\n")[0].strip()


def lines_of(pattern):
    return lambda text: found(pattern, text)


POINTS = [
    ("1 a call that changes something and answers with a flag", flags),
    ("1 an enum of two variants, one with values", shapes),
    ("1 a variant for the refusal beside the one for success", lines_of(r"^    No[A-Z]\w*.*$")),
    ("1 a number for a refusal in a field", lines_of(r"\brefusal: u8")),
    ("1 a constant number for a kind, a tag or a state", lines_of(r"^const [A-Z0-9_]+: u8 = \d+;")),
    ("1 a match arm or a test on the number of a tag", lines_of(r"^\s+\d+(?: \| \d+)* => (?:self|Said|\{)|\btag == \d+")),
    ("1 an answer taken apart where `?` or a method passes it on", lines_of(r"Err\((\w+)\) => (?:return )?Err\(\1\)|if let Err\(|else \{\s*return (?:None|Err\([\w:]+\));\s*\}|\b(?:Some|Ok)\(_\) => true|=> Ok\(\(\)\),\s*Err\(_\)|None => None,")),
    ("3 a loop over a range that is used as an index", lines_of(r"^\s*for [a-z]\w* in [^\n]*\.\.")),
    ("3 a while that counts by hand", lines_of(r"^\s*while (?!let)")),
    ("3 a while that draws from a cursor", lines_of(r"^\s*while let Some\(\w+\) = \w+\.(?:next|read)\(\)")),
    ("3 a loop that only looks for something, and returns from within", returning_loops),
    ("4 Clone, Copy, equality, order or printing by hand", lines_of(r"^impl.* (?:Clone|Copy|PartialEq|Eq|PartialOrd|Ord|Debug) for ")),
    ("4 a list or a constant made with a fill value in place of a default", lines_of(r"Bounded::new\((?!\))|^const NONE")),
    ("4 an enum turned into a number by a cast", lines_of(r"\b(?:kind|tag|Kind::\w+|Tag::\w+) as u8")),
    ("5 a bound on lent octets in a contract", lines_of(r"(?:64|512) ≤ length (?:work|octets|self\.bytes)\.")),
    ("5 a bound on entries, sets, rows or descriptors in a contract", lines_of(r"requires[^\n]*length (?:entries|sets|covers|rows|descriptors|places|holders)\.now (?:≤|≡)")),
    ("5 a shape of the board in a contract", lines_of(r"requires[^\n]*(?:Shaped board|Seatable|Vacatable|length (?:board|holder|seen)\.(?:now|old)|tall board)")),
    ("5 the judge and the table as two parameters of a function that is not public", lambda text: ((l, "fn " + n) for n, w, l in functions(text) if not re.match(r" *pub fn", w) and re.search(r"judge: &J,\s*table: &Table", w))),
    ("6 a room of fixed size with a part of it taken by length", lines_of(r"\[0\w*; \w+\];|&mut \w+\[0\.\.")),
    ("7 a parameter that says which of two steps to run", lines_of(r"\b(?:form: Form|part: Part|event: Event)\b")),
]


def main():
    args = [a for a in sys.argv[1:] if a != "--list"]
    top = args[0] if args else "."
    files = sorted(glob.glob(os.path.join(top, "crates/*/src/**/*.rt"), recursive=True))
    for title, places in POINTS:
        hits = []
        for path in files:
            text = open(path, encoding="utf-8").read()
            code = "\n".join(re.sub(r"//.*$", "", line) for line in text.split("\n"))
            hits += [(os.path.relpath(path, top), line, what) for line, what in places(code)]
        print(f"{len(hits):4}  {title}")
        if "--list" in sys.argv:
            for path, line, what in hits:
                print(f"          {path}:{line}  {what}")


if __name__ == "__main__":
    main()
