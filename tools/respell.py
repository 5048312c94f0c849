#!/usr/bin/env python3
"""Respells the repository's own definitions and lemmas: words in snake case, types and facts in camel case.

usage: python3 tools/respell.py      once, at the top, after the toolchain's own port.py

It goes by the names that are declared in specs/ and proofs/ (definitions, lemmas, constructors, fields), and leaves
the goals that Rattle names, the functions of src/, strings, inputs and outputs alone. A dash stays only between two
words for lists, as in length-keeping. It prints each name that it changed, and stops where two names would fall together.
"""

import os
import re
import sys

# Names that the rule alone would make fall together with another: with a type or a variant of src/, or with a word of std.
CHOSEN = {
    "Standard-judge": "StandardJudgeExamples",
    "Seating-examples": "SeatingExamples",
    "Session-examples": "SessionExamples",
    "Too-narrow": "IsTooNarrow",
    "Not-available": "IsNotAvailable",
    "Mode-unavailable": "IsModeUnavailable",
    "getD-paste-past": "get_or-paste_past",
    "bit-and": "bit_of_and",
    "bit-or": "bit_of_or",
    "areDefined": "all_defined",
    "openInRange": "is_open_in_range",
    "closeInRange": "is_close_in_range",
    "comingAll": "all_coming",
    "maskAt": "row_mask",
    "modeLine": "line_of_mode",
    "passAt": "passes_at",
    "mode-of": "mode_from",
    "set-of": "set_from",
    "number-at": "number_at_row",
}

# Names that fall together with a module or a function of src/ alone, which no file brings in beside them.
APART = {"One-answer", "One-mode", "block-refutes", "blocks-refute", "mode-unavailable", "not-available", "too-narrow", "one-cutting", "one-mode", "seat-of"}

# Words for lists: a dash after them joins two names.
HEADS = ("length", "map")

GOAL_FILES = ("Answers.antt", "Invariants.antt", "Choices.antt", "Proof.antt")
SIGNATURE = re.compile(r"^\s*(?:(?:abbrev|unfoldable|pub|data|record)\s+)*([^\s(){};,.λ]+)((?:\s*[({][^(){}]*(?:\([^()]*\)[^(){}]*)*[)}])*)\s*:(?=\s)")
INLINE = re.compile(r"[{;]\s*([^\s(){};,.λ]+)\s+:(?=\s)")
TOKEN = re.compile(r"[^\s(){};,.\"\[\]]+")


def files(ending):
    for folder, dirs, names in os.walk("crates"):
        dirs[:] = sorted(d for d in dirs if d != "out")
        for name in sorted(names):
            if name.endswith(ending):
                yield os.path.join(folder, name)


def words(name):
    for dashed in name.split("-"):
        for part in dashed.split("_"):
            yield from re.findall(r"[A-Z]+(?![a-z])|[A-Z][a-z0-9']*|[^A-Z]+", part)


def spelling(name):
    if name in CHOSEN:
        return CHOSEN[name]
    if name[0].isupper():
        return "".join(part[0].upper() + part[1:] for part in name.split("-"))
    head, dash, rest = name.partition("-")
    if dash and head in HEADS:
        return head + "-" + spelling(rest)
    parts, out = list(words(name)), []
    for part in parts:
        out.append(part.lower() if part[0].isupper() else part)
    return "_".join(out)


def declared():
    found = {}
    for path in files(".antt"):
        goals = os.path.basename(path) in GOAL_FILES
        for line in open(path, encoding="utf-8"):
            if line.lstrip().startswith(("--", "use ")):
                continue
            names = []
            m = SIGNATURE.match(line)
            if m and not (goals and re.search(r":\s+goal\.", line)):
                names.append(m.group(1))
            names += INLINE.findall(line)
            for name in names:
                if re.fullmatch(r"[A-Za-z][A-Za-z0-9_'-]*", name):
                    found.setdefault(name, path)
    return found


def tokens():
    seen = set()
    for ending in (".antt", ".rt"):
        for path in files(ending):
            for line in open(path, encoding="utf-8"):
                seen.update(TOKEN.findall(line))
    return seen


def main():
    found = declared()
    change = {n: spelling(n) for n in found if spelling(n) != n}
    seen, back = tokens(), {}
    together = []
    for old, new in sorted(change.items()):
        if (new in seen and old not in APART) or new in back:
            together.append(f"{old} and {back.get(new, new)} would both be {new} ({found[old]})")
        back[new] = old
    if together:
        print("\n".join(together), file=sys.stderr)
        return 1
    for path in list(files(".antt")) + list(files(".rt")):
        text = open(path, encoding="utf-8").read()
        lines = []
        for line in text.split("\n"):
            if line.lstrip().startswith(("--", "//")):
                lines.append(line)
                continue
            # strings keep what they say
            parts = line.split('"')
            for i in range(0, len(parts), 2):
                parts[i] = TOKEN.sub(lambda m: change.get(m.group(0), m.group(0)), parts[i])
            lines.append('"'.join(parts))
        new = "\n".join(lines)
        if new != text:
            with open(path, "w", encoding="utf-8") as f:
                f.write(new)
    for old, new in sorted(change.items()):
        print(f"{old} -> {new}")
    return 0


if __name__ == "__main__":
    sys.exit(main())
