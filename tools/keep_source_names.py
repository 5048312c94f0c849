#!/usr/bin/env python3
"""Gives names of src/ their own spelling in the goals and steps that proof files cite, as in is_sized for is-sized.

usage: python3 tools/keep_source_names.py      once, at the top, after tools/respell.py
"""

import os
import re
import sys

sys.dont_write_bytecode = True
from respell import files

FIXED = {"from-residual": "from_residual", "in-default": "in_default", "in-ok": "in_ok", "in-err": "in_err", "invariant-of": "invariant_of", "overflow-cast": "overflow_cast"}


def main():
    turned = dict(FIXED)
    for path in files(".rt"):
        for name in re.findall(r"[A-Za-z][A-Za-z0-9]*(?:_[A-Za-z0-9]+)+", open(path, encoding="utf-8").read()):
            turned[name.replace("_", "-")] = name
    whole = re.compile(r"(?<![A-Za-z0-9_])(?:" + "|".join(sorted(map(re.escape, turned), key=len, reverse=True)) + r")(?![A-Za-z0-9_])")

    def turn(name):
        return whole.sub(lambda m: turned[m.group(0)], name)

    for path in files(".antt"):
        if os.path.basename(path) not in ("Answers.antt", "Invariants.antt", "Proof.antt"):
            continue
        text = open(path, encoding="utf-8").read()
        goals = set(re.findall(r"goal\.([^\s(){};,.]+)", text))
        for m in re.finditer(r"\.(?:Goals|Given)\.\{([^}]*)\}", text):
            goals |= {g.strip() for g in m.group(1).split(",")}
        lines = []
        for line in text.split("\n"):
            if not line.startswith("use ") or ".Goals." in line or ".Given." in line:
                line = re.sub(r"(?<=\.)[a-z][A-Za-z0-9_]*(?:-[A-Za-z0-9_]+)+", lambda m: turn(m.group(0)), line)
                line = re.sub(r"(?<![^\s(){};,.\[|])[a-z][A-Za-z0-9_]*(?:-[A-Za-z0-9_]+)+", lambda m: turn(m.group(0)) if m.group(0) in goals else m.group(0), line)
            lines.append(line)
        new = "\n".join(lines)
        if new != text:
            with open(path, "w", encoding="utf-8") as f:
                f.write(new)
            print(path)


main()
