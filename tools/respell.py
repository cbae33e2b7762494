#!/usr/bin/env python3
"""Turns this repository's own definitions and lemmas to the spelling of today's Rattle, once, after the kit's script.

usage: python3 tools/respell.py      at the top of the repository

Words are in snake case: a dash in a name becomes an underscore. A fact keeps its capital and is in camel case. A lemma that is named
after its left side keeps the dash behind the outer call, as in length-pairs. Names that the code of src/ makes keep their spelling.
"""

import glob
import re

# the calls that lemmas of this repository are named after
CALLS = {
    "All", "append", "cond", "drop", "filter", "get_or", "length", "map", "set", "slice_index", "slice_index_or", "take",
}
# where the plain spelling falls together with another name
APART = {
    "count-in": "stated_count",
    "first-in": "stated_first",
    "offset-in": "stated_offset",
    "reading-in": "stated_reading",
    "interval-in": "node_interval",
    "parts-of": "node_parts",
    "one-report": "one_report_lem",
    "worked-cases": "worked_cases_lem",
}
TOKEN = re.compile(r"[\w'\-]+")
HEAD = re.compile(r"^\s*((?:(?:abbrev|unfoldable|pub|data|record|ruleset)\s+)*)([^\s(){}:,;]*[A-Za-z][^\s(){}:,;]*(?:\s+[^\s(){}:,;]+)*)\s*(?:\([^=]*\)\s*)?:(?:\s|$)")


def declared(text):
    """The names that stand before a colon at the head of a line, and the constructors of data."""
    names = set()
    for line in text.splitlines():
        if line.lstrip().startswith("--"):
            continue
        names |= set(re.findall(r"\bas ([\w'\-]+)\s*$", line))
        m = HEAD.match(line)
        if m:
            names |= set(m.group(2).split())
        m = re.match(r"^\s*\|?\s*(?:abbrev |unfoldable |pub |data |record |ruleset )*([\w'\-]+)\s*(?::|=|\(|\{)", line)
        if m and ("data" in line or "record" in line or "ruleset" in line):
            names.add(m.group(1))
    return names


def spelled(name):
    if name in APART:
        return APART[name]
    parts = name.split("-")
    if name[0].isupper() and parts[0] not in CALLS:
        return parts[0] + "".join(p[:1].upper() + p[1:] for p in parts[1:])
    if parts[0] in CALLS:
        return parts[0] + "-" + "_".join(parts[1:])
    return "_".join(parts)


def main():
    proofs = [f for f in glob.glob("crates/*/specs/**/*.antt", recursive=True) + glob.glob("crates/*/proofs/**/*.antt", recursive=True)]
    sources = glob.glob("crates/*/src/**/*.rt", recursive=True)
    edits = glob.glob("crates/*/must-fail/*.edit")
    names = set()
    for f in proofs:
        with open(f, encoding="utf-8") as h:
            text = h.read()
        answers = f.endswith(("Answers.antt", "Invariants.antt", "Choices.antt", "Proof.antt"))
        for name in declared(text):
            # the goals that a proof file answers are named by Rattle
            if "-" in name and re.fullmatch(r"[\w'\-]+", name) and not (answers and goal(text, name)):
                names.add(name)
    turned = {n: spelled(n) for n in names if spelled(n) != n}
    for f in proofs + sources + edits:
        with open(f, encoding="utf-8") as h:
            old = h.read()
        new = TOKEN.sub(lambda m: turned.get(m.group(0), m.group(0)), old)
        if new != old:
            with open(f, "w", encoding="utf-8") as h:
                h.write(new)
    for n in sorted(turned):
        print(n, turned[n])


def goal(text, name):
    """Whether a proof file states the name as a goal of Rattle's, `goal.name`."""
    return re.search(r"(?<![\w'\-])" + re.escape(name) + r"\s*:[^\n]*\b(?:goal|Goals|the-invariant|the_invariant)\b", text) is not None


if __name__ == "__main__":
    main()
