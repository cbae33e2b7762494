#!/usr/bin/env python3
"""Counts the places in crates/*/src that read like an older Rattle, point by point.

    python3 tools/places.py [COMMIT]      counts and lists them, of a commit or of the tree as it stands

A match is a place to look at; docs/DESIGN-PASS.md says of each what became of it. Point 8, proofs, is counted in lines.
"""
import collections
import re
import subprocess
import sys

# What a line shows, point by point.
LINES = {
    "1 own shapes of Option and Result, flags, number codes": [
        r"^ +(TurnedDown \{|RuleAbsent,|Unreadable,|OutlookIn \{)",
        r"pub struct Checked\b",
        r"fn \w+\([^)]*&mut[^)]*\) -> bool",
        r"fn answer\(text: &\[u8\]\) -> u8",
        r"Refusal::RuleLength => \d",
        r"Err\(\w+\) => (Answer::TurnedDown|Err\()",
        r"Err\(_\) => \{$",
        r"else \{ None \}$",
    ],
    "4 equality, order, conversion and printing by hand": [
        r"fn of\(sign",
        r"fn (of_leaf|plain)\((leaf|sign)",
        r"fn number\(self\)",
        r"fn words?\(.*-> &'static str",
        r"fn write_number",
        r"\.shown\(\) == ",
        r"\(Doubt::No, (b|_)\) =>",
        r"Plain::(No|Yes) => other,$",
        r"value: self\.value\.(max|min)",
    ],
    "6 buffers with a length beside, arenas of numbers": [
        r"^ +len: usize,$",
        r"-> \[u64; \w+\]",
        r"^    pub count: usize,$",
        r"^pub enum (Node|NormalNode|Cell)\b",
    ],
    "7 switches on which step to run": [
        r"fn \w+\(\w*: bool",
        r", scale: &str",
    ],
}

# Loops: by hand where a number is counted, or where the counter of a `for` names an item.
COUNTED = [r"while \w+ [<>]=? ", r"^ +(\w+) = \1 && ", r"^ +(same|untouched) = false;", r"^ +count \+= 1;"]
FOR = re.compile(r"^( *)for (\w+) in (.+) \{$")

FUNCTION = re.compile(r"^\s*(?:pub(?:\(crate\))? )?(?:fn|struct|trait) (\w+)")
CLAUSE = re.compile(r"^\s*(?:requires|ensures)\s*\w*\s*\{ (.*) \}[,;]?\s*$")


def text_of(commit, path):
    if commit is None:
        return open(path).read()
    return subprocess.run(["git", "show", f"{commit}:{path}"], capture_output=True, text=True, check=True).stdout


def paths(commit, ending):
    tree = ["git", "ls-files", "crates"] if commit is None else ["git", "ls-tree", "-r", "--name-only", commit, "crates"]
    return sorted(p for p in subprocess.run(tree, capture_output=True, text=True, check=True).stdout.split() if p.endswith(ending))


def by_hand(lines, at):
    """Whether the loop at a line counts, or names items by its counter."""
    if any(re.search(p, lines[at]) for p in COUNTED):
        return True
    loop = FOR.match(lines[at])
    if not loop:
        return False
    indent, counter, over = loop.groups()
    body = []
    for line in lines[at + 1:]:
        if line == indent + "}":
            break
        body.append(line)
    inside = "\n".join(body)
    if ".." not in over:
        return "return false;" in inside
    if ".len()" in over:
        return True
    named = {counter} | set(re.findall(r"let (\w+) = " + counter + r" \+ 1;", inside))
    return any(re.search(r"\[[^\]]*\b" + n + r"\b", inside) for n in named) or f"let event = {counter} + 1;" in inside


def main():
    commit = sys.argv[1] if len(sys.argv) > 1 else None
    files = [(p, text_of(commit, p).split("\n")) for p in paths(commit, ".rt") if "/src/" in p]
    found = collections.defaultdict(list)
    for path, lines in files:
        for at, line in enumerate(lines):
            if line.lstrip().startswith("//"):
                continue
            place = f"  {path}:{at + 1}: {line.strip()[:100]}"
            for point, patterns in LINES.items():
                if any(re.search(p, line) for p in patterns):
                    found[point].append(place)
            if by_hand(lines, at):
                found["3 loops that count or index by hand"].append(place)

    names = collections.defaultdict(set)
    facts = collections.defaultdict(set)
    for path, lines in files:
        holder = "?"
        for line in lines:
            item = re.match(r"^(?:pub(?:\(crate\))? )?(?:fn|struct|enum) (\w+)", line)
            if item and item.group(1) != "main":
                names[item.group(1)].add(path)
            if FUNCTION.match(line):
                holder = FUNCTION.match(line).group(1)
            clause = CLAUSE.match(line)
            if clause:
                facts[clause.group(1)].add(f"{path}:{holder}")
    for name, where in sorted(names.items()):
        if len(where) > 1:
            found["2 functions and types of one name in two files"].append(f"  {name}: {' '.join(sorted(where))}")
    for fact, where in sorted(facts.items(), key=lambda x: -len(x[1])):
        if len(where) > 2:
            found["5 facts in three contracts and more"].append(f"  {len(where)}: {fact[:120]}")

    proofs = [p for p in paths(commit, ".antt") if "/proofs/" in p]
    lines = sum(text_of(commit, p).count("\n") for p in proofs)
    for point, places in sorted(found.items()):
        print(f"{point}: {len(places)}")
        print("\n".join(places))
    print(f"8 proofs: {len(proofs)} files, {lines} lines")


main()
