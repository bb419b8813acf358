#!/usr/bin/env python3
"""Writes crates/written_tests/src/cases.rt: written trees, with what they answer calculated here from the rules alone."""
import random
from pathlib import Path

from cases import evaluate, lawful, line

CASES = 12
DEPTH = 6


def word(kind, value):
    return kind * 2**28 + value


def written(tree):
    """The words of a tree."""
    if tree[0] == "line":
        return [word(1, tree[1])]
    words = [word({"sum": 2, "greater": 3, "root": 4}[tree[0]], len(tree[-1]))]
    if tree[0] == "root":
        words += [word(5, e) for e in tree[1]]
    for branch in tree[-1]:
        words += written(branch)
    return words


def lawful_entries(rnd, n):
    """One entry everywhere, which is lawful, and then some changed as far as the table stays lawful."""
    entries = [rnd.choice([0, 25, 50, 75, 100])] * (n * (n - 1) // 2)
    for _ in range(12 if entries else 0):
        tried = list(entries)
        tried[rnd.randrange(len(tried))] = rnd.randrange(101)
        if lawful(n, tried):
            entries = tried
    return entries


def grown(rnd, depth):
    if depth == DEPTH or rnd.random() < 0.2 * (depth - 1):
        return line(rnd.randrange(1, 30))
    kind = rnd.choice(["sum", "greater", "root", "root"])
    count = 2 if kind == "greater" else rnd.randrange(1, 9 if depth == 1 else 4)
    branches = [grown(rnd, depth + 1) for _ in range(count)]
    if kind == "root":
        return ("root", lawful_entries(rnd, count), branches)
    return (kind, branches)


def total(n):
    """The total of each line in the tests."""
    return n * n * 98_765 + 4_321


def case_lines(words, gross, roundings, charge):
    """A row of the table."""
    shown = [f"0x{w:08X}" for w in words]
    lines = [", ".join(shown[i:i + 7]) for i in range(0, len(shown), 7)]
    if len(shown) <= 5:
        rows = [f"        words: &[{lines[0]}],"]
    else:
        rows = ["        words: &[", *(f"            {line}," for line in lines), "        ],"]
    rows += [f"        gross: {gross},", f"        roundings: {roundings},", f"        charge: {charge},"]
    return ["    Case {", *rows, "    },"]


def main():
    rnd = random.Random(4)
    sheet = {n: total(n) for n in range(1, 30)}
    cases = []
    while len(cases) < CASES:
        tree = grown(rnd, 1)
        words = written(tree)
        if 4 <= len(words) <= 48:
            cases.append((words, *evaluate(tree, sheet)))
    out = ["// Written trees with what they answer, by tools/written_cases.py."]
    out.append("")
    out.append("// The words of a tree, and its gross, roundings and charge.")
    out.append("pub(crate) struct Case {")
    out.append("    pub(crate) words: &'static [u32],")
    out += [f"    pub(crate) {name}: u32," for name in ("gross", "roundings", "charge")]
    out.append("}")
    out.append("")
    out.append(f"pub(crate) const CASES: [Case; {len(cases)}] = [")
    for case in cases:
        out += case_lines(*case)
    out.append("];")
    path = Path(__file__).resolve().parent.parent / "crates" / "written_tests" / "src" / "cases.rt"
    path.write_text("\n".join(out) + "\n")
    print(f"{len(cases)} trees, {sum(len(words) for words, *_ in cases)} words")


if __name__ == "__main__":
    main()
