#!/usr/bin/env python3
"""Brings this repository's own definitions and lemmas to today's spelling: words in snake case, types in camel case.

usage: python3 tools/snake_names.py    once, at the top, after the toolchain's port/port.py (in the folder of the page that `rt doc` names) and a commit

It reads which names the .antt files declare, and respells these in .antt and .rt files, and in docs/ between backticks.
Names that the check makes (goals and steps) and names of the library stay. A name that would fall together with a
function or a field of src/ gets the name that APART has for it.
"""

import glob
import re

# old name: a name that no function, field or parameter of the same sources has
APART = {
    "asset-part": "asset_share",
    "below-0": "below_zero",
    "charge-at": "charge_of_branch",
    "entry-count": "entry_words_count",
    "first-branch": "first_branch_read",
    "in-run": "is_in_run",
    "is-mark": "is_mark_byte",
    "is-space": "is_space_byte",
    "kind-of": "kind_of_word",
    "most-tax": "most_tax_effect",
    "operational-charge": "operational_charge_of",
    "profit-part": "profit_share",
    "raw-charge": "raw_charge_of",
    "read-branch": "branch_is_read",
    "recoverable-tax": "recoverable_tax_of",
    "required-capital": "required_capital_of",
    "row-excess": "excess_of_row",
    "row-start": "start_of_row",
    "tax-effect": "tax_effect_of",
    "tax-rate": "tax_rate_of",
    "tier-one": "tier_one_counted",
    "tier-two": "tier_two_counted",
    "token-of": "token_of_piece",
}
WORD = r"[\w'\u2032-]"
NAME = r"[A-Za-z][\w'\u2032-]*"


def files(*patterns):
    found = []
    for p in patterns:
        found += [f for f in glob.glob(p, recursive=True) if "/out/" not in f]
    return sorted(found)


def read(f):
    with open(f, encoding="utf-8") as it:
        return it.read()


def code(text):
    return re.sub(r"--.*", "", text)


def respelled(name):
    if name in APART:
        return APART[name]
    name = name.replace("\u2032", "'")
    if name[0].isupper():
        return "".join(w[0].upper() + w[1:] for w in name.split("-"))
    return name.replace("-", "_")


def imported(texts):
    names = set()
    for t in texts:
        for m in re.finditer(r"use Rattle\.std[\w.]*\.\{([^}]*)\}", t):
            names |= {n.strip().split(" as ")[0] for n in m.group(1).split(",")}
    return names


def declared(texts):
    names = set()
    for t in texts:
        for m in re.finditer(rf"^ *(?:(?:abbrev|unfoldable|pub|record|data|let) )*({NAME})(?= *(?::|\(|\{{|=))", code(t), re.M):
            line = t_line(code(t), m.start(1))
            if ("-" in m.group(1) or "\u2032" in m.group(1)) and not re.search(r":\s*(goal|need)\.", line):
                if re.match(rf"^ *(?:(?:abbrev|unfoldable|pub|record|data|let) )*{re.escape(m.group(1))} *[:=]", line) or re.match(r"^ *(?:(?:abbrev|pub) )*(record|data) ", line):
                    names.add(m.group(1))
    return names


def t_line(t, at):
    start = t.rfind("\n", 0, at) + 1
    end = t.find("\n", at)
    return t[start : len(t) if end < 0 else end]


def step(m):
    """A step of a proof, as c.row_start, or an argument, as c.args.non_life, has the name of the source."""
    if re.search(r"\b[cl](\.args|\.requires)?\.$", m.string[max(0, m.start() - 16) : m.start()]):
        return m.group(1).replace("-", "_")
    return None


def main():
    antt = files("crates/**/*.antt")
    rt = files("crates/**/*.rt")
    texts = {f: read(f) for f in antt + rt}
    goals = set()
    for f in antt:
        if f.endswith(("Answers.antt", "Invariants.antt", "Proof.antt")):
            for m in re.finditer(rf"^(?:(?:abbrev|pub) )*({NAME}) :\s*(?:goal|need)\.", texts[f], re.M):
                goals.add(m.group(1))
    names = declared(texts[f] for f in antt) - imported(texts.values()) - goals
    turn = {n: respelled(n) for n in names}
    pattern = re.compile(rf"(?<!{WORD})(" + "|".join(sorted(map(re.escape, turn), key=len, reverse=True)) + rf")(?!{WORD})")
    for f, t in texts.items():
        new = pattern.sub(lambda m: step(m) or turn[m.group(1)], t)
        if new != t:
            with open(f, "w", encoding="utf-8") as it:
                it.write(new)
    for f in files("docs/**/*.md", "README.md"):
        t = read(f)
        new = re.sub(r"`[^`\n]*`", lambda w: pattern.sub(lambda m: turn[m.group(1)], w.group(0)), t)
        if new != t:
            with open(f, "w", encoding="utf-8") as it:
                it.write(new)
    print(f"{len(turn)} names")
    for old in sorted(turn):
        print(f"{old} {turn[old]}")


if __name__ == "__main__":
    main()
