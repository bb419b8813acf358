#!/usr/bin/env python3
"""Writes crates/words_tests/src/cases.rt: many lists of words, with the answers calculated here from the rules alone."""
import random
from pathlib import Path

from cases import lawful

LINE, SUM, GREATER, ROOT, ENTRY = 1, 2, 3, 4, 5
MASK = 2**28 - 1
READ = (0, 0)


class Refused(Exception):
    pass


def judge(words):
    """The number and the place of the refusal, or READ."""
    if len(words) > 512:
        return 20, 512
    at = 0

    def take(allowed):
        """The kind and the value of the next word: 21 where there is none, 22 where its kind is not allowed."""
        nonlocal at
        if at == len(words):
            raise Refused(21, at)
        kind, value = words[at] >> 28, words[at] & MASK
        if kind not in allowed:
            raise Refused(22, at)
        at += 1
        return kind, value

    def branch(depth):
        here = at
        kind, value = take((LINE, SUM, GREATER, ROOT))
        low, high = {LINE: (1, 29), SUM: (1, 8), GREATER: (2, 2), ROOT: (1, 8)}[kind]
        if not low <= value <= high:
            raise Refused(23, here)
        if depth > 6:
            raise Refused(25, here)
        if kind == ROOT:
            above = []
            for _ in range(value * (value - 1) // 2):
                _, entry = take((ENTRY,))
                if entry > 100:
                    raise Refused(23, at - 1)
                above.append(entry)
            if not lawful(value, above):
                raise Refused(24, here)
        for _ in range(0 if kind == LINE else value):
            branch(depth + 1)

    try:
        branch(1)
        if at < len(words):
            raise Refused(26, at)
    except Refused as refused:
        return refused.args
    return READ


def word(kind, value):
    return kind << 28 | value


def line(n):
    return [word(LINE, n)]


def over(kind, parts):
    return [word(kind, len(parts)), *sum(parts, [])]


def root(entries, parts):
    return [word(ROOT, len(parts)), *(word(ENTRY, e) for e in entries), *sum(parts, [])]


def nested(depth, inner):
    """The branch `inner` under so many sums of one branch."""
    return [word(SUM, 1)] * (depth - 1) + inner


def same(n, entry):
    return [entry] * (n * (n - 1) // 2)


def chosen():
    """Lists that try each rule at its edges, and several faults at once."""
    yield []
    yield [0x40000002, 0x50000019, 0x10000001, 0x1000000E]
    for kind in range(16):
        yield [word(kind, 1)]
        yield [word(kind, 2), *line(1), *line(2)]
        yield [word(ROOT, 2), word(kind, 1), *line(1), *line(2)]
    for value in (0, 1, 29, 30, 257, 2**24 + 1, MASK):
        yield line(value)
    for kind in (SUM, GREATER, ROOT):
        for value in (0, 1, 2, 3, 8, 9, 2**27 + 2):
            entries = [word(ENTRY, 0)] * (value * (value - 1) // 2 if kind == ROOT and value < 10 else 0)
            yield [word(kind, value), *entries, *line(1) * min(value, 9)]
    for n in range(1, 9):
        yield root(same(n, 25), [line(n)] * n)
        yield root(same(n, 25), [line(n)] * n)[:-1]
        yield root(same(n, 25), [line(n)] * n) + line(1)
    for entry in (0, 100, 101, 2**20):
        yield root([entry], [line(1), line(2)])
    yield root([0, 70, 70], [line(1)] * 3)
    yield root([0, 71, 71], [line(1)] * 3)
    yield root([0, 71, 71], [])[:0] + [word(ROOT, 3), word(ENTRY, 0), word(ENTRY, 71), word(ENTRY, 71)]
    yield over(SUM, [line(1), root([0, 71, 71], [line(30)] * 3)])
    yield root(same(8, 0)[:-2] + [100, 71], [line(3)] * 8)
    for depth in (5, 6, 7):
        yield nested(depth, line(1))
        yield nested(depth, over(SUM, [line(1)]))
        yield nested(depth, root([25], [line(1), line(2)]))
        yield nested(depth, root([101], [line(1), line(2)]))
        yield nested(depth, line(30))
        yield nested(depth, [word(ENTRY, 1)])
        yield nested(depth, [])
        yield nested(depth, [word(ROOT, 2)])
    yield over(SUM, [over(SUM, [line(1)] * 2), over(GREATER, [line(2), nested(4, line(3))])])
    yield over(SUM, [over(SUM, [line(1)] * 2), over(GREATER, [line(2), nested(5, line(3))])])
    yield line(1) + line(2)
    yield line(1) + [0]
    yield over(SUM, [line(1)] * 3) + [word(ENTRY, 101)]


def tree(rnd, depth):
    """A random tree's words, in which a table may be unlawful and a branch too deep."""
    kind = rnd.choice((LINE, LINE, LINE, SUM, GREATER, ROOT, ROOT)) if depth < 7 else LINE
    if kind == LINE:
        return line(rnd.randrange(1, 30))
    n = 2 if kind == GREATER else rnd.choice((1, 2, 2, 3))
    parts = [tree(rnd, depth + 1) for _ in range(n)]
    if kind != ROOT:
        return over(kind, parts)
    if rnd.randrange(3):
        return root(same(n, rnd.randrange(101)), parts)
    return root([rnd.choice((0, 50, 70, 71, 99, 100)) for _ in same(n, 0)], parts)


def marred(rnd, words):
    """The same words with up to two of them changed, left out or put in."""
    words = list(words)
    for _ in range(rnd.choice((0, 1, 1, 2))):
        at = rnd.randrange(len(words) + 1)
        other = word(rnd.choice((1, 1, 2, 3, 4, 5, 5, 6, 0, 15)), rnd.choice((0, 1, 2, 8, 9, 29, 30, 100, 101, MASK)))
        turn = rnd.randrange(4)
        if turn == 0:
            words[at:at + 1] = [other]
        elif turn == 1:
            words[at:at] = [other]
        elif turn == 2:
            del words[at:at + 1]
        else:
            del words[at:]
    return words


def drawn(rnd, most):
    """Random lists, at most so many with one answer's number."""
    met = {}
    while len(met) < 7 or min(met.values()) < most:
        words = marred(rnd, tree(rnd, 1))
        number = judge(words)[0]
        if 2 <= len(words) <= 14 and met.setdefault(number, 0) < most:
            met[number] += 1
            yield words


def shown(values, width):
    text = [", ".join(values[i:i + width]) + "," for i in range(0, len(values), width)]
    return "\n".join("    " + row for row in text)


def main():
    lists = [*chosen(), *drawn(random.Random(1), 20)]
    answers = [judge(words) for words in lists]
    words = [f"0x{w:08x}" for each in lists for w in each]
    cases = [f"({len(each)}, {number}, {place})" for each, (number, place) in zip(lists, answers)]
    text = f"""// Lists of words, and what is told of each: written by tools/words.py.

// All lists, one behind the other (tried: a table whose rows hold their words as slices passes the checker's limit of steps).
pub(crate) const WORDS: [u32; {len(words)}] = [
{shown(words, 8)}
];

// How many words each list has, and the number and the place of its refusal, or 0 and 0 where it reads.
pub(crate) const CASES: [(usize, u8, usize); {len(cases)}] = [
{shown(cases, 1)}
];
"""
    path = Path(__file__).resolve().parent.parent / "crates" / "words_tests" / "src" / "cases.rt"
    path.write_text(text)
    tally = {n: sum(a[0] == n for a in answers) for n in sorted({a[0] for a in answers})}
    print(f"{len(lists)} lists, {len(words)} words: {tally}")


if __name__ == "__main__":
    main()
