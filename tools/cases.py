#!/usr/bin/env python3
"""Writes crates/cases/stdin and crates/cases/stdout: many statements, with answers calculated here from the rules alone."""
import random
from math import isqrt
from pathlib import Path

LARGEST = 2**32 - 1
REFUSED = "refused 24 at 0: the correlation table is not lawful"


def square_of(n, above):
    """The whole table of n branches from its entries above the diagonal, row by row."""
    r = [[100] * n for _ in range(n)]
    left = iter(above)
    for i in range(n):
        for j in range(i + 1, n):
            r[i][j] = r[j][i] = next(left)
    return r


def lawful(n, above):
    if not 1 <= n <= 8 or len(above) != n * (n - 1) // 2 or any(not 0 <= e <= 100 for e in above):
        return False
    r = square_of(n, above)
    return all(
        10000 - r[i][j] ** 2 >= sum(max(0, r[i][j] * r[j][k] - 100 * r[i][k]) for k in range(n) if k != i)
        for i in range(n)
        for j in range(n)
    )


def root(r, charges):
    """The least whole w with 100 w^2 at least the sum of r(i,j) c(i) c(j)."""
    n = len(r)
    q = sum(r[i][j] * charges[i] * charges[j] for i in range(n) for j in range(n))
    w = isqrt(q // 100)
    while 100 * w * w < q:
        w += 1
    return w


MEANINGS = {27: "the gross is too large", 28: "there are too many roundings"}


def line(n):
    return ("line", n)


def total_of(sheet, n):
    return sheet.get(n, 0)


def evaluate(tree, sheet):
    """Gross, roundings and charge of a tree at a sheet of exact totals, in ten-thousandths of a unit."""
    kind = tree[0]
    if kind == "line":
        units = -(-total_of(sheet, tree[1]) // 10000)
        return units, 1, units
    if kind == "choice":
        _, a, b, one, other = tree
        return evaluate(one if total_of(sheet, a) >= total_of(sheet, b) else other, sheet)
    parts = [evaluate(t, sheet) for t in tree[-1]]
    gross = sum(p[0] for p in parts)
    roundings = sum(p[1] for p in parts)
    charges = [p[2] for p in parts]
    if kind == "sum":
        return gross, roundings, sum(charges)
    if kind == "greater":
        return gross, roundings, max(charges)
    return gross, roundings + 1, root(square_of(len(charges), tree[1]), charges)


def market(spread, between, with_estate):
    """The market root: interest, spread, equity, real estate, currency, concentration."""
    equity_root = ("root", [75, 100, 75, 75, 75, 75], [
        ("sum", [line(17), line(18)]),
        ("root", [75], [line(19), line(20)]),
        line(21),
        line(22),
    ])
    equity = ("sum", [line(23), equity_root])
    estate = ("sum", [line(24), line(25)])
    currency = ("greater", [line(26), line(27)])
    entries = [25, 25, 25, 25, 0, between, with_estate, 25, 0, 50, 25, 0, 25, 0, 0]
    return ("root", entries, [line(14), line(spread), equity, estate, currency, line(28)])


STANDARD = ("root", [0, 25, 25, 25, 25, 25, 25, 25, 25, 25], [
    line(1),
    ("sum", [line(n) for n in range(2, 10)]),
    ("sum", [line(n) for n in range(10, 14)]),
    ("choice", 15, 16, market(15, 75, 50), market(16, 0, 0)),
    line(29),
])


class Desk:
    """Answers statements as the program should."""

    def __init__(self):
        self.table = [[100]]
        self.sheet = {}
        self.lines = []
        self.answers = []

    def put_table(self, n, entries):
        self.lines.append(" ".join(map(str, ["table", n, *entries])))
        if lawful(n, entries):
            self.table = square_of(n, entries)
            self.answers.append(f"table: lawful, {n} branches")
        else:
            self.answers.append(f"table: {REFUSED}")

    def ask_root(self, charges):
        self.lines.append(" ".join(map(str, ["root", *charges])))
        if any(c > LARGEST for c in charges):
            self.answers.append(f"root: out of range: a charge is above {LARGEST}")
        elif len(charges) != len(self.table):
            self.answers.append(f"root: {REFUSED}")
        else:
            self.answers.append(f"root: {root(self.table, charges)}")


    def set_total(self, n, amount):
        self.lines.append(f"total {n} {amount}")
        if amount > 2_000_000_000_000:
            self.answers.append("total: out of range: the amount is above 2000000000000")
        elif not 1 <= n <= 29:
            self.answers.append("total: refused 23 at 0: the value is out of range")
        else:
            self.sheet[n] = amount
            self.answers.append(f"total: line {n} is {amount}")

    def price(self):
        self.lines.append("price standard")
        gross, roundings, charge = evaluate(STANDARD, self.sheet)
        if gross > 250_000_000:
            self.answers.append(f"price standard: refused 27: {MEANINGS[27]}")
        elif roundings > 1000:
            self.answers.append(f"price standard: refused 28: {MEANINGS[28]}")
        else:
            self.answers.append(f"price standard: gross {gross}, roundings {roundings}, charge {charge}")


def entries_like(rnd, n, kind):
    """Entries of n branches: all alike, from common factors, near a bound, or anything."""
    m = n * (n - 1) // 2
    if kind == 0:
        return [rnd.randrange(101)] * m
    if kind == 1:
        part = [rnd.randrange(101) for _ in range(n)]
        return [part[i] * part[j] // 100 for i in range(n) for j in range(i + 1, n)]
    if kind == 2:
        base = rnd.randrange(20, 80)
        return [base + rnd.randrange(-8, 9) for _ in range(m)]
    return [rnd.randrange(101) for _ in range(m)]


def main():
    rnd = random.Random(20261117)
    desk = Desk()
    desk.ask_root([0])
    desk.ask_root([LARGEST])
    desk.ask_root([])
    for a in (69, 70, 71, 72, 100):
        desk.put_table(3, [0, a, a])
        desk.ask_root([100, 100, 10])
    for n, entries in ((0, []), (9, [0] * 36), (1, [0]), (2, []), (2, [1, 2]), (2, [101]), (2, [10**25]), (10**30, [0]), (8, [0] * 27), (8, [0] * 28)):
        desk.put_table(n, entries)
        desk.ask_root([1] * 8)
    for turn in range(120):
        n = rnd.randrange(1, 9)
        desk.put_table(n, entries_like(rnd, n, turn % 4))
        size = len(desk.table)
        for top in (3, 1000, 250_000_000, LARGEST):
            desk.ask_root([rnd.randrange(top + 1) for _ in range(size)])
        if turn % 10 == 0:
            desk.ask_root([1] * (size + 1))
            desk.ask_root([LARGEST + 1] * size)
            desk.ask_root([rnd.randrange(100)] + [0] * (size - 1))
    desk.price()
    desk.set_total(0, 5)
    desk.set_total(30, 5)
    desk.set_total(10**30, 5)
    desk.set_total(1, 2_000_000_000_001)
    desk.set_total(31, 10**40)
    for turn in range(40):
        top = (20_000, 50_000_000, 3_000_000_000, 160_000_000_000, 2_000_000_000_000)[turn % 5]
        for n in range(1, 30):
            desk.set_total(n, rnd.randrange(top + 1) if rnd.random() < 0.7 else 0)
        desk.price()
        # a tie of the spread totals, and the least step either way, with the same whole units
        t = 10000 * rnd.randrange(1, 9000) + 5
        for up, down in ((t, t), (t, t + 1), (t + 1, t)):
            desk.set_total(15, up)
            desk.set_total(16, down)
            desk.price()
    for n in range(1, 30):
        desk.set_total(n, 0)
    for amount in (2_000_000_000_000, 2_000_000_000_000 - 1):
        desk.set_total(1, amount)
        desk.price()
    desk.set_total(29, 500_000_000_000)
    desk.price()
    desk.set_total(29, 500_000_000_001)
    desk.price()
    folder = Path(__file__).resolve().parent.parent / "crates" / "cases"
    (folder / "stdin").write_text("\n".join(desk.lines) + "\n")
    (folder / "stdout").write_text("\n".join(desk.answers) + "\n")
    stands = sum(a.startswith("table: lawful") for a in desk.answers)
    tables = sum(a.startswith("table:") for a in desk.answers)
    print(f"{len(desk.answers)} statements, {tables} tables, {stands} of them lawful")


if __name__ == "__main__":
    main()
