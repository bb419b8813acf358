#!/usr/bin/env python3
"""Writes crates/required_tests/src/tests/table.rt: required capital of many settings, calculated here from the rules alone."""
import random
from fractions import Fraction
from math import ceil, floor
from pathlib import Path

MOST = 1_000_000_000
MOST_CHARGE = 250_000_000

# The twelve settings in order, each with its least and its greatest value.
RANGES = [
    ("life premium", 0, MOST),
    ("life premium last year", 0, MOST),
    ("life estimate", -MOST, MOST),
    ("estimate of life without risk", -MOST, MOST),
    ("non-life premium", 0, MOST),
    ("non-life premium last year", 0, MOST),
    ("non-life estimate", -MOST, MOST),
    ("tax rate", 0, 10_000),
    ("carry-back refund", 0, MOST),
    ("profit", -MOST, MOST),
    ("net deferred tax", -MOST, MOST),
    ("management deduction", 0, MOST),
]
WORKED = [1000, 800, 5000, 0, 0, 0, 0, 2800, 10, 100, 0, 0]


def percent(x):
    return Fraction(x) / 100


def part(premium, last, estimate, premium_rate, estimate_rate):
    growth = premium - percent(120) * last
    return max(premium_rate * premium, estimate_rate * estimate, 0) + premium_rate * max(growth, 0)


def figures(charge, settings):
    """Operational charge, tax effect and required capital."""
    p1, q1, e1, e2, p3, q3, e3, t, b, p, n, m = settings
    raw = (
        part(p1, q1, e1, percent(4), percent(Fraction(45, 100)))
        + max(percent(Fraction(40, 100)) * e2, 0)
        + part(p3, q3, e3, percent(Fraction(275, 100)), percent(Fraction(275, 100)))
    )
    operational = ceil(min(raw, Fraction(charge, 5)))
    s = charge + operational
    x = floor(Fraction(8 * t * s, 100_000))
    profit = floor(Fraction(p * t, 20_000)) if p > 0 else 0
    y = b + profit + max(n, 0) - min(max(-n, 0), ceil(percent(15) * s))
    tax = max(min(x, y), 0)
    return operational, tax, max(charge + operational - m - tax, 0)


def refusal(charge, settings):
    if any(not low <= v <= high for v, (_, low, high) in zip(settings, RANGES)):
        return 31
    if charge > MOST_CHARGE:
        return 27
    return None


def given():
    rnd = random.Random(20261118)
    cases = [(159, WORKED), (159, WORKED[:10] + [-50, 0])]
    # each setting at both ends of its range, beside the worked ones and beside large ones
    large = [MOST, 0, MOST, MOST, MOST, 0, MOST, 10_000, MOST, MOST, MOST, MOST]
    for i, (_, low, high) in enumerate(RANGES):
        for v in (low, high):
            cases.append((159, WORKED[:i] + [v] + WORKED[i + 1 :]))
            cases.append((MOST_CHARGE, large[:i] + [v] + large[i + 1 :]))
    # all of them at one end
    cases += [(a, [r[end] for r in RANGES]) for a in (0, 1, MOST_CHARGE) for end in (1, 2)]
    # just out of range, also with a charge that is refused, and the charge alone
    for i, (_, low, high) in enumerate(RANGES):
        for v in (low - 1, high + 1):
            cases.append((MOST_CHARGE + 1 if i % 3 == 0 else 159, WORKED[:i] + [v] + WORKED[i + 1 :]))
    cases += [(MOST_CHARGE + 1, WORKED), (MOST_CHARGE, WORKED), (159, WORKED[:9] + [-(2**63), 0, 0]), (159, WORKED[:8] + [2**63 - 1, 0, 0, 0])]
    # 15% of the sum where it is whole and where it is not, and each next charge
    for a in range(95, 105):
        cases.append((a, [0, 0, 0, 0, 0, 0, 0, 3000, 100, 0, -1000, 0]))
    # of like size, so that every lesser and every greatest goes either way
    for turn in range(100):
        size = 10 ** rnd.randrange(2, 9)
        settings = []
        for _, low, high in RANGES:
            v = rnd.randrange(10_001) if high == 10_000 else rnd.randrange(max(low, -size), min(high, size) + 1)
            settings.append(0 if rnd.random() < 0.2 else v)
        settings[8] //= 4
        settings[11] //= 8
        cases.append((rnd.randrange(min(MOST_CHARGE, 2 * size) + 1), settings))
    return cases


def table(name, answer, rows):
    lines = [f"pub const {name}: [([i64; 13], {answer}); {len(rows)}] = ["]
    for (charge, settings), told in rows:
        lines.append(f"    ([{', '.join(map(str, [charge, *settings]))}], {told}),")
    return lines + ["];"]


def main():
    answered, refused = [], []
    for charge, settings in given():
        number = refusal(charge, settings)
        if number is None:
            answered.append(((charge, settings), list(figures(charge, settings))))
        else:
            refused.append(((charge, settings), number))
    lines = [
        "// Written by tools/required_cases.py: a charge and the twelve settings in order, with the answer.",
        "",
        "// Operational charge, tax effect and required capital.",
        *table("ANSWERED", "[u64; 3]", answered),
        "",
        "// The number of the refusal.",
        *table("REFUSED", "u8", refused),
    ]
    path = Path(__file__).resolve().parent.parent / "crates" / "required_tests" / "src" / "tests" / "table.rt"
    path.parent.mkdir(parents=True, exist_ok=True)
    path.write_text("\n".join(lines) + "\n")
    print(f"{len(answered)} answered, {len(refused)} refused")


if __name__ == "__main__":
    main()
