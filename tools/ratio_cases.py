#!/usr/bin/env python3
"""Writes crates/ratio_tests/src/tests/table.rt: ratios and classes of many sheets, calculated here from the rules alone.

Run rt fmt after it."""
import random
from fractions import Fraction
from math import ceil, floor
from pathlib import Path

MOST = 1_000_000_000
RULES = ("stock", "stock with loss absorption", "mutual")


def percent(p, x):
    return Fraction(p, 100) * x


def required_capital(total, tax_rate, refund, deduction):
    """With no premiums and no estimates there is no operational charge, and the tax effect is the lesser of X and the refund."""
    charge = ceil(Fraction(total, 10_000))
    most_tax = floor(Fraction(8 * tax_rate * charge, 100_000))
    return max(charge - deduction - min(most_tax, refund), 0)


def counted(rule, bins, r):
    uncapped, limited, paid, unpaid, pension, deferred, software = bins
    basket = min(percent(15, r), percent(50, pension) + deferred + percent(10, software))
    tier_two = paid + min(unpaid, percent(10, r))
    if rule == "mutual":
        tier_one = min(limited, percent(30, r))
        most = percent(60, r) - tier_one
    else:
        tier_one = min(limited, percent(15 if "loss" in rule else 10, r))
        most = percent(50, r)
    return uncapped + tier_one + min(tier_two, most) + basket


def class_of(ratio):
    return "NoAction" if ratio >= 10_000 else "First" if ratio >= 7_000 else "Second" if ratio >= 3_500 else "Third"


def refusal(given):
    total, tax_rate, refund, deduction, *bins = given
    if not 0 <= tax_rate <= 10_000 or not 0 <= refund <= MOST or not 0 <= deduction <= MOST:
        return 31
    if ceil(Fraction(total, 10_000)) > 250_000_000:
        return 27
    if required_capital(*given[:4]) == 0:
        return 32
    if bins[0] < 0:
        return 33
    return None


def ratios(given):
    required = required_capital(*given[:4])
    return [floor(Fraction(10_000 * floor(counted(rule, given[4:], required)), required)) for rule in RULES]


def units(n, *bins):
    """Required capital of n units, and bins that are zero where they are not given."""
    return [10_000 * n, 0, 0, 0, *bins, *[0] * (7 - len(bins))]


def given():
    rnd = random.Random(20261119)
    cases = [units(167, 150, 30, 60)]
    # the ends of every class, and beside them
    for ratio in (0, 1, 3_499, 3_500, 3_501, 6_999, 7_000, 7_001, 9_999, 10_000, 10_001):
        cases.append(units(10_000, ratio))
        cases.append(units(30_000, 3 * ratio + 2))
    # each limit alone: below it, at it and above it
    for bin, shares in ((1, (10, 15, 30)), (2, (50, 60)), (3, (10,)), (4, (30,)), (5, (15,)), (6, (150,))):
        for share in shares:
            for step in (-1, 0, 1):
                bins = [0] * 7
                bins[bin] = share * 10 + step
                cases.append(units(1_000, *bins))
    # limits that meet: limited Tier 1 of a mutual company takes room from Tier 2, and unpaid Tier 2 fills up paid
    for limited in (0, 299, 300, 301):
        for paid in (199, 200, 201, 299, 300, 301, 399, 400, 401, 501):
            cases.append(units(1_000, 5, limited, paid, 101, 100, 50, 500))
    # fractions of a unit, which are added before they are rounded
    for required in range(1, 30):
        cases.append(units(required, required, required, 1, required, 1, 0, 5))
    # all refusals, alone and before those behind them
    for tax_rate, refund, deduction in ((-1, 0, 0), (10_001, 0, 0), (0, -1, 0), (0, MOST + 1, 0), (0, 0, -1), (0, 0, MOST + 1)):
        for total in (0, 50_000, 2_500_000_000_001):
            for uncapped in (-1, 1):
                cases.append([total, tax_rate, refund, deduction, uncapped, *[9] * 6])
    for total in (0, 1, 2_500_000_000_000, 2_500_000_000_001, 2**63 - 1):
        for deduction in (0, 1, MOST):
            for uncapped in (-(2**63), -1, 0, 1, 2**40):
                cases.append([total, 0, 0, deduction, uncapped, *[0] * 6])
    # of like size, so that every lesser goes either way
    for turn in range(100):
        size = 10 ** rnd.randrange(1, 9)
        total = rnd.randrange(1, min(20_000 * size, 2_500_000_000_000) + 1)
        bins = [rnd.randrange(2 * size) for _ in range(7)]
        cases.append([total, rnd.randrange(10_001), rnd.randrange(size), rnd.randrange(size // 8 + 1), *bins])
    return cases


def main():
    answered, refused = [], []
    for case in given():
        number = refusal(case)
        if number is None:
            rated = ", ".join(f"({ratio}, {class_of(ratio)})" for ratio in ratios(case))
            answered.append(f"    ({case}, {rated}),")
        else:
            refused.append(f"    ({case}, {number}),")
    lines = [
        "// Written by tools/ratio_cases.py: the total of line 1 in ten-thousandths, tax rate, refund and deduction, bins 1 to 7, with the answer.",
        "",
        "use ratio::SupervisoryClass::{self, First, NoAction, Second, Third};",
        "",
        "// A ratio and its class.",
        "pub type Rated = (u128, SupervisoryClass);",
        "",
        "// Under the stock rule, with loss absorption, and under the mutual rule.",
        f"pub static ANSWERED: [([i64; 11], Rated, Rated, Rated); {len(answered)}] = [",
        *answered,
        "];",
        "",
        "// The number of the refusal, under every rule.",
        f"pub static REFUSED: [([i64; 11], u8); {len(refused)}] = [",
        *refused,
        "];",
    ]
    path = Path(__file__).resolve().parent.parent / "crates" / "ratio_tests" / "src" / "tests" / "table.rt"
    path.parent.mkdir(parents=True, exist_ok=True)
    path.write_text("\n".join(lines) + "\n")
    print(f"{len(answered)} answered, {len(refused)} refused")


if __name__ == "__main__":
    main()
