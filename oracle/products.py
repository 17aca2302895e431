#!/usr/bin/env python3
"""How far a row times a column strays (document 02, T-12), in whole numbers.

A float is a whole number of 2^-149, the product of two one of 2^-298. Each step of the definition
is made in these numbers and rounded once, ties to even; the machine's floats only check that
rounding.

In general: entries that meet T-12's hypotheses, at their borders, near ties, cancelling and at
random. The entry must lie within 5 parts in 2^24 of the sum of the magnitudes. Whole numbers of
magnitude at most 1,024: the entry must be the exact one. Before that come the cases of
crates/matrix_laws/proofs/Examples.antt, read from there, with what they are computed to there.
"""

import argparse
import itertools
import math
import random
import re
import struct
import sys
from fractions import Fraction
from pathlib import Path

PARTS = 5
LEAST_PRODUCT = 1 << 298 - 126
SUM_LIMIT = 1 << 298 + 127
LARGEST_WHOLE = 1024
ONE = 1 << 149
INFINITE = 1 << 149 + 128
EXAMPLES = Path(__file__).parent.parent / "crates/matrix_laws/proofs/Examples.antt"


class Infinite(Exception):
    """An entry, or what a step rounds to, is no finite float."""


# ---- floats


def units(bits):
    """A finite float as a whole number of 2^-149."""
    exponent, significand = bits >> 23 & 0xFF, bits & 0x7FFFFF
    if exponent == 255:
        raise Infinite
    magnitude = significand if exponent == 0 else (significand | 1 << 23) << exponent - 1
    return -magnitude if bits >> 31 else magnitude


def bits_of(count):
    """The bits of a float that is a whole number of 2^-149."""
    shift = max(abs(count).bit_length() - 24, 0)
    return (1 << 31 if count < 0 else 0) | (shift << 23) + (abs(count) >> shift)


def rounded(number, below):
    """The float nearest to number / 2^(149 + below), ties to even."""
    magnitude = abs(number)
    dropped = max(magnitude.bit_length() - below - 24, 0)
    shift = below + dropped
    kept, twice = magnitude >> shift, (magnitude & (1 << shift) - 1) << 1
    if twice > 1 << shift or (twice == 1 << shift and kept & 1):
        kept += 1
    if kept << dropped >= INFINITE:
        raise Infinite
    return -(kept << dropped) if number < 0 else kept << dropped


def machine(double):
    """The machine's f32 nearest to a double. A double holds a product of two f32, and has digits
    enough for their sum to be rounded twice without a trace."""
    return units(struct.unpack("<I", struct.pack("<f", double))[0])


def dot(row, column):
    """The entry: four products, added from the left on."""
    total = 0
    for a, b in zip(row, column):
        product = rounded(a * b, 149)
        assert product == machine(math.ldexp(a, -149) * math.ldexp(b, -149)), (a, b)
        added = rounded(total + product, 0)
        doubles = math.ldexp(total, -149) + math.ldexp(product, -149)
        assert added == machine(doubles), (total, product)
        total = added
    return total


# ---- what T-12 says


def magnitudes(row, column):
    return [abs(a * b) for a, b in zip(row, column)]


def meets(row, column):
    """The hypotheses, of finite entries."""
    products = magnitudes(row, column)
    return all(p == 0 or p >= LEAST_PRODUCT for p in products) and sum(products) < SUM_LIMIT


def error(row, column):
    """How far the entry is off, in parts of 2^24 of the sum of the magnitudes."""
    off = abs(dot(row, column) * ONE - sum(a * b for a, b in zip(row, column)))
    return Fraction(off << 24, sum(magnitudes(row, column)) or 1)


# ---- entries


def significand(rng):
    return rng.choice(
        (
            1 << 23,
            (1 << 24) - 1 - rng.randrange(3),
            (1 << 23) + (1 << rng.randrange(23)),
            rng.randrange(1 << 23, 1 << 24),
        )
    )


def factors(rng, exponent):
    """Two floats whose product is about 2^exponent; either may be subnormal."""
    first = rng.randint(max(-149, exponent - 127), min(127, exponent + 149))
    pair = []
    for e in (first, exponent - first):
        shift = e + 126
        digits = significand(rng)
        pair.append(digits << shift if shift >= 0 else max(digits >> -shift, 1))
    return pair


def random_row(rng):
    """Products near one magnitude or of several, of any sign, with some zeros."""
    middle = rng.choice((-126, -125, 0, 125, 126, rng.randint(-126, 126)))
    spread = rng.choice((0, 2, 25, 60))
    row, column = [], []
    for _ in range(4):
        a, b = factors(rng, max(-127, min(126, middle + rng.randint(-spread, spread))))
        if rng.random() < 0.1:
            a = 0
        row.append(rng.choice((a, -a)))
        column.append(rng.choice((b, -b)))
    return row, column


def cancelling_row(rng):
    """Two products that cancel, or nearly."""
    row, column = random_row(rng)
    i, j = rng.sample(range(4), 2)
    row[j], column[j] = -row[i], column[i]
    if rng.random() < 0.5:
        row[j] += rng.choice((-1, 1)) << max(abs(row[j]).bit_length() - 24, 0)
    return row, column


def tie_row(rng):
    """A product a little over a tie above a power of two, and three of about half its step."""
    left = rng.randrange(1 << 23, 1 << 24) | 1
    right = ((1 << 47) + (1 << 23)) // left + 1
    halves = [(1 << 23) + rng.choice((-1, 0, 1, 1, 1, 2)) for _ in range(3)]
    up = rng.randint(45, 245)
    down = rng.randint(max(172 - 47 - up, 0), 425 - 48 - up)
    sign = rng.choice((-1, 1))
    return [sign * a << up for a in [left, *halves]], [b << down for b in (right, 1, 1, 1)]


def limit_row(rng):
    """Magnitudes that sum to more than half the limit."""
    row, column = rng.choice((random_row, tie_row))(rng)
    room = (SUM_LIMIT - 1).bit_length() - sum(magnitudes(row, column)).bit_length()
    for side in (row, column):
        most = max(map(abs, side)).bit_length()
        if room > 0 and most:
            up = min(room, 277 - most)
            side[:] = [a << up for a in side]
            room -= up
    return row, column


def edge_rows():
    """Every row of products at a border: 2^-126, 0, 1, what sums to the limit, and their like."""
    least, full = 1 << 86, ((1 << 24) - 1) << 149
    pairs = [(0, INFINITE - (1 << 253)), (least, least), (1, 1 << 149 + 23), (ONE, ONE)]
    pairs += [(ONE + (1 << 126), ONE - (1 << 125)), (full >> 24, full >> 24), (full, ONE >> 24)]
    pairs += [(1 << 212, 1 << 212), (full << 39, 1 << 212 - 24), (INFINITE - (1 << 253), ONE >> 1)]
    signed = [(s * a, b) for a, b in pairs for s in (1, -1)]
    for four in itertools.product(signed, repeat=4):
        yield [a for a, _ in four], [b for _, b in four]


def whole(rng):
    return rng.choice(
        (
            LARGEST_WHOLE,
            -LARGEST_WHOLE,
            rng.randint(-3, 3),
            rng.randint(-LARGEST_WHOLE, LARGEST_WHOLE),
        )
    )


# ---- the runs


def progress(tried, count, words):
    """Ten lines of a long run."""
    if count >= 100_000 and tried % (count // 10) == 0:
        print(f"products: {tried} of {count} {words}", file=sys.stderr, flush=True)


def fail(words, row, column):
    sides = " and ".join(str([f"0x{bits_of(a):08x}" for a in side]) for side in (row, column))
    print(f"oracle: {words}: {sides}")
    sys.exit(1)


def examples():
    """The cases of Examples.antt: two lists of bits, and whether they meet and hold."""
    text = EXAMPLES.read_text()
    named = dict(re.findall(r"^(worst\w+) = (.*)$", text, re.M))
    side, flag = r"(\w+|\([^()]*\))", "(true|false)"
    for *lists, met, held in re.findall(f"case {side} {side} {flag} {flag}$", text, re.M):
        bits = [re.findall(r"0x\w+|\b0\b", named.get(name, name)) for name in lists]
        numbers = [([int(b, 0) for b in four] + [0] * 4)[:4] for four in bits]
        yield numbers, met == "true", held == "true"


def judged(lists):
    """Whether two lists of bits meet the hypotheses, and by how many parts their entry is off."""
    try:
        row, column = [[units(b) for b in side] for side in lists]
    except Infinite:
        return False, math.inf
    try:
        return meets(row, column), error(row, column)
    except Infinite:
        return meets(row, column), math.inf


def stated():
    """The cases that the proofs compute. What breaks lies beyond the hypotheses."""
    cases, breaking, worst = 0, 0, 0
    for lists, met, held in examples():
        meeting, off = judged(lists)
        if (meeting, off <= PARTS) != (met, held) or (met and not held):
            found = f"found {meeting}, {float(off)} parts off"
            print(f"oracle: Examples.antt has {met}, {held} for {lists}: {found}")
            sys.exit(1)
        cases, breaking = cases + 1, breaking + (not held)
        worst = max(worst, off if met else 0)
    longer = [a * ONE for a in (4096, 1, 0, 0)]
    if not breaking or dot(longer, longer) == (4096 * 4096 + 1) * ONE:
        sys.exit("oracle: nothing breaks beyond the hypotheses")
    print(f"products: {cases} stated cases, {breaking} of them beyond the hypotheses and broken;")
    print(f"products: the others are at most {float(worst):.7f} parts off")
    return cases


def in_general(rng, count):
    kinds = (random_row, cancelling_row, tie_row, tie_row, limit_row)
    drawn = (rng.choice(kinds)(rng) for _ in itertools.count())
    edges = list(edge_rows())
    if 2 * len(edges) > count:
        edges = rng.sample(edges, count // 2)
    worst, where, tried, outside = Fraction(-1), None, 0, 0
    seen = {"2^-126": 0, "near 2^127": 0, "subnormal factor": 0, "sum 0": 0, "zero product": 0}
    for row, column in itertools.chain(edges, drawn):
        if tried >= count:
            break
        if rng.random() < 0.2:
            places = rng.sample(range(4), 4)
            row, column = [row[i] for i in places], [column[i] for i in places]
        if max(map(abs, row + column)) >= INFINITE or not meets(row, column):
            outside += 1
            continue
        products = magnitudes(row, column)
        found = error(row, column)
        if found > PARTS:
            fail(f"{float(found)} parts off", row, column)
        if found > worst:
            worst, where = found, (row, column)
        seen["2^-126"] += LEAST_PRODUCT in products
        seen["near 2^127"] += sum(products) > SUM_LIMIT - (SUM_LIMIT >> 22)
        seen["subnormal factor"] += any(0 < abs(a) < 1 << 23 for a in row + column)
        seen["sum 0"] += any(products) and sum(a * b for a, b in zip(row, column)) == 0
        seen["zero product"] += 0 in products
        tried += 1
        progress(tried, count, f"in general, at most {float(worst):.7f} parts off")
    print(f"products: {tried} rows in general, {outside} more left out: beyond the hypotheses")
    print("products: met:", ", ".join(f"{name} {times}" for name, times in seen.items()))
    print(f"products: at most {float(worst):.7f} parts off, where {PARTS} are allowed, at")
    print("products:", *(f"0x{bits_of(a):08x}" for side in where for a in side))
    if count >= 10_000 and not all(seen.values()):
        sys.exit("oracle: a border was not met")


def of_wholes(rng, count):
    for tried in range(1, count + 1):
        row, column = [[whole(rng) for _ in range(4)] for _ in range(2)]
        sides = [[n * ONE for n in side] for side in (row, column)]
        if dot(*sides) != sum(a * b for a, b in zip(row, column)) * ONE:
            fail("another whole number", *sides)
        progress(tried, count, "of whole numbers")
    print(f"products: {count} rows of whole numbers up to {LARGEST_WHOLE} in magnitude, all exact")


def main():
    parser = argparse.ArgumentParser(description="How far a row times a column strays.")
    parser.add_argument("--seed", type=int, default=1)
    parser.add_argument("--count", type=int, default=1_000_000)
    options = parser.parse_args()
    rng = random.Random(options.seed)
    cases = stated()
    in_general(rng, options.count)
    of_wholes(rng, options.count)
    print(f"oracle: {2 * options.count + cases} inputs, 0 differences")


main()
