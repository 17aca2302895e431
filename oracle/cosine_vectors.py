#!/usr/bin/env python3
"""Document 01's cosine ("The arithmetic underneath") in exact fractions, as vectors.

Every step is computed exactly and rounded once, to the nearest binary32, ties to even. No float
arithmetic takes part, so this is a reading apart from the Rust and from ours.

Prints lines `xbits cbits`; `oracle/run cos-vectors` compares both sides with them.
"""

from fractions import Fraction

LARGEST = 0x7F7FFFFF
INFINITY = 0x7F800000
NAN = 0x7FC00000
SIGN = 0x80000000


def value(bits):
    """The number that a finite float stands for."""
    exponent, significand = bits >> 23 & 0xFF, bits & 0x7FFFFF
    assert exponent != 255
    if exponent == 0:
        magnitude = significand * Fraction(2) ** -149
    else:
        magnitude = (significand + (1 << 23)) * Fraction(2) ** (exponent - 150)
    return -magnitude if bits & SIGN else magnitude


def bits_of(number):
    """The float nearest to a number, ties to even. A zero is +0: no step here makes another that
    a later step can tell apart."""
    sign, magnitude = (SIGN, -number) if number < 0 else (0, number)
    if magnitude == 0:
        return 0
    exponent = magnitude.numerator.bit_length() - magnitude.denominator.bit_length()
    if magnitude < Fraction(2) ** exponent:
        exponent -= 1
    assert Fraction(2) ** exponent <= magnitude < Fraction(2) ** (exponent + 1)
    step = max(exponent, -126) - 23
    scaled = magnitude / Fraction(2) ** step
    whole = scaled.numerator // scaled.denominator
    rest = scaled - whole
    if rest > Fraction(1, 2) or (rest == Fraction(1, 2) and whole % 2 == 1):
        whole += 1
    # A carry out of the significand moves into the exponent by itself. The step of the
    # subnormals is that of the least normal numbers, whose leading bit is the exponent's.
    bits = whole + ((step + 149) << 23)
    return sign | min(bits, INFINITY)


def rounded(number):
    bits = bits_of(number)
    assert bits & ~SIGN <= LARGEST
    return value(bits)


TURN = value(0x40C90FDB)
HALF_TURN = value(0x40490FDB)
QUARTER_TURN = value(0x3FC90FDB)
SECOND, FOURTH, SIXTH, EIGHTH = (
    rounded(Fraction(one, by)) for one, by in ((-1, 2), (1, 24), (-1, 720), (1, 40320))
)


def polynomial(t):
    u = rounded(t * t)
    p = rounded(u * EIGHTH)
    p = rounded(SIXTH + p)
    p = rounded(u * p)
    p = rounded(FOURTH + p)
    p = rounded(u * p)
    p = rounded(SECOND + p)
    p = rounded(u * p)
    return rounded(1 + p)


branches = {}


def cosine(bits):
    if bits & ~SIGN >= INFINITY:
        branches["not finite"] = branches.get("not finite", 0) + 1
        return NAN
    r = value(bits & ~SIGN) % TURN
    folded = r > HALF_TURN
    if folded:
        r = rounded(TURN - r)
    negated = r > QUARTER_TURN
    branch = (folded, negated)
    branches[branch] = branches.get(branch, 0) + 1
    if negated:
        return bits_of(-polynomial(rounded(HALF_TURN - r)))
    return bits_of(polynomial(r))


def inputs():
    # Zeros, subnormals, borders of the kinds, 1, and what is not finite.
    for bits in (
        0x00000000, 0x00000001, 0x00000002, 0x00400000, 0x007FFFFF, 0x00800000, 0x00800001,
        0x1F800000, 0x2F800000, 0x39800000, 0x3F000000, 0x3F7FFFFF, 0x3F800000, 0x3F800001,
        0x40000000, 0x40400000, 0x40800000, 0x40C00000, 0x41200000, 0x42C80000, 0x43B40000,
        0x7F7FFFFF, 0x7F7FFFFE, 0x7F000000, 0x7F800000, 0x7F800001, 0x7FBFFFFF, 0x7FC00000,
        0x7FC00001, 0x7FFFFFFF,
    ):
        yield bits
        yield bits | SIGN
    # The three constants and their neighbours.
    for bits in (0x40C90FDB, 0x40490FDB, 0x3FC90FDB):
        for by in range(-3, 4):
            yield bits + by
        yield bits | SIGN
    # Multiples of T/8 and their neighbours.
    for k in [*range(1, 34), 63, 64, 65, 100, 255, 256, 1000, 4095, 65536, 1000003]:
        nearest = bits_of(k * TURN / 8)
        yield from (nearest - 1, nearest, nearest + 1)
    # Powers of two up to the largest, and their neighbours in places.
    for exponent in range(0, 255, 5):
        yield exponent << 23 | 0x2AAAAA
    for exponent in range(128, 255, 6):
        yield exponent << 23
        yield (exponent << 23) - 1
    # Angles at which a coefficient that is one step off, up or down, would show.
    yield from (0x3F91721F, 0x3FC2BDD9, 0x3FC3BA21, 0x3FB69D2B, 0x3FBC5926, 0x3FAB3B77, 0x3F9F550D)
    # Angles of a cone's half: within one turn, by a fixed rule.
    word = 1
    for _ in range(60):
        word = (word * 1664525 + 1013904223) % (1 << 32)
        yield bits_of(TURN * Fraction(word, 1 << 32)) | (word & 1) << 31
    # Any bits, by the same rule.
    for _ in range(30):
        word = (word * 1664525 + 1013904223) % (1 << 32)
        yield word


def main():
    seen = set()
    for bits in inputs():
        if bits not in seen:
            seen.add(bits)
            print(f"{bits:08x} {cosine(bits):08x}")
    assert len(branches) == 5 and min(branches.values()) >= 10, branches


if __name__ == "__main__":
    main()
