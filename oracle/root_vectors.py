#!/usr/bin/env python3
"""Checks root_vectors.txt in whole numbers: no float arithmetic takes part.

A float x is N(x) * 2^-149 with a whole N(x). r is the nearest to the root of x exactly if x lies
between the squares of the midpoints of r and its two neighbours:
    (N(before) + N(r))^2 < 4 * N(x) * 2^149 < (N(r) + N(after))^2
"""

import sys
from pathlib import Path

INFINITY = 0x7F800000
NAN = 0x7FC00000
SIGN = 0x80000000


def whole(bits):
    """N of a float that is neither negative nor above the largest; for +infinity, 2^128 * 2^149."""
    exponent, significand = bits >> 23, bits & 0x7FFFFF
    if exponent == 0:
        return significand
    return (significand + (1 << 23)) << (exponent - 1)


def right(x, r):
    if x in (0, SIGN, INFINITY):
        return r == x
    if x > INFINITY:
        # A NaN, or negative and not -0.
        return r == NAN
    if not 0 < r < INFINITY:
        return False
    middle = 4 * whole(x) << 149
    below = (whole(r - 1) + whole(r)) ** 2
    above = (whole(r) + whole(r + 1)) ** 2
    return below < middle < above


def main():
    count = 0
    wrong = []
    path = Path(__file__).parent / "root_vectors.txt"
    for line in path.read_text().splitlines():
        vector = line.split("#")[0].split()
        if not vector:
            continue
        x, r = (int(word, 16) for word in vector)
        count += 1
        if not right(x, r):
            wrong.append(line)
    for line in wrong:
        print(f"not the root: {line}", file=sys.stderr)
    if wrong or count < 50:
        sys.exit(1)
    print(f"{count} root vectors checked")


if __name__ == "__main__":
    main()
