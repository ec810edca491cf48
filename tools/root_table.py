#!/usr/bin/env python3
"""Prints the function `line` of crates/square_root/src/lib.rt: a line near 1 / sqrt(m) for each of 128 parts of the numbers m from 2
up to 4, and for each of 128 parts of those from 1 up to 2.

A line lies half way between the chord of its part and the tangent that is parallel to it, so that it is as far off at the ends as in
between. A word holds what the line is at 0 in its upper half, without the whole part, and how much it falls from m to m + 1 in its
lower half, both in units of 2^-32. Nothing is claimed of the table: a wrong word costs time and no digit of a root.
"""
from decimal import Decimal, getcontext

PARTS = 128


def word(start, end):
    """The line from start to end."""
    fall = (1 / start.sqrt() - 1 / end.sqrt()) / (end - start)
    chord = 1 / start.sqrt() + fall * start
    touches = (2 * fall) ** (Decimal(-2) / 3)
    tangent = 1 / touches.sqrt() + fall * touches
    at_zero = round((chord + tangent) / 2 * 2**32)
    return at_zero % 2**32 << 32 | round(fall * 2**32)


def words():
    """All lines, as `line` counts them."""
    getcontext().prec = 50
    return [word(first * (1 + Decimal(j) / PARTS), first * (1 + Decimal(j + 1) / PARTS)) for first in (2, 1) for j in range(PARTS)]


def main():
    *most, last = words()
    arms = [f"        {j} => 0x{w:016x},\n" for j, w in enumerate(most)]
    print("fn line(j: u64) -> u64 {\n    match j {\n" + "".join(arms) + f"        _ => 0x{last:016x},\n    }}\n}}")


if __name__ == "__main__":
    main()
