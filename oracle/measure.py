#!/usr/bin/env python3
"""Holds the answers to `call` of the elementary functions to exact values.

  measure.py SCRIPT ANSWERS     as crates/replay/stdin and stdout

A square root must be the exact one, found by whole numbers. The others are held to mpmath at 300 digits: a special case must be what the
scope paper says, and the largest distance from the exact value is printed for each function beside its bound. Exit status 1 where
anything is off.
"""
import math
import sys

import mpmath as mp

from elementary_calls import ARGUMENTS, INF, NAN, NORMAL, SIGN, bits, value


def fraction(b):
    """a positive finite number as a whole number of 2^-1074"""
    field, digits = b >> 52, b & (NORMAL - 1)
    return digits if field == 0 else (digits + NORMAL) << (field - 1)


def sqrt_expected(b):
    if b in (0, SIGN, INF):
        return b
    if b > INF:
        return None
    square = fraction(b) << 1074  # of the root in units of 2^-1074
    root = math.isqrt(square)
    drop = root.bit_length() - 53
    kept = root >> drop
    middle = (2 * kept + 1) << drop
    if middle * middle < 4 * square:
        kept += 1
    return (drop << 52) + kept


def exact_case(name, a, b):
    """the bits at an argument where they are fixed, None for NaN, "free" where a bound holds"""
    x, y = value(a), value(b)
    if name == "exp":
        if math.isnan(x):
            return None
        return INF if x > 700 else 0 if x < -700 else bits(1.0) if x == 0 else "free"
    if name == "ln":
        return 0 if x == 1 else "free" if value(NORMAL) <= x < math.inf else None
    if name == "ln_1p":
        return 0 if x == 0 else "free" if 0 < x < math.inf else None
    if y == 0 or x == 1:
        return bits(1.0)
    if x == 0 and y > 0:
        return 0
    return "free" if 0 < x < math.inf and abs(y) <= 4 else None


def distance(name, a, b, r):
    """from the exact value, in the terms of the function's bound"""
    x, y, z = mp.mpf(value(a)), mp.mpf(value(b)), mp.mpf(value(r))
    if name == "exp":
        return abs(z / mp.exp(x) - 1)
    if name == "ln":
        return abs(z - mp.log(x))
    if name == "ln_1p":
        return abs(z - mp.log(1 + x))
    exact = mp.exp(mp.log(x) * y)
    if r == INF:
        return mp.mpf(0) if exact > mp.mpf(2) ** 1000 else mp.inf
    return mp.mpf(0) if abs(z - exact) <= mp.mpf(2) ** -1000 else abs(z / exact - 1)


BOUND = {"exp": -45, "ln": -42, "ln_1p": -42, "pow": -40}


def read(word):
    return NAN if word == "nan" else int(word, 16)


def calls(script, answers):
    """Name, arguments and answer of each call of an elementary function with its number of arguments."""
    asked = [line.split() for line in open(script) if line.strip(" \n") and not line.startswith("#")]
    for words, answer in zip(asked, open(answers), strict=True):
        if words[0] == "call" and words[1] in ARGUMENTS and answer != "bad\n":
            yield words[1], read(words[2]), read(words[-1]), None if answer == "call nan\n" else int(answer.split()[1], 16)


def measure(script, answers):
    mp.mp.dps = 300
    count, largest, bad = {}, {}, 0
    for name, a, b, r in calls(script, answers):
        line = f"{name} {a:016x} {b:016x}"
        count[name] = count.get(name, 0) + 1
        want = sqrt_expected(a) if name == "sqrt" else exact_case(name, a, b)
        if want != "free":
            ok = r == want
        elif r is None:
            ok = False
        else:
            d = distance(name, a, b, r)
            ok = d <= mp.mpf(2) ** BOUND[name]
            largest[name] = max(largest.get(name, (0, "")), (d, line))
        if not ok:
            bad += 1
            print("off:", line, r, "" if want == "free" else want)
    for name, n in count.items():
        if name in largest:
            d, line = largest[name]
            print(f"{name}: {n} arguments, at most 2^{float(mp.log(d, 2)):.2f} (bound 2^{BOUND[name]}), at {line}")
        else:
            print(f"{name}: {n} arguments, exact")
    sys.exit(bad > 0)


measure(*sys.argv[1:])
