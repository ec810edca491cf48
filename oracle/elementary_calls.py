"""Calls of the elementary functions: every special case, every end of a range with both neighbours, and others at random from a fixed seed."""
import math
import random
import struct


def bits(x):
    return struct.unpack("<Q", struct.pack("<d", x))[0]


def value(b):
    return struct.unpack("<d", struct.pack("<Q", b))[0]


INF = bits(math.inf)
NAN = 0x7FF8000000000000
SIGN = 1 << 63
NORMAL = 1 << 52  # the bits of 2^-1022
SPECIAL = [NAN, INF, INF | SIGN, 0, SIGN, 1, 1 | SIGN, NORMAL - 1, NORMAL, NORMAL + 1, NORMAL | SIGN,
           INF - 1, (INF - 1) | SIGN, bits(1.0), bits(1.0) - 1, bits(1.0) + 1, bits(-1.0)]


def around(x):
    b = bits(x)
    return [b - 1, b, b + 1]


def positive(rng):
    """a positive finite number, its exponent at random"""
    return rng.randrange(1, INF)


def sqrt_arguments(rng):
    out = list(SPECIAL)
    for x in (2.0, 4.0, 9.0, 0.25, 1e-10, 0.6, 1e300, 2.0 ** 1022, 2.0 ** -1000, 2.0 ** -1001):
        out += around(x)
    for _ in range(40):  # near the middle of two roots
        q = rng.randrange(1 << 52, 1 << 53)
        out += around(float(4 * q * q + 4 * q + 1) * 2.0 ** (2 * rng.randrange(-500, 400)))
    for _ in range(20):  # exact roots
        q = float(rng.randrange(1, 1 << 26))
        out += [bits(q * q * 4.0 ** rng.randrange(-300, 300))]
    out += [positive(rng) for _ in range(80)]
    out += [rng.randrange(1, NORMAL) >> rng.randrange(0, 52) for _ in range(20)]
    return [(b, 0) for b in out]


def exp_arguments(rng):
    out = list(SPECIAL) + [bits(s * 2.0 ** e) for s in (1, -1) for e in (-1074, -1022, -100, -60, -54, -53, -52, -30)]
    for x in (700.0, 1.0, 0.5, 2.0 ** -5, math.log(2), 10.0, 128.0, 500.0, 709.0, 710.0):
        out += around(x) + around(-x)
    for k in (2, 3, 10, 100, 500, 1000, 1009):
        out += around(k * math.log(2)) + around(-k * math.log(2))
    for j in range(1, 23):
        out += [bits(j / 32)] + around(j / 32 + 7 * math.log(2))
    out += [bits(rng.uniform(-700, 700)) for _ in range(100)]
    out += [bits(rng.choice((1, -1)) * 2.0 ** rng.uniform(-60, 9.4)) for _ in range(60)]
    return [(b, 0) for b in out]


def ln_arguments(rng):
    out = list(SPECIAL) + [NORMAL >> 1, 3]
    for e in (-1021, -1000, -100, -2, -1, 1, 2, 3, 100, 1000, 1023):
        out += around(2.0 ** e)
    for j in range(1, 16):
        out += around(1 + j / 16) + [bits((1 + j / 16) * 2.0 ** -9)]
    out += [bits(1 + s * 2.0 ** -e) for e in range(2, 53, 5) for s in (1, -1)]
    out += [rng.randrange(NORMAL, INF) for _ in range(80)]
    out += [bits(rng.uniform(0.25, 4)) for _ in range(80)]
    return [(b, 0) for b in out]


def ln_1p_arguments(rng):
    out = list(SPECIAL) + [bits(-0.5)]
    for e in (-1000, -100, -60, -54, -53, -52, -51, -10, -1, 1, 10, 52, 53, 54, 1000):
        out += around(2.0 ** e)
    out += [bits(j / 16) for j in range(1, 32)]
    out += [positive(rng) for _ in range(50)]
    out += [bits(2.0 ** rng.uniform(-60, 60)) for _ in range(80)]
    out += [bits(rng.uniform(0, 1000)) for _ in range(40)]
    return [(b, 0) for b in out]


def pow_arguments(rng):
    fours = around(4.0) + around(-4.0)
    out = [(b, p) for b in SPECIAL for p in SPECIAL + fours]
    out += [(bits(b), p) for b in (2.0, 0.3, 1e-300) for p in SPECIAL + fours]
    for p in (4.0, 1.0, 0.5, -4.0, -1.0):  # where the power passes e^700 and e^-700
        edge = 700 / p
        if abs(edge) < 709:
            out += [(b, bits(p)) for b in around(math.exp(edge)) + [bits(math.exp(edge) * (1 + s * 2.0 ** -40)) for s in (1, -1)]]
    for p in (-0.9, -0.5, -0.33, 0.1, 0.25, 0.5, 0.67, 1.0, 1.33, 1.5, 1.9, 2.0, 3.0, 4.0):
        out += [(bits(rng.uniform(0.01, 5)), bits(p)) for _ in range(8)]
        out += [(rng.randrange(1, NORMAL), bits(p)) for _ in range(2)]
    out += [(bits(2.0 ** rng.uniform(-170, 170)), bits(rng.uniform(-4, 4))) for _ in range(80)]
    out += [(positive(rng), bits(rng.choice((1, -1)) * 2.0 ** rng.uniform(-30, 2))) for _ in range(60)]
    return out


ARGUMENTS = {"sqrt": sqrt_arguments, "exp": exp_arguments, "ln": ln_arguments, "ln_1p": ln_1p_arguments, "pow": pow_arguments}


def word(b):
    return "nan" if b == NAN else f"{b:016x}"


def calls():
    for name, of in ARGUMENTS.items():
        for a, b in dict.fromkeys(of(random.Random(name))):
            yield f"call {name} {word(a)}" + (f" {word(b)}" if name == "pow" else "")
