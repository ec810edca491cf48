"""What the lists share: the tables of keys, and words of the script format."""
import math
import struct

NAN, INF = math.nan, math.inf
TINY, LEAST_NORMAL = 5e-324, 2.2250738585072014e-308
ODD = [0.0, -0.0, TINY, -TINY, 1e-310, LEAST_NORMAL, 1e-300, -1e-300, 1e300, 1.7976931348623157e308, -1.7976931348623157e308,
       INF, -INF, NAN, 1.0, -1.0]

CARD = {"vto": (-100, 100), "vth0": (-100, 100), "vtho": (-100, 100), "kp": (0, 100), "uo": (0, 1e5), "u0": (0, 1e5), "is": (0, 1),
        "js": (0, 1e6), "lambda": (0, 10), "gamma": (0, 100), "phi": (0.1, 10), "pb": (0.1, 10), "rd": (1e-6, 1e9), "rs": (1e-6, 1e9),
        "rsh": (1e-6, 1e6), "kf": (0, 1), "af": (0.25, 4), "cgso": (0, 1), "cgdo": (0, 1), "cgbo": (0, 1), "cox": (0, 1),
        "tox": (1e-10, 1e-4), "cj": (0, 1), "cjsw": (0, 1), "mj": (0, 0.9), "mjsw": (0, 0.9), "fc": (0, 0.95),
        "tnom": (-73.15, 226.85)}
GEOMETRY = {"w": (1e-9, 1), "l": (1e-9, 1), "as": (0, 1), "ad": (0, 1), "ps": (0, 1e3), "pd": (0, 1e3), "nrd": (1e-6, 1e6), "nrs": (1e-6, 1e6)}
MAY_BE_ZERO = {"rd", "rs", "rsh", "nrd", "nrs"}
UNREAD = ["nsub", "nss", "nfs", "tpg", "ucrit", "uexp", "utra", "vmax", "xj", "ld", "delta", "theta", "eta", "kappa", "php", "level"]


def number(x):
    return "nan" if x != x else "%016x" % struct.unpack("<Q", struct.pack("<d", x))[0]


def numbers(xs):
    return ",".join(map(number, xs)) if xs else "-"


def wholes(xs):
    return ",".join(map(str, xs)) if xs else "-"


def pairs(xs):
    return ",".join("%d:%d" % p for p in xs) if xs else "-"


def neighbours(x):
    return [math.nextafter(x, -INF), x, math.nextafter(x, INF)]
