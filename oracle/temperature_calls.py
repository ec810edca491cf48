"""Calls of the temperature functions over a grid of temperatures and nominal values, and at odd arguments in each place."""
import itertools
import math

from words import number

ODD = [0.0, -0.0, -1.0, 5e-324, 1e-300, 1e300, math.inf, -math.inf, math.nan]
T = [200.0, 233.15, 273.15, 300.15, 330.0, 398.15, 500.0]
# pbfact at 200 K: a junction of this potential has pbo 0 there, which junction_cap_factor answers apart.
PB200 = 0.4165012335096103


def grid(name, *values):
    return [(name, list(arguments)) for arguments in itertools.product(*values)]


def odd_in_each_place(name, *usual):
    return [(name, [*usual[:i], o, *usual[i + 1:]]) for o in ODD for i in range(len(usual))]


def functions():
    ends = [200.0, 300.15, 500.0]
    for t in T + ODD + [199.99999999999997, 500.00000000000006, 1e-20]:
        yield from [("bandgap_ev", [t]), ("pbfact", [t])]
    for name in ["mos_junction_is_factor", "mobility_factor"]:
        yield from grid(name, T, T) + odd_in_each_place(name, 300.15, 300.15)
    yield from grid("scaled_phi", [0.1, 0.3, 0.6, 0.8, 1.0, 4.0, 10.0], T[::2], T[::2]) + odd_in_each_place("scaled_phi", 0.7, 350.0, 300.15)
    yield from grid("junction_cap_factor", [0.1, 0.5, 0.8, 10.0, PB200, math.nextafter(PB200, 1)], [0.0, 0.33, 0.5, 0.9], ends, ends)
    yield from odd_in_each_place("junction_cap_factor", 0.8, 0.5, 350.0, 300.15)
    yield from grid("scaled_vto", [-100.0, 0.7], [0.0, 0.45, 100.0], [0.6, 10.0], [0.05, 0.7, 23.0], [200.0, 500.0], [300.15], [1.0, -1.0])
    yield from odd_in_each_place("scaled_vto", 1.0, 0.5, 0.6, 0.65, 350.0, 300.15, -1.0)


def calls():
    for name, arguments in functions():
        yield " ".join(["call", name, *map(number, arguments)])
    # What has no call of its own: degrees Celsius to kelvin, and a junction's potential.
    for celsius in [-73.14999999999999, -73.15, -40.0, 0.0, -0.0, 27.0, 300.15 - 273.15, 125.0, 226.85000000000005, math.inf, math.nan]:
        yield from ["card n tnom=" + number(celsius), "state"]
    for pb, tnom in itertools.product([0.1, 0.75, 0.8, 10.0], [t - 273.15 for t in T[1::2]]):
        yield from ["card n pb=%s tnom=%s" % (number(pb), number(tnom)), "geometry"]
        for kelvin in T[1::2]:
            yield from ["scale " + number(kelvin), "state"]
