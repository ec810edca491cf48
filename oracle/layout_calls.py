"""The number of extra nodes and the cells laid out: at each stage; ground, aliased, falling and far nodes; each slice short by one, exact and
longer; loads on just what was laid out, of devices with all, some and none of the capacitances; damaged words."""
from load_calls import BARE, EULER, GEAR, NO_OVERLAP, PLAIN, SERIES, TRAP, X, device, needed, pattern
from resolved_calls import KINDS, beside, lookup
from words import number, wholes

LAST = 2**32 - 1
APART = [0, 1, 2, 3, 4]
GATE_ALONE = [None, 3, None, None, 4]
ALL_GROUND = [None, None, None, None, 0]
FALLING, GAPS = [5, 4, 3, 2, 0], [9, 4, 12, 2, 6]


def rows_to(nodes):
    """How many rows there are up to the largest node."""
    return 1 + max((n for n in nodes if n is not None), default=-1)


def slices(columns, offsets, lengths):
    """`cells` with slices of so many numbers, each of which tells its slice and place."""
    held = lambda first, n: wholes([first - i for i in range(n)])
    return "cells %s %s %s" % (held(LAST, columns), held(2**64 - 1, offsets), held(2**63, lengths))


def room(nodes, columns=0, offsets=0, lengths=0):
    """`cells` with slices of the needed lengths, and so many numbers more or less."""
    rows = rows_to(nodes)
    return slices(len(needed(nodes, True)) + columns, rows + offsets, rows + lengths)


def bound(card, bind):
    """The line that binds a device of this card, and its nodes then."""
    dev = device(card, bind, "none", stage=3)
    return dev.calls[-1], dev.nodes


def changed(places):
    """Nodes apart but for some."""
    return [places.get(at, node) for at, node in enumerate(APART)]


def positions():
    """A device bound again and again before its first evaluation."""
    alike = [changed({j: i}) for j in range(4) for i in range(j)]
    ground = [changed({i: None}) for i in range(4)]
    inner = [[3, 3, 3, 3, 1], [0, 1, 2, 3, 1], [0, 1, 2, 3, 0]]
    cases = ((SERIES, [APART, *alike, *ground, *inner, GATE_ALONE, ALL_GROUND, FALLING, GAPS]), (PLAIN, [APART, FALLING, GAPS, [3, 3, 3, 3, 1]]))
    for card, binds in cases:
        yield from device(card, APART, "none", stage=2).calls
        for bind in binds:
            line, nodes = bound(card, bind)
            yield from [line, room(nodes, 1, 2, 3)]


def lengths():
    """Slices that are short, exact and longer, each in turn. For 2^32 rows there is never room."""
    dev = device(SERIES, [4, 1, 0, 3, 6], TRAP)
    yield from dev.calls
    for more in ((0, 0, 0), (-1, 0, 0), (0, -1, 0), (0, 0, -1), (-1, 4, 4), (4, -1, 4), (4, 4, -1), (1, 0, 0), (0, 1, 0), (0, 0, 1), (5, 3, 4)):
        yield room(dev.nodes, *more)
    yield "state"
    yield from device(PLAIN, APART, "none", stage=2).calls
    line, nodes = bound(PLAIN, GATE_ALONE)
    yield line
    for more in ((0, 0, 0), (-1, 0, 0), (0, -1, 0), (0, 0, -1), (2, 1, 3)):
        yield room(nodes, *more)
    yield from [bound(PLAIN, ALL_GROUND)[0], slices(0, 0, 0), slices(2, 1, 3)]
    for at in (1, 2):
        yield from [bound(PLAIN, changed({at: LAST}))[0], slices(16, 4, 4)]
    yield from [bound(PLAIN, [LAST] * 4 + [0])[0], slices(0, 0, 0), slices(3, 2, 1)]
    yield from device(SERIES, APART, "none", stage=2).calls
    # the second inner node of the latter is 2^32: that binding is refused and the one before stays
    for first in (LAST - 1, LAST):
        yield from ["bind 0 1 2 3 %d" % first, slices(22, 6, 6)]


def stages():
    """Both calls at each stage."""
    dev = device(SERIES, APART, TRAP)
    for line in [*dev.calls, dev.calls[1], "reset"]:
        yield from [line, "extra", room(dev.nodes)]


def resistances():
    """What the number of extra nodes is worked out from. A sheet resistance counts from the geometry on."""
    keys = lambda made: "".join(" %s=%s" % (k, number(v)) for k, v in made.items())
    for card in {}, {"rd": 5.0}, {"rs": 5.0, "rd": -0.0}, {"rd": 0.0, "rsh": 10.0}, {"rsh": 10.0}:
        yield from ["card n" + keys(card), "extra", "geometry" + keys({"nrd": 2.0, "nrs": 0.5}), "extra"]
    for sizes in {"w": 0.0}, {"nrd": 0.0}, {"w": 1e-5}, {"nrs": 0.0}:
        yield from ["geometry" + keys(sizes), "extra"]
    yield from ["scale " + number(300.15), "geometry" + keys({"nrs": 1.0}), "extra", "bind 0 1 2 3 4", "extra", slices(22, 6, 6)]


def loads():
    """Laid out and looked up before the first evaluation, then loads on just that pattern, one of them after a commit."""
    off = [0.5, 0.1, 0.1, -0.2] + [0.0] * 4
    for card, polarity, bind, method, points in ((SERIES, "n", FALLING, TRAP, X), (PLAIN, "p", [6, 1, 3, 4, 0], GEAR, X), (BARE, "n", APART, EULER, X),
                                                 (NO_OVERLAP, "n", [0, 1, None, 3, 4], "none", [off, X[1]])):
        dev = device(card, bind, method, polarity, points)
        columns, rows = pattern(needed(dev.nodes, True), rows_to(dev.nodes))
        first_eval, commit, second_eval = dev.calls[5:]
        yield from [*dev.calls[:5], room(dev.nodes), lookup(columns, rows), first_eval, commit]
        yield from [*beside(columns, rows, KINDS[1]), room(dev.nodes), second_eval]
        for kind in KINDS:
            yield from beside(columns, rows, kind)
        yield room(dev.nodes)


def damaged():
    """A word too many or too few, and lists of another form, before and after the binding."""
    yield from ["reset", "extra 0", "Extra", "cells - -", "cells x - -"]
    yield from device(PLAIN, GATE_ALONE, "none", stage=3).calls[1:]
    for words in ("", "-", "- -", "- - - -", "4294967296 - -", "18446744073709551616 - -", "- 18446744073709551616 -", "- - 18446744073709551616",
                  "0:1 - -", "- 0:0 0:0", "0, - -", "- ,0 -", "- - 0,,0", "nan - -", "- - +1", "007 5,05,5,5 - "):
        yield ("cells " + words).strip()
    for n in (4096, 4097):
        yield "cells %s - -" % wholes([0] * n)
        yield "cells 7 %s 1,2,3" % wholes([0] * n)
    yield "extra -"


def calls():
    for part in (positions, lengths, stages, resistances, loads, damaged):
        yield from part()
