"""Cells looked up once and loads by them: each beside the load on the same pattern, ground and aliased nodes in each position, each needed
cell missing in turn, patterns that row 12 refuses, other counts, bindings and devices since the lookup, a refused lookup in between, another
pattern since."""
from load_calls import (BARE, DC, EULER, FAR, GEAR, NO_OVERLAP, PLAIN, SERIES, TRAP, X, contents, device, needed, pattern, tran)
from words import NAN, numbers, pairs, wholes

DENSE = pattern([(r, c) for r in range(6) for c in range(6)], 6)
KINDS = (DC, tran(5.0))


def lookup(columns, rows):
    return "resolve %s %s" % (wholes(columns), pairs(rows))


def by_cells(kind, sides, values):
    return "loadresolved %s %s %s" % (kind, numbers(sides), numbers(values))


def beside(columns, rows, kind):
    """The same load by the kept cells and by a search."""
    sides, values = contents(len(rows), 1.0), contents(len(columns), 1e-3)
    yield by_cells(kind, sides, values)
    yield "load %s %s %s %s %s" % (kind, numbers(sides), wholes(columns), pairs(rows), numbers(values))


def looked_up(dev, columns, rows):
    """A device brought to its state, its cells, and both loads beside the search's."""
    yield from [*dev.calls, lookup(columns, rows)]
    for kind in KINDS:
        yield from beside(columns, rows, kind)


def positions():
    """Ground in each position and nodes that coincide, in the needed cells alone and with gaps."""
    for at in range(4):
        bind = [0, 1, 2, 3, 4]
        bind[at] = None
        for dev in (device(SERIES, bind, TRAP), device(PLAIN, bind, GEAR, "p")):
            for gap in (0, 2):
                yield from looked_up(dev, *pattern(needed(dev.nodes, True), 6, gap))
    for bind in ([None, None, None, None, 0], [0, 0, 2, 3, 4], [0, 1, 1, 3, 4], [0, 1, 2, 0, 4], [0, 1, 0, 3, 4], [3, 3, 3, 3, 1], [0, 1, 2, 3, 1]):
        for card in (SERIES, PLAIN):
            yield from looked_up(device(card, bind, EULER), *DENSE)
    yield from looked_up(device(PLAIN, [None] * 4 + [0], EULER), [], [])


def missing():
    """Each needed cell left out in turn. Those of the branches may be, until a transient load needs them."""
    for card, points in ((SERIES, X), (NO_OVERLAP, [[0.5, 0.1, 0.1, -0.2] + [0.0] * 4, X[1]]), (BARE, X)):
        dev = device(card, [0, 1, 2, 3, 4], TRAP, points=points)
        yield from dev.calls
        cells = needed(dev.nodes, True)
        for left_out in cells:
            # A refused lookup keeps what was kept: zeros at first, then the cells of the last accepted one.
            columns, rows = pattern([c for c in cells if c != left_out], 6)
            yield lookup(columns, rows)
            for kind in KINDS:
                yield from beside(columns, rows, kind)


def rows_of_a_lookup():
    """Rows 8, 10 and 12, the lowest first, at each stage."""
    columns, rows = DENSE
    swapped = [1, 0, *columns[2:]]
    for stage in range(4):
        yield from [*device(SERIES, [0, 1, 2, 3, 4], "none", stage=stage).calls, lookup(columns, rows), lookup(swapped, rows[:3])]
    yield from device(SERIES, [0, 1, 2, 3, 4], "none", stage=3).calls
    yield "bind 0 1 2 3 4"
    for short in range(6):
        yield lookup(columns, rows[:short])
    yield lookup(swapped, rows[:5])
    yield lookup(swapped, rows)
    for pair in (FAR, 0), (FAR, 1), (FAR - 5, 6), (35, 2), (0, FAR), (30, FAR - 29), (29, 6), (2 ** 63, 2 ** 63), (36, 0), (37, 0), (31, 5):
        yield lookup(columns, rows[:5] + [pair])
        yield lookup(columns, rows + [pair])
    yield lookup(columns[:35], rows)
    yield lookup(columns + [7, 7], rows)
    yield lookup([0] * 36, rows)
    yield lookup(columns[:35] + [2 ** 32 - 1], rows)


def rows_of_a_load():
    """Rows 8, 10, 11, 12 and 13 of a load by cells, the lowest first."""
    columns, rows = DENSE
    sides, values = contents(6, 1.0), contents(36, 1e-3)
    dev = device(SERIES, [0, 1, 2, 3, 4], "none")
    # before any lookup there are 37 zeros
    yield from [*dev.calls, by_cells(DC, sides, values), by_cells(DC, [], []), lookup(columns, rows)]
    for kind in (DC, tran(1.0), tran(0.5), tran(NAN)):
        for n in (0, 5, 6, 7):
            for count in (0, 35, 36, 37):
                yield by_cells(kind, (sides + [1.0])[:n], (values + [1.0])[:count])
    for stage in range(4):
        yield from device(SERIES, [0, 1, 2, 3, 4], "none", stage=stage).calls[1:]
        yield from [by_cells(tran(0.5), sides[:3], values[:3]), by_cells(DC, sides, values)]
    all_ground = device(PLAIN, [None] * 4 + [0], EULER)
    yield from [*all_ground.calls, by_cells(DC, [], []), lookup([], []), by_cells(DC, [], []), by_cells(DC, sides, []), by_cells(DC, [], values)]


def since():
    """What came between the lookup and the load: the same nodes again, others, another device, another pattern of the same counts."""
    columns, rows = DENSE
    # [1:] leaves the reset out: the cells stay
    first = device(SERIES, [0, 1, 2, 3, 4], TRAP)
    yield from [*first.calls, lookup(columns, rows)]
    others = [device(card, bind, EULER, polarity) for card, bind, polarity in (
        (SERIES, [0, 1, 2, 3, 4], "p"), (PLAIN, [0, 1, 2, 3, 4], "n"), (SERIES, [0, 1, 2, 5, 3], "n"), (SERIES, [3, 1, 2, 0, 4], "n"),
        (SERIES, [None, 1, 2, 3, 4], "n"), (SERIES, [0, 1, 2, None, 4], "p"), (dict(SERIES, cgbo=0.0), [0, 1, 2, 3, 4], "n"))]
    for dev in others:
        yield from dev.calls[1:]
        for kind in KINDS:
            yield from beside(columns, rows, kind)
    yield from first.calls[1:-3]
    yield "bind 0 1 2 5 3"
    yield from [*first.calls[-3:], by_cells(DC, contents(6, 1.0), contents(36, 1e-3))]
    cells = [(r, c) for r in range(6) for c in range(6)]
    yield from first.calls[1:]
    yield lookup(*pattern([c for c in cells if c != (0, 5)], 6))
    changed = pattern([c for c in cells if c != (2, 0)], 6)
    for kind in KINDS:
        yield from beside(*changed, kind)
    yield lookup(columns, rows[:5])
    yield by_cells(DC, contents(6, 1.0), contents(35, 1e-3))
    yield "reset"
    yield from [*first.calls[1:], by_cells(DC, contents(6, 1.0), contents(35, 1e-3))]
    for damaged in ("resolve", "resolve 0", "resolve 0 0", "resolve 4294967296 0:1", "resolve - - -", "loadresolved", "loadresolved dc -",
                    "loadresolved tran: - -", "loadresolved dc - - -", "loadresolved DC - -", "loadresolved dc 0 -"):
        yield damaged


def calls():
    for part in (positions, missing, rows_of_a_lookup, rows_of_a_load, since):
        yield from part()
