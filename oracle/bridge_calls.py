"""Loads of a block into its run of rows and of a whole bridge: a half bridge, each block alone and all together; runs that touch, overlap, are
empty, fall or leave the buffer; odd contents around a run and before the zeroing; no device, 64 and 65 of them; each row at the last device and
the order of the rows over all devices; devices at every stage; damaged words."""
from layout_calls import rows_to
from load_calls import DC, EULER, FAR, GEAR, PLAIN, SERIES, TRAP, X, contents, device, needed, pattern, tran
from resolved_calls import KINDS
from words import INF, NAN, numbers, pairs, wholes

TRAN = tran(5.0)
MORE = [x + [0.05, 0.2, 0.1, 0.0] for x in X]  # voltages for twelve nodes
RUNS = [(1, 7), (8, 4), (12, 2)]  # high side, low side and clamp, with a row before and behind them
ROWS = 15


def at(place, dev):
    """A device brought to its state and placed. The reset is left out: the bank stays."""
    return [*dev.calls[1:], "place %d" % place]


def matrix(devices, kind=TRAN, without=None, gap=0):
    """Columns and rows of the cells that these devices need together, or all of them but one."""
    cells = {cell for dev in devices for cell in needed(dev.nodes, kind != DC)}
    return pattern(sorted(cells - {without}), max((rows_to(dev.nodes) for dev in devices), default=0), gap)


def load(block, count, runs, kind, sides, columns, rows, values):
    """The load of the block of this number, or of the bridge. Sides and values may be a number of random contents."""
    sides, values = (contents(held, size) if isinstance(held, int) else held for held, size in ((sides, 1.0), (values, 1e-3)))
    head = "loadbridge %d" % count if block is None else "loadblock %d %d" % (block, count)
    return "%s %s %s %s %s %s %s" % (head, pairs(runs), kind, numbers(sides), wholes(columns), pairs(rows), numbers(values))


def on(block, devices, runs=RUNS, kind=TRAN, sides=ROWS, without=None, gap=0):
    """A load of all these devices into the cells that they need."""
    columns, rows = matrix(devices, kind, without, gap)
    return load(block, len(devices), runs, kind, sides, columns, rows, len(columns))


def both(devices, **given):
    """A load of the first block and one of the bridge, alike but for the contents."""
    return [on(0, devices, **given), on(None, devices, **given)]


CLAMP = device(PLAIN, [0, 1, 1, 1, 2], EULER, "p", X[1:])


def blocks():
    """Each block alone. Nodes are numbered from the start of its run."""
    high = [device(SERIES, [0, 1, 2, 2, first], method, points=X[1:]) for first, method in ((3, TRAP), (5, "none"))]
    low = [device(SERIES, [0, 1, None, None, 2], GEAR)]
    yield "reset"
    for block, devices in enumerate((high, low, [CLAMP])):
        for place, dev in enumerate(devices):
            yield from at(place, dev)
        for kind in KINDS:
            yield on(block, devices, kind=kind)


def odd():
    """Contents before, in and behind the run, and what the zeroing has to take away, in the gaps of the matrix too."""
    columns, rows = matrix([CLAMP], gap=3)
    sides = [NAN, -0.0, INF, -0.0, 0.25, 1e300, -INF, -0.0, 5e-324]
    values = ([-0.0, NAN, 1e300, INF, -INF] * len(columns))[:len(columns)]
    for block in (0, 1, None):
        yield load(block, 1, [(6, 3), (3, 3)], TRAN, sides, columns, rows, values)
        yield load(block, 1, [(6, 3), (3, 3)], TRAN, [-0.0] * 9, columns, rows, [-0.0] * len(columns))
    yield load(None, 1, [], DC, [NAN] * 9, columns, rows, [NAN] * len(columns))


def accepted_runs():
    """The clamp, a block of two rows, in a buffer of twelve: which runs are accepted. Some are tried on the bridge too."""
    clamp = lambda block, made: on(block, [CLAMP], made, DC, 12)
    touching, falling = [(0, 4), (4, 2), (6, 6)], [(6, 6), (3, 2), (0, 3)]
    for block in range(3):
        yield from [clamp(block, touching), clamp(block, falling)]
    # empty runs: in another run, where one begins, two at one place, at the end
    empty = [(2, 8), (5, 0), (2, 0), (2, 0), (10, 0), (0, 0), (12, 0)]
    yield from [clamp(0, empty), clamp(1, empty), clamp(6, empty)]
    overlapping = [[(0, 5), (4, 4)], [(4, 4), (0, 5)], [(3, 2), (3, 2)], [(5, 1), (0, 12)], [(0, 2), (4, 4), (2, 2), (7, 1)]]
    leaving = [[(9, 4)], [(12, 1)], [(0, 2), (13, 0)], [(FAR, 0)], [(FAR, 1)], [(1, FAR)], [(FAR, FAR)], [(2**63, 2**63)], [(0, 2), (2, FAR - 1)]]
    for made in overlapping + leaving:
        yield clamp(0, made)
    for made in (falling, empty, overlapping[1], leaving[2], leaving[4], []):
        yield clamp(None, made)
    yield from [clamp(0, []), clamp(3, touching), clamp(FAR, touching), clamp(0, [(10, 2)]), clamp(0, [(3, 1)])]
    yield clamp(4094, [(12, 0)] * 4094 + [(4, 3)] + [(5, 0)])
    yield clamp(0, [(4, 3)] + [(0, 0)] * 4096)
    # a device without nodes is content with an empty run
    yield from at(0, device(PLAIN, [None] * 4 + [0], EULER, points=X[1:]))
    yield from [load(1, 1, [(0, 1), (1, 0)], TRAN, 1, [], [], 0), load(0, 1, [(0, 0)], TRAN, 0, [], [(0, 0)], 0)]
    yield load(None, 1, [], TRAN, 0, [3], [], 1)


def bridge():
    """The half bridge in numbers of its own: the phase is node 0 and common to all, then the upper gate, the supply, the lower gate. Then more
    clamps in every place, and other counts."""
    made = ((SERIES, [2, 1, 0, 0, 4], TRAP, "n", MORE), (SERIES, [2, 1, 0, 0, 6], "none", "n", MORE[1:]),
            (SERIES, [0, 3, None, None, 8], GEAR, "n", MORE), (PLAIN, [0, 2, 2, 2, 10], EULER, "p", MORE[1:]))
    devices = [device(*given) for given in made]
    for place, dev in enumerate(devices):
        yield from at(place, dev)
        yield on(None, devices[:place + 1])
    yield from [on(None, devices, kind=DC), on(None, devices, [(8, 2), (0, 8)], sides=10, gap=2), on(None, devices, [], sides=9)]
    yield from ["place %d" % place for place in range(4, 64)]
    full, run = devices + devices[3:] * 60, [(2, 10)]
    yield from [*both(full, runs=run), on(None, full, run, DC), on(None, full, [(0, 1)], sides=1), on(None, full[:63])]
    yield from both(full + full[:1], runs=run)
    yield from [load(block, 65, [(0, 1)], DC, [2.5], [], [], []) for block in (0, None)]
    # no device: only rows 14 and 12 can refuse, and the bridge is zeroed
    columns, rows = matrix(full)
    for given in ((RUNS, tran(NAN), ROWS, columns, rows, len(columns)), ([(0, 0)], DC, 0, [], [], 0), (RUNS, TRAN, ROWS, columns, rows, 3),
                  ([(0, 2)], DC, 1, [1, 0], [], 0)):
        yield from [load(block, 0, *given) for block in (0, None)]


def order():
    """Six devices. With other arguments each of the last four is the first that a row refuses, or one of several: the third where a cell of its
    own is missing, the fourth by alpha, the fifth by a short buffer or matrix, the sixth always."""
    made = ((SERIES, [0, 1, 2, 3, 4], TRAP, "n"), (PLAIN, [3, 1, 0, 2, 6], EULER, "p"), (PLAIN, [4, None, 5, 0, 6], GEAR, "n"),
            (PLAIN, [0, 1, 2, 3, 4], "none", "n"), (SERIES, [0, 1, 2, 3, 6], EULER, "p"))
    devices = [device(*given, X[1:]) for given in made] + [device(PLAIN, [1, 0, 2, 3, 4], TRAP, stage=3)]
    for place, dev in enumerate(devices):
        yield from at(place, dev)
    run, short, bad = [(1, 8)], [(0, 7)], tran(0.5)
    # the devices up to one of them: accepted, then refused at the last
    yield from [*both(devices[:5], runs=run), *both(devices, runs=run)]
    yield from [on(None, devices[:4], short, sides=7), *both(devices[:5], runs=short, sides=7), on(0, devices[:5], [(1, 7)])]
    yield from [on(0, devices[:3], run, bad), *both(devices[:4], runs=run, kind=bad), *both(devices[:3], runs=run, without=(5, 4))]
    # several rows at once; the matrix has fewer rows, or columns that fall
    columns, spans = matrix(devices)
    falling = [columns[1], columns[0], *columns[2:]]
    for block, count, kind, made in ((1, 5, TRAN, (columns, spans[:7])), (None, 6, bad, (falling, spans[:7])), (1, 6, bad, (falling, spans)),
                                     (None, 5, bad, (falling, spans)), (1, 5, TRAN, (falling, spans)), (None, 3, bad, (falling, spans))):
        yield load(block, count, [(0, 1), *run], kind, ROWS, *made, len(columns))
    yield from [load(block, 6, [(1, 8), (8, 1)], bad, ROWS, falling, spans[:7], 3) for block in (0, None)]
    # a cell of the first device is missing, and a later one meets a lower row
    for given in ({"runs": short, "sides": 7}, {"runs": run}, {"runs": run, "kind": bad}):
        yield from [on(None, devices, without=(0, 0), **given), on(0, devices[:5], without=(0, 0), **given)]
    # alpha's ends, where one of the devices has no step
    for alpha in (1.0, 1e16, 0.9999999999999999, 1.0000000000000002e16, NAN):
        yield on(None, devices[:4], run, tran(alpha))


def stages():
    """The device at each stage, placed and loaded into a run that it fits and into a shorter one. What happens to the present device after it
    was placed is nothing to the bank, until it is placed again; a reset forgets the bank."""
    dev = device(PLAIN, [0, 1, 2, 3, 4], EULER, points=X[1:])
    for line in dev.calls:
        yield from [line, "place 0", on(0, [dev])]
        if line.startswith(("bind", "eval")):
            yield on(2, [dev])
    yield from ["card p", on(None, [dev]), "place 1", on(0, [dev]), on(0, [dev] * 2), "reset", on(0, [dev])]


def damaged():
    """Words too many or too few, places and counts beyond the bank, lists of another form."""
    yield from ["place", "place 63", "place 64", "place 18446744073709551616", "place -", "place 0 0", "place 007", "Place 0"]
    good = "0 0:1 dc 3ff0000000000000 - - -"
    yield from ["loadblock 0 " + good, "loadbridge " + good, "loadblock " + good, "loadbridge 0 " + good, "loadblock 0 0 " + good]
    for words in ("-" + good[1:], "66" + good[1:], good[:-2], good + " -"):
        yield from ["loadblock 0 " + words, "loadbridge " + words]
    yield from ["loadblock", "loadbridge", "loadblock - " + good, "loadblock 18446744073709551616 " + good]
    for words in ("0:1,,0:0 dc nan - - -", "0 dc nan - - -", "0:1:1 dc nan - - -", "0:18446744073709551616 dc nan - - -", "0:1 DC nan - - -",
                  "0:1 tran: nan - - -", "0:1 dc 1 - - -", "0:1 dc nan 4294967296 - nan", "0:1 dc nan 0 0 nan"):
        yield "loadblock 0 0 " + words


def calls():
    for part in (blocks, odd, accepted_runs, bridge, order, stages, damaged):
        yield from part()
