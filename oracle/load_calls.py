"""Loads of devices in many states: ground and aliased nodes in each position, each needed cell missing in turn, gaps, empty rows, row 12's
patterns, alpha's ends, the order of the rows, odd contents, every method."""
import random

from words import INF, NAN, number, numbers, pairs, wholes

FAR = 2**64 - 1
RANDOM = random.Random(1)


class Device:
    """A device, by the calls that bring it into its state, and its loads."""

    def __init__(self, calls, nodes):
        self.calls = calls
        self.nodes = nodes  # d g s b, the internal drain and source; None is ground
        self.loads = []

    def load(self, kind, rhs, columns, rows, values):
        self.loads.append("load %s %s %s %s %s" % (kind, numbers(rhs), wholes(columns), pairs(rows), numbers(values)))


PLAIN = {"vto": 0.7, "kp": 2e-5, "lambda": 0.02, "gamma": 0.4, "phi": 0.65, "cgso": 1e-10, "cgdo": 2e-10, "cgbo": 3e-10, "cox": 1e-3,
         "cj": 1e-4, "cjsw": 1e-10, "mj": 0.5, "mjsw": 0.33, "pb": 0.8}
SERIES = dict(PLAIN, rd=10.0, rs=20.0)
BARE = {"vto": 0.7, "kp": 2e-5}
NO_OVERLAP = {"vto": 0.7, "kp": 2e-5, "cox": 1e-3}
SIZE = {"w": 1e-5, "l": 1e-6, "as": 1e-11, "ad": 2e-11, "ps": 1e-5, "pd": 2e-5}
X = [[1.0, 1.5, 0.1, -0.2, 0.9, 0.15, 0.3, -0.1], [1.1, 1.4, 0.12, -0.25, 0.95, 0.17, 0.2, 0.05]]
TRAP = "trap:" + number(1e-9)
GEAR = "gear:%s:%s" % (number(1e-9), number(2e-9))
EULER = "euler:" + number(1e-9)


def device(card, bind, method, polarity="n", points=X, stage=4):
    """A device after the evaluations at the points, each but the last committed, or stopped at an earlier stage."""
    keys = lambda d: " ".join("%s=%s" % (k, number(v)) for k, v in d.items())
    calls = ["reset", "card %s %s" % (polarity, keys(card)), "geometry " + keys(SIZE), "scale " + number(300.15)]
    calls.append("bind " + " ".join("-" if n is None else str(n) for n in bind))
    calls = calls[:2 + stage]
    if stage == 4:
        for i, x in enumerate(points):
            x = numbers(x)
            calls.append("eval tran %s %s nolim %s %s" % (number(300.15), number(1e-12), method, x))
            if i < len(points) - 1:
                calls.append("commit " + x)
    d, g, s, b, first = bind
    inner_d, after = (first, first + 1) if "rd" in card else (d, first)
    return Device(calls, (d, g, s, b, inner_d, after if "rs" in card else s))


def needed(nodes, transient):
    """The cells that a load of a device with all its capacitances needs, in order of row and column."""
    d0, g, s0, b, d, s = nodes
    cells = [(d, g), (d, d), (d, s), (d, b), (s, g), (s, d), (s, s), (s, b), (d0, d0), (d0, d), (d, d0), (s0, s0), (s0, s), (s, s0),
             (b, b), (b, s), (b, d)]
    if transient:
        cells += [(g, g), (g, s), (g, d), (g, b), (b, g)]
    return sorted({c for c in cells if None not in c})


def pattern(cells, rows, gap=0):
    """Columns and rows of the cells; before each row a gap of so many columns, which fall and repeat."""
    columns, pairs = [], []
    for r in range(rows):
        columns += [7, 7, 0][:gap]
        row = [c for q, c in cells if q == r]
        pairs.append((len(columns), len(row)))
        columns += row
    return columns, pairs


DC = "dc"


def tran(alpha):
    return "tran:" + number(alpha)


def contents(n, size):
    return [RANDOM.uniform(-size, size) for _ in range(n)]


def add(dev, kind, columns, rows, sides=None, held=None):
    """A load with random contents."""
    sides = len(rows) if sides is None else sides
    dev.load(kind, contents(sides, 1.0), columns, rows, contents(len(columns) if held is None else held, 1e-3))


def least(dev, kind, rows, without=None, gap=0):
    """A load into the needed cells alone, or all of them but one."""
    cells = [c for c in needed(dev.nodes, kind != DC) if c != without]
    add(dev, kind, *pattern(cells, rows, gap))


def both(dev, rows):
    least(dev, DC, rows)
    least(dev, tran(5.0), rows)
    return dev


def positions():
    """Ground in each position, and nodes that coincide, with and without internal nodes."""
    devices = []
    for at in range(4):
        bind = [0, 1, 2, 3, 4]
        bind[at] = None
        devices += [both(device(SERIES, bind, TRAP), 6), both(device(PLAIN, bind, GEAR, "p"), 4)]
    devices += [both(device(card, [None] * 4 + [0], EULER), rows) for card, rows in ((PLAIN, 0), (PLAIN, 2), (SERIES, 2))]
    alike = [[0, 0, 2, 3, 4], [0, 1, 1, 3, 4], [0, 1, 2, 2, 4], [0, 1, 2, 0, 4], [0, 1, 2, 1, 4], [0, 1, 0, 3, 4], [3, 3, 3, 3, 1], [0, 1, 2, 3, 1]]
    devices += [both(device(SERIES, bind, EULER), 6) for bind in alike]
    devices += [both(device(PLAIN, [0, 1, 0, 3, 4], method), 4) for method in ("none", TRAP)]
    return devices


def odd():
    """Contents that are zeros, infinities, NaN or so large that what is added is lost, and a junction far forward, whose offset is a NaN."""
    columns, rows = pattern([(r, c) for r in range(4) for c in range(4)], 4)
    one = device(SERIES, [0, 1, 0, 3, 2], TRAP)
    for x in (-0.0, 1e300, INF):
        one.load(tran(5.0), [x] * 4, columns, rows, [x] * 16)
    one.load(DC, [NAN] * 4, columns, rows, [NAN] * 16)
    forward = device(PLAIN, [0, 1, 2, 3, 4], EULER, points=[[0.0, 1.0, 0.1, 30.0] + [0.0] * 4])
    add(forward, tran(5.0), columns, rows)
    return [one, forward]


def missing():
    """Each needed cell left out in turn, and none."""
    devices = []
    for kind in (DC, tran(5.0)):
        dev = device(SERIES, [0, 1, 2, 3, 4], TRAP)
        for cell in [None] + needed(dev.nodes, kind != DC):
            least(dev, kind, 6, cell)
        devices.append(dev)
    # a capacitance that has become 0 needs no cells and still loads its history current
    dev = device(NO_OVERLAP, [0, 1, 2, 3, 4], EULER, points=[[0.5, 0.1, 0.1, -0.2] + [0.0] * 4, X[1]])
    for cell in [None] + needed(dev.nodes, True):
        least(dev, tran(5.0), 4, cell)
    bare = device(BARE, [0, 1, 2, 3, 4], "none")
    least(bare, tran(5.0), 4, None)
    return devices + [dev, bare]


def shapes():
    """Gaps, empty rows, and patterns that row 12 refuses."""
    dev = device(PLAIN, [1, 3, 4, 6, 0], TRAP)
    for gap in range(4):
        least(dev, tran(5.0), 8, None, gap)
    cells = [(r, c) for r in range(4) for c in range(4)]
    columns, rows = pattern(cells, 4)
    dense = device(PLAIN, [0, 1, 2, 3, 4], EULER)
    kind = tran(5.0)
    add(dense, kind, columns, rows)
    add(dense, kind, columns[:15] + [2 ** 32 - 1], rows)
    add(dense, kind, columns[:12] + [0, 1, 3, 2 ** 32 - 1], rows)
    for i in range(7):
        swapped = columns[:]
        swapped[i], swapped[i + 1] = swapped[i + 1], swapped[i]
        add(dense, kind, swapped, rows)
        add(dense, kind, columns[:i] + [columns[i + 1]] + columns[i + 1:], rows)
    for pair in (FAR, 0), (FAR, 1), (FAR - 15, 16), (FAR - 3, 4), (15, 2), (0, FAR), (12, FAR), (12, FAR - 11), (11, 4), (2 ** 63, 2 ** 63):
        add(dense, kind, columns, rows[:3] + [pair])
    for pair in (FAR, 0), (FAR, 1), (16, 0), (16, 1), (17, 0), (15, 1), (2 ** 32, 0):
        add(dense, kind, columns, rows + [pair])
    add(dense, kind, columns, [rows[0], rows[2], rows[1], rows[3]])
    add(dense, kind, columns, [rows[0], rows[0], rows[2], rows[3]])
    add(dense, kind, columns, rows, held=15)
    add(dense, kind, columns, rows, held=17)
    return [dev, dense]


def order():
    """The lowest row wins; alpha's ends; slices that are too short; calls before the evaluation."""
    columns, rows = pattern([(r, c) for r in range(4) for c in range(4)], 4)
    bad = [0] * 16
    free = device(PLAIN, [0, 1, 2, 3, 4], "none")
    for alpha in (1.0, 2.0, 1e16, 0.9999999999999999, 1.0000000000000002e16, 0.0, -1.0, INF, NAN):
        add(free, tran(alpha), columns, rows)
    add(free, tran(0.5), bad, rows)
    add(free, tran(0.5), bad, rows, sides=3)
    add(free, DC, columns, rows[:3], sides=4)
    add(free, tran(2.0), bad[:3], [(0, 1), (1, 1), (2, 1), (3, 0)])
    stepped = device(PLAIN, [0, 1, 2, 3, 4], GEAR, points=X[1:])
    add(stepped, tran(NAN), columns, rows)
    early = [device(PLAIN, [0, 1, 2, 3, 4], "none", stage=stage) for stage in range(4)]
    for dev in early:
        add(dev, DC, columns, rows)
        add(dev, tran(0.5), bad, rows, sides=3)
    return [free, stepped] + early


def calls():
    for made in positions() + odd() + missing() + shapes() + order():
        yield from [*made.calls, "state", *made.loads]
