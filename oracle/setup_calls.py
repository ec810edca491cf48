"""Calls of card, geometry, scaling and binding: the examples of the refusals' table, every range's ends with the numbers next to them, every
spelling of a key in several mixes of case, overriding, unknown keys and the room for them, offsets and lengths near 2^64, empty lists, and
calls out of their order."""
import math

from words import CARD, GEOMETRY, INF, NAN, UNREAD, number, numbers, pairs

NOWHERE = 2**64 - 1
# tnom has no range of its own: see `temperatures`.
READ = {key: ends for key, ends in CARD.items() if key != "tnom"}


class Script:
    """Each call is followed by `state`. The letter of a call with keys is n or p for a card, g for a geometry."""

    def __init__(self):
        self.lines = []

    def add(self, line):
        self.lines += [line, "state"]

    def raw(self, letter, text, spans, values, capacity=4, changed=(NOWHERE, 0)):
        """A call with keys, from its slices; one byte may be changed."""
        held = bytearray(text)
        if changed[0] < len(held):
            held[changed[0]] = changed[1]
        name = "geometryraw" if letter == "g" else "cardraw " + letter
        self.add("%s %d %s %s %s" % (name, capacity, held.hex() or "-", pairs(spans), numbers(values)))

    def keys(self, letter, *made, capacity=4):
        """A call with keys that stand end to end."""
        text, spans = "", []
        for key, _ in made:
            spans.append((len(text), len(key)))
            text += key
        self.raw(letter, text.encode(), spans, [v for _, v in made], capacity)

    def scale(self, kelvin):
        self.add("scale " + number(kelvin))

    def bind(self, nodes, first):
        self.add("bind %s %d" % (" ".join("-" if n is None else str(n) for n in nodes), first))

    def evaluate(self, nodes):
        self.add("eval dc %s %s nolim none %s" % (number(300.0), number(0.0), numbers([0.0] * nodes)))


def mixes(key):
    odd = "".join(c.upper() if i % 2 else c for i, c in enumerate(key))
    even = "".join(c if i % 2 else c.upper() for i, c in enumerate(key))
    return [key, key.upper(), odd, even]


def ranges(s, letter, table):
    for key, (least, greatest) in table.items():
        least, greatest = float(least), float(greatest)
        for v in [least, greatest, math.nextafter(least, -INF), math.nextafter(greatest, INF), -0.0, 5e-324, NAN]:
            s.keys(letter, (key, v))


def temperatures(s):
    for k in [200.0, 500.0]:
        for v in [k, math.nextafter(k, -INF), math.nextafter(k, INF)]:
            s.scale(v)
        c = k - 273.15
        for v in [c, math.nextafter(c, -INF), math.nextafter(c, INF), math.nextafter(c, -INF) - 1e-13, c + 1e-13]:
            s.keys("n", ("tnom", v))
    s.keys("n", ("tnom", 300.15), ("tnom", 27.0))
    s.keys("n", ("tnom", 27.0), ("tnom", NAN))
    for v in [NAN, INF, -INF, 0.0]:
        s.scale(v)


def spellings(s):
    for key, (least, greatest) in READ.items():
        a, b, c, d = mixes(key)
        v = [least + (greatest - least) * f for f in (0.25, 0.5, 0.75, 0.125)]
        s.keys("n", (a, v[0]))
        s.keys("p", (b, v[1]))
        s.keys("n", (a, v[0]), (c, v[2]), (d, v[3]))
    for key in UNREAD + ["tnom"]:
        s.keys("n", *[(k, 27.0 + i) for i, k in enumerate(mixes(key))], capacity=0)
        s.keys("n", (key, 27.0), (key[:-1], NAN), (key + "x", INF))
    s.keys("n")
    s.keys("n", ("kp", 1e-4), ("uo", 500.0), ("tox", 1e-8))
    s.keys("n", ("uo", 500.0), ("tox", 1e-8), ("cox", 2e-3))
    s.keys("n", ("cox", 2e-3), ("tox", 1e-8))
    s.keys("p", ("u0", 500.0), ("cox", 0.0))
    for key in ["", "v", "vt", "vtoo", "vthoo", "lambda1", "lambdaxyz", "aaaaaaaaaaaaaaaaaaaaaaaaaaaaaaaa", "w", "l", "nrd", "[i", "is ", "`f"]:
        s.keys("n", (key, 1.0), ("fc" if len(key) < 30 else "", 0.5))
    s.keys("n", ("rd", 0.0))
    for key, (least, greatest) in GEOMETRY.items():
        s.keys("g", *[(k, least + (greatest - least) * (i + 1) / 8) for i, k in enumerate(dict.fromkeys(mixes(key)))])
    for key in ["", "x", "ww", "vto", "nr", "nrdd", "m", "{s"]:
        s.keys("g", (key, NAN), ("w", 1e-5))


def lists(s, letter, known, value):
    """Rows 1 to 4 in their order, and the lent list."""
    s.raw(letter, b"abcd", [(3, 2)], [1.0])
    s.raw(letter, b"abcd", [(3, 1)], [1.0])
    s.raw(letter, b"abcd", [(4, 0), (4, 0)], [1.0, 1.0])
    s.raw(letter, b"abcd", [(5, 0)], [1.0])
    s.raw(letter, b"abcd", [(0, 2), (1, 2)], [1.0, 1.0])
    s.raw(letter, b"abcd", [(2, 2), (0, 2)], [1.0, 1.0])
    for o, n in [(NOWHERE, 0), (NOWHERE, 1), (NOWHERE, NOWHERE), (1, NOWHERE), (0, NOWHERE), (2**63, 2**63), (NOWHERE - 3, 4), (NOWHERE - 2, 2)]:
        s.raw(letter, b"abcd", [(o, n)], [1.0])
        s.raw(letter, b"", [(0, 0), (o, n)], [1.0, 1.0])
    s.raw(letter, b"", [], [])
    s.raw(letter, b"abcd", [], [], capacity=0)
    s.raw(letter, b"", [(0, 0)], [1.0])
    s.raw(letter, b"", [(0, 0)], [1.0], capacity=0)
    s.raw(letter, b"abcd", [(0, 2), (2, 2)], [1.0])
    s.raw(letter, b"abcd", [(0, 2)], [1.0, 1.0])
    s.raw(letter, b"abcd", [], [NAN])
    for at, byte in [(0, 200), (3, 128), (1, 255), (1, 127), (2, 0)]:
        s.raw(letter, b"abcd", [(0, 4)], [1.0], changed=(at, byte))
        s.raw(letter, b"abcd", [(0, 2)], [1.0], capacity=0, changed=(at, byte))
        s.raw(letter, b"abcd", [(0, 2), (2, 3)], [1.0, NAN], changed=(at, byte))
    for capacity in range(5):
        s.keys(letter, ("foo", 1.0), ("bar", 2.0), capacity=capacity)
        s.keys(letter, ("foo", NAN), (known, value), ("bar", INF), capacity=capacity)
        s.keys(letter, ("foo", 1.0), (known, NAN), capacity=capacity)
        s.keys(letter, (known, value), ("a", 1.0), ("foo", 1.0), ("a", 1.0), capacity=capacity)
    s.keys(letter, (known, NAN), (known, value))
    s.keys(letter, (known, value), (known, INF))
    s.keys(letter, (known, value), (known.upper(), value / 2))


def oxide(s):
    """Row 5, and the geometry's values."""
    s.keys("n", ("kf", 1e-20))
    s.keys("g")
    s.keys("g", ("w", 2.0))
    s.keys("n", ("kf", 1e-20), ("cox", 1e-3))
    s.keys("g", ("w", 1e-5), ("l", 1e-6))
    s.keys("n", ("kf", 5e-324), ("cox", 5e-324))
    s.keys("g", ("w", 1.0), ("l", 1.0))
    s.keys("g", ("w", 0.25), ("l", 1.0))
    # (w*l)*cox rounds to 0, (cox*w)*l does not
    s.keys("g", ("w", 0.6), ("l", 0.6))
    s.keys("g", ("w", 1.0), ("l", 0.75))
    # row 5 comes before row 10
    s.scale(300.0)
    s.bind([0, 1, 2, 3], 4)
    s.keys("g", ("w", 1.0), ("l", 1.0))
    s.keys("g", ("w", 0.6), ("l", 0.6))
    s.keys("n", ("kf", 1.0), ("cox", 1e-306))
    s.keys("g", ("w", 1e-9), ("l", 1e-9))
    s.keys("n", ("kf", 0.0), ("cox", 0.0))
    s.keys("g", ("w", 3e-6), ("l", 7e-7), ("as", 1e-12), ("ps", 4e-6))
    s.keys("p", ("rsh", 30.0), ("js", 1e-4), ("cj", 2e-4), ("cjsw", 1e-9))
    s.keys("g", ("nrd", 2.5), ("nrs", 0.0), ("as", 1e-12), ("pd", 4e-6))
    s.keys("g", ("w", 3e-6), ("l", 7e-7), ("ad", 3e-12), ("ps", 4e-6))
    s.keys("g")
    s.keys("n", ("cgso", 1e-10), ("cgdo", 2e-10), ("cgbo", 3e-10), ("cox", 1.7e-3))
    s.keys("g", ("w", 3e-6), ("l", 7e-7))
    s.keys("n", ("rd", 0.0), ("rsh", 10.0), ("rs", 3.0))
    s.keys("g", ("nrd", 7.0), ("nrs", 9.0))


def scaling(s):
    s.keys("n", ("phi", 0.1), ("tnom", 200.0 - 273.15))
    s.scale(199.0)
    s.scale(500.0)
    s.scale(300.0)
    s.keys("g")
    s.scale(500.0)
    s.scale(200.0)
    s.keys("n", ("pb", 0.1), ("tnom", -73.0))
    s.keys("g")
    s.scale(500.0)
    for letter in "np":
        s.keys(letter, ("gamma", 0.5), ("vto", 0.8), ("kp", 3e-5), ("tnom", 50.0))
        s.scale(300.0)
        s.keys("g")
        for t in [200.0, 250.0, 300.15, 323.15, 350.0, 400.0, 500.0]:
            s.scale(t)
        s.keys("g", ("w", 1e-5))


def binding(s):
    top = 2**32 - 1
    for rd, rs in [(0.0, 0.0), (10.0, 0.0), (0.0, 20.0), (10.0, 20.0)]:
        s.keys("n", ("rd", rd), ("rs", rs))
        s.bind([0, 1, 2, 3], 4)
        s.bind([top + 1, 1, 2, 3], 4)
        s.keys("g")
        s.bind([0, 1, 2, 3], 4)
        s.scale(300.0)
        for i in range(4):
            for n in [top, top + 1, NOWHERE, None]:
                s.bind([n if j == i else j for j in range(4)], 4)
        for first in [top - 1, top, top + 1, NOWHERE - 1, NOWHERE, 0]:
            s.bind([0, 1, 2, 3], first)
        s.bind([None] * 4, 0)
        s.bind([5] * 4, 6)
        s.keys("g", ("w", 1e-5))
        s.keys("g", ("w", 2.0))
        s.scale(400.0)
        s.bind([0, 1, 2, 3], 4)
        s.evaluate(8)
        s.bind([0, 1, 2, 3], 4)
        s.bind([0, 1, 2, top + 1], 4)
        s.keys("g")
        s.scale(199.0)
        s.scale(350.0)


def calls():
    s = Script()
    s.scale(300.0)
    s.bind([0, 1, 2, 3], 4)
    s.keys("g")
    s.keys("n")
    s.scale(300.0)
    s.bind([0, 1, 2, 3], 4)
    s.keys("g")
    temperatures(s)
    ranges(s, "n", READ)
    ranges(s, "g", GEOMETRY)
    spellings(s)
    lists(s, "n", "fc", 0.5)
    lists(s, "p", "tnom", 30.0)
    lists(s, "g", "w", 1e-5)
    s.keys("n", ("fc", 0.96))
    s.keys("n", ("fc", 0.96), ("tnom", -300.0))
    oxide(s)
    scaling(s)
    binding(s)
    return s.lines
