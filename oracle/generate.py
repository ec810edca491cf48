#!/usr/bin/env python3
"""Random scripts for the comparison with the Rust.

  generate.py script SEED LINES    commands of the script format, about LINES of them, with `state` after every call
  generate.py list SEED LINES      the same with fewer `state`, then the fixed lists of the other files here: the list that is stored
  generate.py curve SEED LINES     lines for the program `curve`

The same arguments give the same text. A script is a sequence of devices. Each is given a card, a geometry, a scaling, a binding and then
a list of evaluations, loads, commits, noises and reactances, with calls out of order, damaged calls and damaged lines in between. Cells are
looked up in right and damaged patterns, and loaded by after other lookups, bindings and devices. They are laid out in slices that are short,
exact and longer, and loads and lookups are made on what is laid out. Devices are placed in a bank and loaded as blocks and bridges, with right
and damaged runs. The list has layouts, blocks and bridges in its fixed part alone. Values come from inside the ranges, their ends, the ends'
neighbours and the odd numbers of the format.
"""
import math
import random
import struct
import sys

import bridge_calls
import elementary_calls
import layout_calls
import load_calls
import resolved_calls
import setup_calls
import temperature_calls
from words import CARD, GEOMETRY, INF, LEAST_NORMAL, MAY_BE_ZERO, NAN, ODD, TINY, UNREAD, neighbours, number, numbers, pairs, wholes

# What cards hold in practice, so that many devices are ordinary ones.
USUAL = {"vto": (-1.5, 2), "vth0": (-1, 1), "vtho": (-1, 1), "kp": (1e-6, 2e-4), "uo": (100, 800), "u0": (100, 800), "is": (1e-16, 1e-12),
         "js": (1e-9, 1e-3), "lambda": (0, 0.2), "gamma": (0, 2), "phi": (0.3, 1.2), "pb": (0.4, 1.2), "rd": (0.1, 1e3), "rs": (0.1, 1e3),
         "rsh": (1, 100), "kf": (1e-30, 1e-20), "af": (0.5, 2), "cgso": (1e-12, 1e-9), "cgdo": (1e-12, 1e-9), "cgbo": (1e-12, 1e-9),
         "cox": (1e-4, 1e-2), "tox": (1e-9, 1e-7), "cj": (1e-5, 1e-3), "cjsw": (1e-11, 1e-9), "mj": (0.2, 0.6), "mjsw": (0.1, 0.5),
         "fc": (0.2, 0.8), "tnom": (0, 100)}
USUAL_GEOMETRY = {"w": (1e-6, 1e-4), "l": (1e-7, 1e-5), "as": (1e-13, 1e-10), "ad": (1e-13, 1e-10), "ps": (1e-6, 1e-4), "pd": (1e-6, 1e-4),
                  "nrd": (0.1, 10), "nrs": (0.1, 10)}
UNKNOWN = ["foo", "", "vt", "vto0", "w0", "kpp", "tempo", "m", "z" * 40]
FUNCTIONS = {"exp": 1, "ln": 1, "ln_1p": 1, "sqrt": 1, "vt": 1, "bandgap_ev": 1, "pbfact": 1, "pow": 2, "mos_junction_is_factor": 2,
             "mobility_factor": 2, "scaled_phi": 3, "junction_cap_factor": 4, "bulk_junction": 4, "scaled_vto": 7}


class Script:
    def __init__(self, seed, states=1.0, wishes=True):
        self.r = random.Random(seed)
        self.states = states
        self.layouts = ["extra", "cells"] if wishes else []  # the calls of a layout
        self.bridges = ["place", "loadblock", "loadbridge"] if wishes else []  # those of a bank of devices
        self.lines = []
        self.given = {}  # what the last card and the geometries since gave
        self.bound = None  # the last binding
        self.sizes = (0, 0)  # rows and values of the last lookup
        self.bank = {}  # the terminals of the devices that were placed, by their places

    # ---- values

    def between(self, low, high):
        r = self.r
        if low > 0 and high / low > 100 and r.random() < 0.7:
            return min(max(math.exp(r.uniform(math.log(low), math.log(high))), low), high)
        if low <= 0 < high and r.random() < 0.4:
            return min(high * 10 ** -r.uniform(0, 14), high) * (-1 if low < 0 and r.random() < 0.5 else 1)
        return r.uniform(low, high)

    def inside(self, low, high, zero=False):
        """A value of the range, its ends often among them."""
        r = self.r
        p = r.random()
        if p < 0.06:
            return float(r.choice([low, high]))
        if p < 0.09:
            return math.nextafter(float(r.choice([low, high])), (low + high) / 2)
        if p < 0.14 and (zero or low <= 0):
            return r.choice([0.0, -0.0])
        if p < 0.16 and low <= 0:
            return r.choice([TINY, 1e-310, LEAST_NORMAL])
        if p < 0.3:
            nice = r.choice([0.125, 0.25, 0.5, 1.0, 2.0, 3.0, 4.0])
            if low <= nice <= high:
                return nice
        return self.between(low, high)

    def outside(self, low, high):
        return self.r.choice([math.nextafter(float(low), -INF), math.nextafter(float(high), INF), low - 1.0, high * 2.0 + 1.0, *ODD])

    def any_float(self):
        r = self.r
        p = r.random()
        if p < 0.25:
            return r.choice(ODD)
        if p < 0.35:
            return struct.unpack("<d", struct.pack("<Q", r.getrandbits(64)))[0]
        if p < 0.7:
            return r.uniform(-1, 1) * 10 ** r.uniform(-20, 20)
        return r.uniform(-5, 5)

    def any_whole(self):
        r = self.r
        return r.choice([0, 1, 2, 3, 7, 4095, 4096, 2**31, 2**32 - 1, 2**32, 2**63, 2**64 - 2, 2**64 - 1, r.randrange(2**64), r.randrange(40)])

    def kelvin(self, damage=0.03):
        r = self.r
        p = r.random()
        if p < damage:
            return self.outside(200.0, 500.0)
        if p < 0.12:
            return r.choice([200.0, 500.0, math.nextafter(200.0, INF), math.nextafter(500.0, 0.0)])
        if p < 0.4:
            return r.choice([300.15, 300.15, self.tnom, 250.0, 350.0, 400.0])
        return r.uniform(200, 500)

    # ---- keys

    def cased(self, key):
        p = self.r.random()
        if p < 0.7:
            return key
        return key.upper() if p < 0.85 else "".join(self.r.choice([c, c.upper()]) for c in key)

    def value_of(self, key, ranges, usual, damage):
        r = self.r
        low, high = ranges[key]
        if r.random() < damage:
            return self.outside(low, high)
        if key == "tnom":
            if r.random() < 0.1:
                return r.choice([-73.14999999999999, 226.85, 226.85000000000002, 226.85000000000005, 26.850000000000023])
            return r.uniform(-73.1, 226.8)
        if r.random() < (0.8 if self.usual else 0.25):
            return self.between(*usual[key])
        return self.inside(low, high, key in MAY_BE_ZERO)

    def keys(self, ranges, usual, share, damage):
        """Pairs of key and value, a few of them repeated, unread or unknown."""
        r = self.r
        chosen = [k for k in ranges if r.random() < share]
        r.shuffle(chosen)
        if chosen and r.random() < 0.1:
            chosen.append(r.choice(chosen))
        made = [(self.cased(k), self.value_of(k, ranges, usual, damage)) for k in chosen]
        if ranges is CARD and r.random() < 0.9:
            # Flicker noise without an oxide is row 5 at every geometry call: most cards have both or neither.
            if not any(k.lower() in ("cox", "tox") and v > 0 for k, v in made):
                made = [(k, v) for k, v in made if k.lower() != "kf"]
        for _ in range(r.choice([0, 0, 0, 1, 2])):
            other = r.choice([UNREAD, UNKNOWN, list(CARD) if ranges is GEOMETRY else list(GEOMETRY)])
            made.insert(r.randrange(len(made) + 1), (self.cased(r.choice(other)), self.any_float()))
        return made

    def plain(self, command, made):
        self.add(command + "".join(" %s=%s" % (k, number(v)) for k, v in made))

    def raw(self, command, made, damage):
        """The keys in a buffer with gaps; damaged pairs, bytes, counts and rooms."""
        r = self.r
        buffer, spans = bytearray(), []
        for key, _ in made:
            if r.random() < 0.3:
                buffer += bytes(r.choice([0, 61, 200, 255]) for _ in range(r.randrange(3)))
            spans.append((len(buffer), len(key)))
            buffer += key.encode()
        if r.random() < 0.3:
            buffer += bytes([r.choice([0, 128])])
            if r.random() < 0.5:
                spans.append((len(buffer), 0))
                made = made + [("", self.any_float())]
        values = [v for _, v in made]
        room = r.choice([len(made), len(made) + 1, 4096])
        if r.random() < damage:
            kind = r.randrange(7)
            at = r.randrange(len(spans)) if spans else 0
            if kind == 0 and spans:
                spans[at] = (max(0, spans[at][0] - 1), spans[at][1] + 1)
            elif kind == 1 and spans:
                spans[at] = r.choice([(spans[at][0], spans[at][1] + 1), (2**64 - 1, 1), (2**64 - 1, 2**64 - 1), (len(buffer) + 1, 0), (spans[at][0], 2**64 - 1)])
            elif kind == 2:
                values = values[:-1] if r.random() < 0.5 else values + [1.0]
            elif kind == 3 and buffer:
                buffer[r.randrange(len(buffer))] = r.choice([128, 200, 255])
            elif kind == 4 and len(spans) > 1:
                spans[0], spans[-1] = spans[-1], spans[0]
            elif kind == 5:
                spans = spans[:-1]
            else:
                room = r.choice([0, 1, 2, self.any_whole()])
        self.add("%s %d %s %s %s" % (command, room, buffer.hex() or "-", pairs(spans), numbers(values)))

    def key_call(self, word, ranges, usual, share, damage):
        made = self.keys(ranges, usual, share, damage)
        command, _, rest = word.partition(" ")
        if self.r.random() < 0.25:
            self.raw((command + "raw " + rest).strip(), made, 0.3 if damage else 0.0)
        else:
            self.plain(word, made)
        return made

    # ---- calls

    def add(self, line, state=True):
        self.lines.append(line)
        if state and (self.states == 1.0 or self.r.random() < self.states):
            self.lines.append("state")

    def card(self, damage=0.01):
        r = self.r
        self.pol = r.choice("np")
        self.tnom = 300.15
        p = r.random()
        if p < 0.12:
            # The channel of the fourteen cases: thresholds and saturation voltages that voltages can equal.
            self.exact = True
            vto = r.choice([0.5, 1.0, 2.0]) * (1 if self.pol == "n" else -1)
            made = [("vto", vto), ("kp", 2.0), ("lambda", r.choice([0.0, 0.5]))]
            if r.random() < 0.3:
                made += [("gamma", 6.0), ("phi", 4.0)]
            made += [(k, v) for k, v in self.keys(CARD, USUAL, 0.3, 0) if k.lower() not in ("vto", "vth0", "vtho", "kp", "uo", "u0", "lambda", "gamma", "phi", "tnom")]
            self.plain("card " + self.pol, made)
            self.remember(made, CARD)
            return
        self.exact = False
        made = self.key_call("card " + self.pol, CARD, USUAL, r.choice([0.1, 0.4, 0.7, 0.9]), damage)
        for key, value in made:
            if key.lower() == "tnom" and value == value:
                self.tnom = value + 273.15
        self.remember(made, CARD)

    def remember(self, made, ranges):
        """The keys as if the call was accepted."""
        if ranges is CARD:
            self.given = {}
        self.given.update((k.lower(), v) for k, v in made if k.lower() in ranges)

    def geometry(self, damage=0.01):
        self.remember(self.key_call("geometry", GEOMETRY, USUAL_GEOMETRY, self.r.choice([0.2, 0.6, 1.0]), damage), GEOMETRY)

    def scale(self, damage=0.03):
        self.add("scale " + number(300.15 if self.exact and self.r.random() < 0.7 else self.kelvin(damage)))

    def node(self):
        r = self.r
        p = r.random()
        if p < 0.2:
            return None
        if p < 0.21:
            return self.any_whole()
        return r.randrange(self.size)

    def bind(self):
        r = self.r
        if self.bound is None or r.random() < 0.7:
            self.size = r.choice([1, 2, 4, 5, 6])
            four = [self.node() for _ in range(4)]
            first = self.size if r.random() < 0.9 else self.any_whole()
            self.bound = (self.size, four, first)
        # else the nodes of the binding before, so that looked up cells are those of the next device too
        self.size, four, first = self.bound
        self.add("bind %s %d" % (" ".join("-" if n is None else str(n) for n in four), first))
        # The inner nodes are in the answer; both are counted here, whether they are made or not.
        self.nodes = four + [first, first + 1]

    def terminals(self):
        """The outer nodes and the inner drain and source, if the last calls were accepted; before a binding, of one that is usual."""
        d, g, s, b, first, after = self.nodes or [0, 1, 2, 3, 4, 5]
        sheet = self.given.get("rsh", 0.0)
        has_drain, has_source = (self.given.get("r" + end, sheet * self.given.get("nr" + end, 1.0)) > 0 for end in "ds")
        return d, g, s, b, first if has_drain else d, (after if has_drain else first) if has_source else s

    def length(self):
        """Room for every node that a device of this size can have, or a little less."""
        return self.size + 2 if self.r.random() < 0.93 else max(0, self.size + 2 + self.r.choice([1, -1, -2, -self.size - 2]))

    def voltages(self):
        r = self.r
        n = self.length()
        style = r.random()
        if self.exact and style < 0.7:
            x = [r.choice([-5.0, -3.0, -2.0, -1.0, -0.5, 0.0, -0.0, 0.5, 1.0, 1.5, 2.0, 3.0, 4.0, 5.0, 8.0]) for _ in range(n)]
        elif style < 0.6:
            x = [r.uniform(-1, 1) * r.choice([0.3, 1, 3, 6]) for _ in range(n)]
        elif style < 0.75:
            x = [r.choice([0.0, -0.0, TINY, -TINY, 1e-320, -1e-320, 1e-5, -1e-5, 1e-6, -1e-6, 1e-10, 0.1, -0.1, 0.6]) for _ in range(n)]
        elif style < 0.9:
            x = [r.uniform(-1, 1) * 10 ** r.uniform(-12, 3) for _ in range(n)]
        else:
            x = [r.choice([1000.0, -1000.0, 500.0, -30.0, 12.9, 17.5, 20.0]) for _ in range(n)]
        if n and r.random() < 0.04:
            x[r.randrange(n)] = r.choice([math.nextafter(1000.0, INF), -math.nextafter(1000.0, INF), NAN, INF, -INF, 1e300])
        return x

    def step(self):
        r = self.r
        p = r.random()
        if p < 0.06:
            return r.choice([1e-15, 1.0, math.nextafter(1e-15, 1.0), math.nextafter(1.0, 0.0)])
        if p < 0.09:
            return r.choice([0.0, -0.0, math.nextafter(1e-15, 0.0), math.nextafter(1.0, 2.0), NAN, INF, -1e-9, TINY])
        return 10 ** r.uniform(-14, -0.1) if p < 0.9 else r.choice([0.5, 0.25, 1.0])

    def method(self):
        kind = self.r.choice(["none", "euler", "trap", "gear"])
        if kind == "none":
            return kind
        return ":".join([kind] + [number(self.step()) for _ in range(2 if kind == "gear" else 1)])

    def eval(self, kind=None, method=None):
        r = self.r
        gmin = r.choice([0.0, 1e-12, 1e-12, 1e-9, 1.0, -0.0, r.random(), TINY, 1e-300])
        if r.random() < 0.02:
            gmin = self.outside(0.0, 1.0)
        kelvin = self.kelvin(0.01)
        self.add("eval %s %s %s %s %s %s" % (kind or r.choice(["tran", "tran", "dc"]), number(kelvin), number(gmin), r.choice(["lim", "nolim"]),
                                             method or self.method(), numbers(self.voltages())))

    def content(self):
        r = self.r
        p = r.random()
        if p < 0.5:
            return r.choice([0.0, 0.0, -0.0])
        if p < 0.9:
            return r.uniform(-1, 1) * 10 ** r.uniform(-12, 6)
        return r.choice(ODD)

    def contents(self, n):
        return [self.content() for _ in range(n)]

    def pattern(self, rows, width, without=()):
        """Columns and rows of a matrix, most of them full; the cells without which it is are left out."""
        r = self.r
        columns, spans = [], []
        for i in range(rows):
            if r.random() < 0.1:
                columns += [r.randrange(2**32) for _ in range(r.randrange(3))]
            row = list(range(width)) if r.random() < 0.98 else sorted(r.sample(range(width + 3), r.randrange(width + 3)))
            if r.random() < 0.01 and row:
                row.remove(r.choice(row))
            row = [c for c in row if (i, c) not in without]
            spans.append((len(columns), len(row)))
            columns += row
        return columns, spans

    def load_kind(self, kind):
        """The word of a load."""
        r = self.r
        alpha = r.choice([1e9, 1.0, 1e16, 10 ** r.uniform(0, 16)])
        if r.random() < 0.06:
            alpha = r.choice([0.0, math.nextafter(1.0, 0.0), math.nextafter(1e16, INF), NAN, INF, -1.0])
        kind = kind or r.choice(["dc", "tran", "tran"])
        return kind if kind == "dc" else "tran:" + number(alpha)

    def matrix_rows(self):
        """The length of a right-hand side and the rows of a matrix, seldom another number."""
        n = self.length()
        return n, n if self.r.random() < 0.95 else max(0, n + self.r.choice([1, -1]))

    def load(self, kind=None):
        n, rows = self.matrix_rows()
        columns, spans = self.pattern(rows, max(n, rows))
        values = self.contents(len(columns))
        if self.r.random() < 0.06:
            self.damage_matrix(columns, spans, values)
        self.add("load %s %s %s %s %s" % (self.load_kind(kind), numbers(self.contents(n)), wholes(columns), pairs(spans), numbers(values)))

    def gate_cells(self):
        """Cells that only the gate's charge branches need, as far as the nodes are known."""
        if not self.nodes:
            return []
        d, g, s, b, inner_d, inner_s = self.nodes
        return [(g, g), (g, s), (g, d), (g, b), (b, g), (g, inner_d), (g, inner_s)]

    def resolve(self):
        r = self.r
        n, rows = self.matrix_rows()
        without = r.sample(self.gate_cells(), 1) if self.nodes and r.random() < 0.15 else []
        columns, spans = self.pattern(rows, max(n, rows), without)
        if r.random() < 0.12:
            self.damage_matrix(columns, spans, [])
        else:
            self.sizes = (len(spans), len(columns))
        self.add("resolve %s %s" % (wholes(columns), pairs(spans)))

    def loadresolved(self, kind=None):
        r = self.r
        rows, count = self.sizes
        if r.random() < 0.05:
            rows = max(0, rows + r.choice([-rows, -2, -1, 1]))
        if r.random() < 0.05:
            count = max(0, count + r.choice([-count, -1, 1]))
        self.add("loadresolved %s %s %s" % (self.load_kind(kind), numbers(self.contents(rows)), numbers(self.contents(count))))

    def extra(self):
        self.add("extra" if self.r.random() < 0.97 else self.r.choice(["extra 0", "extra -", "extras"]))

    def lent(self, needed, most):
        """A slice to be laid out in, most often with room, its numbers up to `most`."""
        r = self.r
        n = max(0, needed + r.choice([0, 0, 0, 0, 1, 1, 3, 20, -1])) if r.random() < 0.95 else r.choice([0, 1, needed // 2])
        n = min(n, 4096)
        return [r.choice([0, 1, 7, most, r.randint(0, most)]) if n < 100 else 0 for _ in range(n)]

    def cells(self):
        """A layout, at times of damaged slices, and then at times a lookup and a load on what it lays out."""
        r = self.r
        nodes = self.terminals()
        rows, cells = layout_calls.rows_to(nodes), load_calls.needed(nodes, True)
        slices = [self.lent(len(cells), 2**32 - 1), self.lent(rows, 2**64 - 1), self.lent(rows, 2**64 - 1)]
        words = [wholes(held) for held in slices]
        if r.random() < 0.08:
            words = self.damage_slices(words)
        self.add("cells " + " ".join(words))
        if rows < 100 and r.random() < 0.4:
            self.use_layout(*load_calls.pattern(cells, rows))

    def damage_slices(self, words):
        r = self.r
        at = r.randrange(3)
        kind = r.randrange(4)
        if kind == 0:
            words[0] = str(r.choice([2**32, 2**32 + 1, 2**64 - 1, 2**64])) + ("," + words[0]) * (words[0] != "-")
        elif kind == 1:
            words[at] = r.choice([words[at] + ",", "," + words[at], words[at] + ":0", words[at] + ",-", "-,-", "--", str(2**64), "nan", "+1", "-1"])
        elif kind == 2:
            words.pop(at)
        else:
            words.insert(at, r.choice(["-", "0", words[at]]))
        return words

    def use_layout(self, columns, spans):
        """A lookup, a load or both on a pattern."""
        used = self.r.choice(["resolve", "load", "both"])
        if used != "load":
            self.sizes = (len(spans), len(columns))
            self.add("resolve %s %s" % (wholes(columns), pairs(spans)))
        if used != "resolve":
            sides, values = self.contents(len(spans)), self.contents(len(columns))
            self.add("load %s %s %s %s %s" % (self.load_kind(None), numbers(sides), wholes(columns), pairs(spans), numbers(values)))

    def place(self):
        self.put(self.r.randrange(4) if self.r.random() < 0.9 else self.r.choice([63, 64, 65, self.any_whole()]))

    def put(self, at):
        self.bank[at] = self.terminals()
        self.add("place %d" % at, False)

    def loadblock(self):
        self.load_bank(True)

    def loadbridge(self):
        self.load_bank(False)

    def bank_count(self):
        """As many devices as were placed without a gap, or another number."""
        r = self.r
        n = next((at for at in range(65) if at not in self.bank), 65)
        return n if r.random() < 0.85 else r.choice([r.randrange(n + 1), 0, 1, n + 1, 64, 65, 66, self.any_whole()])

    def bank_matrix(self, count):
        """The cells that the first devices of the bank need together, seldom all but one, or a matrix that is full."""
        r = self.r
        held = [nodes for at, nodes in self.bank.items() if at < count]
        rows = max(map(layout_calls.rows_to, held), default=0)
        if rows > 40 or r.random() < 0.1:
            rows = min(rows, 8)
            return self.pattern(rows, rows)
        cells = sorted({cell for nodes in held for cell in load_calls.needed(nodes, True)})
        if cells and r.random() < 0.08:
            cells.remove(r.choice(cells))
        columns, spans = load_calls.pattern(cells, rows, r.choice([0, 0, 1, 3]))
        return columns, spans[:-1] if r.random() < 0.03 else spans

    def runs(self, length):
        """Runs in any order, one of them for a block of so many rows; its number; how many rows the buffer has."""
        r = self.r
        sizes = [r.choice([0, 1, 2, 5]) for _ in range(r.randrange(4))]
        own = r.randrange(len(sizes) + 1)
        sizes.insert(own, max(0, length + r.choice([0, 0, 0, 0, 0, 1, 2, 3, -1])))
        made, end = [], 0
        for size in sizes:
            end += r.choice([0, 0, 0, 1, 3])
            made.append((end, size))
            end += size
        block = made[own]
        if r.random() < 0.3:
            made.append((r.randrange(end + 1), 0))
        r.shuffle(made)
        return made, made.index(block), end + r.choice([0, 0, 1, 4])

    def damage_runs(self, runs, own, rows):
        """Runs that overlap or leave the buffer, or a block without a run. Answers the block's number."""
        r = self.r
        at = r.randrange(len(runs))
        start, size = runs[at]
        kind = r.randrange(5)
        if kind == 0:
            return r.choice([len(runs), len(runs) + 1, self.any_whole()])
        if kind == 1:
            runs[at] = r.choice([(start, size + 1), (max(0, start - 1), size + 1)])
        elif kind == 2:
            runs.append((r.randrange(rows + 1), r.choice([1, 1, 2])))
        elif kind == 3:
            far = 2**64 - 1
            runs[at] = r.choice([(rows, 1), (rows, 0), (rows + 1, 0), (start, rows - start + 1), (start, far), (start, far - start),
                                 (start, far - start + 1), (far, 0), (far, 1), (far, far), (2**63, 2**63)])
        else:
            runs.append((self.any_whole(), self.any_whole()))
        return own

    def load_bank(self, block):
        r = self.r
        count = self.bank_count()
        columns, spans = self.bank_matrix(count)
        runs, own, rows = self.runs(len(spans))
        if r.random() < 0.15:
            own = self.damage_runs(runs, own, rows)
        if r.random() < 0.06:
            rows = max(0, rows - r.choice([1, 2, rows]))
            runs = [] if not block and r.random() < 0.5 else runs
        values = self.contents(len(columns))
        if r.random() < 0.08:
            self.damage_matrix(columns, spans, values)
        kind = self.load_kind(None) if r.random() < 0.95 else "tran:" + number(0.5)
        head = "loadblock %d %d" % (own, count) if block else "loadbridge %d" % count
        self.add("%s %s %s %s %s %s %s" % (head, pairs(runs), kind, numbers(self.contents(rows)), wholes(columns), pairs(spans), numbers(values)))

    def sure_device(self, first, stage=3):
        """A device that is most often accepted, evaluated or stopped at an earlier stage."""
        r = self.r
        self.usual = True
        self.card(0)
        self.geometry(0)
        four = [r.randrange(self.size) if r.random() < 0.85 else None for _ in range(4)]
        if stage > 0:
            self.add("scale " + number(min(max(self.tnom, 200.0), 500.0)))
        if stage > 1:
            self.nodes = four + [first, first + 1]
            self.add("bind %s %d" % (" ".join("-" if n is None else str(n) for n in four), first))
        for _ in range(r.choice([1, 1, 2]) if stage > 2 else 0):
            x = numbers([r.uniform(-1, 1) * r.choice([0.3, 1, 3, 6]) for _ in range(first + 2)])
            kind, limiter = r.choice(["tran", "tran", "dc"]), r.choice(["lim", "nolim"])
            self.add("eval %s %s %s %s %s %s" % (kind, number(r.uniform(250, 400)), number(1e-12), limiter, self.method(), x))
            if r.random() < 0.5:
                self.add("commit " + x)

    def fill_bank(self):
        """Devices with common outer nodes and inner nodes of their own, or common ones too, and loads of them."""
        r = self.r
        self.bank = {}
        self.size, self.nodes = r.choice([1, 2, 3, 4, 6]), []
        count = r.choice([1, 2, 2, 3, 3, 4, 6])
        apart, early = r.choice([0, 1, 2, 2]), r.randrange(count) if r.random() < 0.12 else None
        for at in range(count):
            self.sure_device(self.size + apart * at, r.randrange(3) if at == early else 3)
            self.put(at)
        if r.random() < 0.06:
            for at in range(count, 64):
                self.put(at)
        for _ in range(r.choice([3, 6, 12])):
            self.load_bank(r.random() < 0.5)
            if r.random() < 0.1:
                self.put(r.randrange(count))

    def damage_matrix(self, columns, spans, values):
        r = self.r
        kind = r.randrange(6)
        at = r.randrange(len(spans)) if spans else 0
        if kind == 0 and len(columns) > 1:
            i = r.randrange(len(columns) - 1)
            columns[i + 1] = columns[i]
        elif kind == 1 and len(columns) > 1:
            i = r.randrange(len(columns) - 1)
            columns[i], columns[i + 1] = columns[i + 1], columns[i]
        elif kind == 2:
            values.append(1.0) if r.random() < 0.5 or not values else values.pop()
        elif kind == 3 and spans:
            o, n = spans[at]
            spans[at] = r.choice([(max(0, o - 1), n + 1), (o, n + 1), (2**64 - 1, 1), (o, 2**64 - 1), (len(columns), 0), (len(columns) + 1, 0)])
        elif kind == 4 and spans:
            spans[at] = (spans[at][0], 0)
        elif columns:
            columns[r.randrange(len(columns))] = 2**32 - 1

    def commit(self):
        self.add("commit " + numbers(self.voltages()))

    def noise(self):
        freq = self.r.choice([1.0, 1e3, 1e6, 0.0, -0.0, -1.0, TINY, 1e-300, 1e300, INF, -INF, NAN, 10 ** self.r.uniform(-3, 9)])
        self.add("noise %s %s" % (number(self.kelvin()), number(freq)))

    def call(self):
        r = self.r
        p = r.random()
        if p < 0.15:
            before = "none" if r.random() < 0.3 else number(self.any_float())
            self.add("call charge_current %s %s %s %s %s" % (self.method(), number(self.any_float()), number(self.any_float()), before, number(self.any_float())), False)
        elif p < 0.3:
            self.add("call scale %s %s" % (self.method(), number(self.any_float())), False)
        else:
            name = r.choice(list(FUNCTIONS))
            args = [self.any_float() for _ in range(FUNCTIONS[name])]
            if r.random() < 0.6:
                args = self.usual_arguments(name) or args
            if r.random() < 0.02:
                args = args[:-1] if r.random() < 0.5 else args + [1.0]
            self.add(" ".join(["call", name] + [number(a) for a in args]), False)

    def usual_arguments(self, name):
        k, t = self.kelvin(0), self.kelvin(0)
        phi = self.inside(0.1, 10)
        if name in ("vt", "bandgap_ev", "pbfact"):
            return [k]
        if name in ("mos_junction_is_factor", "mobility_factor"):
            return [k, t]
        if name == "scaled_phi":
            return [phi, k, t]
        if name == "junction_cap_factor":
            return [phi, self.inside(0, 0.9), k, t]
        if name == "bulk_junction":
            return [self.inside(0, 1), self.r.uniform(-2, 20), 8.617333e-5 * k, self.inside(0, 1)]
        if name == "scaled_vto":
            return [self.inside(-100, 100), self.inside(0, 100), phi, self.inside(0.05, 10), k, t, self.r.choice([1.0, -1.0, 0.0, -0.0])]
        if name == "exp":
            return [self.r.choice([700.0, -700.0, math.nextafter(700.0, INF), math.nextafter(-700.0, -INF), self.r.uniform(-720, 720)])]
        return None

    # ---- scripts

    def damaged_line(self):
        """A line of the script again, with bytes changed, words dropped or doubled."""
        r = self.r
        line = r.choice(self.lines[-40:]) if self.lines else "state"
        p = r.randrange(8)
        words = line.split(" ")
        if p == 0:
            words.pop(r.randrange(len(words)))
        elif p == 1:
            words.insert(r.randrange(len(words) + 1), r.choice(["", "-", "nan", "0", "x", "none", "3ff0000000000000"]))
        elif p == 2:
            words[r.randrange(len(words))] = r.choice(["", "-", "nan", "NaN", "+1", "-1", "3FF0000000000000", "3ff000000000000", "gear:3ff0000000000000",
                                                      "euler:", "trap", "tran:", "dc", "18446744073709551616", "0x10", "1,", ",1", "1::2", ":", "=", "007"])
        elif p == 3:
            words = [w.upper() if r.random() < 0.5 else w for w in words]
        else:
            at = r.randrange(len(line)) if line else 0
            line = line[:at] + r.choice(" -,:=#.0123456789abcdefgnx\t") + line[at + (p % 2):]
            words = [line]
        self.add(" ".join(words))

    def long_line(self):
        """Lists and lines at the format's limits."""
        r = self.r
        n = r.choice([4095, 4096, 4097])
        kind = r.randrange(10)
        if kind == 0:
            self.add("commit " + ",".join(["nan"] * n), False)
        elif kind == 1:
            self.add("card n" + " =nan" * n, False)
        elif kind == 2:
            size = r.choice([65535, 65536, 65537])
            self.add("card n " + "z" * (size - 24) + "=" + number(1.0), False)
        elif kind == 3:
            self.add("cardraw n 4096 %s %s %s" % ("-", ",".join(["0:0"] * n), ",".join(["nan"] * n)), False)
        elif kind == 4:
            self.add("load dc - %s - -" % ",".join(["1"] * n), False)
        elif kind == 5:
            self.add("load dc %s %s %s %s" % tuple(",".join([w] * n) for w in ("nan", "0", "0:0", "nan")), False)
        elif kind == 6:
            slices = ["7"] * 3
            slices[r.randrange(3)] = ",".join(["0"] * n)
            self.add("cells " + " ".join(slices), False)
        elif kind == 7:
            self.add("loadblock %d 0 %s dc %s - - -" % (n - 1, ",".join(["1:0"] * n), number(-0.0)), False)
        elif kind == 8:
            self.add("loadbridge 0 - dc %s %s - %s" % tuple(",".join([w] * r.choice([n, 4096])) for w in ("nan", "7", "nan")), False)
        else:
            self.add("eval dc %s %s nolim none %s" % (number(300.0), number(0.0), ",".join(["nan"] * n)), False)

    def one_call(self):
        r = self.r
        chosen = {"eval": 30, "load": 24, "resolve": 5, "loadresolved": 16, "commit": 12, "noise": 6, "reactances": 4, "scale": 4, "geometry": 1,
                  "bind": 1, "call": 6, "damaged_line": 3}
        chosen.update(zip(self.layouts, (2, 8)))
        chosen.update(zip(self.bridges, (2, 3, 3)))
        getattr(self, r.choices(list(chosen), list(chosen.values()))[0])()

    def reactances(self):
        self.add("reactances")

    def device(self):
        r = self.r
        self.usual = r.random() < 0.6
        self.size, self.nodes = 4, []
        if r.random() < 0.03:
            self.add("reset")
            self.exact, self.tnom, self.bank = False, 300.15, {}
            for _ in range(r.randrange(5)):
                calls = ["eval", "load", "resolve", "loadresolved", "commit", "noise", "reactances", "scale", "geometry", "bind"]
                getattr(self, r.choice(calls + self.layouts + self.bridges))()
        if r.random() < 0.3:
            self.card(0.05)
        self.card(0)
        if r.random() < 0.2:
            self.geometry(0.1)
        steps = [lambda: self.geometry(0), lambda: self.scale(0), self.bind]
        if r.random() < 0.3:
            steps.append(self.resolve)
        if r.random() < 0.15:
            others = [self.geometry, self.scale, self.bind, self.eval, self.load, self.resolve, self.loadresolved, self.commit, self.noise, self.reactances]
            steps.insert(r.randrange(4), r.choice(others))
        for name in self.layouts:
            if r.random() < 0.3:
                steps.insert(r.randrange(len(steps) + 1), getattr(self, name))
        if r.random() < 0.05:
            r.shuffle(steps)
        for step in steps:
            step()
        if r.random() < 0.1:
            return self.transient()
        for _ in range(r.choice([3, 8, 20])):
            self.one_call()

    def transient(self):
        """A run of steps under one method: evaluations, load, commit."""
        r = self.r
        kind = r.choice(["euler", "trap", "gear", "mixed"])
        self.resolve()
        for _ in range(r.choice([10, 30, 100])):
            method = self.method()
            while kind != "mixed" and not method.startswith(kind):
                method = self.method()
            for _ in range(r.choice([1, 1, 2])):
                self.eval("tran", method)
            getattr(self, r.choice(["load", "loadresolved"]))("tran")
            self.commit()
            if r.random() < 0.05:
                self.scale()

    def run(self, count):
        self.usual, self.exact, self.tnom, self.size, self.nodes = True, False, 300.15, 4, []
        while len(self.lines) < count:
            if self.states == 1.0 and self.r.random() < 0.002:
                self.long_line()
            if self.r.random() < 0.02:
                self.lines.append(self.r.choice(["", "   ", "# a comment", "#", " # not a comment"]))
            if self.bridges and self.r.random() < 0.25:
                self.fill_bank()
            self.device()
        return self.lines


def seldom():
    """What random scripts seldom reach: junction capacitances below 0, whose temperature factor has a pole inside the ranges, and rows 2 and 3."""
    keys = {"pb": 0.1, "cj": 1e-3, "cjsw": 1e-9, "cox": 1e-3}
    sizes = {"as": 1e-10, "ad": 2e-10, "ps": 1e-5, "pd": 2e-5, "w": 1e-5, "l": 1e-6}
    methods = ["none", "euler:" + number(1e-9), "trap:" + number(1e-9), "gear:%s:%s" % (number(1e-9), number(2e-9))]
    matrix = "%s %s 0:4,4:4,8:4,12:4 %s" % (numbers([0.0] * 4), ",".join(["0,1,2,3"] * 4), numbers([0.0] * 16))
    for polarity in "np":
        yield "card " + polarity + "".join(" %s=%s" % (k, number(v)) for k, v in keys.items())
        yield "geometry" + "".join(" %s=%s" % (k, number(v)) for k, v in sizes.items())
        yield "scale " + number(200.0)
        yield "bind 0 1 2 3 4"
        for method in methods:
            for x in [(1.0, 2.0, 0.0, -1.0), (3.0, 0.5, 0.0, -0.5), (0.1, 3.0, 0.0, 0.0)]:
                yield "eval tran %s %s nolim %s %s" % (number(200.0), number(1e-12), method, numbers(x))
                yield from ["reactances", "state", "load tran:%s %s" % (number(1e9), matrix), "commit " + numbers(x)]
    yield "cardraw n 4 76c8 0:2 " + number(1.0)
    yield "cardraw n 1 666f6f626172 0:3,3:3 " + numbers([1.0, 2.0])
    yield "geometryraw 0 666f6f 0:3 " + number(1.0)


def fixed():
    """Lists that were thought out for one part each."""
    yield from ["reset", *elementary_calls.calls(), *temperature_calls.calls()]
    yield from ["reset", *setup_calls.calls(), *load_calls.calls(), *resolved_calls.calls(), *layout_calls.calls()]
    yield from bridge_calls.calls()


def curve(seed, count):
    """Good lines for `curve`; a bad one would end its run."""
    r = random.Random(seed)
    ends = neighbours(1000.0)[:2] + neighbours(-1000.0)[1:] + [x for x in ODD if abs(x) <= 1000.0] + [1.0, 2.0, 3.0, 0.5]
    for _ in range(count):
        p = r.random()
        if p < 0.2:
            v = [r.choice(ends), r.choice(ends)]
        elif p < 0.5:
            g = r.uniform(0, 5)
            v = [g, r.choice([*neighbours(g - 1.0), r.uniform(-3, 6)])]
        elif p < 0.7:
            v = [r.choice([*neighbours(1.0), r.uniform(-1000, 1000)]), r.uniform(-1000, 1000)]
        else:
            v = [r.uniform(-1, 1) * 10 ** r.uniform(-320, 3) for _ in range(2)]
        yield "%s %s" % tuple(map(number, v))


def main():
    kind, seed, count = sys.argv[1], int(sys.argv[2]), int(sys.argv[3])
    if kind == "curve":
        lines = curve(seed, count)
    elif kind == "list":
        lines = [*seldom(), *Script(seed, 0.06, False).run(count), *fixed()]
    else:
        lines = Script(seed).run(count)
    sys.stdout.write("".join(line + "\n" for line in lines))


main()
