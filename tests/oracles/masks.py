#!/usr/bin/env python3
"""Works out what masks draw, square by square, as docs/CIF.md and docs/CIRCUIT.md say.

    tests/oracles/masks.py FILE            the answers to a file of which each line is a CIF text
    tests/oracles/masks.py --draw N        N lines, each a small mask of boxes and labels drawn at random
    tests/oracles/masks.py --outlines N    N lines with polygons, called symbols and labels inside them, too

A text breaks no rule of texts or of the expansion, and has boxes, polygons, labels, definitions, names and calls
alone. Points are scaled and turned one by one. What rows of crates/examples print of such masks was worked out so.
"""
import random
import sys
from fractions import Fraction

RANK = {"NM": 0, "NP": 1, "ND": 2}
DRIVERS = ("vdd", "gnd", "phia", "phib", "phic")


def commands(text):
    """The commands before E, each with its offset."""
    at = 0
    for part in text.split(";"):
        words = part.split()
        if words and words != ["E"]:
            yield at + len(part) - len(part.lstrip()), words
        at += len(part) + 1


class Symbol:
    """A definition: its scale, its commands and the first name in them."""

    def __init__(self, words):
        self.scale = Fraction(int(words[2]), int(words[3])) if len(words) > 2 else Fraction(1)
        self.body, self.name = [], None

    def add(self, at, words):
        if words[0] == "9" and len(words) == 2 and self.name is None:
            self.name = words[1]
        self.body.append((at, words))


def turned(turns, scale, x, y):
    """A point in half-units behind the turns of a call, the first of them first."""
    words = list(turns)
    while words:
        kind = words.pop(0)
        if kind == "M":
            x, y = (-x, y) if words.pop(0) == "X" else (x, -y)
        else:
            across, up = int(words.pop(0)), int(words.pop(0))
            if kind == "T":
                x, y = x + 2 * across * scale, y + 2 * up * scale
            else:
                across, up = (across > 0) - (across < 0), (up > 0) - (up < 0)
                x, y = x * across - y * up, x * up + y * across
    return x, y


def is_inside(points, x, y):
    """Whether the ray to the right from the centre of a square crosses an odd number of the edges."""
    crossed = 0
    for (left, low), (right, high) in zip(points, points[1:] + points[:1]):
        if left == right and left > x and min(low, high) <= y < max(low, high):
            crossed += 1
    return crossed % 2 == 1


def squares_in(points):
    """The squares inside a polygon."""
    across, up = [x for x, _ in points], [y for _, y in points]
    return {(x, y) for x in range(int(min(across)), int(max(across)))
            for y in range(int(min(up)), int(max(up))) if is_inside(points, x, y)}


class Mask:
    """The squares that each layer covers, the labels, and the names of labels that were met."""

    def __init__(self):
        self.covers = {layer: set() for layer in "ND NP NC NM NI NB NG".split()}
        self.labels, self.met, self.symbols = [], set(), {}

    def label(self, at, words, way, scale, place):
        x, y = 2 * int(words[2]) * scale, 2 * int(words[3]) * scale
        if way is None or x != int(x) or y != int(y):
            return
        name = "/".join(way + [words[1]])
        if way and name in self.met:
            return
        self.met.add(name)
        (x, y), (beyond, above) = place(x, y), place(x + 1, y + 1)
        own = words[4] if len(words) > 4 else None
        self.labels.append((at, name, int(min(x, beyond)), int(min(y, above)), own))

    def call(self, words, way, scale, place):
        symbol, turns = self.symbols[words[1]], words[2:]
        inner = None if way is None or symbol.name is None else way + [symbol.name]
        self.walk(symbol.body, inner, symbol.scale, lambda x, y: place(*turned(turns, scale, x, y)))

    def walk(self, items, way, scale, place):
        """Draws commands: the way is the names before those of labels here, or none."""
        layer, symbol = None, None
        for at, words in items:
            if words[0] == "DS":
                self.symbols[words[1]] = symbol = Symbol(words)
            elif words[0] == "DF":
                symbol = None
            elif symbol is not None:
                symbol.add(at, words)
            elif words[0] == "L":
                layer = words[1]
            elif words[0] == "C":
                self.call(words, way, scale, place)
            elif words[0] == "94":
                self.label(at, words, way, scale, place)
            elif words[0] != "9":
                points = [place(x * scale, y * scale) for x, y in corners(words)]
                self.covers[layer] |= squares_in(points)


def corners(words):
    """The points of a box or polygon in half-units."""
    numbers = list(map(int, words[1:]))
    if words[0] == "P":
        return [(2 * x, 2 * y) for x, y in zip(numbers[::2], numbers[1::2])]
    assert words[0] == "B", words
    length, width, x, y = numbers
    left, right, low, high = 2 * x - length, 2 * x + length, 2 * y - width, 2 * y + width
    return [(left, low), (right, low), (right, high), (left, high)]


def read(text):
    """The squares that each layer covers, and the labels."""
    mask = Mask()
    mask.walk(list(commands(text)), [], Fraction(1), lambda x, y: (x, y))
    return mask.covers, mask.labels


def beside(square):
    layer, x, y = square
    return [(layer, x + 1, y), (layer, x - 1, y), (layer, x, y + 1), (layer, x, y - 1)]


def order(square):
    layer, x, y = square
    return y, x, RANK[layer]


def classes(squares, joins):
    """The classes of joined squares, by their least squares."""
    found, left = [], set(squares)
    for start in sorted(squares, key=order):
        if start in left:
            left.remove(start)
            group, fresh = [], [start]
            while fresh:
                square = fresh.pop()
                group.append(square)
                for other in joins(square):
                    if other in left:
                        left.remove(other)
                        fresh.append(other)
            found.append(group)
    return found


def network(covers):
    """The node of each conductor, the count of nodes, and the channels."""
    gates = {("NP", x, y) for x, y in covers["NP"] & covers["ND"] - covers["NB"]}
    conducts = {(l, x, y) for l in RANK for x, y in covers[l] if l != "ND" or ("NP", x, y) not in gates}

    def joins(square):
        layer, x, y = square
        cut, buried = (x, y) in covers["NC"], (x, y) in covers["NB"]
        here = [(l, x, y) for l in RANK if cut or buried and "NM" not in (l, layer)]
        return [s for s in beside(square) + here if s in conducts]

    nodes = classes(conducts, joins)
    node_of = {square: k for k, group in enumerate(nodes) for square in group}
    channels = []
    for group in classes(gates, lambda square: [s for s in beside(square) if s in gates]):
        near = {("ND", x, y) for square in group for _, x, y in beside(square)}
        ends = sorted({node_of[s] for s in near if s in conducts})
        count = sum((x, y) in covers["NI"] for _, x, y in group)
        kind = "Enhancement" if count == 0 else "Depletion" if count == len(group) else "Partial"
        channels.append((kind, node_of[group[0]], ends))
    return node_of, len(nodes), channels


def named(node_of, x, y, own):
    """The node of the conductor that a label names."""
    for layer in ([own] if own else []) + list(RANK):
        if (layer, x, y) in node_of:
            return node_of[layer, x, y]
    return None


def answer(text):
    covers, labels = read(text)
    node_of, count, channels = network(covers)
    tags, first, driver = [], {}, {}
    for at, name, x, y, own in labels:
        node = named(node_of, x, y, own)
        if node is None:
            return "N2 at %d" % at
        if first.setdefault(name, node) != node:
            return "N1 at %d" % at
        tags.append((name, node, at))
    for name, node, at in tags:
        if name in DRIVERS and driver.setdefault(node, name) != name:
            return "N3 at %d" % at
    words = ["%d nodes" % count]
    words += ["%s of %d between%s" % (kind, gate, "".join(" %d" % e for e in ends)) for kind, gate, ends in channels]
    words += ["%s on %d at %d" % tag for tag in tags]
    return "; ".join(words)


def mask(draw):
    """A few boxes, and labels of which most are on conductors."""
    span = draw.choice([2, 3, 5])
    words, layer = [], None
    for _ in range(draw.randrange(3, 14)):
        wanted = draw.choice("ND ND ND NP NP NP NM NM NC NI NB".split())
        if wanted != layer:
            layer = wanted
            words.append("L %s;" % layer)
        size = {"NC": 3, "NB": 3, "NI": 15}.get(layer, 9)
        words.append("B %d %d %d %d;" % (draw.randrange(1, size), draw.randrange(1, size),
                                       draw.randint(-span, span), draw.randint(-span, span)))
    node_of, _, _ = network(read(" ".join(words))[0])
    places = sorted((x // 2, y // 2) for _, x, y in node_of if x % 2 == 0 and y % 2 == 0)
    for _ in range(draw.randrange(5)):
        x, y = draw.choice(places) if places and draw.random() < 0.9 else (draw.randint(-9, 9), draw.randint(-9, 9))
        words.append("94 %s %d %d%s;" % (draw.choice("a b c vdd gnd phia".split()), x, y,
                                        draw.choice(["", " NM", " NP", " ND"])))
    return " ".join(words) + " E"


def outline(draw, span):
    """A polygon at random: it may cross itself, and have points again, straight on, or beyond and back."""
    count = draw.choice([2, 2, 3, 4])
    across = [draw.randint(-span, span) for _ in range(count)]
    up = [draw.randint(-span, span) for _ in range(count)]
    points = []
    for k in range(count):
        points += [(across[k], up[k]), (across[(k + 1) % count], up[k])]
        if draw.random() < 0.2:
            points += draw.choice([points[-1:], [(draw.randint(-span, span), up[k]), points[-1]]])
    start = draw.randrange(len(points))
    points = points[start:] + points[:start]
    if draw.random() < 0.2:
        points += points[:1] + points if draw.random() < 0.3 else points[:1]
    return "P " + " ".join("%d %d" % point for point in points[::draw.choice([1, -1])]) + ";"


def shapes(draw, span):
    """A few boxes and polygons."""
    words = []
    for _ in range(draw.randrange(1, 3)):
        words.append("L %s;" % draw.choice("ND ND NP NP NM NC NI NB".split()))
        for _ in range(draw.choice([1, 1, 2])):
            box = "B %d %d %d %d;" % (2 * draw.randrange(1, span), 2 * draw.randrange(1, span),
                                      draw.randint(-span, span), draw.randint(-span, span))
            words.append(outline(draw, span) if draw.random() < 0.7 else box)
    return words


def labelled(draw, words, scale, names):
    """A label, most often on a conductor of these shapes as they are scaled."""
    node_of, _, _ = network(read("DS 1 %d %d; %s DF; C 1;" % (scale.numerator, scale.denominator, " ".join(words)))[0])
    places = sorted((Fraction(x) / 2 / scale, Fraction(y) / 2 / scale) for _, x, y in node_of)
    places = [(x, y) for x, y in places if x == int(x) and y == int(y)]
    x, y = draw.choice(places) if places and draw.random() < 0.95 else (draw.randint(-4, 4), draw.randint(-4, 4))
    return "94 %s %d %d;" % (draw.choice(names), x, y)


def turns(draw):
    """Up to three turns of a call."""
    kinds = ["M X", "M Y", "R 0 1", "R -1 0", "R 0 -1", "T %d %d" % (draw.randint(-6, 6), draw.randint(-6, 6))]
    return "".join(" " + draw.choice(kinds) for _ in range(draw.randrange(4)))


def layout(draw):
    """Two symbols, the second of which may call the first, and what stands at top level."""
    words = []
    for number in (1, 2):
        scale = draw.choice([Fraction(1), Fraction(1, 2), Fraction(1, 2), Fraction(3, 2)])
        body = shapes(draw, 4)
        if scale.denominator == 2:
            body = [word for word in body if word[0] != "B"]
        body += [labelled(draw, body, scale, "x y b/x".split()) for _ in range(draw.randrange(3))]
        body += ["C 1%s;" % turns(draw)] if number == 2 and draw.random() < 0.7 else []
        name = ["9 %s;" % draw.choice("a b a/b".split())] if draw.random() < 0.9 else []
        body.insert(draw.randrange(len(body) + 1), "".join(name))
        words += ["DS %d %d %d;" % (number, scale.numerator, scale.denominator), *filter(None, body), "DF;"]
    top = shapes(draw, 6)
    words += top + ["C %d%s;" % (draw.choice([1, 2, 2]), turns(draw)) for _ in range(draw.randrange(1, 4))]
    words += [labelled(draw, top, Fraction(1), "a/x b/x vdd c".split()) for _ in range(draw.randrange(3))]
    return " ".join(words) + " E"


if __name__ == "__main__":
    if sys.argv[1] in ("--draw", "--outlines"):
        chance, drawn = random.Random(1), mask if sys.argv[1] == "--draw" else layout
        for _ in range(int(sys.argv[2])):
            print(drawn(chance))
    else:
        with open(sys.argv[1]) as lines:
            for line in lines.read().splitlines():
                print("%s\n    %s" % (line, answer(line)))
