#!/usr/bin/env python3
"""Works out which lambda rule masks break, square by square, as docs/RULES.md says.

    tests/oracles/rules.py FILE        the answers to a file of which each line is a CIF text
    tests/oracles/rules.py --draw N    N lines, each a small mask drawn at random

A text has boxes alone, at top level. What rows of crates/examples print of such masks was worked out so.
"""
import random
import sys
from functools import lru_cache

LAMBDA = 500


class Plane:
    """The squares that a layer covers: for each row, and for each column, a number with a bit for each square."""

    def __init__(self, boxes, wide, high):
        self.rows, self.columns = [0] * high, [0] * wide
        for x0, y0, x1, y1 in boxes:
            for y in range(y0, y1):
                self.rows[y] |= (1 << x1) - (1 << x0)
            for x in range(x0, x1):
                self.columns[x] |= (1 << y1) - (1 << y0)


def read(text):
    """The boxes of each layer, in half-units."""
    boxes, layer = {l: [] for l in "ND NP NC NM NI NB NG".split()}, None
    for part in text.split(";"):
        words = part.split()
        if words and words[0] == "L":
            layer = words[1]
        elif words and words[0] == "B":
            length, width, x, y = map(int, words[1:])
            boxes[layer].append((2 * x - length, 2 * y - width, 2 * x + length, 2 * y + width))
        else:
            assert words in ([], ["E"]), words
    return boxes


def planes(boxes):
    """The layers over a field with its corner at a place, and the place."""
    every = [b for own in boxes.values() for b in own] or [(0, 0, 1, 1)]
    left, bottom = min(b[0] for b in every) - 3 * LAMBDA, min(b[1] for b in every) - 3 * LAMBDA
    wide, high = max(b[2] for b in every) - left + 3 * LAMBDA, max(b[3] for b in every) - bottom + 3 * LAMBDA
    moved = {l: [(a - left, b - bottom, c - left, d - bottom) for a, b, c, d in own] for l, own in boxes.items()}
    return {l: Plane(own, wide, high) for l, own in moved.items()}, left, bottom


def bits(row):
    """The squares of a row."""
    return [x for x in range(row.bit_length()) if row >> x & 1]


def least(rows):
    """The least square by y and then by x of a set of squares, by rows."""
    for y, row in enumerate(rows):
        if row:
            return y, (row & -row).bit_length() - 1
    return None


def folded(join, parts, step, side):
    """Each part joined with the side - 1 parts that follow it."""
    size = 1
    while size < side:
        more = min(size, side - size)
        parts, size = join(parts, step(parts, more)), size + more
    return parts


def narrow(on, side):
    """Rules 1 to 3: covered, and in no block of that side that is covered."""
    every = lambda a, b: [x & y for x, y in zip(a, b)]
    any_of = lambda a, b: [x | y for x, y in zip(a, b)]
    above = lambda rows, n: rows[n:] + [0] * n
    below = lambda rows, n: [0] * n + rows[:len(rows) - n]
    corners = [folded(int.__and__, row, int.__rshift__, side) for row in on.rows]
    corners = folded(every, corners, above, side)
    blocks = [folded(int.__or__, row, int.__lshift__, side) for row in corners]
    blocks = folded(any_of, blocks, below, side)
    return [row & ~block for row, block in zip(on.rows, blocks)]


@lru_cache(None)
def gaps(line, size):
    """Rules 4 to 6 in one row or column: the squares of runs that are too short."""
    found, on = 0, bits(line)
    for before, after in zip(on, on[1:]):
        if before + 1 < after and after - before - 1 < size:
            found |= (1 << after) - (1 << before + 1)
    return found


@lru_cache(None)
def unrelated(poly, diffusion):
    """Rule 7 in one row or column, both ways."""
    found = 0
    for x in bits(poly & ~diffusion):
        for step in (1, -1):
            at, between = x + step, 0
            while between < LAMBDA and at >= 0 and not (poly | diffusion) >> at & 1:
                at, between = at + step, between + 1
            if between < LAMBDA and at >= 0 and (diffusion & ~poly) >> at & 1:
                found |= 1 << x
    return found


@lru_cache(None)
def opened(poly, diffusion, buried):
    """Rule 8 in one row or column, both ways."""
    found = 0
    for x in bits(poly & diffusion & ~buried):
        for step in (1, -1):
            beside = x + step
            if not (poly | diffusion) >> beside & 1:
                found |= 1 << x
            elif (poly & ~diffusion) >> beside & 1 and not all(
                    (poly & ~diffusion) >> x + step * k & 1 for k in range(1, 2 * LAMBDA + 1)):
                found |= 1 << x
    return found


def along(test, *layers):
    """The least square that a test of lines finds in rows or columns."""
    places = []
    for y, lines in enumerate(zip(*(l.rows for l in layers))):
        found = test(*lines)
        if found:
            places.append((y, (found & -found).bit_length() - 1))
    for x, lines in enumerate(zip(*(l.columns for l in layers))):
        found = test(*lines)
        if found:
            places.append(((found & -found).bit_length() - 1, x))
    return min(places, default=None)


def regions(on):
    """The edge-connected regions of squares, each as runs (y, from, to)."""
    runs, above = [], {}
    for y, row in enumerate(on.rows):
        ends = bits(row ^ row << 1)
        above[y] = range(len(runs), len(runs) + len(ends) // 2)
        runs += [(y, a, b) for a, b in zip(ends[::2], ends[1::2])]
    left, found = set(range(len(runs))), []
    for start in range(len(runs)):
        if start in left:
            left.remove(start)
            group, fresh = [], [start]
            while fresh:
                y, a, b = runs[fresh.pop()]
                group.append((y, a, b))
                for k in [*above.get(y - 1, ()), *above.get(y + 1, ())]:
                    if k in left and runs[k][1] < b and a < runs[k][2]:
                        left.remove(k)
                        fresh.append(k)
            found.append(sorted(group))
    return found


def whole(on, x, y, side):
    block = (1 << x + side) - (1 << x)
    return all(row & block == block for row in on.rows[y:y + side])


def cuts(layers):
    """The least squares of rules 9 and 10."""
    odd, bare = [], []
    for group in regions(layers["NC"]):
        y, x, _ = group[0]
        if group != [(y + j, x, x + 2 * LAMBDA) for j in range(2 * LAMBDA)]:
            odd.append((y, x))
        else:
            corner = x - LAMBDA, y - LAMBDA, 4 * LAMBDA
            backed = whole(layers["NP"], *corner) or whole(layers["ND"], *corner)
            if not (whole(layers["NM"], *corner) and backed):
                bare.append((y, x))
    return min(odd, default=None), min(bare, default=None)


def answer(text):
    layers, left, bottom = planes(read(text))
    tests = [(lambda l=l, s=s: least(narrow(layers[l], s * LAMBDA))) for l, s in (("ND", 2), ("NP", 2), ("NM", 3))]
    tests += [(lambda l=l, s=s: along(lambda line: gaps(line, s * LAMBDA), layers[l]))
              for l, s in (("ND", 3), ("NP", 2), ("NM", 3))]
    tests += [lambda: along(unrelated, layers["NP"], layers["ND"]),
              lambda: along(opened, layers["NP"], layers["ND"], layers["NB"]),
              lambda: cuts(layers)[0], lambda: cuts(layers)[1]]
    for number, test in enumerate(tests, 1):
        place = test()
        if place:
            return "breach %d at %d %d" % (number, place[1] + left, place[0] + bottom)
    return "clean"


def box(draw, layer, length, width, x, y):
    """A box about a place, in quarters of a lambda and at times an eighth or a unit more or less."""
    more = [draw.choice([0] * 20 + [1, 2, 4, 125, 250, 250, 500, -1, -125]) for _ in range(2)]
    off = [draw.choice([0] * 5 + [1, -1, 125, -125, 250]) for _ in range(2)]
    return "L %s; B %d %d %d %d;" % (layer, length + more[0], width + more[1], x + off[0], y + off[1])


def line(draw, layers):
    """Boxes side by side, and one upon the other."""
    words, at = [], 0
    for _ in range(draw.randrange(1, 4)):
        layer = draw.choice(layers)
        size = {"ND": 500, "NP": 500, "NM": 750}[layer]
        words.append(box(draw, layer, size, size, *draw.choice([(at, 0), (0, at)])))
        at += size + draw.choice([0, 250, 500, 750, 1000])
    return words


def gate(draw):
    """Polysilicon across diffusion, at times buried."""
    words = [box(draw, "ND", 500, 1500, 0, 0), box(draw, "NP", draw.choice([1000, 1500, 1500]), 500, 0, 0)]
    if draw.random() < 0.3:
        words.append(box(draw, "NB", 750, 750, 0, 0))
    if draw.random() < 0.3:
        words.append(box(draw, draw.choice(["NP", "ND"]), 500, 500, draw.choice([750, 1000]), draw.choice([0, 1000])))
    return words


def cut(draw):
    """A contact cut between metal and another layer, at times beside another cut."""
    words = [box(draw, "NM", 1000, 1000, 0, 0), box(draw, draw.choice(["NP", "ND"]), 1000, 1000, 0, 0)]
    words.append("L NC; B 500 500 0 0;")
    if draw.random() < 0.4:
        words.append(box(draw, "NC", 500, 500, draw.choice([0, 500, 750]), 0))
    return words


def mask(draw):
    words = draw.choice([lambda: line(draw, ["ND"]), lambda: line(draw, ["NP"]), lambda: line(draw, ["NM"]),
                         lambda: line(draw, ["NP", "ND"]), lambda: gate(draw), lambda: gate(draw), lambda: cut(draw),
                         lambda: cut(draw), lambda: line(draw, ["NP", "ND", "NM"]) + cut(draw)])()
    draw.shuffle(words)
    return " ".join(words) + " E"


if __name__ == "__main__":
    if sys.argv[1] == "--draw":
        chance = random.Random(1)
        for _ in range(int(sys.argv[2])):
            print(mask(chance))
    else:
        with open(sys.argv[1]) as lines:
            for text in lines.read().splitlines():
                print("%s\n    %s" % (text, answer(text)))
