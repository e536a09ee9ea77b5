#!/usr/bin/env python3
"""Works out what fabrics draw, square by square, and which network their segments, lines and marks mean.

    tests/oracles/fabrics.py FILE        the answers to a file of which each line is a fabric
    tests/oracles/fabrics.py --draw N    N lines, each a small fabric drawn at random

A fabric is its columns and the signal rows of each band; then, after semicolons, lines as L or R, column, first and last
band; segments as S, band, row, first and last column; and marks as tile, band, row, column. The program `fabric_cases`
must give the same answers: the network that is drawn, as tests/oracles/masks.py numbers it, and that of the switches, where nets
are numbered in the order segments, lines, ground, power. That the two are one up to numbering is checked here. Of what a
fabric may hold only this is checked, that two marks don't stand at one place.
"""
import random
import sys

import masks

# Lambda squares from the lower left corner of the tile, both ends included.
TILES = {
    "TapL": [("NC", 3, 4, 7, 8)],
    "TapR": [("NC", 15, 16, 7, 8)],
    "Tran": [("ND", 6, 13, 2, 3), ("NP", 9, 10, 0, 5), ("NP", 8, 11, 6, 9), ("NC", 9, 10, 7, 8)],
    "PullUp": [("ND", 2, 5, 0, 5), ("NC", 3, 4, 3, 4), ("NM", 2, 11, 2, 5), ("NP", 8, 11, 2, 7), ("NC", 9, 10, 3, 4),
               ("NP", 1, 11, 8, 23), ("ND", 3, 4, 6, 26), ("ND", 2, 5, 27, 30), ("NC", 3, 4, 28, 29),
               ("NI", 1, 6, 6, 25)],
    "Under": [("NM", 0, 3, 6, 9), ("NM", 16, 19, 6, 9), ("NP", 0, 19, 6, 9), ("NC", 1, 2, 7, 8), ("NC", 17, 18, 7, 8)],
}


def read(text):
    """The columns, the rows, and the items by their first word."""
    head, *items = [part.split() for part in text.split(";")]
    columns, *rows = map(int, head)
    return columns, rows, [(item[0], *map(int, item[1:])) for item in items]


def base(rows, band):
    return sum(12 * r + 36 for r in rows[:band])


def squares(fabric):
    """The squares that each layer covers, and one square of each segment, line, ground and power."""
    columns, rows, items = fabric
    covers, of = {l: set() for l in "ND NP NC NM NI NB NG".split()}, {}
    top, last = base(rows, len(rows)) - 1, columns - 1

    def draw(layer, x0, x1, y0, y1):
        covers[layer] |= {(x, y) for x in range(x0, x1 + 1) for y in range(y0, y1 + 1)}
        return layer, x0, y0

    of["ground"] = draw("NM", 7, 12, 0, top)
    of["power"] = draw("NM", 20 * last + 7, 20 * last + 12, 0, top)
    for band, r in enumerate(rows):
        y = base(rows, band)
        draw("NM", 7, 20 * last - 1, y + 6, y + 9)
        draw("NM", 20, 20 * last + 12, y + 12 * r + 27, y + 12 * r + 30)
    for item in items:
        if item[0] == "S":
            band, row, c0, c1 = item[1:]
            y = base(rows, band) + 12 * row
            of[item] = draw("NM", 20 * c0, 20 * c1 + 19, y + 6, y + 9)
        elif item[0] in "LR":
            column, b0, b1 = item[1:]
            x = 20 * column + (2 if item[0] == "L" else 14)
            of[item] = draw("ND", x, x + 3, base(rows, b0), base(rows, b1) + 12 * rows[b1] - 1)
        else:
            band, row, column = item[1:]
            x, y = 20 * column, base(rows, band) + 12 * row
            y += 21 if item[0] == "Under" and row == rows[band] else 0
            for layer, x0, x1, y0, y1 in TILES[item[0]]:
                draw(layer, x + x0, x + x1, y + y0, y + y1)
    return covers, of


def line_at(items, side, band, column):
    return next((i for i in items if i[0] == side and i[1] == column and i[2] <= band <= i[3]), None)


def segment_at(items, band, row, column):
    return next((i for i in items if i[0] == "S" and i[1:3] == (band, row) and i[3] <= column <= i[4]), None)


def switches(fabric):
    """The number of each net, how many there are, and the channels."""
    _, _, items = fabric
    nets = [i for i in items if i[0] == "S"] + [i for i in items if i[0] in "LR"] + ["ground", "power"]
    least = {net: k for k, net in enumerate(nets)}
    for tile, *place in (i for i in items if i[0] in ("TapL", "TapR")):
        band, row, column = place
        a = line_at(items, tile[-1], band, column)
        b = segment_at(items, band, row, column) if row else "ground"
        low, high = sorted([least[a], least[b]])
        least = {net: low if k == high else k for net, k in least.items()}
    classes = sorted(set(least.values()))
    number = {net: classes.index(k) for net, k in least.items()}
    channels = []
    for tile, *place in (i for i in items if i[0] in ("Tran", "PullUp")):
        band, row, column = place
        left = number[line_at(items, "L", band, column)]
        if tile == "Tran":
            right = number[line_at(items, "R", band, column)]
            channels.append(("Enhancement", number[segment_at(items, band, row, column)], sorted({left, right})))
        else:
            channels.append(("Depletion", left, sorted({left, number["power"]})))
    return number, len(classes), channels


def words(count, channels):
    return "; ".join(["%d nodes" % count] + ["%s of %d between%s" % (kind, gate, "".join(" %d" % e for e in ends))
                                            for kind, gate, ends in channels])


def answer(text):
    fabric = read(text)
    places = [item[1:] for item in fabric[2] if item[0] in TILES]
    if len(set(places)) < len(places):
        return "no fabric"
    covers, of = squares(fabric)
    node_of, count, channels = masks.network(covers)
    number, meant, switched = switches(fabric)
    node = {number[net]: node_of[square] for net, square in of.items()}
    assert count == meant and len(set(node.values())) == meant, text
    assert all(node[number[net]] == node_of[square] for net, square in of.items()), text
    there = [(kind, node[gate], sorted(node[e] for e in ends)) for kind, gate, ends in switched]
    assert sorted(there) == sorted(channels), text
    return "drawn: %s\n    meant: %s" % (words(count, channels), words(meant, switched))


def spans(chance, first, last, gap):
    """Spans between two numbers, with a gap between them."""
    at = first + chance.randrange(3)
    while at <= last:
        end = min(last, at + chance.randrange(4))
        if chance.random() < 0.85:
            yield at, end
        at = end + 1 + gap + (chance.random() < 0.2)


def draw(chance):
    columns, rows = chance.randrange(3, 8), [chance.randrange(1, 5) for _ in range(chance.randrange(1, 4))]
    items, marks = [], []
    for column in range(1, columns - 1):
        for side in "LR":
            items += [(side, column, a, b) for a, b in spans(chance, 0, len(rows) - 1, 0)]
    for band, count in enumerate(rows):
        for row in range(1, count):
            items += [("S", band, row, a, b) for a, b in spans(chance, 1, columns - 2, 1)]
    for band, count in enumerate(rows):
        for row in range(count + 1):
            for column in range(columns - 1):
                segment = segment_at(items, band, row, column) if 0 < row < count else None
                left, right = line_at(items, "L", band, column), line_at(items, "R", band, column)
                may = []
                if column == 0 and (row == count or segment_at(items, band, row, 1) and row):
                    may = ["Under"]
                elif row == count:
                    may = ["PullUp"] if left and left[3] == band else []
                elif row == 0 or segment:
                    may = ["TapL"] * bool(left) + ["TapR"] * bool(right) + ["Tran"] * 2 * bool(segment and left and right)
                if may and chance.random() < 0.6:
                    marks.append((chance.choice(may), band, row, column))
    chance.shuffle(marks)
    head = " ".join(map(str, [columns] + rows))
    return "; ".join([head] + [" ".join(map(str, i)) for i in items + marks])


if __name__ == "__main__":
    if sys.argv[1] == "--draw":
        chance = random.Random(1)
        for _ in range(int(sys.argv[2])):
            print(draw(chance))
    else:
        with open(sys.argv[1]) as lines:
            for line in lines.read().splitlines():
                print("%s\n    %s" % (line, answer(line)))
