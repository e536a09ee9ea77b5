#!/usr/bin/env python3
"""The deck that `mask_spice` must print, of a CIF file of boxes and labels at top level that is given on the input:

    tests/oracles/decks.py < crates/mask_spice/stdin | cmp - crates/mask_spice/stdout

It counts squares, as large as the grid on which all boxes and labels lie, and goes by docs/LOOKING.md alone."""
import math
import re
import sys

from masks import RANK, beside, classes, commands, named


def read(text):
    """The squares of a coarse grid that each layer covers, the labels, and the grid's pitch in half-units."""
    boxes, labels, layer = [], [], None
    for _, words in commands(text):
        if words[0] == "L":
            layer = words[1]
        elif words[0] == "B":
            length, width, x, y = map(int, words[1:])
            boxes.append((layer, 2 * x - length, 2 * x + length, 2 * y - width, 2 * y + width))
        else:
            labels.append((words[1], 2 * int(words[2]), 2 * int(words[3]), words[4] if len(words) > 4 else None))
    pitch = math.gcd(*(z for box in boxes for z in box[1:]))
    covers = {l: set() for l in "ND NP NC NM NI NB NG".split()}
    for layer, x0, x1, y0, y1 in boxes:
        covers[layer] |= {(i, j) for i in range(x0 // pitch, x1 // pitch) for j in range(y0 // pitch, y1 // pitch)}
    return covers, [(name, x // pitch, y // pitch, own) for name, x, y, own in labels], pitch


def number(thousandths):
    return "%d.%03d" % divmod(thousandths, 1000)


def deck(text):
    covers, labels, pitch = read(text)
    gates = {("NP", x, y) for x, y in covers["NP"] & covers["ND"] - covers["NB"]}
    conducts = {(l, x, y) for l in RANK for x, y in covers[l] if l != "ND" or ("NP", x, y) not in gates}

    def joins(square):
        layer, x, y = square
        cut, buried = (x, y) in covers["NC"], (x, y) in covers["NB"]
        here = [(l, x, y) for l in RANK if cut or buried and "NM" not in (l, layer)]
        return [s for s in beside(square) + here if s in conducts]

    nodes = classes(conducts, joins)
    node_of = {square: k for k, group in enumerate(nodes) for square in group}
    yield "* by mask_spice: parameters lambda, wire, metal, polysilicon, diffusion\n.subckt masks\n"
    pins = [(re.sub("[^0-9A-Za-z]", "_", name) + "_%d" % k, node_of_label)
            for k, (name, node_of_label) in enumerate((l[0], named(node_of, *l[1:])) for l in labels)]
    yield from ("+ %s\n" % name for name, _ in pins)
    yield from ("R%d %s n%d {wire}\n" % (k, name, node) for k, (name, node) in enumerate(pins))
    for k, group in enumerate(classes(gates, lambda square: [s for s in beside(square) if s in gates])):
        borders = [("ND", x, y) for square in group for _, x, y in beside(square) if ("ND", x, y) in conducts]
        ends = sorted({node_of[square] for square in borders})
        implant = sum((x, y) in covers["NI"] for _, x, y in group)
        model = "enhancement" if implant == 0 else "depletion" if implant == len(group) else "partial"
        # A lambda is 500 half-units: twice as many thousandths of it as half-units.
        wide = 2 * pitch * len(borders) // 2
        long = 4 * pitch * len(group) // len(borders) if borders else 0
        for end in ends[1:] or ends:
            yield "M%d_%d n%d n%d n%d 0 %s W={%s*lambda} L={%s*lambda}\n" % (
                k, end, ends[0], node_of[group[0]], end, model, number(wide), number(long))
    for k, group in enumerate(nodes):
        areas = [1000 * pitch ** 2 * sum(layer == l for layer, _, _ in group) // 250000 for l in ("NM", "NP", "ND")]
        yield "C%d n%d 0 {%s*metal+%s*polysilicon+%s*diffusion}\n" % (k, k, *map(number, areas))
    yield ".ends\n"


if __name__ == "__main__":
    sys.stdout.write("".join(deck(sys.stdin.read())))
