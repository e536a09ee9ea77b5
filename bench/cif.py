#!/usr/bin/env python3
"""Writes CIF files to measure the reading and flattening of masks with.

    bench/cif.py FOLDER [--only WORD]

Each case is one file in FOLDER. All of them take about 1,100 MB.
"""
import argparse
import os
import random

MEGA = 1 << 20
MILLION = 1000000
LAYERS = ["ND", "NP", "NC", "NM", "NI", "NB"]


def cell(draw, number):
    """A definition of some boxes and wires, in lambda."""
    lines = ["DS %d 250 1;" % number]
    for _ in range(12):
        layer = draw.choice(LAYERS)
        lines.append("L %s;" % layer)
        for _ in range(3):
            lines.append("B %d %d %d %d;" % (2 * draw.randrange(1, 20), 2 * draw.randrange(1, 20),
                                            draw.randrange(2000), draw.randrange(2000)))
        x, y = draw.randrange(2000), draw.randrange(2000)
        lines.append("W 2 %d %d %d %d %d %d;" % (x, y, x + 20, y, x + 20, y + 30))
    return "\n".join(lines) + "\nDF;\n"


def usual(size):
    """Cells, each called twice, and a label for each."""
    draw, room, number, front = random.Random(1), size - 2, 0, "(made to be measured);\n"
    while len(front) <= room:
        yield front
        room -= len(front)
        number += 1
        x, y = draw.randrange(1 << 20), draw.randrange(1 << 20)
        front = cell(draw, number) + "C %d T %d %d;\nC %d M X R 0 1 T %d %d;\n94 n%d %d %d NM;\n" % (
            number, x, y, number, y, x, number, x, y)
    yield " " * room + "E\n"


def boxes(size):
    """Boxes alone, at top level."""
    draw, room, front = random.Random(2), size - 2, "L NM;\n"
    while len(front) <= room:
        yield front
        room -= len(front)
        front = "".join("B %d %d %d %d;\n" % tuple(draw.randrange(1 << 12) for _ in range(4)) for _ in range(50))
    yield " " * room + "E\n"


def steps(count):
    """Points of which each lies along an axis from the one before."""
    return "".join(" %d %d" % ((k + 1) // 2 * 4, k // 2 * 4) for k in range(count))


def doubled(depth):
    """Definitions that each call the next lower one twice: 2^depth boxes."""
    lower = "".join("DS %d;C %d;C %d;DF;" % (k + 1, k, k) for k in range(depth))
    return "DS 0;L NM;B 2 2 0 0;DF;%sC %d;E" % (lower, depth)


def chained(count):
    """Definitions that each call the one before."""
    return "DS 0;L NM;B 2 2 0 0;DF;%sC %d;E" % ("".join("DS %d;C %d T 1 0;DF;" % (k + 1, k) for k in range(count)), count)


def turned(turns, calls):
    """A call of many turns, which is expanded over and over."""
    inner = "DS 1;L NM;B 2 2 0 0;DF;DS 2;C 1%s;DF;DS 3;%sDF;" % (" M X" * turns, "C 2;" * 1000)
    return inner + "C 3;" * (calls // 1000) + "E"


def deleted(standing, count):
    """Many definitions that stand, and others that are made and deleted again."""
    return "".join("DS %d;DF;" % k for k in range(standing)) + "DS 9999999;DF;DD 9999999;" * count + "E"


def cases():
    for size in [1, 16, 256]:
        yield "usual_%d" % size, usual(size * MEGA)
    yield "boxes_256", boxes(256 * MEGA)
    yield "comment_200", ["(", "x" * (200 * MEGA), ");E"]
    yield "comments_nested", ["(" * MILLION, ")" * MILLION, ";E"]
    yield "comments_open", ["(" * (16 * MEGA)]
    yield "commands_empty", [";" * (10 * MILLION), "E"]
    yield "commands_user", ["1;" * (10 * MILLION), "E"]
    yield "wire_long", ["L NM;W 2", steps(MILLION), ";E"]
    yield "polygon_long", ["P", steps(MILLION), ";E"]
    yield "calls_doubled", [doubled(40)]
    yield "calls_chained", [chained(MILLION)]
    yield "calls_turned", [turned(MILLION, MILLION)]
    for name, turn in [("mirrors", "MX"), ("moves", "T0 0"), ("rotations", "R1 0")]:
        yield "call_of_" + name, ["DS1;DF;C1", turn * (16 * MILLION), ";E"]
    yield "deletions", [deleted(MILLION, MILLION)]


def main():
    arguments = argparse.ArgumentParser()
    arguments.add_argument("folder")
    arguments.add_argument("--only", default="")
    given = arguments.parse_args()
    os.makedirs(given.folder, exist_ok=True)
    for name, texts in cases():
        if given.only in name:
            with open(os.path.join(given.folder, name + ".cif"), "w") as file:
                file.writelines(texts)


main()
