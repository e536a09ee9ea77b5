"""CIF files to measure `net`, `rules` and `sim` with."""
import math
import random

PHASES = "L NM;B 2 2 -21 1;B 2 2 -25 1;B 2 2 -29 1;94 phia -21 1;94 phib -25 1;94 phic -29 1;"


def box(left, bottom, right, top):
    """The rectangle with these edges, which are even."""
    return "B %d %d %d %d;" % (right - left, top - bottom, (left + right) // 2, (bottom + top) // 2)


def gates_and_contacts(count):
    """An array of gates with a contact above each, which keeps to the lambda rules: five rectangles each."""
    side = int((count // 5) ** 0.5)
    spots = [(2250 * i, 3250 * j) for j in range(side) for i in range(side)]
    boxes = [("ND", 500, 1500, 0), ("NP", 1500, 500, 0),
             ("NM", 1000, 1000, 1750), ("NP", 1000, 1000, 1750), ("NC", 500, 500, 1750)]
    return "".join("L %s;" % layer + "".join("B %d %d %d %d;" % (length, width, x, y + up) for x, y in spots)
                   for layer, length, width, up in boxes) + "E\n"


# ---- for the extractor

def transistors(count):
    """An array of crosses of diffusion and polysilicon, so many rectangles."""
    side = int((count // 2) ** 0.5)
    spots = [(8 * i, 8 * j) for j in range(side) for i in range(side)]
    return "L ND;%sL NP;%sE\n" % ("".join("B 2 6 %d %d;" % spot for spot in spots),
                                  "".join("B 6 2 %d %d;" % spot for spot in spots))


def overlaps(count):
    """Rectangles of one layer at random: some islands, many of them joined."""
    draw = random.Random(1)
    side = int((100 * count) ** 0.5)
    return "L NM;%sE\n" % "".join(
        "B %d %d %d %d;" % (2 * draw.randrange(1, 8), 2 * draw.randrange(1, 8), draw.randrange(side), draw.randrange(side))
        for _ in range(count))


def called(count):
    """The array of transistors by calls of calls: each definition calls the one before it ten times."""
    text, depth, step = "DS 1;L ND;B 2 6 0 0;L NP;B 6 2 0 0;DF;", 1, 8
    width = [8, 8]
    held = 2
    while held * 10 <= count:
        along = depth % 2
        text += "DS %d;%sDF;" % (depth + 1, "".join(
            "C %d T %d %d;" % ((depth, k * width[0], 0) if along else (depth, 0, k * width[1])) for k in range(10)))
        width[0 if along else 1] *= 10
        depth, held = depth + 1, held * 10
    times = count // held
    return text + "".join("C %d T %d %d;" % (depth, 0, k * width[1] * 10) for k in range(times)) + "E\n"


def combs(count):
    """A comb of metal against a comb of polysilicon: teeth of two layers, half of them upright, half level."""
    teeth = count // 2
    return "L NP;%sL NM;%sE\n" % ("".join("B 2 %d %d 0;" % (4 * teeth, 4 * k) for k in range(teeth)),
                                  "".join("B %d 2 %d %d;" % (2, 4 * (k % teeth) + 2, 4 * k) for k in range(teeth)))


def comb(count):
    """A comb whose teeth end at heights of their own: one polygon, which is cut into so many rectangles."""
    teeth, points = math.isqrt(count), []
    for k in range(teeth):
        points += [(4 * k, -2 * (k or teeth)), (4 * k, 2 * k + 2), (4 * k + 2, 2 * k + 2), (4 * k + 2, -2 * k - 2)]
    return "L NM;P %s;E\n" % " ".join("%d %d" % point for point in points)


def comb_of_boxes(count):
    """The same comb, as the boxes that it is cut into."""
    teeth = math.isqrt(count)
    boxes = [box(4 * k, -2, 4 * k + 2, 2) for k in range(teeth)]
    for j in range(1, teeth):
        boxes += [box(4 * k, 2 * j, 4 * k + 2, 2 * j + 2) for k in range(j, teeth)]
        boxes.append(box(0, -2 * j - 2, 4 * j + 2, -2 * j))
        boxes += [box(4 * k, -2 * j - 2, 4 * k + 2, -2 * j) for k in range(j + 1, teeth)]
    return "L NM;%sE\n" % "".join(boxes)


def named(count):
    """A box with a label, so many times inside symbols that are nested 60 deep and have names of 1,000 bytes."""
    text = "DS 1;9 %s;L NM;B 2 2 0 0;94 x 0 0;DF;DS 2;9 %s;%sDF;" % ("l" * 1000, "m" * 1000, "C 1;" * count)
    for k in range(3, 61):
        text += "DS %d;9 %s;C %d;DF;" % (k, "%02d" % k + "n" * 998, k - 1)
    return text + "C 60;E\n"


def contacts(count):
    """An array of contacts of metal with diffusion, three rectangles each."""
    side = int((count // 3) ** 0.5)
    spots = [(8 * i, 8 * j) for j in range(side) for i in range(side)]
    return "L ND;%sL NM;%sL NC;%sE\n" % tuple(
        "".join("B %d %d %d %d;" % (size + spot) for spot in spots) for size in [(6, 4), (4, 6), (2, 2)])


def crossings(bars):
    """Bars of polysilicon across as many of diffusion: a transistor at each crossing."""
    length = 8 * bars + 16
    middle = length // 2 - 8
    return "L ND;%sL NP;%sE\n" % ("".join("B 2 %d %d %d;" % (length, 8 * k, middle) for k in range(bars)),
                                  "".join("B %d 2 %d %d;" % (length, middle, 8 * k) for k in range(bars)))


def spanned(count):
    """A tall rectangle beside a column of small ones, and a wide one below a row of small ones."""
    half = count // 2
    return "L NM;B 2 %d -4 %d;B %d 2 %d -4;%s%sE\n" % (
        8 * half, 4 * half, 8 * half, 4 * half,
        "".join("B 2 2 0 %d;" % (8 * k) for k in range(half)), "".join("B 2 2 %d 0;" % (8 * k + 8) for k in range(half)))


def fence(count):
    """Tall rectangles side by side, and beside them a column of small ones: each small one begins a new row."""
    half = count // 2
    return "L NM;%s%sE\n" % ("".join("B 2 %d %d %d;" % (8 * half, 4 * k, 4 * half) for k in range(half)),
                             "".join("B 2 2 -8 %d;" % (8 * k) for k in range(half)))


def copies(count):
    """One rectangle again and again."""
    return "L NM;%sE\n" % ("B 1000 1000 0 0;" * count)


def stairs(count):
    """Rectangles of which each begins where the one before is still open: no two have an edge in common."""
    return "L NM;%sE\n" % "".join("B %d %d %d %d;" % (2 * count, 2 * count, 4 * k, 4 * k) for k in range(count))


def upright(layer, count, pitch=8, shift=0):
    """Wires of a layer side by side, as tall as they are many."""
    return "L %s;%s" % (layer, "".join("B 2 %d %d %d;" % (pitch * count, pitch * k + shift, pitch * count // 2) for k in range(count)))


def level(layer, count, pitch=8, height=2):
    """Bars of a layer one above the other, as wide as they are many."""
    return "L %s;%s" % (layer, "".join("B %d %d %d %d;" % (pitch * count, height, pitch * count // 2, pitch * k) for k in range(count)))


def plane(layer, count, pitch=8):
    return "L %s;B %d %d %d %d;" % (layer, pitch * count + 16, pitch * count + 16, pitch * count // 2, pitch * count // 2)


def implanted(count):
    """Wires of diffusion under bars of implant, which change nothing."""
    return upright("ND", count // 2) + level("NI", count // 2) + "E\n"


def implanted_beside(count):
    """The same with wires of polysilicon between those of diffusion."""
    third = count // 3
    return upright("ND", third) + upright("NP", third, shift=4) + level("NI", third) + "E\n"


def cuts_on_metal(count):
    """Bars of contact over wires of metal, with nothing below that they could join."""
    return upright("NM", count // 2) + level("NC", count // 2) + "E\n"


def cuts_and_metal(count):
    """Bars of contact and of metal in turn, each on the one before, over wires of polysilicon: nowhere are there all three."""
    third = count // 3
    return upright("NP", third) + "L NC;%sL NM;%sE\n" % tuple(
        "".join("B %d 4 %d %d;" % (8 * third, 4 * third, 8 * k + shift) for k in range(third)) for shift in (0, 4))


def buried(count):
    """Wires of diffusion in a plane of buried contact, under bars of implant."""
    half = count // 2
    return upright("ND", half) + plane("NB", half) + level("NI", half) + "E\n"


def under_polysilicon(count):
    """A plane of polysilicon and one of buried contact over wires of diffusion and bars of implant."""
    return buried(count)[:-2] + plane("NP", count // 2) + "E\n"


def gate_column(x, top):
    """A NOR gate of a Weinberger array at a column, in lambda: its output, its ground and its pull-up, by layers."""
    return {"ND": [(x + 2, 0, x + 6, top + 6), (x + 14, 0, x + 18, top), (x + 3, top + 6, x + 5, top + 27), (x + 2, top + 27, x + 6, top + 31)],
            "NP": [(x + 8, top + 2, x + 12, top + 8), (x + 1, top + 8, x + 12, top + 24)],
            "NI": [(x + 1, top + 6, x + 7, top + 26)], "NM": [(x + 2, top + 2, x + 12, top + 6)],
            "NC": [(x + 3, top + 3, x + 5, top + 5), (x + 9, top + 3, x + 11, top + 5), (x + 3, top + 28, x + 5, top + 30), (x + 15, 7, x + 17, 9)]}


def gate_input(x, y):
    """A switch between output and ground, under a track."""
    return {"ND": [(x + 6, y - 4, x + 14, y - 2)], "NP": [(x + 9, y - 6, x + 11, y), (x + 8, y, x + 12, y + 4)], "NC": [(x + 9, y + 1, x + 11, y + 3)]}


def band(draw, columns, tracks):
    """A row of gates, each of which drives some of the next 16 along a track."""
    top, free = 12 + 12 * tracks, [0] * tracks
    parts = [{"NM": [(0, 6, 20 * columns, 10), (0, top + 27, 20 * columns, top + 31)]}]
    for k in range(columns):
        track = draw.choice([t for t in range(tracks) if free[t] <= k])
        readers = sorted(draw.sample(range(k + 1, k + 17), draw.randrange(1, 4)))
        readers = [j for j in readers if j < columns]
        free[track] = (readers or [k])[-1] + 1
        x, y = 20 * k, 18 + 12 * track
        parts += [gate_column(x, top), {"NM": [(x, y, 20 * free[track], y + 4)], "NC": [(x + 3, y + 1, x + 5, y + 3)]}]
        parts += [gate_input(20 * j, y) for j in readers]
    return {layer: [r for part in parts for r in part.get(layer, [])] for layer in ["NI", "ND", "NP", "NM", "NC"]}, top + 44


def bands(count, defined):
    """Rows of 125 gates above one another, about so many rectangles: as a compiled chip, but at random. With a definition for each row, or flat."""
    draw, text, up = random.Random(4), [], 0
    for number in range(1, count // 2670 + 1):
        layers, height = band(draw, 125, 24)
        shift = 0 if defined else up
        boxes = "".join("L %s;\n%s" % (layer, "".join("B %d %d %d %d;\n" % (250 * (r - l), 250 * (t - b), 125 * (l + r), 125 * (b + t + 2 * shift))
                                                     for l, b, r, t in layers[layer])) for layer in layers)
        text.append("DS %d 1 1;\n%sDF;\nC %d T 0 %d;\n" % (number, boxes, number, 250 * up) if defined else boxes)
        up += height
    return "".join(text) + "E\n"


# ---- for the simulator

def inverters(count):
    """A chain of inverters between two rails of diffusion."""
    text = ["L ND;", box(-2, 0, 12 * count, 2), box(-2, 28, 12 * count, 30)]
    text += [box(12 * k, 0, 12 * k + 2, 30) for k in range(count)]
    text.append("L NP;")
    for k in range(count):
        x = 12 * k
        text += [box(x - 2, 6, x + 4, 8), box(x - 2, 14, x + 4, 24), box(x + 4, 14, x + 8, 16), box(x + 6, 8, x + 8, 14), box(x + 6, 6, x + 10, 8)]
    text.append("L NB;")
    text += [box(12 * k, 14, 12 * k + 2, 16) for k in range(count)]
    text.append("L NI;")
    text += [box(12 * k - 2, 16, 12 * k + 4, 24) for k in range(count)]
    labels = "94 gnd -2 0 ND;94 vdd -2 28 ND;94 a -2 6 NP;94 y %d 10 ND;" % (12 * count - 12)
    return "%s%s%sE\n" % (PHASES, labels, "".join(text))


def lattice(side, columns, teeth_alone):
    """Lines of diffusion, with a pass transistor on each edge of the lattice; or the first upright line alone, with teeth."""
    uprights = 1 if teeth_alone else columns
    text = ["L ND;"] + [box(0, 8 * j, 8 * columns + 2, 8 * j + 2) for j in range(side)]
    text += [box(8 * i, 0, 8 * i + 2, 8 * side - 6) for i in range(uprights)]
    text.append("L NP;" + box(-4, -4, -2, 8 * side))
    text += [box(8 * i + 4, -4, 8 * i + 6, 8 * side) for i in range(columns)]
    text += [box(-2, 8 * j + 4, 8 * (uprights - 1) + 4, 8 * j + 6) for j in range(side - 1)]
    text.append(box(-4, -4, 8 * columns + 2, -2))
    labels = "94 g -4 -4 NP;94 d 0 0 ND;94 q %d %d ND;B 2 2 -21 9;B 2 2 -25 9;94 gnd -21 9;94 vdd -25 9;" % (8 * columns, 8 * side - 8)
    return "%s%s%sE\n" % (PHASES, labels, "".join(text))


def grid(channels):
    """A square grid of pass transistors, with one input for all gates and one for a corner."""
    side = int((channels // 2) ** 0.5)
    return lattice(side, side, False)


def tree(channels):
    """A stem of pass transistors with branches of pass transistors."""
    side = int(channels ** 0.5)
    return lattice(side, side, True)
