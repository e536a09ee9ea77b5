#!/usr/bin/env python3
"""networks.py [COUNT]: networks drawn as masks, and what they show along a stimulus, as rows of crates/examples.

The networks of HAND come first, then COUNT random ones. What a network settles to is what all its solutions agree on, found
by trying all values: a solution gives each driven node its driver, and each other node 0 or 1 exactly where the paths to it
say so. A clock is six settings, of which outputs are seen after the second. `--want` prints what the rows must print.
"""
import itertools
import random
import sys

NAMES = ["gnd", "vdd", "phia", "phib", "phic", "a", "b", "x", "y", "z"]
PHASES = [4, None, 2, None, 3, None]
CLOCKS = 6

# A channel is the letter of its kind, its gate and its ends. An inverter; a latch that `phia` opens, one behind it that
# `phib` opens; a pass gate; a loop that is set and reset; a switch that is half implanted; a weak path against a strong one.
HAND = [
    "E507 D717",
    "E257 D818 E708",
    "E257 E708 D818 E389 E900",
    "E357",
    "E507 E807 D717 E608 E708 D818",
    "P557 E607",
    "E507 D757 E618",
    "E558 E668 E889",
]


def leads(kind, gate, strong, definite):
    """Whether a channel is on a path of the sort: strong or of any strength, definite or possible."""
    if kind == "D":
        return not strong
    if kind == "P":
        return not definite
    return gate == "1" if definite else gate != "0"


def reached(channels, drive, values, strong, definite, start):
    """The nodes to which a path of the sort leads from a start; a driven node stops each path."""
    marks = {n for n in range(len(drive)) if start(n)}
    while True:
        more = {
            n
            for kind, gate, ends in channels
            if leads(kind, values[gate], strong, definite) and marks & set(ends)
            for n in ends
            if drive[n] == "-"
        }
        if more <= marks:
            return marks
        marks |= more


def gives(channels, drive, before, values, b):
    """The nodes that are given the value b."""
    agree = lambda n: drive[n] == b
    against = lambda n: drive[n] not in ("-", b)
    foreign = lambda n: drive[n] != "-" or before[n] != b
    paths = lambda strong, definite, start: reached(channels, drive, values, strong, definite, start)
    strongly = paths(True, True, agree) - paths(True, False, against)
    weakly = paths(False, True, agree) - paths(False, False, against)
    kept = set(range(len(drive))) - paths(False, False, foreign)
    return strongly | weakly | kept


def is_solution(channels, drive, before, values):
    zeros = gives(channels, drive, before, values, "0")
    ones = gives(channels, drive, before, values, "1")
    for n in range(len(drive)):
        if drive[n] != "-":
            if values[n] != drive[n]:
                return False
        elif (values[n] == "0") != (n in zeros) or (values[n] == "1") != (n in ones):
            return False
    return True


def settled(channels, drive, before):
    choices = [d if d != "-" else "01X" for d in drive]
    solutions = [v for v in itertools.product(*choices) if is_solution(channels, drive, before, v)]
    return "".join(column[0] if len(set(column)) == 1 else "X" for column in zip(*solutions))


def read(words):
    return [(word[0], int(word[1]), [int(n) for n in word[2:]]) for word in words.split()]


def transcript(channels, inputs):
    values, lines = "X" * len(NAMES), []
    for clock, (a, b) in enumerate(inputs):
        for setting, phase in enumerate(PHASES):
            drive = "01" + "".join("1" if phase == n else "0" for n in (2, 3, 4)) + a + b + "---"
            values = settled(channels, drive, values)
            if setting == 1:
                shown = " ".join("%s=%s" % (NAMES[n], values[n]) for n in (7, 8, 9))
        lines.append("%d %s" % (clock, shown))
    return lines


class Masks:
    def __init__(self):
        self.layer, self.words = None, []

    def box(self, layer, left, bottom, right, top):
        if layer != self.layer:
            self.words.append("L %s;" % layer)
            self.layer = layer
        self.words.append("B %d %d %d %d;" % (right - left, top - bottom, (left + right) // 2, (bottom + top) // 2))


def drawn(channels):
    """A row of metal for each node, and a column for each channel, above the rows: a bar of polysilicon over a block of
    diffusion, with an arm of diffusion down to the row of each end, and one of polysilicon to that of the gate."""
    masks, right, bar = Masks(), 40 * len(channels) + 10, 12 * len(NAMES) + 10
    for n in range(len(NAMES)):
        masks.box("NM", -4, 12 * n - 2, right, 12 * n + 2)
    for k, (kind, gate, ends) in enumerate(channels):
        x = 40 * k
        wide = max(8, 8 * len(ends))
        masks.box("NP", x, bar, x + 8 + wide, bar + 4)
        masks.box("NP", x, 12 * gate - 2, x + 4, bar)
        masks.box("NC", x + 1, 12 * gate - 1, x + 3, 12 * gate + 1)
        masks.box("ND", x + 6, bar, x + 6 + wide, bar + 4)
        for i, end in enumerate(ends):
            masks.box("ND", x + 6 + 8 * i, 12 * end - 2, x + 10 + 8 * i, bar)
            masks.box("NC", x + 7 + 8 * i, 12 * end - 1, x + 9 + 8 * i, 12 * end + 1)
        if kind != "E":
            masks.box("NI", x + 4, bar - 2, x + 6 + (wide + 2 if kind == "D" else wide // 2), bar + 6)
    labels = ["94 %s 0 %d NM;" % (name, 12 * n) for n, name in enumerate(NAMES)]
    return " ".join(masks.words + labels) + " E"


def some_channels(dice):
    nodes = len(NAMES)
    return [
        (dice.choice("DPEEE"), dice.randrange(nodes), [dice.randrange(nodes) for _ in range(dice.randrange(4))])
        for _ in range(dice.randrange(2, 8))
    ]


def forward_channels(dice):
    """Channels of two ends whose gates have lower numbers, and pull-ups."""
    pulls = [("D", n, [1, n]) for n in (7, 8, 9) if dice.random() < 0.5]
    switches = []
    for _ in range(dice.randrange(3, 8)):
        end = dice.randrange(7, 10)
        switches.append(("E", dice.randrange(2, end), [dice.choice([0, 0, 1, end - 1, dice.randrange(10)]), end]))
    return pulls + switches


def main():
    words = [word for word in sys.argv[1:] if word != "--want"]
    dice, count = random.Random(29), int(words[0]) if words else 60
    networks = [read(line) for line in HAND]
    networks += [forward_channels(dice) if dice.random() < 0.6 else some_channels(dice) for _ in range(count)]
    for channels in networks:
        inputs = [(dice.choice("01"), dice.choice("01")) for _ in range(CLOCKS)]
        print("file f " + drawn(channels))
        print("lines t in a / in b / out x / out y / out z / " + " / ".join("clock a=%s b=%s" % pair for pair in inputs))
        print("sim f t")
        if "--want" in sys.argv:
            print("\n".join(["    Done"] + ["    " + line for line in transcript(channels, inputs)]))


main()
