#!/usr/bin/env python3
"""What `make` makes of numbers and tells of them, by the rule of docs/MAKE.md and the meaning of the language alone.

    tests/oracles/makes.py N..            # the weight, the number of clocks and the sum of each number
    tests/oracles/makes.py --texts N..    # each number and the source and the stimulus that are made of it

`tests/oracles/makes.py --texts 0 1 18446744073709551615` are the texts of the rows in crates/examples/data/made.txt.
"""
import argparse

OPERATORS = ["+", "-", "word-and", "word-or", "word-xor"]
OPERANDS = ["a", "b"] + ["r%d" % i for i in range(12)]
WEIGHTS = {"+": 12, "-": 14, "word-and": 4, "word-or": 3, "word-xor": 6}


def draws(x):
    """Each value sent is the limit of a draw."""
    limit = yield
    while True:
        x = (6364136223846793005 * x + 1442695040888963407) % 2 ** 64
        limit = yield (x // 2 ** 33) % limit


def value(op, x, y):
    return {"+": x + y, "-": x - y, "word-and": x & y, "word-or": x | y, "word-xor": x ^ y}[op] % 2 ** 16


def made(seed):
    """The transfers of the registers, and what a and b are given in each clock behind the reset."""
    draw = draws(seed)
    next(draw)
    rows = []
    for _ in range(12):
        op = OPERATORS[draw.send(5)]
        x = OPERANDS[draw.send(14)]
        y = OPERANDS[draw.send(14)]
        rows.append((op, x, y))
    given = []
    for _ in range(64):
        a = draw.send(65536)
        b = draw.send(65536)
        given.append((a, b))
    return rows, given


def texts(seed):
    rows, given = made(seed)
    lines = ["(program made 16", "(def 1 power)(def 2 ground)(def 3 phia)(def 4 phib)(def 5 phic)",
             "(def reset signal input 6)"]
    for name, way, first in [("a", "input", 10), ("b", "input", 26), ("q", "output", 42)]:
        pins = " ".join(str(pin) for pin in range(first, first + 16))
        lines.append("(def %s port %s (%s))" % (name, way, pins))
    lines += ["(def r%d register)" % i for i in range(12)]
    lines += ["(always (setq r%d (%s %s %s)))" % (i, *row) for i, row in enumerate(rows)]
    lines += ["(always (setq q (word-xor r0 r11))))", "clock reset=1"]
    lines += ["clock a=%d b=%d" % words for words in given]
    return "\n".join(lines)


def told(seed):
    rows, given = made(seed)
    # Three inputs, an output set once, twelve registers each set once, and the operator of the output.
    weight = 3 * 2 + (4 + 4) + 12 * (10 + 4) + sum(WEIGHTS[op] for op, _, _ in rows) + WEIGHTS["word-xor"]
    registers, total = [0] * 12, 0
    for a, b in given:
        values = dict(zip(OPERANDS, [a, b] + registers))
        total += registers[0] ^ registers[11]
        registers = [value(op, values[x], values[y]) for op, x, y in rows]
    return weight, 65, total % 2 ** 64


parser = argparse.ArgumentParser(description="What is made of numbers.")
parser.add_argument("--texts", action="store_true")
parser.add_argument("numbers", nargs="+", type=int)
arguments = parser.parse_args()
for number in arguments.numbers:
    if arguments.texts:
        print("%d\n%s" % (number, texts(number)))
    else:
        print("weight %d\nclocks %d\nsum %d" % told(number))
