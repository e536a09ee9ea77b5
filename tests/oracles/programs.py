#!/usr/bin/env python3
"""programs.py [COUNT]: random programs by the grammar in programs.txt, as rows of crates/examples.

What a program shows is worked out by the meaning in docs/LANGUAGE.md alone: `trace(source, clocks)` gives the lines of its
transcript. `--want` prints what the rows must print. What `replay` shows before the first reset is in no rule: there it
prints `?`.
"""
import os
import random
import re
import sys

M = 2 ** 64


class Dice:
    def __init__(self, seed):
        self.state = seed * 0x9E3779B97F4A7C15 % M

    def below(self, count):
        self.state = (self.state * 6364136223846793005 + 1442695040888963407) % M
        return (self.state >> 32) % count


def text(rules, letter, dice, depth):
    texts = [words for name, words in rules if name == letter]
    chosen = texts[dice.below(len(texts)) if depth and texts else 0] if texts else ""
    return "".join(text(rules, c, dice, depth - 1) if depth and c.isascii() and c.isupper() else c for c in chosen)


def forms(source):
    """The one form of a source: lists of words."""
    stack = [[]]
    for word in re.findall(r"[()]|[^()\s]+", re.sub(r";[^\n]*", "", source)):
        if word == "(":
            stack.append([])
        elif word == ")":
            last = stack.pop()
            stack[-1].append(last)
        else:
            stack[-1].append(word)
    return stack[0][0]


BITS = {
    "and": lambda xs: min(xs), "or": lambda xs: max(xs), "nor": lambda xs: 1 - max(xs), "nand": lambda xs: 1 - min(xs),
    "xor": lambda xs: xs[0] ^ xs[1], "not": lambda xs: 1 - xs[0], "=0": lambda xs: int(xs[0] == 0),
    "=": lambda xs: int(xs[0] == xs[1]), "<": lambda xs: int(xs[0] < xs[1]),
}
WORDS = {
    "+": lambda xs: xs[0] + xs[1], "-": lambda xs: xs[0] - xs[1], "1+": lambda xs: xs[0] + 1, "1-": lambda xs: xs[0] - 1,
    "word-and": lambda xs: xs[0] & xs[1], "word-or": lambda xs: xs[0] | xs[1], "word-xor": lambda xs: xs[0] ^ xs[1],
    "word-not": lambda xs: ~xs[0], "<<": lambda xs: xs[0] << 1, ">>": lambda xs: xs[0] >> 1,
}


class Operands:
    """The values of a function's arguments, each worked out when it is asked for."""
    def __init__(self, program, operands, seen):
        self.program, self.operands, self.seen, self.known = program, operands, seen, {}

    def __getitem__(self, name):
        if name not in self.known:
            self.known[name] = self.program.value(self.operands[name], self.seen)
        return self.known[name]


class Program:
    def __init__(self, source):
        whole = forms(source)
        self.width, self.kinds, self.constants, self.always, self.processes = int(whole[2]), {}, {}, [], []
        self.functions = {}
        for item in whole[3:]:
            if item[0] == "always":
                self.always += item[1:]
            elif item[0] == "process":
                labels, steps = {}, []
                for element in item[3:]:
                    if isinstance(element, str):
                        labels[element] = len(steps)
                    else:
                        steps.append(element)
                self.processes.append((int(item[2]), labels, steps))
            elif item[2] == "constant":
                self.constants[item[1]] = int(item[3])
            elif item[2] == "function":
                self.functions[item[1]] = item[3], item[4]
            elif not item[1].isdigit():
                self.kinds[item[1]] = (item[2], item[3] if len(item) > 3 else "stored")
        self.clear()

    def clear(self):
        self.stored = {name: 0 for name, kind in self.kinds.items() if kind[1] == "stored"}
        self.places = [[0, [0] * depth] for depth, _, _ in self.processes]

    def value(self, e, seen):
        if isinstance(e, str):
            if e in ("t", "f"):
                return int(e == "t")
            if e.isdigit():
                return int(e)
            return self.constants[e] if e in self.constants else seen[e]
        if e[0] == "bit":
            return self.value(e[2], seen) >> int(e[1]) & 1
        if e[0] in self.functions:
            names, body = self.functions[e[0]]
            return self.value(body, Operands(self, dict(zip(names, e[1:])), seen))
        xs = [self.value(x, seen) for x in e[1:]]
        return BITS[e[0]](xs) if e[0] in BITS else WORDS[e[0]](xs) % 2 ** self.width

    def active(self, form, seen):
        """The assignments and the transfers of an active form."""
        if form[0] == "par":
            for one in form[1:]:
                yield from self.active(one, seen)
        elif form[0] == "cond":
            for guard, *body in form[1:]:
                if self.value(guard, seen):
                    for one in body:
                        yield from self.active(one, seen)
                    return
        else:
            yield form

    def acts(self, seen):
        always = [act for form in self.always for act in self.active(form, seen)]
        steps = [list(self.active(steps[place[0]], seen)) for (_, _, steps), place in zip(self.processes, self.places)]
        return always, steps

    def clock(self, given):
        """What is shown in a clock. The environment is found by going over all forms until nothing changes."""
        driven = [n for n, kind in self.kinds.items() if kind[1] in ("output", "internal")]
        seen = {**self.stored, **{n: given.get(n, 0) for n, k in self.kinds.items() if k[1] == "input"}, **dict.fromkeys(driven, 0)}
        for _ in range(len(driven) + 2):
            always, steps = self.acts(seen)
            writes = {}
            for act in always + sum(steps, []):
                if act[0] == "setq":
                    writes[act[1]] = writes.get(act[1], 0) | self.value(act[2], seen)
            seen.update({n: writes.get(n, 0) for n in driven})
        after = {n: writes.get(n, value) for n, value in self.stored.items()}
        places = []
        for (depth, labels, forms_), (place, stack), acts in zip(self.processes, self.places, steps):
            forward = (place + 1) % len(forms_)
            moves = [act for act in acts if act[0] in ("go", "call", "return")]
            to = lambda name: labels[name] % len(forms_)
            if not moves:
                places.append([forward, stack])
            elif moves[0][0] == "go":
                places.append([to(moves[0][1]), stack])
            elif moves[0][0] == "call":
                places.append([to(moves[0][1]), ([forward] + stack)[:depth]])
            else:
                places.append([stack[0], stack[1:] + [0]])
        shown = " ".join("%s=%d" % (n, seen[n]) for n, kind in self.kinds.items() if kind[1] == "output")
        if given.get("reset"):
            self.clear()
        else:
            self.stored, self.places = after, places
        return shown


def trace(source, clocks):
    program = Program(source)
    return ["%d %s" % (k, program.clock(given)) for k, given in enumerate(clocks)]


def rows(source, clocks, want):
    program = Program(source)
    pads = ["%s %s%s" % (way[:-3], name, " %d" % program.width if sort == "port" else "")
            for name, (sort, way) in program.kinds.items() if way in ("input", "output")]
    pads = [pad.replace("inp ", "in ").replace("outp", "out") for pad in pads]
    lines = ["clock" + "".join(" %s=%d" % pair for pair in given.items()) for given in clocks]
    shown = trace(source, clocks)
    keeps = any(way == "stored" for _, way in program.kinds.values()) or program.processes
    first = ["0 ?"] if keeps else shown[:1]
    text = source.replace("\\", "\\5c").replace("\n", "\\n")
    print("file s " + text)
    print("lines t " + " / ".join(pads + lines))
    print("trace s t")
    if want:
        print("\n".join("    " + line for line in ["Done"] + shown))
    print("replay s t c")
    if want:
        print("\n".join("    " + line for line in ["c is new", "Done"] + first + shown[1:] + ["the size of c at the end of t"]))


def random_rows(seed, rules, want):
    source = text(rules, "P", Dice(seed), 6)
    if source.count("(") > 130:
        return
    width, dice = int(source.split()[2]), random.Random(seed)
    clocks = [{"reset": 1}]
    for _ in range(15):
        given = {"reset": int(dice.random() < 0.1), "a": dice.randrange(2), "b": dice.randrange(2)}
        clocks.append({**given, "m": dice.randrange(2 ** width)})
    rows(source, clocks, want)


def main():
    with open(os.path.join(os.path.dirname(os.path.abspath(__file__)), "programs.txt")) as file:
        rules = [(line[0], line[2:]) for line in file.read().splitlines() if line[1:2] == " "]
    words = [word for word in sys.argv[1:] if word != "--want"]
    for seed in range(int(words[0]) if words else 60):
        random_rows(seed, rules, "--want" in sys.argv)


if __name__ == "__main__":
    main()
