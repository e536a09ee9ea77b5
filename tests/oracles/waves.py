#!/usr/bin/env python3
"""The dump that `mp_waves` must print of a source along a stimulus:

    tests/oracles/waves.py crates/mp_waves/data/SRC crates/mp_waves/data/STIM | cmp - crates/mp_waves/stdout

It goes by docs/LANGUAGE.md, whose meaning programs.py has, and by docs/LOOKING.md."""
import sys

from programs import Program, forms


def clocks_of(stimulus):
    for line in stimulus.splitlines():
        words = line.split()
        if words[:1] == ["clock"]:
            yield {name: int(value) for name, value in (word.split("=") for word in words[1:])}


def waves(source, stimulus):
    whole, program = forms(source), Program(source)
    defs = [item for item in whole[3:] if item[0] == "def"]
    names = [item[1] for item in whole[3:] if item[0] == "process"]
    pads = {way: [(d[1], program.width if d[2] == "port" else 1) for d in defs if d[2] in ("port", "signal")
                  and d[3] == way] for way in ("input", "output")}
    stored = [(k, d[1], program.width if d[2] == "register" else 1) for k, d in enumerate(defs)
              if d[2] in ("register", "flag")]
    yield "$timescale 1 us $end\n$scope module %s $end\n$var wire 1 c clock $end\n" % whole[1]
    for way in ("input", "output"):
        yield from ("$var wire %d %s%d %s $end\n" % (w, way[0], k, n) for k, (n, w) in enumerate(pads[way]))
    yield from ("$var reg %d d%d %s $end\n" % (w, k, n) for k, n, w in stored)
    yield from ("$var integer 32 p%d %s $end\n" % (k, n) for k, n in enumerate(names))
    yield "$upscope $end\n$enddefinitions $end\n"
    count = 0
    for count, given in enumerate(clocks_of(stimulus), 1):
        yield "#%d\n1c\n" % (2 * count - 2)
        yield from ("b%s d%d\n" % (bin(program.stored[n])[2:], k) for k, n, _ in stored)
        yield from ("b%s p%d\n" % (bin(place)[2:], k) for k, (place, _) in enumerate(program.places))
        shown = dict(word.split("=") for word in program.clock(given).split())
        yield from ("b%s i%d\n" % (bin(given.get(n, 0))[2:], k) for k, (n, _) in enumerate(pads["input"]))
        yield from ("b%s o%d\n" % (bin(int(shown[n]))[2:], k) for k, (n, _) in enumerate(pads["output"]))
        yield "#%d\n0c\n" % (2 * count - 1)
    yield "#%d\n" % (2 * count)


if __name__ == "__main__":
    texts = [open(path, encoding="utf-8").read() for path in sys.argv[1:3]]
    sys.stdout.write("".join(waves(*texts)))
