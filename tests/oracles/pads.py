#!/usr/bin/env python3
"""The source with the most pads that there may be, and a stimulus for it: 256 definitions, all of them ports of 64 bits.

    tests/oracles/pads.py source | cmp - crates/examples/data/many_pads.mp
    tests/oracles/pads.py stimulus | cmp - crates/examples/data/many_pads.stim

Supplies and phases have no name, so they don't count among the 256. Each port has 64 pins, and the chip a pad for each
of them and five more: 256 * 64 + 5 = 16,389. Its pads are 60 * 16,389 - 20 = 983,320 lambda high. The weight is 2 for
each of 255 inputs, 4 for the output and 4 for its one form, together 518.
"""
import sys

INPUTS, BITS = 255, 64


def source():
    pins = iter(range(6, 6 + (INPUTS + 1) * BITS))

    def port(name, way):
        return f"  (def {name} port {way} ({' '.join(str(next(pins)) for _ in range(BITS))}))"

    yield "; The most pads that there may be."
    yield "(program pads 64"
    yield "  (def 1 power) (def 2 ground) (def 3 phia) (def 4 phib) (def 5 phic)"
    yield from (port(f"a{number}", "input") for number in range(INPUTS))
    yield port("q", "output")
    yield "  (always (setq q a0)))"


def stimulus():
    yield from (f"in a{number} {BITS}" for number in range(INPUTS))
    yield f"out q {BITS}"
    yield f"clock a0={2 ** BITS - 1}"


print("\n".join({"source": source, "stimulus": stimulus}[sys.argv[1]]()))
