"""Chips as magic extracts them, as Verilog of switches for Icarus."""
import re

PHASES = ["phic", "phia", "phib"]


def channels(ext):
    """The kind, the gate and both ends of each transistor in the text of magic's file."""
    for line in ext.splitlines():
        if line.startswith("fet "):
            _, gate, first, second = re.findall('"([^"]*)"', line)
            yield line.split()[1], gate, first, second


def pads(stimulus, way):
    """The names and widths of the input or output pads of a header."""
    lines = (line.split() for line in stimulus.splitlines() if line.startswith(way + " "))
    return [(words[1], [".%d" % k for k in range(int(words[2]))] if words[2:] else [""]) for words in lines]


def clocks(stimulus, inputs):
    """The bits of the inputs in each clock."""
    for line in stimulus.splitlines():
        if line.startswith("clock"):
            given = dict(word.split("=") for word in line.split()[1:])
            yield "".join(str(int(given.get(name, 0)) >> k & 1) for name, bits in inputs for k in range(len(bits)))


def wire(node):
    return "\\%s " % node


def switches(found, driven):
    """Pull-ups, switches to ground, and a latch for each node that holds its charge, which Icarus' nets can't."""
    loads = {end for kind, _, *ends in found if kind == "depletion" for end in ends} - {"vdd"}
    for node in sorted({node for _, *nodes in found for node in nodes} - driven):
        yield "%s %s;" % ("wire" if node in loads else "reg", wire(node))
    yield from ("pullup (pull1) (%s);" % wire(node) for node in sorted(loads))
    for kind, gate, first, second in found:
        if kind == "enhancement" and "gnd" in (first, second):
            yield "nmos (%s, gnd, %s);" % (wire(second if first == "gnd" else first), wire(gate))
        elif kind == "enhancement":
            source, kept = (first, second) if first in loads | driven else (second, first)
            assert source in loads | driven and kept not in loads | driven, "a switch between two nodes of one kind"
            yield "always @(%s or %s) if (%s) %s = %s;" % tuple(map(wire, [gate, source, gate, kept, source]))


def along(inputs, outputs, given):
    """What gives the clocks and shows the outputs after the second setting of each."""
    shown = ", ".join("{%s}" % ", ".join(wire(name + bit) for bit in reversed(bits)) for name, bits in outputs)
    yield "reg [%d:0] given [0:%d];\ninteger k;\ninitial begin" % (len(given[0]) - 1, len(given) - 1)
    yield from ("given[%d] = %d'b%s;" % (k, len(bits), bits) for k, bits in enumerate(given))
    yield "%s = 0;" % " = 0; ".join(PHASES)
    yield "for (k = 0; k < %d; k = k + 1) begin" % len(given)
    yield "{%s} = given[k];" % ", ".join(wire(name + bit) for name, bits in inputs for bit in bits)
    yield "phic = 1; #1 phic = 0;"
    yield '#1 $display("%%0d%s", k, %s);' % ("".join(" %s=%%0d" % name for name, _ in outputs), shown)
    yield "phia = 1; #1 phia = 0; #1 phib = 1; #1 phib = 0; #1 ;\nend\nend\nendmodule"


def verilog(ext, stimulus):
    """A module that runs the chip along the stimulus and prints its transcript."""
    inputs, outputs = pads(stimulus, "in"), pads(stimulus, "out")
    given = [name + bit for name, bits in inputs for bit in bits]
    lines = ["module chip;", "supply1 vdd;", "supply0 gnd;", "reg %s;" % ", ".join(PHASES + [wire(pad) for pad in given])]
    lines += switches(list(channels(ext)), {"vdd", "gnd", *PHASES, *given})
    lines += along(inputs, outputs, list(clocks(stimulus, inputs)))
    return "\n".join(lines) + "\n"
