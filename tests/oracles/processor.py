#!/usr/bin/env python3
"""What crates/examples/data/processor.mp shows on a board with a memory, from its instructions alone.

    tests/oracles/processor.py > crates/examples/data/processor.transcript

The program is written here once more, by names, and each instruction as the steps that it takes, a clock each. In clock
0, before the reset, what is shown is what the zero state shows.
"""
NUMBERS = {"halt": 0, "load": 1, "add": 2, "sub": 3, "store": 4, "jump": 5, "jump-zero": 6, "call-at": 7, "return-to": 8,
           "show": 9}
PROGRAM = ["call-at 14", "load 24", "sub 25", "store 24", "jump-zero 12", "jump 0", "halt 0",
           "load 26", "add 24", "store 26", "show 0", "return-to 0", "5 1"]
WORD = 2 ** 17
CLOCKS = 220


def loader():
    """What the bus shows while the words of the program that aren't 0 are written into the memory."""
    words = [int(NUMBERS.get(word, word)) for line in PROGRAM for word in line.split()]
    filled = [(address, word) for address, word in enumerate(words) if word]
    following = [address for address, _ in filled[1:]] + [0]
    return [word * 512 + 256 + after for (_, word), after in zip(filled, following)]


class Memory:
    def __init__(self):
        self.words, self.address = [0] * 256, 0

    def shows(self):
        return self.words[self.address]

    def sees(self, bus):
        if bus & 256:
            self.words[self.address] = bus // 512
        self.address = bus % 256


class Processor:
    """The registers, and what is done in each clock: a step is given the memory's word, and gives the bus and the next step."""

    def __init__(self):
        self.pc = self.op = self.acc = self.link = self.out = 0

    def next(self, word):
        self.pc += 1
        return self.pc - 1, self.operand

    def operand(self, word):
        self.op, self.pc = word, self.pc + 1
        return self.pc - 1, self.do

    def do(self, word):
        if self.op in (1, 2, 3, 4):
            return word, {1: self.load, 2: self.add, 3: self.sub, 4: self.store}[self.op]
        if self.op == 5 or self.op == 6 and self.acc == 0:
            self.pc = word
        elif self.op == 7:
            self.link, self.pc = self.pc, word
        elif self.op == 8:
            self.pc = self.link
        elif self.op == 9:
            self.out = self.acc
        elif self.op == 0:
            return 0, self.halt
        return 0, self.next

    def load(self, word):
        self.acc = word
        return 0, self.next

    def add(self, word):
        self.acc = (self.acc + word) % 256
        return 0, self.next

    def sub(self, word):
        self.acc = (self.acc - word) % 256
        return 0, self.next

    def store(self, word):
        return (self.acc * 512 + 256) % WORD, self.next

    def halt(self, word):
        return 0, self.halt


def main():
    memory, processor = Memory(), Processor()
    begin = loader()
    print("0 bus=%d out=0 halted=0" % begin[0])
    step = processor.next
    for clock in range(1, CLOCKS):
        out, halted = processor.out, int(step == processor.halt)
        if clock <= len(begin):
            bus = begin[clock - 1]
        else:
            bus, step = step(memory.shows())
        print("%d bus=%d out=%d halted=%d" % (clock, bus, out, halted))
        memory.sees(bus)


main()
