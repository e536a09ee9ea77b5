#!/usr/bin/env python3
"""What boards print and leave, from the meaning of the loop and of the parts alone.

    tests/oracles/boards.py < crates/board_cases/data/boards.txt > crates/board_cases/stdout
    tests/oracles/boards.py told < ROWS

Each program of the table is written here once more, as a function from its state and inputs to its outputs and next
state. A row is FILE|CLOCKS|WORDS, where the words are links and then swaps. With `told` a row gives, of a `board` of
crates/examples with the parts of the program, the stimulus that its inputs are, the line, and what it prints; what a
stored program shows in clock 0, before its reset, is the circuit's own.
"""
import sys

M = 2 ** 64


def next_mp(state, given):
    return {'q': (given['a'] + 1) % 16}, None


def late_mp(state, given):
    return {'q': state}, 0 if given['reset'] else (given['a'] + 1) % 16


def pair_mp(state, given):
    return {'x': (given['a'] + given['b']) % 16, 'y': (given['b'] + 3) % 16, 'z': given['e'] ^ given['reset']}, None


def store_mp(state, given):
    place, n, twice = state
    bus = seen = 0
    if place == 'fill':
        if n == 3:
            after = ('read', 0, twice)
        else:
            bus = twice | 256 | (n + 1) % 4096
            after = ('fill', (n + 1) % 4096, (twice + 1024) % 4096)
    else:
        bus, seen = n, given['word']
        after = ('read', (n + 1) % 4096, twice)
    return {'bus': bus, 'seen': seen}, ('fill', 0, 0) if given['reset'] else after


# inputs and outputs with their widths, the first state, and a step; nothing is stored where the state is None
PROGRAMS = {
    'next.mp': ([('a', 4)], [('q', 4)], None, next_mp),
    'late.mp': ([('reset', 1), ('a', 4)], [('q', 4)], 0, late_mp),
    'pair.mp': ([('a', 4), ('b', 4), ('e', 1), ('reset', 1)], [('x', 4), ('y', 4), ('z', 1)], None, pair_mp),
    'store.mp': ([('reset', 1), ('word', 12)], [('bus', 12), ('seen', 12)], ('fill', 0, 0), store_mp),
}


class Number:
    def __init__(self, name, after):
        self.name, self.number, self.after = name, 0, after

    def drives(self):
        return self.number

    def clock(self, seen):
        self.number = self.after(self.number, seen) % M


class Memory:
    def __init__(self):
        self.name, self.address, self.words = 'memory', 0, [0] * 256

    def drives(self):
        return self.words[self.address]

    def clock(self, seen):
        if seen >> 8 & 1:
            self.words[self.address] = seen // 512
        self.address = seen % 256


class Watch:
    def __init__(self):
        self.name, self.moves, self.seen = 'watch', 0, 0

    def drives(self):
        return (1000 * self.moves + self.seen) % M

    def clock(self, seen):
        self.moves, self.seen = self.moves + 1, seen


def parts():
    return [Watch(), Number('echo', lambda n, s: s)]


def own_parts():
    return [Number('counter', lambda n, s: n + 1), Number('shifter', lambda n, s: 2 * n + s % 2),
            Number('echo', lambda n, s: s), Memory()]


def swap_of(word, clocks, names, links, swaps):
    """K, OLD and NEW of a swap word, or None where B3 is broken."""
    fields = word[1:].split(':')
    if len(fields) != 3 or not fields[0].isascii() or not fields[0].isdigit() or len(fields[0]) > 5:
        return None
    clock, old, new = int(fields[0]), fields[1], fields[2]
    linked = [link[0] for link in links]
    if clock >= clocks or any(clock < swap[0] for swap in swaps):
        return None
    if old not in linked or new not in names or new in linked or any(new == swap[2] for swap in swaps):
        return None
    return clock, old, new


def plan_of(words, clocks, inputs, outputs, names):
    """Links and swaps, or the first rule that is broken. Names are told apart: no two parts have one name."""
    links, swaps = [], []
    for word in words:
        if word.startswith('@'):
            swap = swap_of(word, clocks, names, links, swaps)
            if swap is None:
                return 'B3 ' + word
            swaps.append(swap)
            continue
        fields = word.split(':')
        if len(fields) != 3 or fields[0] not in names:
            return 'B1 ' + word
        part, seen, driven = fields
        if any(part == link[0] for link in links):
            return 'B1 ' + word
        if seen not in dict(outputs) or driven not in dict(inputs) or driven == 'reset':
            return 'B2 ' + word
        if any(driven == link[2] for link in links):
            return 'B2 ' + word
        if swaps:
            return 'B3 ' + word
        links.append((part, seen, driven))
    return links, swaps


def driver(driven, links):
    for part, seen, other in links:
        if other == driven:
            return part
    return None


def told(board):
    return '    ' + ' '.join(f'{part.name} {part.drives()}' for part in board)


def play(file, clocks, links, swaps, board):
    """What is given and shown in each clock. An entry of the board keeps its name when a swap replaces its part."""
    inputs, outputs, state, step = PROGRAMS[file]
    stores = state is not None
    entries = {part.name: part for part in board}
    lines = []
    for clock in range(clocks):
        for when, old, new in swaps:
            if when == clock:
                entries[old] = entries.pop(new)
        given = {}
        for name, width in inputs:
            part = driver(name, links)
            if part is not None:
                given[name] = entries[part].drives() % 2 ** width
            else:
                given[name] = 1 if name == 'reset' and clock == 0 else 0
        shown, state = step(state, given)
        lines.append((given, shown))
        if not stores or clock > 0 and any(name == 'reset' for name, width in inputs):
            for part, seen, driven in links:
                entries[part].clock(shown[seen])
    return lines


def row(line):
    file, clocks, words = line.split('|')
    inputs, outputs, state, step = PROGRAMS[file]
    board = parts()
    plan = plan_of(words.split(' '), int(clocks), inputs, outputs, [part.name for part in board])
    print(line)
    if isinstance(plan, str):
        print('    ' + plan)
        return
    for clock, (given, shown) in enumerate(play(file, int(clocks), *plan, board)):
        print('    ' + str(clock) + ''.join(f' {name}={shown[name]}' for name, width in outputs))
    print(told(board))


def pad(name, width):
    return name if width == 1 else f'{name} {width}'


def told_row(line):
    file, clocks, words = line.split('|')
    inputs, outputs, state, step = PROGRAMS[file]
    board = own_parts()
    plan = plan_of(words.split(' '), int(clocks), inputs, outputs, [part.name for part in board])
    command = f'board s c {clocks} {words}'
    if isinstance(plan, str):
        print(command)
        print('    Refused')
        print('    error ' + plan)
        return
    lines = play(file, int(clocks), *plan, board)
    stimulus = ['in ' + pad(*each) for each in inputs] + ['out ' + pad(*each) for each in outputs]
    stimulus += ['clock ' + ' '.join(f'{name}={given[name]}' for name, width in inputs) for given, shown in lines]
    print('lines t ' + ' / '.join(stimulus))
    print(command)
    print('    Done')
    for clock, (given, shown) in enumerate(lines):
        first = state is not None and clock == 0
        print('    ' + str(clock) + ''.join(f' {name}={"?" if first else shown[name]}' for name, width in outputs))
    print('    the size of c at the end of t')


for line in sys.stdin.read().splitlines():
    (told_row if sys.argv[1:] == ['told'] else row)(line)
