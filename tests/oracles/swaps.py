#!/usr/bin/env python3
"""What boards leave of a list of parts of which some are exchanged, wherever a call fails.

    tests/oracles/swaps.py < crates/swap_cases/data/rows.txt > crates/swap_cases/stdout

The parts a, b, c and d drive 1, 2, 3 and 4, and then what they saw last; the program shows one more than what it is
given, modulo 16. Where the source can't be read, or the masks can't be stored, nothing has moved, and no part was let go. Where the
output fails behind so many whole lines, the swaps are made whose clock is no later; each lets one part go, and so does each
that isn't made, at the end. A refusal is told before any call of the output fails, or not at all.
"""
import sys

NAMES = 'abcd'


def left(lines, link, swaps):
    """The entries of the list behind so many clocks, with the swaps made by then."""
    entries = {name: number + 1 for number, name in enumerate(NAMES)}
    fresh = {new: entries.pop(new) for clock, old, new in swaps}
    for clock in range(lines + 1):
        for when, old, new in swaps:
            if when == clock:
                entries[old] = fresh[new]
        if clock < lines:
            entries[link] = (entries[link] + 1) % 16
    return entries


last = None


def outcome(status, lines, entries, dropped):
    """Tells an outcome, unless the last one was told alike."""
    global last
    told = ''.join(f' {name} {entries[name]}' for name in NAMES if name in entries)
    line = f'    {status} {lines} lines,{told}; dropped {dropped} of {len(NAMES)}'
    if line != last:
        print(line)
    last = line


for row in sys.stdin.read().splitlines():
    print(row)
    last = None
    words = row.split(' ')[3:]
    clocks, link = int(words[0]), words[1].split(':')[0]
    swaps = [(int(clock), old, new) for clock, old, new in (word[1:].split(':') for word in words[2:])]
    whole = {name: number + 1 for number, name in enumerate(NAMES)}
    if any(clock >= clocks for clock, old, new in swaps):
        outcome('ReadFault', 0, whole, 0)
        outcome('Refused', 1, whole, 0)
        outcome('WriteFault', 0, whole, 0)
        outcome('Refused', 1, whole, 0)
        continue
    done = ('Done', clocks + 1, left(clocks, link, swaps), len(swaps))
    outcome('ReadFault', 0, whole, 0)
    outcome('WriteFault', 0, whole, 0)
    for lines in range(clocks + 1):
        outcome('WriteFault', lines, left(min(lines, clocks), link, swaps), len(swaps))
    outcome(*done)
