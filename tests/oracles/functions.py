#!/usr/bin/env python3
"""functions.py [--want]: sources with functions, as rows of crates/examples.

A rule that a source breaks, and its place, were found by hand from docs/LANGUAGE.md: the place is marked by a `^` in the text, which
is taken out. What a source shows that breaks none is worked out by programs.py, and its weight by hand, from the table there.
`--want` prints what the rows must print.
"""
import sys

import programs

SUPPLIES = "(def 1 power)(def 2 ground)(def 3 phia)(def 4 phib)(def 5 phic)"
PADS = SUPPLIES + "(def a port input (6 7 8 9))(def q port output (10 11 12 13))(def y signal output 14)"

# a rule, or None where no rule is broken, and what stands behind the name and the word length
REFUSED = [
    # shapes
    ("E10", "^(def h function () 1)"), ("E10", "^(def h function v v)"), ("E10", "^(def h function (v 1) v)"),
    ("E10", "^(def h function (v))"), ("E10", "^(def h function (v) v v)"), ("E10", "^(def 1 function (v) v)"),
    ("E10", "(def h function (v) ^(v))"), ("E10", "(def h function (v) ^())"), ("E10", "(def h function (v) ^((h) v))"),
    ("E10", "(def h function (v) ^(3 v))"), ("E10", "(def h function (v) ^(+ v))"), ("E10", "(def h function (v) (bit ^v v))"),
    ("E10", "(always (setq q ^(h)))"), ("E10", "(def h function (v) ^(+ v v v))"), ("E10", "^(def h function ((v)) v)"),
    # names
    ("E20", PADS + "(def h function (v) v)^(def h function (v) v)"), ("E20", PADS + "(def h function (v) v)^(def h register)"),
    ("E20", "^(def t function (v) v)"), ("E20", "^(def f function (v) v)"), ("E20", PADS + "(def h function (v) v)^(process h 0 (setq q 1))"),
    ("E21", "(def g function (v) (^g v))"), ("E21", "(def h function (v) (^g v))(def g function (v) v)"),
    ("E21", "(def h function (v) (+ v ^w))"), ("E21", "(def h function (v v) (+ v ^x9))"),
    ("E21", PADS + "(always (setq q (^h a)))"), ("E21", PADS + "(always (setq q (^a a)))"), ("E21", PADS + "(always (cond ((^go x))))"),
    ("E21", PADS + "(def h function (v) v)(def g function (w) (+ w ^v))"),
    ("E21", PADS + "(def h function (v) 1)(always (setq q (h ^w)))"),
    # sorts
    ("E22", PADS + "(def h function (v) v)(always (setq q ^h))"), ("E22", PADS + "(def h function (v) v)(always (setq ^h 1))"),
    ("E22", PADS + "(def h function (v) (= v 0))(always (setq q ^(h a)))"), ("E22", PADS + "(def h function (v) v)(always (setq y ^(h a)))"),
    ("E22", PADS + "(def h function (v) v)(always (setq q (h ^t)))"), ("E22", PADS + "(def h function (v) (not ^v))"),
    ("E22", PADS + "(def h function (v) v)(always (setq q (h a ^t)))"), ("E22", PADS + "(def h function (v) (+ v ^f))"),
    ("E22", PADS + "(def h function (v) t)(def g function (v) (+ ^(h v) v))"),
    ("E22", PADS + "(def h function (v) (= v 0))(always (cond ((h a) (setq q 1)) (^(+ a a))))"),
    # numbers, as they are written
    ("E23", PADS + "(def h function (v) (+ v ^16))"), ("E23", PADS + "(def h function (v) 1)(always (setq q (h ^16)))"),
    ("E24", PADS + "(def h function (v) ^(bit 4 v))"), ("E27", PADS + "(def h function (v) v)(always (setq ^a 1))"),
    # chains
    ("E33", PADS + "(def h function (v) v)(always ^(setq q (h q)))"), ("E33", PADS + "(def h function (v w) v)(always ^(setq q (h a q)))"),
    ("E33", PADS + "(def h function (v) q)(always ^(setq q (h q)))"),
    # presence
    ("E35", "^(program x 4 (def h function (v) v))"),
    # uses and arguments
    ("E37", PADS + "(def h function (v) v)(always (setq q ^(h a a)))"), ("E37", PADS + "(def h function (v w) v)(always (setq q ^(h a)))"),
    ("E37", PADS + "(def h function (v) v)(def g function (v) ^(h v v))"),
    ("E37", PADS + "(def h function (v v) v)(always (setq q ^(h a)))"),
    ("E38", PADS + "^(def nor function (v) v)"), ("E38", PADS + "^(def bit function (v) v)"), ("E38", PADS + "^(def << function (v) v)"),
    ("E38", PADS + "(def h function (v ^v) v)"), ("E38", PADS + "(def h function (^t) 1)"), ("E38", PADS + "(def h function (^f) 1)"),
    ("E38", PADS + "(def h function (^a) 1)"), ("E38", PADS + "(def h function (^later) 1)(def later constant 1)"),
    ("E38", PADS + "(def h function (^g) 1)(def g function (v) v)"), ("E38", PADS + "(def h function (v w ^v) v)"),
    ("E39", PADS + "(def h function (v) ^a)"), ("E39", PADS + "(def h function (v) (+ v ^q))"),
    ("E39", PADS + "(def reset signal input 15)(def r register)(def h function (v) (+ v ^r))"),
    ("E39", PADS + "(def h function (v) ^q)(always (setq q (h a)))"),
]

# functions of which each uses the one before it twice, and one that counts up by 14
DOUBLED = "(def f0 function (v) (+ v v))" + "".join("(def f%d function (v) (f%d (f%d v)))" % (k, k - 1, k - 1) for k in range(1, 60))
UP = "(def up function (v) " + "(1+ " * 14 + "v" + ")" * 15
NINE = "(up " * 9 + "a" + ")" * 9

REFUSED += [
    ("E44", "^(program x 4 " + PADS + DOUBLED + "(always (setq q (f59 a))))"),
    ("E44", "^(program x 4 " + PADS + DOUBLED + "(always (cond ((= (f59 a) 0) (setq q a)))))"),
    ("E44", "^(program x 4 " + PADS + UP + "(always (setq q (>> (>> " + NINE + ")))))"),
    ("E22", PADS + DOUBLED + "(always (setq y ^(f59 a)))"),
    ("E37", PADS + DOUBLED + "(always (setq q (f59 ^(f58 a a))))"),
]

# what shows something; the last is the weight
SHOWN = [
    ("(def dbl function (v) (+ v v))(always (setq q (dbl (1+ a))))", [6, 15], 41),
    ("(def one function (v) v)(always (setq q (one (one (one a)))))", [9], 13),
    ("(def k function (v) 5)(always (setq q (k (+ a (+ a (+ a (+ a a)))))))", [3], 14),
    ("(def swap function (v w) (- w v))(def twice function (v w) (swap (swap v w) w))(always (setq q (twice a 3)))", [2, 9], 43),
    ("(def low function (v) (< v limit))(def limit constant 7)(always (setq y (low a)) (cond ((low (1+ a)) (setq q a))))", [6, 5, 7], 51),
    (DOUBLED + "(always (setq q a))", [9], 13),
    (DOUBLED + "(def k function (v) 5)(always (setq q (k (f59 (f58 a)))))", [9], 14),
    (UP + "(always (setq q (>> " + NINE + ")))", [5, 15], 1024),
    ("(always (setq q (later a)))(def later function (v) (word-xor v 15))", [6], 20),
]


def place(text):
    at = text.index("^")
    return at, text[:at] + text[at + 1:]


def refused(rule, text, want):
    at, source = place(text if text.startswith("^(program") else "(program x 4 " + text + ")")
    print("file s " + source)
    print("trace s t")
    if want:
        print("    Refused\n    error %s at %d line 1 column %d" % (rule, at, at + 1))


def shown(text, values, weight, want):
    source = "(program x 4 " + PADS + text + ")"
    clocks = [{"a": value} for value in values]
    lines = programs.trace(source, clocks)
    print("file s " + source)
    print("lines t in a 4 / out q 4 / out y / " + " / ".join("clock a=%d" % value for value in values))
    print("trace s t")
    if want:
        print("\n".join("    " + line for line in ["Done"] + lines))
    print("replay s t c")
    if want:
        print("\n".join("    " + line for line in ["c is new", "Done"] + lines + ["the size of c at the end of t"]))
    print("stats s")
    if want:
        print("    Done\n    weight %d\n    the size of c in 5 bands" % weight)


def main():
    want = "--want" in sys.argv
    print("lines t clock")
    for rule, text in REFUSED:
        refused(rule, text, want)
    for text, values, weight in SHOWN:
        shown(text, values, weight, want)


if __name__ == "__main__":
    main()
