#!/usr/bin/env python3
"""The reports of the linter's cases: crates/lint_cases/stdout.

    tests/oracles/lints.py > crates/lint_cases/stdout

What each file has wrong is written down here by hand: the rule, the place by the text that stands there, and the words
of docs/LINT.md. Places, lines and marks are counted from the files. Nothing of the linter is used.
"""
import os

DATA = os.path.join(os.path.dirname(os.path.abspath(__file__)), "../../crates/lint_cases/data")
TOKENS = b"ABCDEFGHIJKLMNOPQRSTUVWXYZabcdefghijklmnopqrstuvwxyz0123456789-_+*/<=>"

MEANS = {
    "E1": "a character that stands for nothing",
    "E2": "a list is still open at the end of the file",
    "E3": "a `)` closes nothing",
    "E4": "a number is over 18446744073709551615",
    "E5": "a list stands inside 64 others",
    "E10": "this isn't what has to stand here",
    "E11": "the word length isn't 1 to 64",
    "E20": "a name or a supply is defined twice, or a reserved name is defined",
    "E21": "a name isn't defined",
    "E22": "a bit and a word are mixed up",
    "E23": "a number doesn't fit the word length",
    "E24": "`bit` asks for a bit that words don't have",
    "E25": "a pin is given twice",
    "E26": "a port has not one pin for each bit of a word",
    "E27": "an input or a constant can't be set",
    "E28": "a label isn't in this process",
    "E29": "a label stands twice in a process",
    "E30": "only a process can `go`, `call` or `return`",
    "E31": "a process of depth 0 can't `call` or `return`",
    "E32": "two jumps stand side by side",
    "E33": "a port or signal reads itself",
    "E34": "the program keeps state and has no `reset`",
    "E35": "a supply or a phase isn't defined",
    "E36": "a process has no form",
    "E37": "a use has not one operand for each argument of its function",
    "E38": "a function or an argument has a name that means something else",
    "E39": "a body names more than arguments, constants and functions",
    "E43": "a stack is deeper than 8",
    "E44": "the program weighs over 1024",
    "S1": "a line is in none of the forms of a stimulus",
    "S2": "the program has no such pad",
    "S3": "a value doesn't fit its pad",
}
DECIMAL = "a word of w bits holds numbers below 2^w, written in decimal"
HELPS = {
    "E1": "names and numbers are made of letters, digits and - _ + * / < = >",
    "E2": "each list ends with a `)` of its own",
    "E3": "take it away, or look for a `)` too many before it",
    "E4": DECIMAL,
    "E20": "t, f, vdd, gnd, phia, phib and phic are reserved; any other name is defined once",
    "E21": "define it, as in `(def NAME register)`, `(def NAME flag)` or `(def NAME signal internal)`",
    "E23": DECIMAL,
    "E24": "the bits of a word are counted from 0, the lowest",
    "E26": "the first pin of a port is its bit 0",
    "E27": "what is set is a register, a flag, or an output or internal port or signal",
    "E30": "an `always` has no place to go to: write a `process`",
    "E31": "the number behind the name of a process is the depth of its stack: 1 to 8",
    "E32": "put them into different branches of one `cond`",
    "E33": "only registers and flags hold values from clock to clock",
    "E34": "add `(def reset signal input PIN)`, and set it in the first clock",
    "E36": "a process needs a form beside its labels",
    "E39": "give the function an argument for it, and the use an operand",
    "S1": "write `in NAME`, `in NAME WIDTH`, `out NAME`, `out NAME WIDTH` or `clock NAME=N ..`",
}
BIT = "a bit of a word is `(bit NUMBER WORD)`; whether it is 0 is `(=0 WORD)`"
WORD = "no operator makes a word of a bit: use `(cond (BIT (setq NAME 1)))`"
ENDED = "this one closed the first list of the file"
CONSTANT = "this definition has to be `(def NAME constant NUMBER)`"
NUMBER = " is no number: numbers are decimal, digits alone"
NO_FUNCTION = " names no function that may be used here"
DEFINE = "define it, as in `(def NAME function (NAME ..) EXPRESSION)`"
SORTS = "words: numbers, constants, registers, ports; bits: flags, signals, `t`, `f`, comparisons"
SUPPLIES = "(def 1 power)"


def place(text, spot):
    """The offset of the text that stands at a place: its first occurrence behind another text, if that is given."""
    behind, needle = spot if isinstance(spot, tuple) else ("", spot)
    start = text.index(behind.encode()) + len(behind)
    return text.index(needle.encode(), start)


def excerpt(text, offset, mark, words):
    start = text.rfind(b"\n", 0, offset) + 1
    line = text[start:].split(b"\n")[0]
    width = 0
    while offset + width < len(text) and text[offset + width] in TOKENS:
        width += 1
    number = text.count(b"\n", 0, offset) + 1
    below = " " * (offset - start) + mark * max(width, 1) + (" " + words if words else "")
    return f"{number:5} | {line.decode()}\n      | {below}\n"


class Finding:
    def __init__(self, rule, spot, words="", second=None, help=None):
        self.rule, self.spot, self.words, self.second = rule, spot, words, second
        self.help = HELPS.get(rule, "") if help is None else help

    def body(self, name, text):
        at = place(text, self.spot)
        line, column = text.count(b"\n", 0, at) + 1, at - text.rfind(b"\n", 0, at)
        told = f"   --> {name}:{line}:{column}\n" + excerpt(text, at, "^", self.words)
        if self.second:
            told += excerpt(text, place(text, self.second[0]), "-", self.second[1])
        return told + (f"      = help: {self.help}\n" if self.help else "")

    def first(self, name, text):
        at = place(text, self.spot)
        line, column = text.count(b"\n", 0, at) + 1, at - text.rfind(b"\n", 0, at)
        return f"error {self.rule} at {at} line {line} column {column}\n{MEANS[self.rule]}\n" + self.body(name, text)

    def more(self, name, text):
        title = f"also {self.rule}: {MEANS[self.rule]}" if self.rule in MEANS else f"warning: {self.rule}"
        return f"\n{title}\n" + self.body(name, text)


UNREAD, UNSET = "nothing reads this", "nothing sets this: it is always 0"
F = Finding
ROWS = [
    ("missing_bracket.mp", True, [
        F("E2", "(program", "this is open at the end; open lists in it: 0",
          ("(always", "a `)` seems to be missing here: what follows isn't further to the right"))]),
    ("extra_bracket.mp", True, [
        F("E3", ("(1+ n)))", ")"), "no list is open here", (("(def n register)", ")"), ENDED))]),
    ("operators.mp", True, [
        F("E10", "(def k", CONSTANT, help="`0x03`" + NUMBER),
        F("E10", "(def m", CONSTANT, help="`-1`" + NUMBER),
        F("E10", "(def l", CONSTANT, help="a constant is a number: write the value of the list"),
        F("E10", "(SETQ", "a form has to stand here, and none begins with `SETQ`", help="did you mean `setq`?"),
        F("E10", "(>>", "`>>` takes one operand; items behind it here: 2",
          help="a word is moved by one place: nest it to move it further"),
        F("E10", "(+ x x x", "`+` takes two operands; items behind it here: 3", help="nest it, as in `(+ (+ a b) c)`"),
        F("E10", "(if", "a form has to stand here, and none begins with `if`",
          help="write `(cond (GUARD FORM ..) (t FORM ..))`")]),
    ("names.mp", True, [
        F("E20", "(def 3 power", "power is defined a second time", (SUPPLIES, "the first one")),
        F("E25", ("phic)\n  (def ", "3 power"), "pin 3 is taken", ("3 phia", "by this")),
        F("E20", "(def t ", "`t` is reserved"),
        F("E26", "6 7 8 9", "`x`, an input port, needs pins: 8; there are: 7"),
        F("E20", "(def x signal", "`x` has a definition before this", ("(def x port", "the first one")),
        F("E34", "(def count", "this keeps something from clock to clock"),
        F("E25", ("19 20 ", "14"), "pin 14 is taken", ("14 15", "by this")),
        F("E23", "(def big", "300 is over 255, the greatest word of 8 bits"),
        F("E21", "coumt", "`coumt` isn't defined", ("(def count", "this has a name like it"), "did you mean `count`?"),
        F("E21", "0x10", "`0x10` isn't defined", help="numbers are decimal and without a sign: digits alone"),
        F("E27", ("(setq ", "x count"), "`x` is an input port", ("(def x port", "defined here")),
        F("E22", ("(setq b ", "count)"), "this is a word, and a bit is wanted as the value of `b`",
          ("(def count", "a register"), BIT),
        F("E22", ("(and ", "count"), "this is a word, and a bit is wanted as an operand of `and`",
          ("(def count", "a register"), BIT),
        F("E22", "(bit 8", "this is a bit, and a word is wanted as the value of `y`", help=WORD),
        F("E24", "(bit 8", "this asks for bit 8, and the highest is bit 7"),
        F("E22", ("(+ ", "b 1"), "this is a bit, and a word is wanted as an operand of `+`",
          ("(def b ", "an output signal"), WORD),
        F("E22", ("(cond (", "x "), "this is a word, and a bit is wanted as a guard of `cond`",
          ("(def x port", "an input port"), BIT),
        F("E21", "zz", "`zz` isn't defined")]),
    ("chain.mp", True, [F("E33", "(setq p", "`p` reads `q` reads `r` reads `p`")]),
    ("jumps.mp", True, [
        F("E28", "(go strat", "no label `strat` in the process that this stands in",
          (("main 0\n    ", "start"), "a label like it")),
        F("E34", "(def n", "this keeps something from clock to clock"),
        F("E32", ("(go start) ", "(go start)"), "this jump stands beside another", ("(go start)", "the other one")),
        F("E29", ("(go start))\n    ", "start"), "`start` again", (("main 0\n    ", "start"), "the first one")),
        F("E31", "(call", "this needs a stack"),
        F("E36", "(process none", "nothing in it is a form"),
        F("E43", ("none ", "9"), "8 is the most"),
        F("E30", ("(setq o n) ", "(go start)"), "this stands in an `always`")]),
    ("stray.mp", True, [
        F("E1", "#", "no word has this character; a comment begins with `;`",
          help="is this a source? It is one list, `(program NAME NUMBER ..)`"),
        F("E1", '"', "there are no texts and no quotes"),
        F("E1", ('"x', '"'), "there are no texts and no quotes"),
        F("E4", "9999", "this number"),
        F("E1", "[", "lists are written with `(` and `)`"),
        F("E1", ",", "items are set apart by blanks"),
        F("E3", ("1))", ")"), "no list is open here", (("1)", ")"), ENDED))]),
    ("masks.mp", True, [F("E10", "DS", "a source is one `(program NAME NUMBER ..)`, and `DS` is a word")]),
    ("empty.mp", True, [F("E10", "", "the file has no form")]),
    ("warnings.mp", False, [
        F(UNREAD, "(def unused", "`unused` is an input signal"),
        F(UNREAD, "(def k", "`k` is a constant"),
        F(UNREAD, "(def lost", "`lost` is a flag"),
        F(UNREAD, "(def s ", "`s` is an internal signal"),
        F(UNSET, "(def s ", "`s` is an internal signal"),
        F(UNSET, "(def nothing", "`nothing` is an output signal"),
        F("what is stored is set twice in one clock", "(setq n 4",
          "both set `n` in one clock: it takes the bitwise OR of their values", ("(setq n 2", "the other one"))]),
    ("pads.mp", False, []),
    ("pads.mp bad.stim", True, [
        F("S2", ("in a\nin ", "b 8"), "`b` is no input of the program", help="it is a word, of so many bits: 4"),
        F("S2", ("out ", "y"), "`y` is no output of the program", help="it is a word, of so many bits: 4"),
        F("S1", "clok", "`clok` begins no line"),
        F("S1", "clock a\n", "`a` has no value: write `NAME=N`"),
        F("S3", "a=2", "2 is over 1, the greatest value of `a`"),
        F("S2", "q=1", "`q` is no input of the program"),
        F("S1", "clock a=0x1", "`a=0x1`: a value is decimal, 1 to 20 digits, and below 2^64"),
        F("S1", "in c", "pads have to be named before the first clock"),
        F("S1", "clock a=1 a=1", "`a` stands twice in this line")]),
    ("pads.mp no_reset.stim", False, [
        F("no clock of this stimulus has `reset=1`", "clock", "the program keeps state, which isn't known before a reset")]),
    ("misplaced.mp", True, [
        F("E10", "(def x", "this definition has to be `(def NAME port input (PIN ..))`"),
        F("E10", "(def y", "this definition has to be `(def NAME signal output PIN)`"),
        F("E10", "(def z",
          "this definition has to be `(def NAME register)`, or with `flag`, `constant`, `port`, `signal` or `function`"),
        F("E10", "(alway ", "a `def`, `always` or `process` has to stand here, and none begins with `alway`",
          help="did you mean `always`?"),
        F("E10", "(+", "a form has to stand here; `+` gives a value, as in `(setq NAME (..))`"),
        F("E10", ("(+ x 1) ", "x"), "a form has to stand here, and `x` is a word"),
        F("E10", "(setq y)", "`setq` takes `(setq NAME EXPRESSION)`; items behind it here: 1"),
        F("E10", "(y)", "a name has to stand here, and this is a list"),
        F("E10", ("(cond ", "t"), "a branch `(GUARD FORM ..)` has to stand here, and `t` is a word"),
        F("E10", "(bit", "a form has to stand here; `bit` gives a value, as in `(setq NAME (..))`"),
        F("E10", "(process p", "`process` takes `(process NAME NUMBER ELEMENT ..)`; items behind it here: 1"),
        F("E10", "depth", "a number has to stand here, in decimal and without a sign, and `depth` is a word"),
        F("E10", ("(go ", "5"), "a name has to stand here, and this is a number")]),
    ("width.mp", True, [F("E11", "65", "words of this program would have bits: 65")]),
    ("whole.mp", True, [
        F("E35", "(program", "missing: `(def PIN ground)` `(def PIN phia)` `(def PIN phib)` `(def PIN phic)`")]),
    # 2 of the input port, 4 of the output port, and of each setq 4 and 14 of its `-`
    ("heavy.mp", True, [F("E44", "(program", f"this program weighs {2 + 4 + 60 * 18}")]),
    ("functions.mp", True, [
        F("E21", ("(< v (", "later"), "`later`" + NO_FUNCTION, ("(def later", "this stands no earlier"),
          "a function uses those alone that are defined before it"),
        F("E38", "(def and", "`and` is an operator"),
        F("E38", ("and function (v ", "t"), "`t` is a truth value"),
        F("E38", ("and function (v t ", "k"), "`k` is a constant", ("(def k", "defined here")),
        F("E38", ("and function (v t k ", "v"), "`v` again", (("and function (", "v"), "the first one")),
        F("E39", ("(word-and v ", "x"), "`x` is an input port", ("(def x", "defined here")),
        F("E37", "(twice x k", "`twice` takes operands: 1; here: 2", ("(def twice", "defined here")),
        F("E21", "twise", "`twise`" + NO_FUNCTION, ("(def twice", "this has a name like it"), "did you mean `twice`?"),
        F("E22", "(less x", "this is a bit, and a word is wanted as the value of `y`", ("(def less", "a function"), WORD),
        F("E22", ("(+ ", "twice 1"), "`twice` is a function, which has a value where it is used: `(NAME WORD ..)`",
          help=SORTS),
        F("E21", ("(setq b (", "<="), "`<=`" + NO_FUNCTION, help="write `(not (< b a))` for a <= b"),
        F("E22", ("(setq ", "twice x)"), "`twice` is a function, which has a value where it is used: `(NAME WORD ..)`",
          help=SORTS),
        F("E21", ("(setq y (", "y k)"), "`y`" + NO_FUNCTION, ("(def y", "an output port"), DEFINE),
        F("E22", ("(twice ", "b)"), "this is a bit, and a word is wanted as an operand of `twice`",
          ("(def b", "an output signal"), WORD),
        F("E21", ("(setq b (", "setq x"),
          "`setq` is a form, which has no value and stands in an `always`, a process, a `par` or a branch", help=DEFINE),
        F("E21", "wide", "`wide`" + NO_FUNCTION, help=DEFINE)]),
    ("deep.mp", True, [F("E5", ("(" * 64, "("), "the 65th list")]),
]


def main():
    for row, refused, findings in ROWS:
        name = row.split(" ")[-1]
        with open(os.path.join(DATA, name), "rb") as file:
            text = file.read()
        print(f"# {row}: {'refused' if refused else 'done'}")
        told = findings[0].first(name, text) if refused else "no mistakes\n"
        for finding in findings[1:] if refused else findings:
            told += finding.more(name, text)
        print(told)


main()
