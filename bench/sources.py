"""Sources to measure with: at the limits of the language, and in between."""

SUPPLIES = "(def 1 power)(def 2 ground)(def 3 phia)(def 4 phib)(def 5 phic)"
SOURCE_LIMIT = 1048576


def inverter():
    return ("(program inverter 1 %s(def a signal input 6)(def y signal output 7)"
            "(always (setq y (not a))))" % SUPPLIES)


def widest_signals():
    """16 signals, 100 forms, 200 expressions: a weight of 540."""
    signals = "".join("(def i%d signal input %d)" % (k, 6 + k) for k in range(8))
    signals += "".join("(def o%d signal output %d)" % (k, 14 + k) for k in range(8))
    forms = "".join("(setq o%d (not i%d))" % (k % 8, (3 * k) % 8) for k in range(100))
    return "(program widest 1 %s%s(always %s))" % (SUPPLIES, signals, forms)


def filled(head, item, tail):
    """As many items as a source has room for, between a head and a tail: item(k) is the k-th."""
    items, room, k = [], SOURCE_LIMIT - len(head) - len(tail), 0
    while room >= len(item(k)):
        items.append(item(k))
        room -= len(items[-1])
        k += 1
    return head + "".join(items) + tail


def chain(count, first):
    """Signals that each read the next; the last one reads the one at `first`."""
    defs = "".join("(def s%d signal internal)" % k for k in range(count))
    forms = "".join("(setq s%d s%d)" % (k, k + 1 if k + 1 < count else first) for k in range(count))
    return "(program chain 1 %s%s(always %s))" % (SUPPLIES, defs, forms)


def guarded():
    """A guard of 50,000 names around 50,000 `setq` forms."""
    defs = "".join("(def g%d signal internal)(def h%d signal internal)" % (k, k) for k in range(500))
    guard = " ".join("g%d" % (k % 500) for k in range(50000))
    forms = "".join("(setq h%d t)" % (k % 500) for k in range(50000))
    return "(program guarded 1 %s%s(always (cond ((or %s) %s))))" % (SUPPLIES, defs, guard, forms)


def pins(first, count):
    return "(%s)" % " ".join(str(first + k) for k in range(count))


def divisor():
    """The greatest common divisor of two words of 8 bits."""
    return ("(program gcd 8 %s(def reset signal input 6)(def a port input %s)(def b port input %s)(def q port output %s)"
            "(def done signal output 7)(def x register)(def y register)(always (setq q x)(setq done (= x y)))"
            "(process main 0 (par (setq x a)(setq y b)) loop (cond ((= x y) (go loop)) ((< x y) (setq y (- y x)) (go loop)) "
            "(t (setq x (- x y)) (go loop)))))" % (SUPPLIES, pins(10, 8), pins(18, 8), pins(26, 8)))


def heaviest():
    """Sums of 55 operators, nested, at the word length of 32: a weight of 672."""
    total = "a"
    for _ in range(84):
        total = "(+ %s b)" % total if total.count("(") % 60 else "(+ b %s)" % total
        if total.count("(") >= 55:
            break
    return ("(program heaviest 32 %s(def a port input %s)(def b port input %s)(def q port output %s)(always (setq q %s)))"
            % (SUPPLIES, pins(6, 32), pins(38, 32), pins(70, 32), total))


def busiest():
    """16 registers of 32 bits, and 8 processes of 3 forms that each set two of them: a weight of 877."""
    registers = "".join("(def r%d register)" % k for k in range(16))
    forms = ["(par (setq r%d r%d)(setq r%d (1+ r%d)))" % (k % 16, (k + 5) % 16, (k + 3) % 16, (k + 3) % 16) for k in range(24)]
    processes = "".join("(process p%d 0 %s)" % (k, "".join(forms[3 * k:3 * k + 3])) for k in range(8))
    return ("(program busiest 32 %s(def reset signal input 6)(def q port output %s)%s(always (setq q (word-or r0 r15)))%s)"
            % (SUPPLIES, pins(7, 32), registers, processes))


def sums(weight, width):
    """Two chains of sums, no two alike, as many as a weight has room for: 16 for what is set and read, and 12 for each."""
    chains = ["a", "b"]
    for k in range((weight - 16) // 12):
        chains[k % 2] = "(+ %s %s)" % (chains[k % 2], "ba"[k % 2])
    forms = "(setq q %s)(setq q %s)" % tuple(chains)
    return ("(program sums %d %s(def a port input %s)(def b port input %s)(def q port output %s)(always %s))"
            % (width, SUPPLIES, pins(6, width), pins(6 + width, width), pins(6 + 2 * width, width), forms))


def places():
    """16 processes, of which each weighs 58, and 7 of them 12 more."""
    processes = "".join("(process p%d 0 a %s)" % (k, "(go a)" * (5 if k < 7 else 4)) for k in range(16))
    return "(program places 1 %s(def reset signal input 6)%s)" % (SUPPLIES, processes)


def stack():
    """A process of 10 calls, each with 8 places to return to."""
    return "(program stack 1 %s(def reset signal input 6)(process p 8 a %s(return)))" % (SUPPLIES, "(call a)" * 10)


def branches():
    """A `cond` of 145 branches, of which each weighs 7."""
    return ("(program branches 1 %s(def a signal input 6)(def s signal output 7)(always (cond %s)))"
            % (SUPPLIES, "(a (setq s a))" * 145))


def wide():
    """An `or` of as many operands as a weight has room for."""
    return ("(program wide 1 %s(def a signal input 6)(def s signal output 7)(always (setq s (or%s))))"
            % (SUPPLIES, " a" * 1014))


def with_functions(functions, expression):
    """A program of words of 8 bits with these functions, whose output is the expression."""
    return ("(program functions 8 %s(def a port input %s)(def q port output %s)%s(always (setq q %s)))"
            % (SUPPLIES, pins(6, 8), pins(14, 8), "".join(functions), expression))


def summed(terms):
    """The sum of these terms, nested as little as it may be."""
    if len(terms) == 1:
        return terms[0]
    half = len(terms) // 2
    return "(+ %s %s)" % (summed(terms[:half]), summed(terms[half:]))


def multiplied(operand, uses):
    """250 functions of which each uses the one before so many times: an expansion of `uses` to the power of 250 pieces."""
    more = ["(def f%d function (v) %s)" % (k, summed(["(f%d %s)" % (k - 1, operand)] * uses)) for k in range(1, 250)]
    return with_functions(["(def f0 function (v) (+ v v))"] + more, "(f249 a)")


def dropped(uses=220):
    """250 functions of which each uses the one before with an operand that the body drops: the expansion is `a`."""
    more = ["(def f%d function (v w) (f%d v %s))" % (k, k - 1, summed(["(f%d w w)" % (k - 1)] * uses)) for k in range(1, 250)]
    return with_functions(["(def f0 function (v w) v)"] + more, "(f249 a a)")


def operands(count=80000):
    """A use with many operands, of which the body reads one."""
    names = " ".join("v%d" % k for k in range(count))
    return with_functions(["(def first function (%s) v0)" % names], "(first%s)" % (" a" * count))
