#!/usr/bin/env python3
"""The reading of a page as document 01 has it: what `listing` and `replay` must answer.

  model.py --check   hold this reading against the page and the marked cases of document 01

It tells the numbers and places of refusals, which the Rust doesn't; what the Rust tells is held against it by compare.py.
The numbers in a page are read by numbers.py, in whole numbers.
"""
import importlib.util
import os
import sys

sys.dont_write_bytecode = True
if hasattr(sys, "set_int_max_str_digits"):
    sys.set_int_max_str_digits(0)  # an exponent may have any number of digits


def beside(name):
    """A script that stands beside this one, as a module (Python has a module of its own called numbers)."""
    path = os.path.join(os.path.dirname(os.path.abspath(__file__)), name + ".py")
    spec = importlib.util.spec_from_file_location("beside_" + name, path)
    module = importlib.util.module_from_spec(spec)
    spec.loader.exec_module(module)
    return module


numbers = beside("numbers")
Refused, Nothing = numbers.Refused, numbers.Nothing

MOST_BYTES = 32768
MOST_RECORDS = 1800


# ---- words, spaces, labels


def word(text, at, letters):
    """The place after these letters."""
    if not text.startswith(letters, at):
        raise Nothing
    return at + len(letters)


def spaces(text, at):
    """The place after the blanks and tabs, of which there may be none."""
    while text[at : at + 1] in (b" ", b"\t"):
        at += 1
    return at


def label(text, at):
    """One or more letters and digits, and the place after them."""
    then = at
    while text[then : then + 1].isalnum():
        then += 1
    if then == at:
        raise Nothing
    return text[at:then], then


def dotted(text, at):
    """L.L, else L, and the place after it."""
    first, then = label(text, at)
    try:
        _, then = label(text, word(text, then, b"."))
    except Nothing:
        pass
    return text[at:then], then


def comma(text, at):
    """The place after a comma with spaces around it."""
    return spaces(text, word(text, spaces(text, at), b","))


# ---- numbers, each as the words that a line shows


def number(text, at):
    bits, at = numbers.number(text, at)
    return [b"%016x" % bits], at


def expression(text, at):
    bits, at = numbers.expression(text, at, 0)
    return [b"%016x" % bits], at


def angle(text, at):
    value, at = number(text, at)
    for unit in [b"deg", b"rad"]:
        if text.startswith(unit, at):
            return [unit] + value, at + len(unit)
    raise Nothing


def pair(text, at):
    """`(N,N)`: spaces after the bracket and after the comma only."""
    x, at = number(text, spaces(text, word(text, at, b"(")))
    y, at = number(text, spaces(text, word(text, at, b",")))
    return x + y, word(text, at, b")")


# ---- instructions: each form gives the lines of its records and the place after it

DECLARATIONS = [(b"point", b"1"), (b"circle", b"2"), (b"arc", b"3")]

# The word, the kind, how many labels, the number after them if any, and whether spaces may stand before `)`.
KEYWORDS = [
    (b"horizontal", b"6", 2, None, True),
    (b"coincident", b"11", 2, None, True),
    (b"point_arc_coincident", b"12", 2, None, True),
    (b"midpoint", b"13", 3, None, True),
    (b"symmetric", b"14", 4, None, True),
    (b"vertical", b"5", 2, None, True),
    (b"distance", b"7", 2, expression, False),
    (b"parallel", b"8", 4, None, True),
    (b"perpendicular", b"9", 4, None, True),
    (b"lines_at_angle", b"10", 4, angle, False),
    (b"radius", b"15", 1, expression, False),
    (b"tangent", b"16", 3, None, False),
    (b"arc_radius", b"17", 1, number, False),
    (b"arc_length", b"23", 1, number, False),
    (b"is_arc", b"20", 1, None, False),
    (b"point_line_distance", b"21", 3, number, True),
    (b"line", b"22", 2, None, False),
    (b"lines_equal_length", b"19", 4, None, True),
]


def line(*words):
    return b" ".join(words)


def declaration(text, at, name, kind):
    """`point L`, where the space may be missing."""
    named, at = label(text, spaces(text, word(text, at, name)))
    return [line(kind, named)], at


def equals(text, at):
    """The place after `=` with spaces around it."""
    return spaces(text, word(text, spaces(text, at), b"="))


def component(text, at, between, kind):
    """`L.x = N`, or with `.center` between."""
    named, at = label(text, at)
    at = word(text, at, between)
    axis = text[at : at + 1]
    if axis not in (b"x", b"y"):
        raise Nothing
    value, at = number(text, equals(text, at + 1))
    return [line(kind, named, axis, *value)], at


def assignment(text, at):
    """`L = (N,N)` or `L.L = (N,N)`: two records, x then y."""
    named, at = dotted(text, at)
    (x, y), at = pair(text, equals(text, at))
    return [line(b"4", named, b"x", x), line(b"4", named, b"y", y)], at


def keyword(text, at, name, kind, count, value, space_before_end):
    """A word and, in brackets, labels and perhaps a number, parted by commas."""
    at = spaces(text, word(text, at, name))
    at = spaces(text, word(text, at, b"("))
    shown, at = label(text, at)
    shown = [shown]
    while len(shown) < count:
        named, at = label(text, comma(text, at))
        shown.append(named)
    if value:
        last, at = value(text, comma(text, at))
        shown += last
    if space_before_end:
        at = spaces(text, at)
    return [line(kind, *shown)], word(text, at, b")")


FORMS = [(declaration, row) for row in DECLARATIONS]
FORMS += [(component, (b".", b"4")), (component, (b".center.", b"18")), (assignment, ())]
FORMS += [(keyword, row) for row in KEYWORDS]


def instruction(text, at):
    """Leading spaces, then the first form that reads."""
    at = spaces(text, at)
    for form, row in FORMS:
        try:
            return form(text, at, *row)
        except Nothing:
            pass
    raise Nothing


# ---- guesses and the problem


def guess(text, at):
    """`L roughly (N,N)`, else `L roughly N`."""
    named, at = dotted(text, spaces(text, at))
    at = spaces(text, word(text, spaces(text, at), b"roughly"))
    try:
        value, then = pair(text, at)
        return [line(b"24", named, *value)], then
    except Nothing:
        value, then = number(text, at)
        return [line(b"25", named, *value)], then


def or_refuse(refusal, place, form, *given):
    """What the form gives; where it doesn't read, the refusal."""
    try:
        return form(*given)
    except Nothing:
        raise Refused(refusal, place) from None


def heading(text, at, name):
    return word(text, spaces(text, word(text, at, b"#")), name + b"\n")


def parted(text, at, item):
    """One or more items parted by one new line each: their lines, and the place after the last."""
    lines, at = item(text, at)
    while True:
        try:
            more, at = item(text, word(text, at, b"\n"))
        except Nothing:
            return lines, at
        lines += more


def problem(text):
    """The lines of the instructions, the lines of the guesses, and the place where reading stops."""
    at = or_refuse(3, 0, heading, text, 0, b"constraints")
    instructions, at = or_refuse(4, at, parted, text, at, instruction)
    at = or_refuse(5, at, word, text, at, b"\n\n")
    at = or_refuse(6, at, heading, text, spaces(text, at), b"guesses")
    guesses, at = or_refuse(7, at, parted, text, at, guess)
    if text.startswith(b"\n", at):
        at += 1
    return instructions, guesses, spaces(text, at)


def read(text, whole):
    """('refused', number, place), or the count of instructions, of guesses, the place where reading stops, and the lines
    of all records. The plain reading may leave text over, the whole reading not."""
    if len(text) > MOST_BYTES:
        return "refused", 1, 0
    for at, byte in enumerate(text):
        if byte >= 128:
            return "refused", 2, at
    try:
        instructions, guesses, end = problem(text)
    except Refused as refusal:
        return ("refused",) + refusal.args
    if whole and end < len(text):
        return "refused", 10, end
    if len(instructions) + len(guesses) > MOST_RECORDS:
        return "refused", 11, 0
    return len(instructions), len(guesses), end, instructions + guesses


def listing(answer):
    """What `listing` prints for an answer."""
    if answer[0] == "refused":
        return b"refused %d %d\n" % answer[1:]
    lines = [b"instructions %d guesses %d end %d" % answer[:3]] + answer[3]
    return b"".join(shown + b"\n" for shown in lines)


# ---- document 01's own page and marked cases


PAGE = b"""# constraints
point p
p.x = 0
circle c
radius(c, 2)

# guesses
p roughly (1, 2)
c.center roughly (0, 0.5)
c.radius roughly 1
"""

PAGE_LISTED = b"""instructions 4 guesses 3 end 125
1 p
4 p x 0000000000000000
2 c
15 c 4000000000000000
24 p 3ff0000000000000 4000000000000000
24 c.center 0000000000000000 3fe0000000000000
25 c.radius 3ff0000000000000
"""


def framed(instructions, guesses=b"p roughly (1, 2)"):
    """A page with these instructions and guesses."""
    return b"# constraints\n" + instructions + b"\n\n# guesses\n" + guesses + b"\n"


# The case, a text, and what document 01 says of it: a refusal, or the lines of the instructions.
MARKED = [
    ("a", framed(b"arc1.center.x = 0"), ("refused", 5, 18)),
    ("b", framed(b"point p "), ("refused", 5, 21)),
    ("c", b"", ("refused", 3, 0)),
    ("d", framed(b"p.x = (1, 2)"), [b"4 p.x x 3ff0000000000000", b"4 p.x y 4000000000000000"]),
    ("e", framed(b"circle.x = 0"), [b"4 circle x 0000000000000000"]),
    ("f", framed(b"p.x = 999999999999999"), [b"4 p x 430c6bf52633fff8"]),
    ("f", framed(b"p.x = 9999999999999990"), ("refused", 8, 20)),
    ("g", framed(b"p.x = 1e22"), [b"4 p x 4480f0cf064dd592"]),
    ("g", framed(b"p.x = 1e23"), ("refused", 8, 20)),
    ("h", framed(b"p.x = 0.5e-22"), ("refused", 8, 20)),
    ("i", framed(b"p.x = -0"), [b"4 p x 8000000000000000"]),
    ("j", framed(b"radius(c, sqrt(2))"), [b"15 c 3ff6a09e667f3bcd"]),
    ("k", framed(b"radius(c, sqrt(-4))"), [b"15 c 7ff8000000000000"]),
    ("l", framed(b"horizontal(a, b )"), [b"6 a b"]),
    ("l", framed(b"line(a, b )"), ("refused", 4, 14)),
]


def check():
    """Stops at the first marked case that is read otherwise."""
    assert listing(read(PAGE, True)) == PAGE_LISTED
    for case, text, told in MARKED:
        for whole in [False, True]:
            answer = read(text, whole)
            if answer[0] != "refused":
                count, _, end, lines = answer
                assert end == len(text), case
                answer = lines[:count]
            assert answer == told, case
    print("document 01's page and %d texts of its marked cases" % len(MARKED))


if __name__ == "__main__":
    if sys.argv[1:] != ["--check"]:
        sys.exit(__doc__.rstrip())
    check()
