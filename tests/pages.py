#!/usr/bin/env python3
"""Texts for the reader: good pages, damaged pages, and pages at the limits, the same bytes every time.

  pages.py COUNT   write a batch of COUNT texts

A batch is, over and over, a line `CASE n` (plain reading) or `LIST n` (whole reading), n bytes of text and a new line.
The first 200,000 texts hold all limits, all seams and all short lines.
"""
import itertools
import sys

sys.dont_write_bytecode = True
import model

Draw = model.numbers.Draw

# ---- the forms of a line. `@` is a label, `%` a number, `$` an expression; `~` is a seam where spaces may stand, `^` one
# where they must, `|` one where they may not.

INSTRUCTIONS = [
    "~point~@|",
    "~circle~@|",
    "~arc~@|",
    "~@|.|x~=~%|",
    "~@|.|y~=~%|",
    "~@|.|center|.|x~=~%|",
    "~@|.|center|.|y~=~%|",
    "~@~=~(~%|,~%|)|",
    "~@|.|@~=~(~%|,~%|)|",
    "~horizontal~(~@~,~@~)|",
    "~coincident~(~@~,~@~)|",
    "~point_arc_coincident~(~@~,~@~)|",
    "~midpoint~(~@~,~@~,~@~)|",
    "~symmetric~(~@~,~@~,~@~,~@~)|",
    "~vertical~(~@~,~@~)|",
    "~distance~(~@~,~@~,~$|)|",
    "~parallel~(~@~,~@~,~@~,~@~)|",
    "~perpendicular~(~@~,~@~,~@~,~@~)|",
    "~lines_at_angle~(~@~,~@~,~@~,~@~,~%|deg|)|",
    "~lines_at_angle~(~@~,~@~,~@~,~@~,~%|rad|)|",
    "~radius~(~@~,~$|)|",
    "~tangent~(~@~,~@~,~@|)|",
    "~arc_radius~(~@~,~%|)|",
    "~arc_length~(~@~,~%|)|",
    "~is_arc~(~@|)|",
    "~point_line_distance~(~@~,~@~,~@~,~%~)|",
    "~line~(~@~,~@|)|",
    "~lines_equal_length~(~@~,~@~,~@~,~@~)|",
]
GUESSES = ["~@^roughly~(~%|,~%|)", "~@|.|@^roughly~(~%|,~%|)", "~@^roughly~%", "~@|.|@^roughly~%"]
FIRST_HEADING = "|#~constraints|\n"
LATER_HEADING = "|\n|\n~#~guesses|\n"

LABELS = "p q r a b c d p0 p1 P Q9 0 1 42 9z x y e e5 i n A1b2".split()
LABELS_LIKE_WORDS = (
    "pointer point points arc arc1 arcs circle circles nan NaN inf infinity roughly roughly2 line lines sqrt center radius"
    " xx x1 deg rad distance horizontal tangent constraints guesses is midpoint symmetric parallel CASE LIST"
).split()
# What may be left after a page.
TEXTS_LEFT = ["\n", "\n\n", " \n", "x", "#", "\nz", "\nz roughly", "z roughly 1", "\n.", ".", "\n# more\n", ","]
SPACES = [" ", " ", " ", "\t", "  ", " \t", "\t \t "]
SEAMS = {"~": [""] * 5 + SPACES, "^": SPACES, "|": [""]}


def filled(form, seam, label, number, expression):
    """A form with its marks replaced by what these functions give."""
    gives = {"@": label, "%": number, "$": expression}
    return "".join(seam(mark) if mark in SEAMS else gives[mark]() if mark in gives else mark for mark in form)


# A page around a line that is tried.
TO_INSTRUCTION, FROM_INSTRUCTION = "#constraints\n", "\n\n#guesses\np roughly 1"
TO_GUESS = "#constraints\npointp\n\n#guesses\n"


def in_turn(lists):
    """One of each list, then the next of each, until all have ended."""
    lists = [iter(texts) for texts in lists]
    while lists:
        for texts in list(lists):
            text = next(texts, None)
            if text is None:
                lists.remove(texts)
            else:
                yield text


# ---- good pages


class Writer:
    """Writes lines and pages by the grammar, with drawn labels, numbers and spaces."""

    def __init__(self, draw):
        self.draw = draw
        self.written = number_lines()

    def seam(self, mark):
        return self.draw.one_of(SEAMS[mark])

    def label(self):
        turn = self.draw.below(32)
        if turn < 2:
            return self.draw.one_of(LABELS_LIKE_WORDS)
        if turn < 4:
            letters = "abcxyzABCXYZ0123456789einps"
            return "".join(self.draw.one_of(letters) for _ in range(self.draw.between(1, 9)))
        return self.draw.one_of(LABELS)

    def digits(self, most):
        return "0" * self.draw.one_of([0, 0, 0, 1, 4]) + str(self.draw.below(10 ** self.draw.between(1, most)))

    def number(self):
        """A number that is carried, but for one in eighty, which is any line of the list of numbers."""
        draw = self.draw
        if draw.below(80) == 0:
            return draw.one_of(self.written)
        digits, after = self.digits(15), 0
        written = digits
        if draw.below(2):
            after = draw.below(len(digits) + 1)
            written = digits[: len(digits) - after] + "." + digits[len(digits) - after :]
        if draw.below(3) == 0:
            written += draw.one_of(["e%d", "E%d", "e%+d", "E%03d"]) % (draw.between(-22, 22) + after)
        return draw.one_of(["", "", "", "-", "+"]) + written

    def expression(self):
        depth = self.draw.one_of([0, 0, 0, 1, 1, 2, 3, 8, 9]) if self.draw.below(4) == 0 else self.draw.below(2)
        return "sqrt(" * depth + self.number() + ")" * depth

    def line(self, form):
        return filled(form, self.seam, self.label, self.number, self.expression)

    def lines(self, forms, most):
        return "\n".join(self.line(self.draw.one_of(forms)) for _ in range(self.draw.between(1, most)))

    def page(self):
        most = self.draw.one_of([1, 2, 4, 8])
        end = self.draw.one_of(["", "\n", "\n", "\n", "\n ", " ", "\t", "\n\t  "])
        if self.draw.below(5) == 0:
            end += self.draw.one_of(TEXTS_LEFT)
        page = self.line(FIRST_HEADING) + self.lines(INSTRUCTIONS, most)
        return page + self.line(LATER_HEADING) + self.lines(GUESSES, most) + end


def good_pages(draw):
    writer = Writer(draw)
    while True:
        yield writer.page().encode("latin-1")


# ---- damaged pages

ODD_BYTES = b"  \t\t\n\n\n\r(),.=#+-0159eEinIN_xypqarsd\x00\x0b\x0c\x1f\x7f"
HIGH_BYTES = [b"\x80", b"\xa0", b"\xc3", b"\xc3\xa9", b"\xe2\x80\x83", b"\xff"]
ODD_WORDS = b"point arc circle center .center roughly sqrt( deg rad line lines nan inf 1e e5 guesses constraints .x .y =".split()
ODD_WORDS += [b"# guesses\n", b"\n\n", b"\r\n", b"\n \n", b" )", b"( ", b" ,", b", "]


def odd(draw):
    """Something that damages: mostly one byte."""
    turn = draw.below(24)
    if turn == 0:
        return draw.one_of(HIGH_BYTES)
    if turn < 6:
        return draw.one_of(ODD_WORDS)
    return bytes([draw.one_of(ODD_BYTES)])


def damaged_once(draw, page):
    """The page with one damage: something dropped, doubled, swapped, put in or put in place of something."""
    a = draw.below(len(page) + 1)
    b = min(len(page), a + draw.one_of([1, 1, 1, 1, 2, 5]))
    way = draw.below(12)
    if way < 2:
        return page[:a] + page[b:]
    if way < 4:
        return page[:b] + page[a:]
    if way < 6:
        return page[:a] + page[a + 1 : b + 1] + page[a : a + 1] + page[b + 1 :]
    if way < 9:
        return page[:a] + odd(draw) + page[a:]
    if way < 10:
        return page[:a] + odd(draw) + page[b:]
    if way < 11:
        return damaged_lines(draw, page.split(b"\n"))
    return page[:a] if draw.below(4) else page[a:]


def damaged_lines(draw, lines):
    """The lines with one dropped, one doubled, or two swapped."""
    a, b = draw.below(len(lines)), draw.below(len(lines))
    way = draw.below(3)
    if way == 0:
        del lines[a]
    elif way == 1:
        lines.insert(b, lines[a])
    else:
        lines[a], lines[b] = lines[b], lines[a]
    return b"\n".join(lines)


def damaged_pages(draw):
    """Up to six damaged copies of each page."""
    writer = Writer(draw)
    while True:
        page = writer.page().encode("latin-1")
        for _ in range(draw.between(1, 6)):
            copy = page
            for _ in range(draw.one_of([1, 1, 1, 2, 3])):
                copy = damaged_once(draw, copy)
            yield copy


# ---- numbers in every spelling

NUMBER_PLACES = [
    ("#constraints\np.x = ", "\n\n#guesses\np roughly 1\n"),
    ("#constraints\na.center.y=", "\n\n#guesses\np roughly 1\n"),
    ("#constraints\npointp\np = (", ",2)\n\n#guesses\np roughly 1\n"),
    ("#constraints\np.q = (1, ", ")\n\n#guesses\np roughly 1\n"),
    ("#constraints\ndistance(p, q, ", ")\n\n#guesses\np roughly 1\n"),
    ("#constraints\nradius(c,", ")\n\n#guesses\np roughly 1\n"),
    ("#constraints\npointp\nlines_at_angle(a,b,c,d, ", "deg)\n\n#guesses\np roughly 1\n"),
    ("#constraints\nlines_at_angle(a,b,c,d,", "rad)\n\n#guesses\np roughly 1\n"),
    ("#constraints\narc_radius(a, ", ")\npointp\n\n#guesses\np roughly 1\n"),
    ("#constraints\npoint_line_distance(p,a,b,", " )\n\n#guesses\np roughly 1\n"),
    ("#constraints\npointp\n\n#guesses\np roughly ", "\n"),
    ("#constraints\npointp\n\n#guesses\np roughly (", ",2)"),
    ("#constraints\npointp\n\n#guesses\np roughly 1\nc.radius roughly ", "\nq roughly 2"),
    ("#constraints\npointp\n\n#guesses\np roughly 1\nq roughly (0, ", ")\n"),
]


def number_lines():
    """The lines of the list of numbers that a number or an expression may be read from."""
    return [line.decode("latin-1") for line in model.numbers.lines() if not line.startswith(b"root")]


def numbers_in_pages():
    """Every line of the list of numbers at every place of a number, each pair once."""
    lines = number_lines()
    lines = list(in_turn([lines[at : at + 100] for at in range(0, len(lines), 100)]))
    for turn in range(len(NUMBER_PLACES)):
        for at, line in enumerate(lines):
            before, after = NUMBER_PLACES[(at + turn) % len(NUMBER_PLACES)]
            yield (before + line + after).encode("latin-1")


# ---- spaces and other bytes at every seam

AT_SEAMS = ["", " ", "\t", "  ", "\t ", "\n", "\n ", "\r", "\x0b", "\0", "_", "x", ".", ",", "(", ")", "1"]


def one_seam(form, usual):
    """The form once for each seam and each thing put there; at the other seams the usual spaces where they may stand."""
    usual = {"~": usual, "^": " ", "|": ""}
    count = sum(mark in SEAMS for mark in form)
    for at, put in itertools.product(range(count), AT_SEAMS):
        seams = itertools.count()
        labels = itertools.cycle("abcd")
        seam = lambda mark: put if next(seams) == at else usual[mark]
        yield filled(form, seam, lambda: next(labels), lambda: "1", lambda: "sqrt(4)")


def framed(before, lines, after):
    """Each line with what stands before and after it."""
    for line in lines:
        yield before + line + after


def seams():
    """Every form with something at one seam, as first and as later line, and the seams of the page itself."""
    page = FIRST_HEADING + "pointp" + LATER_HEADING + "p roughly 1|\n~"
    lists = [one_seam(page, ""), one_seam(page, " ")]
    for form in INSTRUCTIONS:
        lists.append(framed(TO_INSTRUCTION, one_seam(form, ""), FROM_INSTRUCTION))
        lists.append(framed(TO_INSTRUCTION + "pointp\n", one_seam(form, " "), FROM_INSTRUCTION))
    for form in GUESSES:
        lists.append(framed(TO_GUESS, one_seam(form + "|", ""), "\nq roughly 2"))
        lists.append(framed(TO_GUESS + "p roughly 1\n", one_seam(form + "|", " "), "\nq roughly 2"))
    return in_turn(lists)


# ---- all short lines

# What stands before, the small alphabet (of bytes or words), the greatest length, and what stands after.
SHORT = [
    ("", ["#", " ", "constraints", "\n"], 5, "pointp\n\n#guesses\np roughly 1"),
    (TO_INSTRUCTION, "p.x=1 ", 5, FROM_INSTRUCTION),
    (TO_INSTRUCTION, ["point", "center", " ", ".", "x", "=1"], 5, FROM_INSTRUCTION),
    (TO_INSTRUCTION, ["arc", "circle", " ", "1", "=(1,2)", "\n"], 4, FROM_INSTRUCTION),
    (TO_INSTRUCTION + "p=", "(1,) ", 5, FROM_INSTRUCTION),
    (TO_INSTRUCTION + "p.x=", "+-.01en", 4, FROM_INSTRUCTION),
    (TO_INSTRUCTION + "p.x=", "-.1e", 6, FROM_INSTRUCTION),
    (TO_INSTRUCTION + "line(", "a,) ", 6, FROM_INSTRUCTION),
    (TO_INSTRUCTION + "horizontal(", "a,) ", 6, FROM_INSTRUCTION),
    (TO_INSTRUCTION + "is_arc", "(a)\t", 4, FROM_INSTRUCTION),
    (TO_INSTRUCTION + "radius(c,", ["sqrt(", "4", ")", " ", "-"], 5, FROM_INSTRUCTION),
    (TO_INSTRUCTION + "lines_at_angle(a,b,c,d,", ["1", "deg", "rad", " ", ")", "e"], 4, FROM_INSTRUCTION),
    (TO_INSTRUCTION + "pointp", ["\n", " ", "#", "guesses"], 6, "p roughly 1"),
    (TO_INSTRUCTION + "pointp", ["\n", " ", "\t", "arcq", "x"], 4, FROM_INSTRUCTION),
    (TO_GUESS, ["p", " ", "roughly", ".", "1"], 5, ""),
    (TO_GUESS + "p roughly", " (1,)", 5, ""),
    (TO_GUESS + "p roughly 1", ["\n", " ", "q", "q roughly 1", "."], 5, ""),
]


def short(before, alphabet, longest, after):
    """Every row of so many bytes or words at most, the shortest first."""
    for length in range(longest + 1):
        for parts in itertools.product(alphabet, repeat=length):
            yield before + "".join(parts) + after


def short_lines():
    return in_turn([short(*row) for row in SHORT])


# ---- the limits

BYTE_COUNTS = [model.MOST_BYTES + step for step in [-1, 0, 1, 2]]
RECORD_COUNTS = [model.MOST_RECORDS + step for step in [-1, 0, 1, 2, 700]]
USUAL_PAGE = "#constraints\npointp\np=(1,2)\nradius(c, sqrt(2))\n\n#guesses\np roughly 1\nc.center roughly (1, 2)\n"

# A page in two parts, between which a filler repeated brings it to a size.
GROWING = [
    (USUAL_PAGE, " ", ""),
    (USUAL_PAGE, "\t", "x"),
    (USUAL_PAGE, "x", ""),
    (USUAL_PAGE, "\n", ""),
    (USUAL_PAGE, " ", "\xff"),
    (USUAL_PAGE, "\xff", ""),
    ("#", " ", USUAL_PAGE[1:]),
    ("#", "\t", "constraint" + USUAL_PAGE[12:]),
    ("#constraints\n", " ", USUAL_PAGE[13:]),
    ("#constraints\n", "\t", "\n" + USUAL_PAGE[13:]),
    ("#constraints\npoint", "p", USUAL_PAGE[19:]),
    ("#constraints\npoint", "p", " " + USUAL_PAGE[19:]),
    ("#constraints\np.x=", "0", "1" + FROM_INSTRUCTION),
    ("#constraints\np.x=0.", "0", FROM_INSTRUCTION),
    ("#constraints\np.x=", "7", FROM_INSTRUCTION),
    ("#constraints\np.x=1e-", "0", "22" + FROM_INSTRUCTION),
    ("#constraints\np.x=1e", "9", FROM_INSTRUCTION),
    ("#constraints\nis_arc(", " ", "a)" + FROM_INSTRUCTION),
    ("#constraints\nhorizontal(a,b", "\t", ")" + FROM_INSTRUCTION),
    ("#constraints\nline(a,b", " ", ")" + FROM_INSTRUCTION),
    ("#constraints\npointp\n\n", " ", "#guesses\np roughly 1"),
    (TO_GUESS + "p roughly", " ", "(1,2)"),
    (TO_GUESS + "p.", "q", " roughly 1\n"),
    (TO_GUESS + "p", "q", " roughly"),
    ("", "#", ""),
    ("", "\0", ""),
    ("", "\xff", ""),
    ("", "\n", "#constraints\n"),
]


def grown(before, filler, after, size):
    """The two parts with fillers of one byte between them, of this size."""
    count = size - len(before) - len(after)
    return before + filler * count + after


def byte_limits():
    for size in BYTE_COUNTS:
        for before, filler, after in GROWING:
            yield grown(before, filler, after, size)
    yield "#constraints\nradius(c," + "sqrt(" * 6000 + "4" + FROM_INSTRUCTION
    yield USUAL_PAGE * 500
    yield grown(USUAL_PAGE, " ", "", 2 * model.MOST_BYTES)


# What stands after the last instruction, in place of the heading's letters, and after the last guess: later faults.
NO_FAULT = ("", "guesses", "")
TEXT_LEFT = ("", "guesses", "\n\nx")
LATER_FAULTS = [
    NO_FAULT,
    TEXT_LEFT,
    ("", "guesses", "\n"),
    (" ", "guesses", "\n"),
    ("\nlinep", "guesses", "\n"),
    ("", "guess", "\n"),
    ("", "guesses\n", "\n"),
    ("\np.x=1e23", "guesses", "\n"),
    ("\nradius(c," + "sqrt(" * 9 + "4", "guesses", "\n"),
    ("", "guesses", "\nq roughly -inf"),
    ("", "guesses", "\nq roughly (1,2e)\n"),
    ("", "guesses", "\nq roughly"),
    ("", "guesses", " \xff"),
]


def counted(count, fault):
    """Pages of so many records, made of single records, of pairs, of guesses, and of all."""
    last, heading, end = fault
    middle = last + "\n\n#" + heading + "\n"
    yield "#constraints\n" + "\n".join(["arca"] * (count - 1)) + middle + "p roughly 1" + end
    odd_one = ["pointp"] * (count % 2 == 0)
    yield "#constraints\n" + "\n".join(odd_one + ["p=(1,2)"] * ((count - 1) // 2)) + middle + "p roughly 1" + end
    yield "#constraints\npointp" + middle + "\n".join(["p roughly 1"] * (count - 1)) + end
    guesses = ["p roughly (1,2)", "q roughly 3"] * (count // 8)
    yield "#constraints\n" + "\n".join(["arca"] * (count - len(guesses) - 2) + ["p=(1,2)"]) + middle + "\n".join(guesses) + end


def record_limits():
    for fault in LATER_FAULTS:
        for count in RECORD_COUNTS:
            yield from counted(count, fault)
    most = (model.MOST_BYTES - len(TO_INSTRUCTION) - len(FROM_INSTRUCTION) + 1) // len("p=(1,2)\n")
    yield TO_INSTRUCTION + "\n".join(["p=(1,2)"] * most) + FROM_INSTRUCTION
    yield TO_INSTRUCTION + "\n".join(["p=(1,2)"] * most) + "\n" + FROM_INSTRUCTION


def small_texts():
    """Texts of one byte, and a page cut after each of its bytes."""
    yield ""
    for byte in range(256):
        yield chr(byte)
    for page in [USUAL_PAGE, model.PAGE.decode()]:
        for end in range(len(page)):
            yield page[:end]


# ---- what tells most: instructions, guesses and pages at which a reader slips easily

TELLING_INSTRUCTIONS = [
    "pointer = (1, 2)", "point.x = 1", "point.center.x = 0", "point = (1, 2)", "point", "point ", "points.x = 1",
    "pointp.x=1e", "arcs", "arc1", "arc 1", "arc.x=1", "arc_x", "circle1.y=2", "circlec.center.x=0", "nan.x=0",
    "inf.center.y = 1", "sqrt = (1,2)", "p.x=i", "p.x=-nan", "p.x=1east", "p.x=1e5e", "p.x=+-1", "p.x=0e23",
    "p.x=10e-23", "p.x=1e00000000000000000000022", "p.x=0.1", "p.x=.3", "p.x = 1 ", "p.x.y = (1,2)", "p. x = 1",
    "p .x = 1", "p.z = 1", "p. = (1,2)", ".x = 1", "p.x=", "p=(1 ,2)", "p=(1,2 )", "p=( 1,\t2)", "p=(,2)",
    "p.center.x = (1,2)", "p.center = (1,2)", "p.center.z=1", "p.centerx=(1,2)", "p.xx = (1,2)", "p.xx = 1",
    "p.x= (1,2)", "p.q = 1", "line(a, b)", "line (a,b)", "lines(a,b)", "line(a,b,c)", "line(a.x,b)", "tangent(a,b,c )",
    "is_arc(a )", "is_arc( a)", "arc_radius(a,1 )", "midpoint(a,b,c )", "symmetric(a,b,c,d )",
    "point_line_distance(p,a,b,1 )", "distance(a,b,1 )", "distance(a,b , 1)", "radius(c,1 )",
    "lines_at_angle(a,b,c,d,1deg )", "lines_at_angle(a,b,c,d,1 deg)", "lines_at_angle(a,b,c,d,1)",
    "lines_at_angle(a,b,c,d,1e5rad)", "lines_at_angle(a,b,c,d,1erad)", "arc_radius(a,sqrt(4))", "arc_length(a,sqrt(4))",
    "p=(sqrt(4),1)", "radius(c,sqrt( 4))", "radius(c,sqrt(4 ))", "radius(c,sqrt (4))", "radius(c,-sqrt(4))", "pointp\n",
    "pointp\n ", "pointp\n \npointq", "pointp\n\npointq", "pointp\n\tpointq", "pointp\r\npointq",
    "pointp\npointer = (1,2)", "\npointp", " \npointp",
]
for depth in [8, 9]:
    inside = ["", "4", "4" + ")" * depth, "4" + ")" * (depth + 1), "1e", "sqrt2", "i"]
    TELLING_INSTRUCTIONS += ["radius(c," + "sqrt(" * depth + core for core in inside]
TELLING_GUESSES = [
    "p roughly 1\nq roughly no", "p roughly 1\nq roughly (1e,2)", "p roughly 1\nz\nq roughly nan", "nan roughly 1",
    "roughly roughly 1", "proughly 1", "p roughly 1\n z", "p roughly 1\n", "p roughly 1\n\n", "p roughly 1 \n",
    "p roughly 1\n \n", "p roughly 1\n\t", "p roughly 1\xc3\xa9", "p roughly 1\r\n", "p roughly 1\n\nq roughly 2",
    "p roughly1", "p roughly(1,2)", "p  roughly\t(1,2)", "p.x.y roughly 1", "p. roughly 1", "p roughly (1 ,2)",
    "p roughly (1,2", "p roughly (1,2)x", "p roughly sqrt(4)", "p roughly 1\nq roughly (1,2\nr roughly 3",
    "p roughly (1,2)\nq roughly 1\nr roughly (3,4)\ns roughly 2", "", " ", "\n", "\np roughly 1", "p roughly i",
    "p roughly (1, n)",
]
TELLING_PAGES = [
    "# constraints \npointp\n\n#guesses\np roughly 1", "#constraints\r\npointp\n\n#guesses\np roughly 1",
    " #constraints\n", "#\tconstraints\n", "#constraints", "#constraint\n", "constraints\n", "#constraints\npointp\n\n",
    "#constraints\npointp\n\n #guesses", "#constraints\npointp\n\n#guesses \np roughly 1",
    "#constraints\npointp\n\n\n#guesses\np roughly 1", "#constraints\npointp\n\n\t# \tguesses\np roughly 1",
    "#constraints\npointp\n\n#guesses", "#constraints\npointp\n\n#guesses\n", "#constraints\npointp\n\n#guess\n",
    "CASE 3\nabc\n", ".\n", "LIST 0\n\n",
]


def marked_texts():
    """Document 01's page and marked cases, and the texts that tell most."""
    texts = [TO_INSTRUCTION + line + FROM_INSTRUCTION for line in TELLING_INSTRUCTIONS]
    texts += [TO_GUESS + lines for lines in TELLING_GUESSES] + TELLING_PAGES
    return [model.PAGE, model.PAGE[:-1]] + [text for _, text, _ in model.MARKED] + [text.encode("latin-1") for text in texts]


# ---- all of them

# How often each family has its turn.
TURNS = ["limits", "seams"] + ["short", "damaged", "good", "short", "damaged", "numbers"] * 2
TURNS += ["short", "good", "short", "damaged", "good", "short"]


def families(draw):
    """Each family by its name."""
    encoded = lambda texts: (text.encode("latin-1") for text in texts)
    return {
        "limits": encoded(in_turn([record_limits(), byte_limits(), small_texts()])),
        "seams": encoded(seams()),
        "short": encoded(short_lines()),
        "numbers": numbers_in_pages(),
        "good": good_pages(draw),
        "damaged": damaged_pages(draw),
    }


def all_texts():
    """Texts without end, each with the name of its family and whether it is read whole."""
    for text in marked_texts():
        yield "marked", False, text
        yield "marked", True, text
    draw = Draw(20240613)
    left = families(draw)
    for name in itertools.cycle(TURNS):
        text = next(left[name], None)
        if text is None:
            continue
        if name == "limits":
            yield name, False, text
            yield name, True, text
        else:
            yield name, draw.below(2) == 1, text


def texts(count):
    return itertools.islice(all_texts(), count)


def entry(whole, text):
    """A text as it stands in a batch."""
    return b"%s %d\n%s\n" % (b"LIST" if whole else b"CASE", len(text), text)


if __name__ == "__main__":
    if len(sys.argv) != 2 or not sys.argv[1].isdigit():
        sys.exit(__doc__.rstrip())
    for _, whole, text in texts(int(sys.argv[1])):
        sys.stdout.buffer.write(entry(whole, text))
