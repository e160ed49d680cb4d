#!/usr/bin/env python3
"""Drawings for the check and the lowering: passing ones, damaged ones, and those at the limits, the same bytes every time.

  drawings.py REPLAY [COUNT]   hold REPLAY, a command that answers batches (for instance "./desk replay"), against the
                               model (drawing.py) on COUNT drawings (10,000), each asked CHECK and ROWS

The exit status is 1 where anything differs.
"""
import collections
import itertools
import re
import sys

sys.dont_write_bytecode = True
import compare
import drawing
import model
import pages

USUAL_COUNT = 10000
CHUNK = 500
SEED = 2024

# The forms of the rules, as in pages.py, but that P, C, A and R are the labels of a point, a circle, an arc, and one of
# these two.
RULES = [
    "~P|.|x~=~%|",
    "~P|.|y~=~%|",
    "~P~=~(~%|,~%|)|",
    "~R|.|center|.|x~=~%|",
    "~R|.|center|.|y~=~%|",
    "~R|.|center~=~(~%|,~%|)|",
    "~horizontal~(~P~,~P~)|",
    "~vertical~(~P~,~P~)|",
    "~coincident~(~P~,~P~)|",
    "~line~(~P~,~P|)|",
    "~distance~(~P~,~P~,~$|)|",
    "~midpoint~(~P~,~P~,~P~)|",
    "~point_line_distance~(~P~,~P~,~P~,~%~)|",
    "~symmetric~(~P~,~P~,~P~,~P~)|",
    "~parallel~(~P~,~P~,~P~,~P~)|",
    "~perpendicular~(~P~,~P~,~P~,~P~)|",
    "~lines_equal_length~(~P~,~P~,~P~,~P~)|",
    "~lines_at_angle~(~P~,~P~,~P~,~P~,~%|deg|)|",
    "~lines_at_angle~(~P~,~P~,~P~,~P~,~%|rad|)|",
    "~point_arc_coincident~(~P~,~A~)|",
    "~tangent~(~P~,~P~,~C|)|",
    "~radius~(~C~,~$|)|",
    "~arc_radius~(~A~,~%|)|",
    "~arc_length~(~A~,~%|)|",
    "~is_arc~(~A|)|",
]
DECLARED = {"P": "~point^@|", "C": "~circle^@|", "A": "~arc^@|"}
GUESSED = {
    "P": ["~@^roughly~(~%|,~%|)"],
    "C": ["~@|.|center^roughly~(~%|,~%|)", "~@|.|radius^roughly~%"],
    "A": ["~@|.|a^roughly~(~%|,~%|)", "~@|.|b^roughly~(~%|,~%|)", "~@|.|center^roughly~(~%|,~%|)"],
}
# No label begins with the word of a declaration, which an assignment couldn't name then.
PLAIN = "p q r s t u v w p0 p1 3d 42z 9z hole corner Q A1b2".split()
LIKE_WORDS = "a b x y center radius deg roughly line tangent 0 1 e5".split()
LABELS = PLAIN + LIKE_WORDS


class Writer(pages.Writer):
    """Writes drawings that pass, but for a number in eighty."""

    def shuffled(self, lines):
        lines = list(lines)
        for at in range(len(lines)):
            to = self.draw.between(at, len(lines) - 1)
            lines[at], lines[to] = lines[to], lines[at]
        return lines

    def marked(self, form, labels):
        """A form with its marks replaced: a label's mark by one of these labels."""
        gives = {"%": self.number, "$": self.expression}
        write = lambda mark: self.draw.one_of(labels[mark]) if mark in labels else gives[mark]() if mark in gives else mark
        return "".join(self.seam(mark) if mark in pages.SEAMS else write(mark) for mark in form)

    def shapes(self, most):
        """The labels of each shape, of which there is at least one."""
        labels, shapes = self.shuffled(LABELS), {"P": [], "C": [], "A": []}
        for label in labels[: self.draw.between(1, most)]:
            shapes[self.draw.one_of("PPPCA")].append(label)
        return shapes

    def parts(self):
        """The instructions and the guesses of a drawing, as lines."""
        shapes = self.shapes(self.draw.one_of([1, 3, 8, 12]))
        labels = {mark: found for mark, found in shapes.items() if found}
        if shapes["C"] + shapes["A"]:
            labels["R"] = shapes["C"] + shapes["A"]
        rules = [form for form in RULES if all(mark in labels for mark in form if mark in "PCAR")]
        lines = [self.marked(DECLARED[mark], {"@": [label]}) for mark in shapes for label in shapes[mark]]
        lines += [self.marked(self.draw.one_of(rules), labels) for _ in range(self.draw.below(12)) if rules]
        guesses = [self.marked(form, {"@": [label]}) for mark in shapes for label in shapes[mark] for form in GUESSED[mark]]
        return self.shuffled(lines), self.shuffled(guesses)

    def swapped_label(self, lines):
        """The lines with a plain label of one of them, if it has one, replaced by another."""
        at = self.draw.below(len(lines))
        found = [label for label in PLAIN if re.search(r"\b%s\b" % label, lines[at])]
        if not found:
            return lines
        damaged = re.sub(r"\b%s\b" % self.draw.one_of(found), self.draw.one_of(LABELS), lines[at], count=1)
        return lines[:at] + [damaged] + lines[at + 1 :]

    def one_less(self, lines):
        """The lines without one of them, if one is left then."""
        at = self.draw.below(len(lines))
        return lines[:at] + lines[at + 1 :] or lines

    def one_more(self, lines):
        return self.shuffled(lines + [self.draw.one_of(lines)])

    def other_sort(self, guesses):
        """The guesses with one of them of the other sort."""
        at = self.draw.below(len(guesses))
        label, _, number = guesses[at].partition("roughly")
        return guesses[:at] + [label + "roughly" + (" 1" if "(" in number else " (1, 2)")] + guesses[at + 1 :]

    def damaged(self, lines, guesses):
        """The lines and guesses with a damage that the reading doesn't see."""
        way = self.draw.one_of([self.swapped_label, self.swapped_label, self.one_less, self.one_more])
        if self.draw.below(2):
            return way(lines), guesses
        return lines, (self.other_sort if self.draw.below(5) == 0 else way)(guesses)

    def drawing(self, damages):
        lines, guesses = self.parts()
        for _ in range(damages):
            lines, guesses = self.damaged(lines, guesses)
        return self.of_lines(lines, guesses)

    def of_lines(self, lines, guesses):
        page = self.line(pages.FIRST_HEADING) + "\n".join(lines)
        return (page + self.line(pages.LATER_HEADING) + "\n".join(guesses) + "\n").encode("latin-1")


def drawings(count):
    """So many drawings: of four, two pass, one is damaged, and one is damaged again and again or as a text."""
    draw = pages.Draw(SEED)
    writer = Writer(draw)
    for at in range(count):
        text = writer.drawing([0, 0, 1, draw.below(4)][at % 4])
        yield pages.damaged_once(draw, text) if at % 16 == 3 else text


# ---- the limits

SIGNS = "0123456789abcdefghijklmnopqrstuvwxyzABCDEFGHIJKLMNOPQRSTUVWXYZ"


def short_labels(count):
    return ["".join(pair) for pair in itertools.islice(itertools.product(SIGNS, repeat=2), count)]


def of_arcs(labels, rules):
    """A drawing of arcs with these labels, with so many rules."""
    lines = ["arc" + label for label in labels] + ["is_arc(%s)" % labels[at % len(labels)] for at in range(rules)]
    guesses = ["%s.%s roughly(%d,1)" % (label, part, at) for at, label in enumerate(labels) for part in ("a", "b", "center")]
    return drawing.page("\n".join(lines), "\n".join(guesses))


def of_points(labels, rules):
    """A drawing of points with these labels, with so many rules."""
    lines = ["point" + label for label in labels] + ["%s.y=%d" % (labels[-1 - at % len(labels)], at) for at in range(rules)]
    return drawing.page("\n".join(lines), "\n".join("%s roughly(%d,1)" % (label, at) for at, label in enumerate(labels)))


def limits():
    """Drawings of 1,800 records, with the most slots and with many rows, and of one record more."""
    return [of_arcs(short_labels(450), 0), of_points(short_labels(500), 800), of_points(short_labels(500), 801)]


# ---- batches


def answers(text):
    """What is due to a text under each header."""
    answer = model.read(text, True)
    return [(b"CHECK", drawing.check(answer)), (b"ROWS", drawing.rows(answer))]


def blocks(texts):
    """Each text under each header, and the answer due."""
    return [(b"%s %d\n%s\n" % (word, len(text), text), due) for text in texts for word, due in answers(text)]


def by_hand():
    return [drawing.PLATE] + [drawing.page(lines, guesses) for lines, guesses, _ in drawing.BY_HAND]


def compared(command, texts):
    """How many blocks of each outcome there are; those that differ are printed, and counted under False."""
    outcomes = collections.Counter()
    due = blocks(texts)
    told = compare.blocks(command, b"".join(block for block, _ in due), len(due))
    outcomes[False] += len(told) != len(due)
    for (block, answer), found in zip(due, told):
        outcomes[b" ".join(answer.split(b"\n")[0].split(b" ")[: 2 if answer.startswith(b"refused") else 1])] += 1
        if found + b"\n" != answer:
            outcomes[False] += 1
            sys.stdout.write("differs: %r\n due: %r\n told: %r\n" % (block, answer, found))
    return outcomes


def main():
    if len(sys.argv) not in (2, 3):
        sys.exit(__doc__.rstrip())
    texts = by_hand() + limits() + list(drawings(int(sys.argv[2]) if len(sys.argv) == 3 else USUAL_COUNT))
    outcomes = collections.Counter()
    for at in range(0, len(texts), CHUNK):
        outcomes += compared(sys.argv[1].split(), texts[at : at + CHUNK])
    for outcome, count in sorted(outcomes.items(), key=str):
        print("%8d  %s" % (count, outcome.decode() if outcome else "DIFFER"))
    sys.exit(1 if outcomes[False] else 0)


if __name__ == "__main__":
    main()
