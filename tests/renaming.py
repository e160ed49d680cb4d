#!/usr/bin/env python3
"""Drawings that differ by the names of their shapes: they are lowered to the same, byte for byte. The same pages every time.

  renaming.py REPLAY [COUNT]   ask REPLAY, a command that answers batches (for instance "./desk replay"), for the rows of
                               COUNT pairs (20,000), and hold the two answers of a pair against each other and against the
                               model (drawing.py)

A page is made with a mark in the place of each shape's label, and filled with names twice. That a pair is what the user
means, one drawing and the same renamed, is asked of its records (model.py). The exit status is 1 where anything differs.
"""
import collections
import itertools
import sys

sys.dont_write_bytecode = True
import compare
import drawing
import drawings
import model
import pages

USUAL_COUNT = 20000
CHUNK = 250
SEED = 1212
FIRST_MARK = 0xC0
LONGEST_NAME = 40
# An assignment can't name what begins so: it reads as a declaration.
DECLARING = ("point", "circle", "arc")


class Writer(drawings.Writer):
    """Writes drawings with a mark in the place of each shape's label, and fills them."""

    def shapes(self, most):
        shapes = {"P": [], "C": [], "A": []}
        for mark in range(self.draw.between(1, most)):
            shapes[self.draw.one_of("PPPCA")].append(chr(FIRST_MARK + mark))
        return shapes

    def new_name(self):
        signs = drawings.SIGNS
        name = "".join(self.draw.one_of(signs) for _ in range(self.draw.between(1, self.draw.one_of([1, 3, LONGEST_NAME]))))
        return self.new_name() if name.startswith(DECLARING) else name

    def other_names(self, names):
        """As many names, no two alike: the same exchanged, new ones, or some of both. One at least is another."""
        taken = self.shuffled(names)[: self.draw.one_of([0, len(names) // 2, len(names)])]
        while len(taken) < len(names):
            name = self.new_name()
            if name not in taken:
                taken.append(name)
        others = self.shuffled(taken)
        return self.other_names(names) if others == names else others

    def pair(self):
        """A drawing, the same renamed, and what each name became."""
        page = self.drawing(0)
        marks = sorted(byte for byte in set(page) if byte >= FIRST_MARK)
        names = self.shuffled(drawings.LABELS)[: len(marks)]
        others = self.other_names(names)
        return filled(page, marks, names), filled(page, marks, others), dict(zip(encoded(names), encoded(others)))


def encoded(names):
    return [name.encode() for name in names]


def filled(page, marks, names):
    for mark, name in zip(marks, encoded(names)):
        page = page.replace(bytes([mark]), name)
    return page


# ---- the limits


def limits():
    """The smallest drawing, and those with the most slots and the most records, by other names."""
    one = ("point %s", "%s roughly (1, 2)")
    yield tuple(drawing.page(*(line % name for line in one)) for name in ("p", "P0")) + ({b"p": b"P0"},)
    for make, count, rules in [(drawings.of_arcs, 450, 0), (drawings.of_points, 500, 800)]:
        names = drawings.short_labels(count)
        others = names[1:] + names[:1]
        yield make(names, rules), make(others, rules), dict(zip(encoded(names), encoded(others)))


# ---- pairs


def renamed(label, becomes):
    """A label with its shape renamed, the part after a dot kept."""
    shape, dot, part = label.partition(b".")
    return becomes[shape] + dot + part


def differs_by_names(records, others, becomes):
    """Whether there are as many records, equal but for labels, and each label becomes the other's, no two names one."""
    fields = lambda record: (record.kind, record.third, record.bits)
    return (
        len(records) == len(others)
        and len(set(becomes.values())) == len(becomes)
        and all(fields(a) == fields(b) for a, b in zip(records, others))
        and all([renamed(label, becomes) for label in a.labels] == b.labels for a, b in zip(records, others))
    )


def made():
    """Pairs without end. About one in ten does not read, by its numbers."""
    writer = Writer(pages.Draw(SEED))
    while True:
        yield writer.pair()


def refused_by(answer):
    """The number that a reading was refused by, or None."""
    return answer[1] if answer[0] == "refused" else None


def good(pairs):
    """The pairs that read, each with the rows due to both. It stops where a pair is none, or does not pass, or where the
    two are not refused by one number."""
    for first, second, becomes in pairs:
        one, other = (model.read(text, True) for text in (first, second))
        assert first != second and refused_by(one) == refused_by(other), (first, second)
        if refused_by(one) is None:
            assert differs_by_names(drawing.records_of(one[3]), drawing.records_of(other[3]), becomes), (first, second)
            due = drawing.rows(one)
            assert due.startswith(b"lowered") and due == drawing.rows(other), (first, second)
            yield first, second, due


def compared(command, chunk, counts):
    """How many of these pairs differ; they are printed."""
    texts = [text for first, second, _ in chunk for text in (first, second)]
    told = compare.blocks(command, b"".join(b"ROWS %d\n%s\n" % (len(text), text) for text in texts), len(texts))
    differ = len(told) != len(texts)
    for (first, second, due), ours, theirs in zip(chunk, told[::2], told[1::2]):
        counts["pairs with an arc"] += b" arcs 0 " not in due
        counts["rows"] += due.count(b"\nrow ")
        if not ours == theirs == due[:-1]:
            differ += 1
            print("differs: %r\n and %r\n due: %r\n told: %r\n and %r" % (first, second, due, ours, theirs))
    return differ


def main():
    if len(sys.argv) not in (2, 3):
        sys.exit(__doc__.rstrip())
    count = int(sys.argv[2]) if len(sys.argv) == 3 else USUAL_COUNT
    pairs = list(itertools.islice(good(itertools.chain(limits(), made())), count))
    counts, differ = collections.Counter(), 0
    for at in range(0, len(pairs), CHUNK):
        differ += compared(sys.argv[1].split(), pairs[at : at + CHUNK], counts)
    for name in sorted(counts):
        print("%8d  %s" % (counts[name], name))
    print("%d pairs, %d differences" % (len(pairs), differ))
    sys.exit(1 if differ else 0)


if __name__ == "__main__":
    main()
