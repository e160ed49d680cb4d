#!/usr/bin/env python3
"""The check and the lowering of a drawing as document 01 has them: what `checking` and `rows` must print.

  drawing.py --check   hold them against pages whose answers were worked out by hand

They go by the listing of a page (model.py): a record is its line's words.
"""
import sys

sys.dont_write_bytecode = True
import model

POINT, CIRCLE, ARC = 1, 2, 3
SHAPES = (POINT, CIRCLE, ARC)
ASSIGNED, CENTER = 4, 18
RULES = range(4, 24)
PAIR, NUMBER = 24, 25

# A shape's parts: what stands behind its label, and the kind of guess that is due.
PARTS = {
    POINT: [(b"", PAIR)],
    CIRCLE: [(b".center", PAIR), (b".radius", NUMBER)],
    ARC: [(b".a", PAIR), (b".b", PAIR), (b".center", PAIR)],
}

# The shapes of each rule's labels; one of several for kind 18.
NEEDS = {kind: [(POINT,)] * 4 for kind in RULES}
NEEDS.update({12: [(POINT,), (ARC,)], 15: [(CIRCLE,)], 16: [(POINT,), (POINT,), (CIRCLE,)], 18: [(CIRCLE, ARC)]})
NEEDS.update({kind: [(ARC,)] for kind in (17, 20, 23)})

# How many labels a kind has, and what stands behind them.
LABELS = {4: 1, 5: 2, 6: 2, 7: 2, 8: 4, 9: 4, 10: 4, 11: 2, 12: 2, 13: 3, 14: 4, 15: 1, 16: 3, 17: 1, 18: 1, 19: 4}
LABELS.update({20: 1, 21: 3, 22: 2, 23: 1})
AXES = {b"x": 0, b"y": 1}


class Record:
    """A record by the words of its line."""

    def __init__(self, words):
        self.kind = int(words[0])
        count = LABELS.get(self.kind, 1)
        self.labels, rest = words[1 : 1 + count], words[1 + count :]
        self.third = rest.pop(0) if rest and rest[0] in (b"x", b"y", b"deg", b"rad") else None
        self.bits = rest


def records_of(lines):
    return [Record(line.split(b" ")) for line in lines]


# ---- the check


def assignable(shapes):
    """The labels that kind 4 may have: a point, or the center of a circle or an arc."""
    return {label if shape == POINT else label + b".center" for label, shape in shapes.items()}


def label_is_wrong(record, shapes):
    if record.kind == ASSIGNED:
        return record.labels[0] not in assignable(shapes)
    return any(shapes.get(label) not in needed for label, needed in zip(record.labels, NEEDS[record.kind]))


def parts_of(shapes):
    """Each part's label, and the kind of guess that is due for it."""
    return {label + suffix: guess for label, shape in shapes.items() for suffix, guess in PARTS[shape]}


def faults(records):
    """Each fault as its number and its record, in the order of the check. Behind 30, which no page that reads can have."""
    shapes, declared, guessed = {}, [], []
    for record in records:
        if record.kind in SHAPES:
            shapes.setdefault(record.labels[0], record.kind)
    for at, record in enumerate(records):
        label = record.labels[0]
        if record.kind in SHAPES:
            if label in declared:
                yield 31, at
            declared.append(label)
        elif record.kind in RULES:
            if label_is_wrong(record, shapes):
                yield 32, at
        else:
            if parts_of(shapes).get(label) != record.kind:
                yield 33, at
            if label in guessed:
                yield 34, at
            guessed.append(label)
    for at, record in enumerate(records):
        if record.kind in SHAPES:
            if any(record.labels[0] + suffix not in guessed for suffix, _ in PARTS[record.kind]):
                yield 35, at


def counts(records):
    """How many points, circles, arcs and rules."""
    return [sum(record.kind == shape for record in records) for shape in SHAPES] + [sum(record.kind in RULES for record in records)]


def check(answer):
    """What `checking` prints for a whole reading."""
    if answer[0] == "refused":
        return b"refused %d %d\n" % answer[1:]
    records = records_of(answer[3])
    found = sorted(faults(records))
    if found:
        return b"refused %d %d\n" % found[0]
    return b"passed points %d circles %d arcs %d rows %d\n" % tuple(counts(records))


# ---- the lowering


def slots_of(records):
    """The name of each slot, in order: a part's label, and x, y or nothing."""
    return [
        (record.labels[0] + suffix, axis)
        for shape in SHAPES
        for record in records
        if record.kind == shape
        for suffix, guess in PARTS[shape]
        for axis in ((b"x", b"y") if guess == PAIR else (None,))
    ]


def named_by(record, label, slots, next_id):
    """The ids of the slots that a label of a rule names."""
    if record.kind in (ASSIGNED, CENTER):
        part = label + (b".center" if record.kind == CENTER else b"")
        return [next_id + at for at, slot in enumerate(slots) if slot == (part, record.third)]
    return [next_id + at for at, (part, _) in enumerate(slots) if part.split(b".")[0] == label]


def rows(answer, next_id=0):
    """What `rows` prints for a whole reading."""
    told = check(answer)
    if told.startswith(b"refused"):
        return told
    records = records_of(answer[3])
    points, circles, arcs, _ = counts(records)
    slots = slots_of(records)
    guesses = {record.labels[0]: record.bits for record in records if record.kind in (PAIR, NUMBER)}
    lines = [b"lowered points %d circles %d arcs %d next %d" % (points, circles, arcs, next_id + len(slots))]
    for at, (part, axis) in enumerate(slots):
        lines.append(b"slot %d %s" % (next_id + at, guesses[part][AXES.get(axis, 0)]))
    for record in records:
        if record.kind in RULES:
            ids = [b"%d" % n for label in record.labels for n in named_by(record, label, slots, next_id)]
            third = [record.third] if record.third else []
            lines.append(b" ".join([b"row %d" % record.kind] + ids + third + record.bits))
    return b"".join(line + b"\n" for line in lines)


# ---- pages worked out by hand

# Two points, a vent hole and a round corner: slots 0 to 3 are the points', 4 to 6 the hole's, 7 to 12 the corner's.
PLATE = b"""# constraints
point p
point q
circle hole
arc corner
p = (0, 0)
horizontal(p, q)
radius(hole, 2)
hole.center = (3, 4)
is_arc(corner)
arc_radius(corner, 5)
corner.center.y = 1
point_arc_coincident(q, corner)
tangent(p, q, hole)

# guesses
p roughly (0, 0)
q roughly (10, 0)
hole.center roughly (3, 4)
hole.radius roughly 2
corner.a roughly (10, 0)
corner.b roughly (15, 5)
corner.center roughly (10, 5)
"""

PLATE_ROWS = b"""lowered points 2 circles 1 arcs 1 next 13
slot 0 0000000000000000
slot 1 0000000000000000
slot 2 4024000000000000
slot 3 0000000000000000
slot 4 4008000000000000
slot 5 4010000000000000
slot 6 4000000000000000
slot 7 4024000000000000
slot 8 0000000000000000
slot 9 402e000000000000
slot 10 4014000000000000
slot 11 4024000000000000
slot 12 4014000000000000
row 4 0 x 0000000000000000
row 4 1 y 0000000000000000
row 6 0 1 2 3
row 15 4 5 6 4000000000000000
row 4 4 x 4008000000000000
row 4 5 y 4010000000000000
row 20 7 8 9 10 11 12
row 17 7 8 9 10 11 12 4014000000000000
row 18 12 y 3ff0000000000000
row 12 2 3 7 8 9 10 11 12
row 16 0 1 2 3 4 5 6
"""

# The lines of a page, its guesses, and what is told, worked out by hand.
BY_HAND = [
    # each number alone
    ("point p\ncircle p", "p roughly (0, 0)\np.center roughly (0, 0)\np.radius roughly 1", (31, 1)),
    ("point p\nvertical(p, q)", "p roughly (0, 0)", (32, 1)),
    ("point p\nradius(p, 1)", "p roughly (0, 0)", (32, 1)),
    ("point p\np.x = (1, 2)", "p roughly (0, 0)", (32, 1)),
    ("arc a\na.a = (1, 2)", "a.a roughly (0, 0)\na.b roughly (0, 0)\na.center roughly (0, 0)", (32, 1)),
    ("circle c\nc = (1, 2)", "c.center roughly (0, 0)\nc.radius roughly 1", (32, 1)),
    ("point p\np.center.x = 1", "p roughly (0, 0)", (32, 1)),
    ("point p", "p roughly (0, 0)\nq roughly (0, 0)", (33, 2)),
    ("point p", "p roughly 1", (33, 1)),
    ("circle c", "c.center roughly (0, 0)\nc.radius roughly (1, 2)", (33, 2)),
    ("circle c", "c.center roughly (0, 0)\nc.radius roughly 1\nc roughly (1, 1)", (33, 3)),
    ("point p", "p roughly (0, 0)\np roughly (0, 0)", (34, 2)),
    ("point p\npoint q", "p roughly (0, 0)", (35, 1)),
    ("circle c", "c.center roughly (0, 0)", (35, 0)),
    ("arc a", "a.a roughly (0, 0)\na.center roughly (0, 0)", (35, 0)),
    # two neighbours of the order, the later number at the lower record
    ("point p\nvertical(p, q)\npoint p", "p roughly (0, 0)", (31, 2)),
    ("point p\nvertical(p, p)\nvertical(p, q)", "q roughly (0, 0)\np roughly (0, 0)", (32, 2)),
    ("point p", "p roughly (0, 0)\np roughly (1, 1)\nq roughly (0, 0)", (33, 3)),
    ("point q\npoint p", "p roughly (0, 0)\np roughly (1, 1)", (34, 3)),
    # within one number the lowest record
    ("point p\npoint q\npoint p\npoint q", "p roughly (0, 0)\nq roughly (0, 0)", (31, 2)),
    ("point p\nline(z, p)\nline(p, z)", "p roughly (0, 0)", (32, 1)),
    ("point p\npoint q", "z roughly (0, 0)\ny roughly (0, 0)", (33, 2)),
    # a shape may be declared behind the rule that names it, and be called as a part is
    ("vertical(p, q)\npoint p\npoint q", "q roughly (0, 0)\np roughly (0, 0)", None),
    ("circle center\ncenter.center = (1, 2)", "center.center roughly (0, 0)\ncenter.radius roughly 1", None),
]


def page(instructions, guesses):
    return ("# constraints\n%s\n\n# guesses\n%s\n" % (instructions, guesses)).encode()


def check_by_hand():
    """Stops at the first page that is told otherwise."""
    assert rows(model.read(PLATE, True)) == PLATE_ROWS
    for instructions, guesses, told in BY_HAND:
        found = check(model.read(page(instructions, guesses), True))
        assert found.startswith(b"refused %d %d\n" % told if told else b"passed"), (instructions, guesses, found)
    print("the plate and %d pages worked out by hand" % len(BY_HAND))


if __name__ == "__main__":
    if sys.argv[1:] != ["--check"]:
        sys.exit(__doc__.rstrip())
    check_by_hand()
