#!/usr/bin/env python3
"""The lines that the program `pushes` is asked, and those that it answers, worked out from document 01's rules of the layout.

  pushes.py FOLDER    write FOLDER/stdin and FOLDER/stdout, the same bytes every time
  pushes.py --check   hold the model against sentences of document 01

A layout is three counts and a stage. Slots: all points (x, y), then circles (center x, center y, radius), then arcs
(a.x, a.y, b.x, b.y, center.x, center.y). Refusals 20 to 25 are told by number, at place 0. The lines that are asked:

  SAY ..            the rest of the line is printed
  LAYOUT P C A S    the layout has these counts, and stands at stage S: 0 points, 1 circles, 2 arcs, 3 done
  NEXT ID           the next id
  ROOM N M          N ids and M values are lent
  POINT V MORE      a push of a point, as CIRCLE and ARC are of theirs; its components rise by a quarter from V; MORE times again
                    with V + 1, V + 2 and so on; the last answer is printed
  DONE              the next stage
  FIND I            the lookups and the readouts of the shapes with number I
  IDS, VALUES       what is lent, from its first to its last
  UP ID             how many ids rise by one from ID
"""
import struct
import sys

STAGES = ["points", "circles", "arcs", "done"]
KINDS = ["point", "circle", "arc"]
SIZES = [2, 3, 6]
MOST = 4000
LARGEST_ID = 4294967294
SLOTS = MOST * sum(SIZES)
FAR = 2**64 - 1


# ---- the layout, by document 01


def slots(counts):
    return sum(count * size for count, size in zip(counts, SIZES))


def impossible(counts, stage):
    """A count over 4,000, circles at the points stage, or arcs before the arcs stage."""
    points, circles, arcs = counts
    over = max(counts) > MOST
    return over or stage == "points" and circles > 0 or stage in ("points", "circles") and arcs > 0


def told(tests):
    """The lowest number whose test holds, or none."""
    return min((number for number, holds in tests.items() if holds), default=None)


def push(counts, stage, kind, next_id, ids, values, components):
    """The answer, as a refusal's number or the new layout and next id; the lists are filled in place."""
    k = KINDS.index(kind)
    need = slots(counts) + SIZES[k]
    number = told(
        {
            20: impossible(counts, stage),
            21: stage != STAGES[k],
            22: counts[k] >= MOST,
            23: len(ids) < need or len(values) < need,
            24: LARGEST_ID + 1 - next_id < SIZES[k],
        }
    )
    if number:
        return number
    at = slots(counts)
    for i, component in enumerate(components):
        ids[at + i] = next_id + i
        values[at + i] = component
    counts = [count + (j == k) for j, count in enumerate(counts)]
    return counts, stage, next_id + SIZES[k]


def done(counts, stage):
    number = told({20: impossible(counts, stage), 21: stage == "done"})
    return number or (counts, STAGES[STAGES.index(stage) + 1])


def found(counts, stage, slice_, kind, i, start):
    """The part of a slice that shape i of a kind has, its kind beginning at a slot; or a refusal's number."""
    k = KINDS.index(kind)
    number = told({20: impossible(counts, stage), 23: len(slice_) < slots(counts), 25: i >= counts[k]})
    if number:
        return number
    at = start + SIZES[k] * i
    return slice_[at : at + SIZES[k]]


def starts(counts):
    points, circles, arcs = counts
    return {"point": 0, "circle": 2 * points, "arc": 2 * points + 3 * circles}


# ---- what is printed


def bits(x):
    return "%016x" % struct.unpack(">Q", struct.pack(">d", x))[0]


def refused(number):
    return f"refused {number} 0"


def show_layout(counts, stage):
    return " ".join(map(str, counts)) + " " + stage


def show_push(kind, answer):
    if isinstance(answer, int):
        return f"{kind} {refused(answer)}"
    counts, stage, next_id = answer
    return f"{kind} {show_layout(counts, stage)} {next_id}"


def show_done(answer):
    return "done " + (refused(answer) if isinstance(answer, int) else show_layout(*answer))


def show_part(name, part, show):
    return name + " " + (refused(part) if isinstance(part, int) else " ".join(map(show, part)))


def show_shapes(counts, stage, ids, values, i):
    start = starts(counts)
    yield f"number {i}"
    yield show_part("point_ids", found(counts, stage, ids, "point", i, start["point"]), str)
    yield show_part("circle_ids", found(counts, stage, ids, "circle", i, start["circle"]), str)
    yield show_part("arc_ids", found(counts, stage, ids, "arc", i, 2 * counts[0]), str)
    yield show_part("arc_slot_ids", found(counts, stage, ids, "arc", i, start["arc"]), str)
    for kind in KINDS:
        yield show_part(kind, found(counts, stage, values, kind, i, start[kind]), bits)


def components(kind, v):
    """They rise by a quarter from a first one."""
    return [v + i / 4 for i in range(SIZES[KINDS.index(kind)])]


# ---- the answers to lines


def answers(asks):
    ids, values = [7] * SLOTS, [9.5] * SLOTS
    counts, stage, next_id, n, m = [0, 0, 0], "points", 0, 0, 0
    for ask in asks:
        word, _, rest = ask.partition(" ")
        numbers = [] if word == "SAY" else [int(number) for number in rest.split()]
        if word == "SAY":
            yield rest
        elif word == "LAYOUT":
            counts, stage = numbers[:3], STAGES[numbers[3]]
        elif word == "NEXT":
            next_id = numbers[0]
        elif word == "ROOM":
            n, m = numbers
        elif word == "DONE":
            answer = done(counts, stage)
            yield show_done(answer)
            if not isinstance(answer, int):
                counts, stage = answer
        elif word.lower() in KINDS:
            lent, lent_values = ids[:n], values[:m]
            for more in range((numbers + [0])[1] + 1):
                answer = push(counts, stage, word.lower(), next_id, lent, lent_values, components(word.lower(), float(numbers[0] + more)))
                if not isinstance(answer, int):
                    counts, stage, next_id = answer
            ids[:n], values[:m] = lent, lent_values
            yield show_push(word.lower(), answer)
        elif word == "FIND":
            yield from show_shapes(counts, stage, ids[:n], values[:m], numbers[0])
        elif word == "IDS":
            yield " ".join(["ids"] + [str(i) for i in ids[:n]])
        elif word == "VALUES":
            yield " ".join(["values"] + [bits(x) for x in values[:m]])
        elif word == "UP":
            yield f"rising {next((i for i, x in enumerate(ids[:n]) if x != numbers[0] + i), n)}"
        else:
            sys.exit("no such line: " + ask)


# ---- the lines that are asked


def layout(counts, stage):
    return "LAYOUT " + " ".join(map(str, counts)) + f" {STAGES.index(stage)}"


def drawing():
    yield from ("SAY # drawing", "NEXT 10", "ROOM 14 14")
    yield from ("POINT 1", "POINT 3", "CIRCLE 5", "DONE", "POINT 7", "CIRCLE 9", "ARC 11", "DONE", "ARC 13", "ARC 15", "DONE", "ARC 17", "DONE")
    yield from ("IDS", "VALUES", "FIND 0", "FIND 1", "FIND 2", f"FIND {FAR}")
    yield "SAY # the slices just long enough, and short by one"
    yield from ("ROOM 13 13", "FIND 0", "ROOM 12 12", "FIND 0", "FIND 2")


def alone(counts, stage, kind, next_id, n, m):
    """A push to a layout, with n ids and m values lent."""
    yield from (layout(counts, stage), f"NEXT {next_id}", f"ROOM {n} {m}", f"{kind.upper()} 1")


def refusals_of(counts, stage):
    for kind, next_id in (("point", 0), ("circle", 0), ("arc", LARGEST_ID + 1)):
        yield from alone(counts, stage, kind, next_id, SLOTS, SLOTS)
    yield from (layout(counts, stage), "DONE", "ROOM 0 0", "FIND 0")


def layouts():
    yield "SAY # a count over the most"
    for counts, stage in (
        ([4001, 0, 0], "points"),
        ([0, 4001, 0], "circles"),
        ([0, 0, 4001], "arcs"),
        ([FAR, FAR, FAR], "done"),
    ):
        yield from refusals_of(counts, stage)
    yield "SAY # shapes before their stage, and the largest layout"
    for counts, stage in (
        ([0, 1, 0], "points"),
        ([0, 0, 1], "points"),
        ([0, 0, 1], "circles"),
        ([4000, 4000, 4000], "done"),
    ):
        yield from refusals_of(counts, stage)


def stages():
    yield "SAY # stages"
    for stage in STAGES:
        for kind in KINDS:
            yield from alone([0, 0, 0], stage, kind, 0, 6, 6)
        yield from (layout([0, 0, 0], stage), "DONE")


def bounds():
    yield "SAY # room"
    for counts, stage, kind, end in (
        ([3, 0, 0], "points", "point", 8),
        ([3, 2, 0], "circles", "circle", 15),
        ([3, 2, 1], "arcs", "arc", 24),
        ([4000, 4000, 3999], "arcs", "arc", SLOTS),
    ):
        for n, m in ((end, end), (end - 1, end), (end, end - 1)):
            yield from alone(counts, stage, kind, 0, n, m)
    yield "SAY # the last ids"
    for stage, kind, size in zip(STAGES, KINDS, SIZES):
        last = LARGEST_ID + 1 - size
        for next_id, n in ((last, 6), (last + 1, 6), (LARGEST_ID + 1, 6), (LARGEST_ID + 1, 1)):
            yield from alone([0, 0, 0], stage, kind, next_id, n, n)
    yield "SAY # full"
    yield from alone([4000, 0, 0], "points", "point", 0, SLOTS, SLOTS)
    yield from alone([0, 4000, 0], "circles", "circle", 0, SLOTS, SLOTS)
    yield from alone([0, 0, 4000], "arcs", "arc", LARGEST_ID + 1, 0, 0)
    yield from alone([0, 0, 4000], "arcs", "point", LARGEST_ID + 1, 0, 0)


def most():
    yield from ("SAY # the most shapes", layout([0, 0, 0], "points"), "NEXT 5", f"ROOM {SLOTS} {SLOTS}")
    for kind in KINDS:
        yield from (f"{kind.upper()} 0 {MOST}", "DONE")
    yield from ("UP 5", "FIND 0", f"FIND {MOST - 1}", f"FIND {MOST}")


def asked():
    for part in (drawing, layouts, stages, bounds, most):
        yield from part()


# ---- the model against the document


def check():
    assert 2 * MOST + 3 * MOST + 6 * MOST == SLOTS
    text = list(answers(asked()))
    # a refusal prints its number and the place 0, and each number from 20 to 25 is met
    numbers = {line.split()[-2] for line in text if "refused" in line}
    assert numbers == {"20", "21", "22", "23", "24", "25"}, numbers
    # the largest id given is 4,294,967,294: the counter ends one past it, and never further
    assert any(line.endswith(" 4294967295") for line in text)
    # in the drawing: two points, one circle, two arcs asked for, the second without room
    assert "arc refused 23 0" in text
    # arcs are looked up at 2P by arc_ids and at 2P+3C by the added lookup
    at = text.index("arc_ids 14 15 16 17 18 19")
    assert text[at + 1] == "arc_slot_ids 17 18 19 20 21 22"
    # with every shape there, ids rise by one through all slots
    assert f"rising {SLOTS}" in text
    print(len(text), "lines hold")


if __name__ == "__main__":
    if sys.argv[1:] == ["--check"]:
        check()
    elif len(sys.argv) == 2:
        asks = list(asked())
        for name, lines in (("stdin", asks), ("stdout", answers(asks))):
            with open(sys.argv[1] + "/" + name, "w") as out:
                out.write("".join(line + "\n" for line in lines))
    else:
        sys.exit(__doc__)
