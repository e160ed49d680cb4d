#!/usr/bin/env python3
"""Holds the lowering against the Rust's: the same drawings to both, and all that the Rust makes of them compared.

  lowered.py RUST REPLAY [COUNT]   RUST is the program that lowered.sh makes, REPLAY a command that answers batches (for
                                   instance "./desk replay"), COUNT how many drawings (20,000)

What we lower, the Rust has to lower too, to the same slots (ids and starting values) and to the same constraints in the
same order (kind, ids, unit and number), once ours are seen as the Rust sees them: without rows of `line`, without
assignments of an arc's center, and with the ids of an arc 3C lower, where the Rust looks arcs up. Kinds 4 and 18 have no
kind there. What we refuse, the Rust has to refuse too, in reading or in lowering as we do, but for what docs/DIFFERENCES.md
has. Each of these is counted. The exit status is 1 where anything differs.
"""
import collections
import sys

sys.dont_write_bytecode = True
import compare
import drawings
import model

USUAL_COUNT = 20000
CHUNK = 1000

ASSIGNED, CENTER, LINE = b"4", b"18", b"22"
LAST_OF_READING = 12
# Numbers of reading that the Rust doesn't know, and of the check that it passes over in some drawings.
READ_OTHERWISE = {1, 2, 8, 9, 11}
PASSED_OVER = {31: "a label of two shapes", 32: "a line or a center of nothing", 34: "a part guessed twice"}


def as_rust(block, counts):
    """Our lines as the Rust has them; what is seen otherwise is counted."""
    head, *lines = block.split(b"\n")
    points, circles, _ = (int(n) for n in head.split(b" ")[2:7:2])
    first_arc, shift = 2 * points + 3 * circles, 3 * circles
    yield b"lowered"
    for line in lines:
        name, *words = line.split(b" ")
        if name == b"slot":
            counts["slots"] += 1
            yield line
            continue
        kind, words = words[0], words[1:]
        ids = [int(word) for word in words if len(word) < 16 and word.isdigit()]
        rest = [word for word in words[len(ids) :] if word not in (b"x", b"y")]
        if kind == LINE:
            counts["set aside: rows of a line"] += 1
        elif kind == ASSIGNED and ids[0] >= first_arc:
            counts["set aside: rows that assign an arc's center"] += 1
        else:
            counts["rows"] += 1
            if shift and max(ids) >= first_arc:
                counts["set aside: rows whose arc the Rust looks up 3C lower"] += 1
            seen = [b"%d" % (n - shift if n >= first_arc else n) for n in ids]
            yield b" ".join([b"row", b"fixed" if kind in (ASSIGNED, CENTER) else kind] + seen + rest)


def may_pass(number, place, text):
    """Whether the Rust may lower what we refuse so."""
    if number != 32:
        return number in READ_OTHERWISE or number in PASSED_OVER
    kind, label, *_ = model.read(text, True)[3][place].split(b" ")
    return kind == LINE or kind == ASSIGNED and label.endswith(b".center")


def agrees(text, ours, rust, counts):
    """Whether one drawing is told alike."""
    if ours.startswith(b"lowered"):
        counts["both lower"] += 1
        return b"\n".join(as_rust(ours, counts)) == rust
    if not ours.startswith(b"refused"):
        return False
    number, place = (int(word) for word in ours.split(b" ")[1:])
    if rust.startswith(b"lowered"):
        counts["refused %d, the Rust lowers: %s" % (number, PASSED_OVER.get(number, "it reads more"))] += 1
        return may_pass(number, place, text)
    counts["both refuse"] += 1
    return number in READ_OTHERWISE or rust == (b"fails" if number <= LAST_OF_READING else b"error")


def compared(rust, replay, texts, counts):
    """How many of these drawings differ; they are printed."""
    theirs = compare.blocks([rust], b"".join(b"CASE %d\n%s\n" % (len(text), text) for text in texts), len(texts))
    ours = compare.blocks(replay, b"".join(b"ROWS %d\n%s\n" % (len(text), text) for text in texts), len(texts))
    differ = [row for row in zip(texts, ours, theirs) if not agrees(*row, counts)]
    for row in differ:
        print("differs: %r\n ours: %r\n Rust: %r" % row)
    return len(differ) + (len(theirs) != len(texts)) + (len(ours) != len(texts))


def main():
    if len(sys.argv) not in (3, 4):
        sys.exit(__doc__.rstrip())
    count = int(sys.argv[3]) if len(sys.argv) == 4 else USUAL_COUNT
    texts = drawings.by_hand() + drawings.limits() + list(drawings.drawings(count))
    counts, differ = collections.Counter(), 0
    for at in range(0, len(texts), CHUNK):
        differ += compared(sys.argv[1], sys.argv[2].split(), texts[at : at + CHUNK], counts)
    for name in sorted(counts):
        print("%8d  %s" % (counts[name], name))
    print("%d drawings, %d differences" % (len(texts), differ))
    sys.exit(1 if differ else 0)


if __name__ == "__main__":
    main()
