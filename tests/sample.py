#!/usr/bin/env python3
"""Writes the stored sample of `replay`: a batch of texts and the answers due, the same bytes every time.

  sample.py ORACLE [FOLDER]   write FOLDER/stdin and FOLDER/stdout (crates/replay); ORACLE is the built program of oracle/

The records, their order and the stop place come from the oracle; the model only puts point and scalar guesses back in the
order of the text. The numbers and places of refusals come from the model, that is from document 01, and so do the answers
to the drawings behind those texts, which the Rust doesn't check or lower. It stops where the model and the oracle
disagree, or where the sample lacks something.
"""
import collections
import itertools
import os
import sys

sys.dont_write_bytecode = True
import compare
import drawings
import model
import pages
import renaming

MOST_BATCH_BYTES = 1 << 20
LEAST_TEXTS = 1600
LEAST_OF_A_KIND = 40
LEAST_OF_A_REFUSAL = {1: 5, 11: 10}
LEAST_OF_ANOTHER_REFUSAL = 40
LONG = 1000
SEARCHED = 40000
READ_PAGES = 600
OF_EACH_OUTCOME = 40
SMALL_BETWEEN_LARGE = 40
DRAWINGS = 300
RENAMED = 60
LEAST_WITH_AN_ARC = 20
LEAST_PASSING = 100
LEAST_OF_A_FAULT = 16
LEAST_OF_A_ROW = 10


def large():
    """The long texts, few of each sort: at the limit of bytes and past it, and about the limit of records."""
    blanks, left, high = (pages.USUAL_PAGE, " ", ""), (pages.USUAL_PAGE, "x", ""), (pages.USUAL_PAGE, " ", "\xff")
    digits = pages.TO_INSTRUCTION + "p.x=", "7", pages.FROM_INSTRUCTION
    yield True, pages.grown(*blanks, model.MOST_BYTES)
    yield False, pages.grown(*left, model.MOST_BYTES)
    yield True, pages.grown(*left, model.MOST_BYTES)
    yield True, pages.grown(*high, model.MOST_BYTES)
    yield False, pages.grown(*digits, model.MOST_BYTES)
    yield False, pages.grown(*blanks, model.MOST_BYTES + 1)
    yield True, pages.grown(*blanks, model.MOST_BYTES + 1)
    yield True, "\xff" * (model.MOST_BYTES + 1)
    yield True, "#" * (model.MOST_BYTES + 2)
    yield False, pages.grown(*blanks, 2 * model.MOST_BYTES)
    for count in pages.RECORD_COUNTS[:4]:
        singles, pairs, guesses, mixed = pages.counted(count, pages.NO_FAULT)
        yield from [(False, singles), (True, pairs), (False, guesses), (True, mixed)]
    for turn, fault in enumerate(pages.LATER_FAULTS):
        singles, pairs, _, _ = pages.counted(model.MOST_RECORDS + 1, fault)
        yield from [(False, singles), (True, pairs)] if fault == pages.TEXT_LEFT else [(turn % 2 == 0, pairs)]


def outcome(answer):
    return answer[1] if answer[0] == "refused" else "read"


def small():
    """Texts of every family, so many of each outcome."""
    taken = collections.Counter()
    for family, whole, text in pages.texts(SEARCHED):
        if len(text) >= LONG:
            continue
        sort = family, outcome(model.read(text, whole))
        most = READ_PAGES if sort == ("good", "read") else OF_EACH_OUTCOME
        if family == "marked" or taken[sort] < most:
            taken[sort] += 1
            yield whole, text


def sample():
    """All texts, each once, a large one after so many small ones."""
    texts = list(dict.fromkeys(small()))
    for at, (whole, text) in enumerate(large(), 1):
        texts.insert(at * SMALL_BETWEEN_LARGE, (whole, text.encode("latin-1")))
    return texts


def due(whole, text, block):
    """The block due for a text: a refusal from the model, all else from the oracle."""
    rust, plain, answer = compare.told(block), model.read(text, False), model.read(text, whole)
    assert compare.agrees(plain, rust) is not False, text
    assert not whole or answer == compare.whole_of(text, plain, rust), text
    if answer[0] != "refused":
        instructions, points, scalars, end = rust
        points, scalars = iter(points), iter(scalars)
        order = [line.split(b" ")[0] for line in answer[3][answer[0] :]]
        guesses = [next(points if kind == b"24" else scalars) for kind in order]
        answer = len(instructions), len(guesses), end, instructions + guesses
    return model.listing(answer)


def check(texts, answers, batch):
    """Stops where the sample lacks something."""
    refusals, kinds, modes = collections.Counter(), collections.Counter(), collections.Counter()
    for (whole, _), answer in zip(texts, answers):
        words = [line.split(b" ") for line in answer.splitlines()]
        modes[whole, words[0][0]] += 1
        if words[0][0] == b"refused":
            refusals[int(words[0][1])] += 1
        else:
            kinds.update(int(line[0]) for line in words[1:])
    assert len(texts) >= LEAST_TEXTS and len(batch) < MOST_BATCH_BYTES
    assert all(refusals[n] >= LEAST_OF_A_REFUSAL.get(n, LEAST_OF_ANOTHER_REFUSAL) for n in range(1, 12)), refusals
    assert all(kinds[n] >= LEAST_OF_A_KIND for n in range(1, 26)), kinds
    assert all((whole, text) in texts for whole in [False, True] for text in pages.marked_texts())
    print("%d texts, %d bytes" % (len(texts), len(batch)))
    for (whole, first), count in sorted(modes.items()):
        print("%8d  %s, %s" % (count, "LIST" if whole else "CASE", "refused" if first == b"refused" else "read"))
    print("refused: " + ", ".join("%d by %d" % (count, n) for n, count in sorted(refusals.items())))
    print("records: " + ", ".join("%d of %d" % (count, n) for n, count in sorted(kinds.items())))


def check_drawings(blocks):
    """Stops where the drawings lack something."""
    firsts, rows = collections.Counter(), collections.Counter()
    for _, answer in blocks:
        words = [line.split(b" ") for line in answer.splitlines()]
        firsts[int(words[0][1]) if words[0][0] == b"refused" else words[0][0]] += 1
        rows.update(int(line[1]) for line in words if line[0] == b"row")
    assert firsts[b"passed"] == firsts[b"lowered"] >= LEAST_PASSING, firsts
    assert all(firsts[n] >= LEAST_OF_A_FAULT for n in range(31, 36)), firsts
    assert all(rows[n] >= LEAST_OF_A_ROW for n in range(4, 24)), rows
    print("%d blocks of drawings: %d passed, %d lowered" % (len(blocks), firsts[b"passed"], firsts[b"lowered"]))
    print("refused: " + ", ".join("%d by %d" % (firsts[n], n) for n in sorted(n for n in firsts if type(n) is int)))
    print("rows: " + ", ".join("%d of %d" % (count, n) for n, count in sorted(rows.items())))


def check_pairs(pairs):
    """Stops where the renamed drawings lack something."""
    arcs = sum(b" arcs 0 " not in rows for _, _, rows in pairs)
    kinds = {int(line.split(b" ")[1]) for _, _, rows in pairs for line in rows.splitlines() if line.startswith(b"row ")}
    assert len(pairs) == RENAMED and arcs >= LEAST_WITH_AN_ARC and kinds == set(range(4, 24)), (arcs, kinds)
    print("%d pairs by other names, %d with an arc" % (len(pairs), arcs))


def main():
    if len(sys.argv) not in (2, 3):
        sys.exit(__doc__.rstrip())
    here = os.path.dirname(os.path.abspath(__file__))
    folder = sys.argv[2] if len(sys.argv) == 3 else os.path.join(here, "..", "crates", "replay")
    texts = sample()
    told = compare.blocks([sys.argv[1]], b"".join(pages.entry(False, text) for _, text in texts), len(texts))
    answers = [due(whole, text, block) for (whole, text), block in zip(texts, told)]
    batch = b"".join(pages.entry(whole, text) for whole, text in texts)
    check(texts, answers, batch)
    blocks = drawings.blocks(drawings.by_hand() + drawings.limits() + list(drawings.drawings(DRAWINGS)))
    check_drawings(blocks)
    pairs = list(itertools.islice(renaming.good(renaming.made()), RENAMED))
    check_pairs(pairs)
    blocks += drawings.blocks([text for first, second, _ in pairs for text in (first, second)])
    batch += b"".join(block for block, _ in blocks)
    answers += [answer for _, answer in blocks]
    for name, contents in [("stdin", batch), ("stdout", b"".join(answer + b".\n" for answer in answers))]:
        with open(os.path.join(folder, name), "wb") as file:
            file.write(contents)


if __name__ == "__main__":
    main()
