#!/usr/bin/env python3
"""Holds the reading against the Rust's: the same texts to both, and everything that the Rust tells compared.

  compare.py ORACLE [REPLAY] [COUNT]   ORACLE is the built program of oracle/, REPLAY a command that answers batches
                                       (for instance "./desk replay"), COUNT how many texts (200,000)

The model of document 01 is compared with the oracle: records, their order and the stop place where both read, and that
the Rust fails exactly where 3 to 7 is told. Texts refused by 1, 2, 8 or 9 are outside the domain and only counted; of 11
the count of records and the stop place are compared. Where REPLAY is given, each of its blocks is compared with the
model's. Point and scalar guesses are compared each in its own order. The exit status is 1 where anything differs.
"""
import collections
import subprocess
import sys

sys.dont_write_bytecode = True
import model
import pages

USUAL_COUNT = 200000
CHUNK_TEXTS = 2000
CHUNK_BYTES = 1 << 20
SHOWN_BYTES = 2000
FAILS_IN_RUST = {3, 4, 5, 6, 7}
NOT_COMPARED = {1, 2, 8, 9}


def chunks(texts):
    """The texts in lists of bounded size."""
    chunk, size = [], 0
    for item in texts:
        chunk.append(item)
        size += len(item[-1])
        if len(chunk) == CHUNK_TEXTS or size >= CHUNK_BYTES:
            yield chunk
            chunk, size = [], 0
    if chunk:
        yield chunk


def blocks(command, batch, count):
    """So many blocks that a program prints for a batch, each without its closing line. What it failed to print is `none`,
    and a last block more is what it printed past them."""
    out = subprocess.run(command, input=batch, stdout=subprocess.PIPE).stdout
    parts = out.split(b"\n.\n")
    rest = parts.pop()
    parts += [b"none"] * (count - len(parts))
    return parts[:count] + ([b"past the last: " + rest] if rest or len(parts) > count else [])


def told(block):
    """What a block of the oracle tells: the lines of the instructions, the point guesses and the scalar guesses, and the
    stop place; or None where the Rust fails."""
    head, *lines = block.split(b"\n")
    if head in (b"fail", b"notutf8"):
        return None
    ok, _, instructions, _, points, _, scalars, _, end = head.split(b" ")
    i, p, s = int(instructions), int(points), int(scalars)
    assert ok == b"ok" and len(lines) == i + p + s
    return lines[:i], lines[i : i + p], lines[i + p :], int(end)


def as_rust(answer):
    """A good answer of the model in the shape of what the oracle tells."""
    count, _, end, lines = answer
    guesses = lines[count:]
    points = [line for line in guesses if line.startswith(b"24 ")]
    scalars = [line for line in guesses if line.startswith(b"25 ")]
    return lines[:count], points, scalars, end


def agrees(plain, rust):
    """Whether the plain reading of the model agrees with what the oracle tells; None where that is not compared."""
    if plain[0] != "refused":
        return rust is not None and as_rust(plain) == rust
    if plain[1] in NOT_COMPARED:
        return None
    if plain[1] in FAILS_IN_RUST:
        return rust is None
    return plain == ("refused", 11, 0) and rust is not None and sum(map(len, rust[:3])) > model.MOST_RECORDS


def whole_of(text, plain, rust):
    """The whole reading that follows from a plain one and the stop place that the oracle tells."""
    read_on = plain[0] != "refused" or plain[1] == 11
    return ("refused", 10, rust[3]) if read_on and rust[3] < len(text) else plain


class Comparison:
    """Counts what was compared, and gathers what differs."""

    def __init__(self):
        self.counts = collections.Counter()
        self.records = collections.Counter()
        self.differences = []
        self.number = 0

    def differs(self, text, who, ours, theirs):
        shown = [text[:SHOWN_BYTES], ours[:SHOWN_BYTES], theirs[:SHOWN_BYTES]]
        self.differences.append((len(text), self.number, who, shown))

    def with_rust(self, text, whole, block):
        """Compares the model with the oracle on one text; the answer of the model to the reading asked for."""
        rust, plain = told(block), model.read(text, False)
        answer = model.read(text, True) if whole else plain
        name = "refused %d" % plain[1] if plain[0] == "refused" else "read"
        agreed = agrees(plain, rust)
        if agreed is None:
            self.counts["not compared: " + name] += 1
            return answer
        self.counts["Rust: " + name] += 1
        if not agreed:
            self.differs(text, "oracle", model.listing(plain), block)
        else:
            if plain[0] != "refused":
                self.records.update(line.split(b" ")[0] for line in plain[3])
            if whole and answer != whole_of(text, plain, rust):
                self.differs(text, "oracle's stop place", model.listing(answer), block)
            if answer[:2] == ("refused", 10):
                self.counts["Rust: refused 10, the stop place"] += 1
        return answer

    def with_replay(self, text, whole, answer, block):
        name = "refused %d" % answer[1] if answer[0] == "refused" else "read"
        self.counts["replay: %s %s" % ("LIST" if whole else "CASE", name)] += 1
        if block + b"\n" != model.listing(answer):
            self.differs(text, "replay", model.listing(answer), block)

    def chunk(self, chunk, oracle, replay):
        batch = b"".join(pages.entry(False, text) for _, _, text in chunk)
        rust = blocks([oracle], batch, len(chunk))
        assert len(rust) == len(chunk) and b"none" not in rust, "the oracle stopped"
        ours = []
        if replay:
            ours = blocks(replay, b"".join(pages.entry(whole, text) for _, whole, text in chunk), len(chunk))
        for at, (family, whole, text) in enumerate(chunk):
            self.number += 1
            self.counts["texts: " + family] += 1
            answer = self.with_rust(text, whole, rust[at])
            if replay:
                self.with_replay(text, whole, answer, ours[at])
        for block in ours[len(chunk) :]:
            self.differs(b"", "replay", b"", block)

    def tell(self):
        for name in sorted(self.counts, key=order_of):
            print("%8d  %s" % (self.counts[name], name))
        for kind in range(1, 26):
            print("%8d  records of kind %d" % (self.records[b"%d" % kind], kind))
        for size, number, who, shown in sorted(self.differences):
            print("\ntext %d, %d bytes, %s" % (number, size, who))
            print("  text %r\n  model %r\n  told %r" % tuple(shown))
        print("%d texts, %d differences" % (self.number, len(self.differences)))


def order_of(name):
    """By the words of a name, its numbers as numbers."""
    return [(word.isdigit(), int(word) if word.isdigit() else 0, word) for word in name.split()]


def main():
    given = sys.argv[1:]
    count = int(given.pop()) if given and given[-1].isdigit() else USUAL_COUNT
    if len(given) not in (1, 2):
        sys.exit(__doc__.rstrip())
    oracle, replay = given[0], given[1].split() if len(given) == 2 else None
    comparison = Comparison()
    for chunk in chunks(pages.texts(count)):
        comparison.chunk(chunk, oracle, replay)
    comparison.tell()
    sys.exit(1 if comparison.differences else 0)


if __name__ == "__main__":
    main()
