#!/usr/bin/env python3
"""Looks for powers of ten among the constants of compiled code: request 4 wants none but ten itself.

  powers.py FILE...   FILE is a library or an object of x86-64, such as target/staticlib/libbridge.a, which
                      `rust/test` writes; prints its sections, and every power with its place
  powers.py --check   hold the search against bytes with and without powers

Looked at is every byte that is loaded: constants, data, and code with the numbers inside its instructions. Told are the
doubles 10^2 to 10^22 and 10^-1 to 10^-22, at any place, and wherever three numbers in a row are each ten times the one
beside it, rising or falling, as whole numbers or floats of 32 or 64 bits. Ten itself has to be there, or the search looks
at the wrong code. A power that is a constant for another reason is told too, and has to be set apart then. The exit
status is 1 where a power is told, ten is missing, or FILE is none that can be looked at.
"""
import struct
import sys

MOST_POWER = 22
LOADED, CODE = 2, 4
NO_BYTES = 8
TEN = struct.pack("<d", 10.0)
FORMS = ["<I", "<Q", "<f", "<d"]


# ---- the sections of a file


def objects(name, data):
    """Each object of an archive by its number, or the one object that a file is."""
    if not data.startswith(b"!<arch>\n"):
        yield name, data
        return
    at, number = 8, 0
    while at < len(data):
        head = data[at : at + 60]
        if head[58:] != b"`\n":
            sys.exit("%s: no archive" % name)
        size = int(head[48:58])
        if head[:16].rstrip() not in (b"/", b"//"):
            yield "%s(%d)" % (name, number), data[at + 60 : at + 60 + size]
            number += 1
        at += 60 + size + size % 2


def sections(name, data):
    """The loaded sections of an object: name, whether it is code, bytes."""
    if data[:6] != b"\x7fELF\x02\x01":
        sys.exit("%s: no object of 64 bits" % name)
    table, = struct.unpack_from("<Q", data, 40)
    size, count, names = struct.unpack_from("<HHH", data, 58)
    heads = [struct.unpack_from("<IIQQQQ", data, table + i * size) for i in range(count)]
    for label, kind, flags, _, at, length in heads:
        if flags & LOADED and kind != NO_BYTES and length:
            label += heads[names][4]
            yield data[label : data.index(b"\0", label)].decode(), bool(flags & CODE), data[at : at + length]


# ---- the search


def places(part, data):
    """Every place where a part stands."""
    at = data.find(part)
    while at >= 0:
        yield at
        at = data.find(part, at + 1)


def powers(data):
    """Each power of ten that is a double, with its place."""
    for k in [*range(-MOST_POWER, 0), *range(2, MOST_POWER + 1)]:
        for at in places(struct.pack("<d", float("1e%d" % k)), data):
            yield at, "10^%d" % k


def tables(data):
    """Each place where three numbers in a row are each ten times the one beside it, rising or falling."""
    for form in FORMS:
        size = struct.calcsize(form)
        for at in range(len(data) - 3 * size + 1):
            a, b, c = (struct.unpack_from(form, data, at + i * size)[0] for i in range(3))
            low, high = min(a, c), max(a, c)
            if 1 <= low < b and b == 10 * low and high == 10 * b:
                yield at, "%s, %s and %s in a row" % (a, b, c)


def search(parts):
    """What is told of sections: each power with its section and place, and whether ten is there."""
    told = [(name, at, what) for name, _, data in parts for at, what in [*powers(data), *tables(data)]]
    return told, any(TEN in data for _, _, data in parts)


# ---- the search held against bytes


def check():
    """Stops where the search tells what it should not, or does not tell what it should."""
    doubles = [struct.pack("<d", float("1e%d" % k)) for k in range(MOST_POWER + 1)]
    clean = [("code", True, b"\x66" * 40), ("constants", False, struct.pack("<d", 1.0) + TEN + bytes(range(64)) * 3)]
    assert search(clean) == ([], True)
    assert search(clean[:1]) == ([], False)
    assert len(search([*clean, ("table", False, b"".join(doubles))])[0]) == 21 + 21
    for k in range(2, MOST_POWER + 1):
        for part in [doubles[k], struct.pack("<d", float("1e-%d" % k))]:
            for code in [False, True]:
                told, ten = search([*clean, ("one", code, b"abc" + part + b"\0" * 9)])
                assert ten and [(name, at) for name, at, _ in told] == [("one", 3)], (k, code, told)
    for form in FORMS:
        rising = [struct.pack(form, 10**k) for k in range(3, 6)]
        for row in [rising, rising[::-1]]:
            for code in [False, True]:
                assert ("row", 5) in [told[:2] for told in search([*clean, ("row", code, b"abcde" + b"".join(row))])[0]], form
    for form in ["<f", "<d"]:
        assert search([*clean, ("infinities", False, struct.pack(form, float("inf")) * 3)]) == ([], True)
    print("the search tells what it should, and nothing else")


def main():
    if sys.argv[1:] == ["--check"]:
        check()
        return 0
    if not sys.argv[1:]:
        sys.exit(__doc__.rstrip())
    failed = False
    for path in sys.argv[1:]:
        with open(path, "rb") as file:
            parts = [(name + " " + label, code, part) for name, data in objects(path, file.read()) for label, code, part in sections(name, data)]
        for name, code, part in parts:
            print("%s: %d bytes%s" % (name, len(part), " of code" if code else ""))
        told, ten = search(parts)
        for name, at, what in told:
            print("%s: %s at %d" % (name, what, at))
        print("%s: %d bytes, %s, %s" % (path, sum(len(part) for _, _, part in parts), "ten is there" if ten else "TEN IS MISSING", "POWERS ARE THERE" if told else "no other power"))
        failed |= bool(told) or not ten
    return int(failed)


if __name__ == "__main__":
    sys.exit(main())
