#!/usr/bin/env python3
"""Written numbers and roots, and the answer that document 01 gives for each, worked out in whole numbers.

  numbers.py INPUT OUTPUT         write the lines and their answers, the same bytes every time
  numbers.py --check              hold the answers against float() and math.sqrt, the list against its limits, and the products
                                  of ten against the powers
  numbers.py --hold NUMBERS COUNT hold the program NUMBERS, such as crates/numbers/out/numbers, against so many other numbers,
                                  every k from -22 to 22 among them; the exit status is 1 where one differs

A line is read from its first byte as an expression: a number, or sqrt( expression ), at most eight deep. Its answer is
`BITS NEXT` (16 hex digits, and the place after what was read), `refused 8 P`, `refused 9 P`, or `nothing`. What follows
on the line does not matter. A line `root HEX` (16 hex digits) asks for the root of the number with these bits, subnormal
ones among them, which no number of the text has; its answer is `BITS`.
"""
import math
import re
import struct
import subprocess
import sys

MOST_DIGITS = 15
MOST_POWER = 22
MOST_ROOTS = 8
CHUNK_LINES = 2000
USUAL_LENGTH = 200
MOST_LENGTH = 3000
MOST_LONG_LINES = 20

SIGN = 1 << 63
INFINITY = 0x7FF0000000000000
NOT_A_NUMBER = 0x7FF8000000000000


# ---- numbers of 64 bits


def nearest(num, den):
    """The bits of the number nearest to num / den, of two equally near ones the even one; inside the normal range."""
    if num == 0:
        return 0
    e = num.bit_length() - den.bit_length() - 54
    q = 1 << 53
    while q >= 1 << 53:
        e += 1
        top, bottom = num << max(-e, 0), den << max(e, 0)
        q, rest = divmod(top, bottom)
    assert q >= 1 << 52 and -1074 < e < 971
    if 2 * rest > bottom or 2 * rest == bottom and q % 2:
        q += 1
    return ((e + 1074) << 52) + q


def root(bits):
    """The bits of the root of the number with these bits."""
    if bits in (0, SIGN, INFINITY):
        return bits
    if bits > INFINITY:
        return NOT_A_NUMBER
    field, m = bits >> 52, bits % (1 << 52)
    e = max(field, 1) - 1075
    if field:
        m += 1 << 52
    while m < 1 << 52:
        m, e = 2 * m, e - 1
    s = 52 + (e - 52) % 2
    n = nearest_root(m << s)
    return (((e - s) // 2 + 1075) << 52) + n - (1 << 52)


def nearest_root(square):
    """The n with (2n - 1)^2 < 4 * square < (2n + 1)^2."""
    n = math.isqrt(square)
    if square - n * n > n:
        n += 1
    assert (2 * n - 1) ** 2 < 4 * square < (2 * n + 1) ** 2
    return n


# ---- reading


class Refused(Exception):
    """A refusal, with its number and place."""


class Nothing(Exception):
    """No number or root stands here."""


WRITTEN = re.compile(rb"([+-]?)(?:([0-9]+)(?:\.([0-9]*))?|\.([0-9]+))(?:([eE])(?:([+-]?)([0-9]+))?)?")
NO_FINITE = re.compile(rb"[+-]?[iInN]")


def number(line, at):
    """The bits of the number that stands at a place, and the place after it."""
    if NO_FINITE.match(line, at):
        raise Refused(8, at)
    found = WRITTEN.match(line, at)
    if not found:
        raise Nothing
    sign, whole, fraction, point_first, e, e_sign, e_digits = found.groups()
    if e and not e_digits:
        raise Refused(8, at)
    whole, fraction = whole or b"", fraction or point_first or b""
    m = (whole + fraction).lstrip(b"0")
    k = int((e_sign or b"") + (e_digits or b"0")) - len(fraction)
    if len(m) > MOST_DIGITS or not -MOST_POWER <= k <= MOST_POWER:
        raise Refused(8, at)
    m = int(m or b"0")
    bits = nearest(m * 10**k, 1) if k >= 0 else nearest(m, 10**-k)
    return bits + (SIGN if sign == b"-" else 0), found.end()


def expression(line, at, depth):
    """The bits of the expression that stands at a place, inside so many roots, and the place after it."""
    if not line.startswith(b"sqrt(", at):
        return number(line, at)
    if depth == MOST_ROOTS:
        raise Refused(9, at)
    bits, then = expression(line, at + 5, depth + 1)
    if not line.startswith(b")", then):
        raise Nothing
    return root(bits), then + 1


ROOT_LINE = re.compile(rb"root ([0-9a-f]{16})")


def answer(line):
    """What stands in the output for a line."""
    asked = ROOT_LINE.fullmatch(line)
    if asked:
        return b"%016x" % root(int(asked.group(1), 16))
    try:
        return b"%016x %d" % expression(line, 0, 0)
    except Refused as refusal:
        return b"refused %d %d" % refusal.args
    except Nothing:
        return b"nothing"


# ---- the lines


class Draw:
    """Numbers drawn by a fixed rule (splitmix64), the same everywhere."""

    def __init__(self, seed):
        self.state = seed

    def word(self):
        self.state = (self.state + 0x9E3779B97F4A7C15) % (1 << 64)
        z = self.state
        z = (z ^ z >> 30) * 0xBF58476D1CE4E5B9 % (1 << 64)
        z = (z ^ z >> 27) * 0x94D049BB133111EB % (1 << 64)
        return z ^ z >> 31

    def below(self, n):
        return (self.word() << 64 | self.word()) % n

    def between(self, low, high):
        return low + self.below(high - low + 1)

    def one_of(self, choices):
        return choices[self.below(len(choices))]


def spellings():
    """Every spelling of sign, point and exponent, in reach and not."""
    bodies = ["", "5", "5.", "5.0", ".5", ".", "0", "00", "0.", ".0", "007", "12.50", "1..5"]
    ends = ["", "e0", "E0", "e5", "E+5", "e-5", "e+0", "E-0", "e", "E", "e+", "E-", "e.5", "e5e", "e5.", "e+-5", "east", "e 5", " e5"]
    for sign in ["", "+", "-"]:
        for body in bodies:
            for end in ends:
                yield sign + body + end


def oddities():
    """Signs twice, words, blanks, and what may follow a number."""
    yield from ["", " ", "+-1", "-+1", "--1", "++1", "+ 1", "- 1", " 1", "\t1", "e5", "E", "x", "#", ")", "(1)", ",", "1", "0x10", "1_000", "1,5"]
    yield from ["1 ", "1)", "1,2", "1\t", "1\r", "1.2.3", "1.2e3.4", "1e5e", "1e5e6", "1e5+1", "1-1", "1+", "5i", "5n", "5deg", ".i", "+.n", "é", "1é", "1e²"]
    yield from ["root", "root ", "root 4", "root 3FF0000000000000", "root 3ff000000000000", "root 3ff00000000000000", " root 3ff0000000000000", "root  3ff000000000000"]
    for sign in ["", "+", "-", "+-", " ", "--"]:
        for word in ["i", "I", "n", "N", "inf", "Infinity", "nan", "NaN", "n1", "i)"]:
            yield sign + word


def pointed(digits, place):
    return digits[:place] + "." + digits[place:]


def digit_limits():
    """Fourteen to seventeen digits, leading zeros before them, the point at every place."""
    runs = ["12345678901234", "123456789012345", "1234567890123456", "12345678901234567"]
    runs += ["999999999999999", "1000000000000000", "100000000000000", "0123456789012345", "00000123456789012345", "0000000000000001", "01000000000000000"]
    for digits in runs:
        yield digits
        yield "-" + digits + "e3"
        for place in range(len(digits) + 1):
            yield pointed(digits, place)
            yield "+" + pointed(digits, place) + "e-2"


def power_limits():
    """k at its limits, through the exponent, the digits after the point, and both."""
    for digits in ["1", "9", "0", "123", "100", "123456789012345", "999999999999999"]:
        for k in [-24, -23, -22, -21, -1, 0, 1, 21, 22, 23, 24]:
            for after in [0, 1, 3, 15, 22, 23, 30]:
                padded = digits.rjust(after, "0")
                written = pointed(padded, len(padded) - after) if after else padded
                exponent = k + after
                yield written + ("e%d" % exponent if exponent else "")


def zeros():
    """Zero keeps its sign, and has limits too."""
    for sign in ["", "+", "-"]:
        for body in ["0", "0.0", ".0", "0.", "000000000000000000", "0." + "0" * 22, "0." + "0" * 23, "0." + "0" * 30 + "e8", "0." + "0" * 30 + "e7"]:
            yield sign + body
        for end in ["e22", "e23", "e-22", "e-23", "e-5", "E+0", "e000023", "e-000022"]:
            yield sign + "0" + end
            yield sign + ".0" + end


def long_exponents():
    """Exponents with leading zeros, and of many digits."""
    for count in [1, 2, 8, 9, 10, 16, 17, 18, 19, 20, 30, 60, 150]:
        for sign in ["", "+", "-"]:
            for digits in ["0", "5", "22", "23"]:
                yield "7e" + sign + "0" * count + digits
            yield "7e" + sign + "9" * count
            yield "0e" + sign + "1" + "0" * count
    for n in [2**31, 2**32, 2**63, 2**64]:
        for k in [-1, 0, 1, 22, 23]:
            yield "3e%d" % (n + k)
            yield "3e-%d" % (n + k)


def long_lines():
    """Runs of up to 3,000 bytes."""
    yield "0" * 2900
    yield "-" + "0" * 2900 + "12.5e1"
    yield "0." + "0" * 2900
    yield "." + "0" * 1000 + "1e1005"
    yield "-0." + "0" * 999 + "125e998"
    yield "0." + "0" * 1000 + "1e978"
    yield "0." + "0" * 1000 + "1e1024"
    yield "." + "0" * 985 + "123456789012345e1000"
    yield "1e" + "0" * 2900 + "22"
    yield "1e-" + "0" * 2900 + "23"
    yield "1e" + "9" * 2900
    yield "1" + "0" * 1000 + "e-1000"
    yield "3" * 2900
    yield "sqrt(" + "0" * 2900 + "2)"
    yield "." + "0" * 1000


def congruent(draw, low, high, residue, step):
    """A number from low to high that leaves this residue, where there is one."""
    first = low + (residue - low) % step
    if first <= high:
        yield first + draw.below((high - first) // step + 1) * step


def halfway_products(draw):
    """m * 10^k in the middle between two numbers, and as near to it as can be: m * 5^k has t bits too many, and half of
    2^t, and d more, stands in them."""
    for k in range(2, MOST_POWER + 1):
        for t in [1, 2, 3, 8, 14, 20, 26, 32, 40, 46]:
            for d in [0, 1, -1, 3] if t > 3 else [0, 0]:
                power, step = 5**k, 1 << t
                low, high = -(-(1 << 52 + t) // power), min((1 << 53 + t) // power, 10**MOST_DIGITS - 1)
                residue = (step // 2 + d) * pow(power, -1, step)
                for m in congruent(draw, low, high, residue, step):
                    yield "%de%d" % (m, k)


def halfway_quotients(draw):
    """m / 10^k as near as can be to the middle between two numbers: m * 2^s leaves half of 5^k, and d halves more."""
    for k in range(2, MOST_POWER + 1):
        for s in [53, 52, 51, 48, 40]:
            for d in [1, -1, 3]:
                power = 5**k
                low, high = -(-(power << 52) >> s), min((power << 53) >> s, 10**MOST_DIGITS - 1)
                residue = (power + d) // 2 * pow(1 << s, -1, power)
                for m in congruent(draw, low, high, residue, power):
                    yield "%de-%d" % (m, k)
                    digits = str(m).rjust(k, "0")
                    yield pointed(digits, len(digits) - k)


def random_numbers(draw):
    """Numbers of every sort, in reach and a little out of it."""
    for _ in range(350):
        digits = "0" * draw.one_of([0, 0, 0, 1, 3]) + str(draw.below(10 ** draw.between(1, 16)))
        after = draw.one_of([0, draw.below(len(digits) + 1)])
        written = pointed(digits, len(digits) - after) if after or draw.below(4) == 0 else digits
        end = draw.one_of(["", "", "e%d", "E%+d", "e%03d"])
        if end:
            end = end % (draw.between(-24, 24) + after)
        yield draw.one_of(["", "", "+", "-"]) + written + end + draw.one_of(["", "", ")", " ", ", 1", "e", "x"])


def in_roots(text, depth, closed=None):
    return "sqrt(" * depth + text + ")" * (depth if closed is None else closed)


def nested():
    """Roots from one to ten deep, around numbers, refusals and nothing, closed and not."""
    cores = ["2", "0", "-0", "1", "-1", "-4", "0.5", "1e22", "1e-22", "12345678901234.5", "1e", "1e23", "-n", "i", "", " 2", "2 ", "sqrt2", "x", "+-1", ".", "-.5e-3"]
    for depth in range(1, 11):
        for core in cores:
            yield in_roots(core, depth)
        for core in ["2", "1e", "nan", "sqrt2", ""]:
            yield in_roots(core, depth, depth - 1)
            yield in_roots(core, depth, depth + 1)
            yield in_roots(core, depth, 0)
    yield from ["sqrt", "sqrt(", "sqrt2", "sqrt 2", "sqrt (2)", "sqrt( 2)", "sqrt(2 )", "sqrt(2) ", "sqrt(2)x", "Sqrt(2)", "SQRT(2)", "sqr(2)", "ssqrt(2)", " sqrt(2)"]
    yield from ["-sqrt(2)", "+sqrt(2)", "sqrt(-2)", "sqrt(+2)", "sqrt()", "sqrt)", "sqrt(2,3)", "sqrt(2]", "sqrt((2))", "sqrt(2)e5", "sqrt(2e1)", "sqrt(2e)", "sqrt(2e", "2sqrt(2)"]
    yield from ["sqrt(i", "sqrt(-n)", "sqrt(1e5e)", "sqrt(sqrt(2)", "sqrt(sqrt(2))", "sqrt(sqrt(-2))", "sqrt(-sqrt(2))", "sqrt(sqrt 2)", "sqrt(sqrt(1e-23", "sqrt(1000000000000000"]
    yield in_roots("", 8, 0) + "sqrt"
    yield in_roots("", 8, 0) + "sqrt("
    yield in_roots("", 8, 0) + "1e"
    yield in_roots("", 8, 0) + "sqrt2"
    yield in_roots("", 8, 0) + "-i"


def squares(draw):
    """Perfect squares and their neighbours, with the point moved too."""
    sides = [1, 2, 3, 5, 7, 9, 10, 12, 99, 255, 256, 1000, 4095, 4096, 65535, 65536, 94906265, 31622776]
    sides += [draw.between(2, 31622776) for _ in range(40)]
    for side in sides:
        if side * side < 10**MOST_DIGITS:
            for square in [side * side - 1, side * side, side * side + 1]:
                yield in_roots("%d" % square, 1)
            yield in_roots("%de-%d" % (side * side, 2 * draw.between(1, 11)), 1)
            yield in_roots("%de%d" % (side * side, 2 * draw.between(1, 11)), 1)
    for text in ["1e-22", "1e22", "1e-21", "1e21", "999999999999999e22", "999999999999999e-22", "0.25", "2.25", "0.1", "0.01", "2", "3", "10", "1e15"]:
        yield in_roots(text, 1)


def odd_roots(x, bits):
    """The numbers below 2^bits whose square is x, modulo 2^bits, for an x that is 1 modulo 8."""
    y = 1
    for i in range(3, bits):
        if (y * y - x) >> i & 1:
            y += 1 << i - 1
    half = 1 << bits - 1
    return [z % (1 << bits) for z in [y, -y, y + half, half - y]]


def next_to_middles(s, most):
    """Numbers m with m * 2^s = n^2 + n - r, n of 53 bits and r at most so large: the root of m * 2^s lies next to the
    middle of n and n + 1."""
    for r in range(-most, most + 1, 2):
        for n in sorted({odd // 2 % (1 << s) for odd in odd_roots(4 * r + 1, s + 2)}):
            n += 1 << 52 if s == 52 else 0
            m, rest = divmod(n * n + n - r, 1 << s)
            if not rest and 1 << 52 <= n < 1 << 53 and m < 1 << 53:
                yield m


def delicate_roots():
    """Whole numbers with a root next to the middle between two numbers."""
    for s, most in [(56, 400), (58, 1200), (60, 3000)]:
        for m in next_to_middles(s, most):
            if m < 10**MOST_DIGITS:
                yield in_roots("%d" % m, 1)


def random_roots(draw):
    for _ in range(150):
        text = "%de%d" % (draw.below(10 ** draw.between(1, 15)), draw.between(-22, 22))
        yield in_roots(text, draw.one_of([1, 1, 1, 2, 3, 5, 8]))


def root_patterns(draw):
    """Bits of every sort for the root: subnormals, powers of two, infinities, NaNs, squares and their neighbours, roots
    next to a middle, and any."""
    subnormals = [1, 2, 3, 4, 5, (1 << 52) - 1, (1 << 52) - 2, 1 << 52, (1 << 52) + 1]
    subnormals += [1 << i for i in range(52)] + [(1 << i) - 1 for i in range(2, 52, 5)] + [draw.between(1, (1 << draw.between(2, 52)) - 1) for _ in range(100)]
    yield from subnormals
    ends = [0, INFINITY, INFINITY - 1, INFINITY - 2, INFINITY + 1, NOT_A_NUMBER, NOT_A_NUMBER + 1, 0x7FF4000000000000, (1 << 63) - 1]
    for bits in ends:
        yield bits
        yield bits + SIGN
    yield from [SIGN + 1, SIGN + (1 << 52), 0xBFF0000000000000, 0xC010000000000000]
    yield from [SIGN + draw.below(INFINITY) for _ in range(20)]
    for e in range(-1022, 1024, 31):
        yield e + 1023 << 52
        yield (e + 1023 << 52) - 1
        yield (e + 1023 << 52) + 1
    for _ in range(40):
        side = draw.between(1, 94906265)
        square = nearest(side * side, 1) + (draw.between(-250, 250) * 2 << 52)
        yield from [square - 1, square, square + 1]
    for s in [52, 53]:
        for m in next_to_middles(s, 60):
            if m >= 1 << 52:
                yield (s + 1023 + 2 * draw.between(-500, 450) << 52) + m - (1 << 52)
    yield from [draw.below(INFINITY) for _ in range(150)]


def lines():
    """All lines, each once."""
    draw = Draw(20240607)
    texts = []
    texts += spellings()
    texts += oddities()
    texts += digit_limits()
    texts += power_limits()
    texts += zeros()
    texts += long_exponents()
    texts += long_lines()
    texts += halfway_products(draw)
    texts += halfway_quotients(draw)
    texts += random_numbers(draw)
    texts += nested()
    texts += squares(draw)
    texts += delicate_roots()
    texts += random_roots(draw)
    texts += ["root %016x" % bits for bits in root_patterns(draw)]
    return [text.encode() for text in dict.fromkeys(texts)]


# ---- the list held against the machine's own arithmetic


def bits_of(x):
    return NOT_A_NUMBER if x != x else struct.unpack("<Q", struct.pack("<d", x))[0]


def machine_root(x):
    return math.sqrt(x) if x >= 0 else math.nan


def machine(line, told):
    """The bits that float() and math.sqrt give for a line, of which so many bytes were read."""
    asked = ROOT_LINE.fullmatch(line)
    if asked:
        return bits_of(machine_root(struct.unpack("<d", struct.pack("<Q", int(asked.group(1), 16)))[0]))
    read = line[: int(told)].decode()
    depth = read.count("sqrt(")
    x = float(read[5 * depth : len(read) - depth])
    for _ in range(depth):
        x = machine_root(x)
    return bits_of(x)


def check(texts):
    """Stops at the first line that the machine answers otherwise, or that breaks a limit of the list."""
    compared = 0
    for line in texts:
        told = answer(line).split()
        assert b"\n" not in line
        if len(told[0]) == 16:
            assert int(told[0], 16) == machine(line, told[-1]), line
            compared += 1
    asked = sum(1 for line in texts if ROOT_LINE.fullmatch(line))
    long = [line for line in texts if len(line) > USUAL_LENGTH]
    assert len(texts) - asked >= 2500 and asked >= 600
    assert len(long) <= MOST_LONG_LINES and max(map(len, long)) <= MOST_LENGTH
    print("%d lines, %d of them roots of bits; %d answers as the machine has them" % (len(texts), asked, compared))


def ten_to(a):
    """10^a on the machine's doubles, as request 4 has it: multiplied by ten so many times."""
    p = 1.0
    for _ in range(a):
        p *= 10.0
    return p


def check_powers():
    """Stops where a product of ten is not exact up to 10^22, or is past it."""
    for a in range(MOST_POWER + 1):
        assert int(ten_to(a)) == 10**a
    assert int(ten_to(MOST_POWER + 1)) != 10 ** (MOST_POWER + 1)


# ---- a program held against other numbers


def other_numbers(count):
    """So many numbers in reach, k going round from -22 to 22, with their digits and signs; the same every time."""
    draw = Draw(20261116)
    for i in range(count):
        k = i % (2 * MOST_POWER + 1) - MOST_POWER
        m = draw.below(10 ** draw.between(1, MOST_DIGITS))
        sign = draw.one_of(["", "+", "-"])
        after = draw.below(MOST_POWER + 1)
        digits = str(m).rjust(after, "0")
        written = pointed(digits, len(digits) - after) if after else digits
        end = "e%d" % (k + after) if k + after or draw.below(2) else ""
        yield sign, m, k, (sign + written + end).encode()


def by_tens(sign, m, k):
    """The bits of a number by one multiplication or division on the machine's doubles, by a power that request 4 gives."""
    x = float(m) * ten_to(k) if k >= 0 else float(m) / ten_to(-k)
    return bits_of(-x if sign == "-" else x)


def hold(program, count):
    """How many numbers the program, the whole numbers and request 4's way do not agree on."""
    assert count > 2 * MOST_POWER, "too few for every k"
    made, differ = list(other_numbers(count)), 0
    for at in range(0, count, CHUNK_LINES):
        chunk = made[at : at + CHUNK_LINES]
        asked = b"".join(line + b"\n" for _, _, _, line in chunk)
        told = subprocess.run([program], input=asked, stdout=subprocess.PIPE, check=True).stdout.split(b"\n")
        told += [b"none"] * (len(chunk) + 1 - len(told))
        for (sign, m, k, line), said in zip(chunk, told):
            if not said == answer(line) == b"%016x %d" % (by_tens(sign, m, k), len(line)):
                print(line.decode(), said.decode(), answer(line).decode(), "%016x" % by_tens(sign, m, k))
                differ += 1
        differ += told[len(chunk) :] != [b""]
    print("%d numbers, %d differences" % (count, differ))
    return differ


def main():
    if sys.argv[1:] == ["--check"]:
        check(lines())
        check_powers()
    elif len(sys.argv) == 4 and sys.argv[1] == "--hold":
        sys.exit(hold(sys.argv[2], int(sys.argv[3])) > 0)
    elif len(sys.argv) == 3:
        texts = lines()
        for path, rows in [(sys.argv[1], texts), (sys.argv[2], map(answer, texts))]:
            with open(path, "wb") as file:
                file.write(b"".join(row + b"\n" for row in rows))
    else:
        sys.exit(__doc__.rstrip())


if __name__ == "__main__":
    main()
