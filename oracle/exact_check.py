#!/usr/bin/env python3
"""Checks the stored answers of fma, square_add, sqrt and display by exact integers: exact_check.py FILE (see FORMAT.md)."""
import math
import struct
import sys
from fractions import Fraction

NAN = 0x7FF8000000000000
INFINITY = 0x7FF0000000000000


def number(bits):
    return struct.unpack("<d", struct.pack("<Q", bits))[0]


def nearest(q):
    """The bits of the binary64 number nearest to a fraction that is not zero, ties to even."""
    sign, q = (1 << 63 if q < 0 else 0), abs(q)
    e = q.numerator.bit_length() - q.denominator.bit_length()
    if Fraction(2) ** e > q:
        e -= 1
    e = max(e, -1022)
    scaled = q / Fraction(2) ** (e - 52)
    k = scaled.numerator // scaled.denominator
    rest = scaled - k
    if rest > Fraction(1, 2) or (rest == Fraction(1, 2) and k & 1):
        k += 1
    if k >= 1 << 53:
        k, e = k >> 1, e + 1
    if e > 1023:
        return sign | INFINITY
    return sign | (k if k < 1 << 52 else (e + 1023) << 52 | (k - (1 << 52)))


def fma(a, b, c):
    x, y, z = number(a), number(b), number(c)
    if math.isnan(x) or math.isnan(y) or math.isnan(z):
        return NAN
    sign = (a ^ b) >> 63
    if math.isinf(x) or math.isinf(y):
        if x == 0 or y == 0 or (math.isinf(z) and c >> 63 != sign):
            return NAN
        return sign << 63 | INFINITY
    if math.isinf(z):
        return c
    product = Fraction(x) * Fraction(y)
    total = product + Fraction(z)
    if total == 0:
        return (sign & c >> 63) << 63 if product == 0 else 0
    return nearest(total)


def sqrt(a):
    x = number(a)
    if math.isnan(x) or x < 0:
        return NAN
    if x == 0 or math.isinf(x):
        return a
    q = Fraction(x)
    n, k = q.numerator, q.denominator.bit_length() - 1
    if k % 2:
        n, k = 2 * n, k + 1
    root = math.isqrt(n << 400)
    sticky = 4 * root + (root * root != n << 400)
    return nearest(Fraction(sticky, 4) / Fraction(2) ** (200 + k // 2))


def display(a):
    x = number(a)
    if not math.isfinite(x):
        return (16, 0)
    k = round(abs(Fraction(x)) * 10**9)  # Python's, to even at a half
    return (16, 0) if k > 10**15 else (0, (-k if x < 0 else k) % 2**64)


KINDS = {
    1: ("fma", lambda a, b, c: (fma(a, b, c),)),
    2: ("sqrt", lambda a: (sqrt(a),)),
    35: ("display", display),
    53: ("square_add", lambda a, c: (fma(a, a, c),)),
}


def main():
    data = open(sys.argv[1], "rb").read()
    assert data[:8] == b"ORCASES1", "not a case file"
    words = struct.unpack("<%dQ" % ((len(data) - 8) // 8), data[8:])
    at, cases, differ = 0, {}, 0
    while at < len(words):
        kind, inputs, results = words[at] & 0xFFFFFFFF, words[at] >> 32, words[at + 1]
        start, middle, end = at + 2, at + 2 + inputs, at + 2 + inputs + results
        at = end
        if kind in KINDS:
            name, answer = KINDS[kind]
            cases[name] = cases.get(name, 0) + 1
            differ += tuple(answer(*words[start:middle])) != words[middle:end]
    if not cases:
        print("exact_check.py: the file has no case of " + ", ".join(name for name, _ in KINDS.values()), file=sys.stderr)
        return 2
    print(", ".join(f"{name} {n}" for name, n in cases.items()), f"cases, {differ} differ")
    return differ != 0


sys.exit(main())
