#!/usr/bin/env python3
"""The expected output of check_words: python3 expected.py > stdout.

Bits are characters of a string, highest first, and sums are sums of signed whole numbers, so that nothing here
follows the masks and shifts of the library.
"""

WORDS = [0, 1, 3, 0o37777777777777777777, 0o40000000000000000000, 0o77777777777777777774, 0o77777777777777777776,
         0o77777777777777777777, 0o17760000000000000005, 0o60010000000000000003, 0o37770000000000000000,
         0o51234567012345670123]
SHORTS = [0, 1, 3, 0o77, 0o100, 0o1776, 0o377777, 0o400000, 0o400001, 0o777700, 0o777776, 0o777777]
MAGNITUDES = [0, 1, 3, 59, 60, 63, 64, 65, 127, 128, 129, 192, 0o1776, 4096, 0o377700, 0o377777]


def text(n, width):
    return format(n, f"0{width}b")


def number(bits):
    return int(bits, 2)


def flip(bits):
    return "".join("10"[int(b)] for b in bits)


def complement(n, width):
    return number(flip(text(n, width)))


def value(n, width):
    """The signed whole number; minus zero is 0."""
    return n if text(n, width)[0] == "0" else -complement(n, width)


def total(a, b, width):
    """One's complement: minus zero only from two minus zeros, overflow goes round."""
    minus_zero = 2**width - 1
    if a == b == minus_zero:
        return minus_zero
    return (value(a, width) + value(b, width)) % minus_zero


def less(a, b, width):
    return total(a, complement(b, width), width)


def bitwise(rule, a, b, width):
    return number("".join(str(int(rule(x == "1", y == "1"))) for x, y in zip(text(a, width), text(b, width))))


def rotated(n, k, width):
    bits = text(n, width)
    for _ in range(k):
        bits = bits[1:] + bits[0]
    return number(bits)


def right(n, k, width, fill=None):
    bits = text(n, width)
    for _ in range(k):
        bits = (fill or bits[0]) + bits[:-1]
    return number(bits)


def mask(k):
    return number(("1" * k + "0" * 60)[:60])


def nominal(b, x, to_left):
    """To the left by the low six bits of the count; to the right by 64 places or more nothing is left, not even the sign."""
    negative = text(b, 18)[0] == "1"
    places = abs(value(b, 18))
    if to_left != negative:
        return rotated(x, places % 64, 60)
    return right(x, places, 60) if places < 64 else 0


def shn(d, a):
    return rotated(a, d, 18) if d < 0o40 else right(a, 0o77 - d, 18, "0")


def unpacked(x):
    bits = text(x, 60)
    negative = bits[0] == "1"
    if negative:
        bits = flip(bits)
    stored, coefficient = number(bits[1:12]), "0" * 12 + bits[12:]
    # exponents are stored in order from -1777 to -0, then from +0 to +1777
    exponents = [complement(e, 18) for e in range(0o1777, -1, -1)] + list(range(0o2000))
    return number(flip(coefficient) if negative else coefficient), exponents[stored]


def packed(b, x):
    exponents = [complement(e, 11) for e in range(0o1777, -1, -1)] + list(range(0o2000))
    stored = text(exponents.index(number(text(b, 18)[-11:])), 11)
    bits = text(x, 60)
    return number(bits[0] + (flip(stored) if bits[0] == "1" else stored) + bits[12:])


def conditions(x):
    bits = text(x, 60)
    zero = len(set(bits)) == 1
    minus = bits[0] == "1"
    out = bits[:12] in ("011111111111", "100000000000")
    indefinite = bits[:12] in ("001111111111", "110000000000")
    return [zero, not zero, not minus, minus, not out, out, not indefinite, indefinite]


def comparisons(a, b):
    # with the sign bit changed, the pattern's order is the wanted one
    below = flip(text(a, 18)[0]) + text(a, 18)[1:] < flip(text(b, 18)[0]) + text(b, 18)[1:]
    return [a == b, a != b, not below, below]


def fields(bits, size):
    return [number(bits[i : i + size]) for i in range(0, len(bits), size)]


def line(*items):
    print("".join(items))


def word(n):
    return format(n, "020o") + " "


def short(n):
    return format(n, "06o") + " "


def flags(values):
    return "".join("01"[v] for v in values)


AND = lambda x, y: x and y
OR = lambda x, y: x or y
XOR = lambda x, y: x != y
CLEAR = lambda x, y: x and not y
EDGES = list(zip(WORDS, SHORTS))


def pair(x, y, a, b):
    n = complement(y, 60)
    logical = [x] + [bitwise(f, x, y, 60) for f in (AND, OR, XOR)] + [n] + [bitwise(f, x, n, 60) for f in (AND, OR, XOR)]
    line(word(x), word(y), word(total(x, y, 60)), word(less(x, y, 60)), *map(word, logical))
    results = [total(a, b, 18), less(a, b, 18)] + [bitwise(f, a, b, 18) for f in (AND, XOR, CLEAR)]
    line(short(a), short(b), *map(short, results), flags(comparisons(a, b)))
    sign = text(a, 18)[0]
    line(short(a), word(y), short(complement(a, 18)), sign, short(abs(value(a, 18))), word(number(sign * 42 + text(a, 18))),
         word(packed(a, y)))


def shift(x, a, k):
    line(word(x), short(k), word(rotated(x, k, 60)), word(right(x, k, 60)), word(mask(k)))
    line(short(a), short(k), short(shn(k, a)), short(rotated(a, k % 32, 18)), short(right(a, k % 32, 18, "0")))


def nominal_shifts(b, x):
    for count in (b, complement(b, 18)):
        line(short(count), word(x), word(nominal(count, x, True)), word(nominal(count, x, False)))


def alone(x):
    bits = text(x, 60)
    coefficient, exponent = unpacked(x)
    line(word(x), word(complement(x, 60)), word(abs(value(x, 60))), short(number(bits[-18:])), short(number(bits[-12:])),
         short(bits.count("1")), word(coefficient), short(exponent), bits[0], flags(conditions(x)))
    parcels = [bits[i : i + 15] for i in range(0, 60, 15)]
    digits = [fields(p, 3) + [number(p[:6]), number(p[-6:])] for p in parcels]
    constants = [number(bits[15 * i : 15 * i + 30][-18:]) for i in range(3)]
    parts = [bits[i : i + 12] for i in range(0, 60, 12)]
    line(*map(short, sum(digits, []) + constants + [number(p) for p in parts]), word(number("".join(reversed(parts)))))


for x, a in EDGES:
    for y, b in EDGES:
        pair(x, y, a, b)
for x, a in EDGES:
    for k in range(64):
        shift(x, a, k)
for b in MAGNITUDES:
    for x in WORDS:
        nominal_shifts(b, x)
for x in WORDS:
    alone(x)
