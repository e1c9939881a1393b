#!/usr/bin/env python3
"""The expected output of check_floating: python3 expected.py > stdout.

By the sentences of document 02, request (f). A finite word is a sign, an exponent and a size; sums are sums of signed
whole numbers, cut from exact fractions, so that nothing here follows the halves and shifts of the library.
"""
from fractions import Fraction

WORDS = [
    # zeros with the exponents -1023, 0, 1022, -975 and -976
    0o00000000000000000000, 0o77777777777777777777, 0o20000000000000000000, 0o57777777777777777777,
    0o40017777777777777777, 0o77177777777777777777, 0o77207777777777777777,
    # 1 and -1, and both normalized
    0o20000000000000000001, 0o57777777777777777776, 0o17204000000000000000, 0o60573777777777777777,
    # the largest with both signs, and the exponent 1021
    0o37767777777777777777, 0o40010000000000000000, 0o37754000000000000000,
    # the smallest with both signs, and the exponent -1022
    0o00000000000000000001, 0o77777777777777777776, 0o00012000000000000001,
    # the exponents 0, 0, -1, -48, -49, -95, -96 and -97 (1 normalized has -47)
    0o20007777777777777777, 0o57770000000000000000, 0o17764000000000000001, 0o17177777777777777777,
    0o60610000000000000000, 0o16407777777777777777, 0o61400000000000000000, 0o16367777777777777777,
    # the exponents -975 and -976
    0o00607777777777777777, 0o77202525252525252525,
    # infinite and indefinite words
    0o37770000000000000000, 0o40007777777777777777, 0o37770000000000000005, 0o40001234567012345670,
    0o17770000000000000000, 0o60007777777777777777, 0o17774000000000000001, 0o60000000000000000001,
]
# what the first four digits of a positive word stand for, in order
EXPONENTS = [*range(-1023, 0), "indefinite", *range(1023), "infinite"]


def complement(word):
    return 8**20 - 1 - word


def parts(word):
    """The sign as 1 or -1, the exponent or the kind of special word, and the size of the coefficient."""
    sign = 1 if word < 4 * 8**19 else -1
    stored, size = divmod(word if sign == 1 else complement(word), 8**16)
    return sign, EXPONENTS[stored], size


def made(sign, exponent, size):
    """The word with these parts; a finite exponent may be past the limits."""
    if exponent == "indefinite":
        return EXPONENTS.index(exponent) * 8**16
    if exponent != "infinite" and exponent < -1023:
        return 0
    if exponent == "infinite" or exponent > 1022:
        exponent, size = "infinite", 0
    word = EXPONENTS.index(exponent) * 8**16 + size
    return word if sign == 1 else complement(word)


def half(code, sign, exponent, size):
    """30 and 31 have the upper half of 96 bits, 32 and 33 the lower."""
    upper, lower = divmod(size, 2**48)
    return made(sign, exponent, upper) if code in (0o30, 0o31) else made(sign, exponent - 48, lower)


def result(code, xj, xk):
    """Of 30 to 33. A difference is the sum with the complement of Xk."""
    operands = [parts(xj), parts(complement(xk) if code in (0o31, 0o33) else xk)]
    kinds = [exponent for _, exponent, _ in operands]
    infinities = {sign for sign, exponent, _ in operands if exponent == "infinite"}
    if "indefinite" in kinds or len(infinities) == 2:
        return made(1, "indefinite", 0)
    if infinities:
        return made(infinities.pop(), "infinite", 0)
    # int() cuts towards zero
    larger = max(kinds)
    aligned = [int(sign * size * Fraction(2) ** (48 + exponent - larger)) for sign, exponent, size in operands]
    total = sum(aligned)
    minus_zero = aligned == [0, 0] and all(sign == -1 for sign, _, _ in operands)
    sign = -1 if total < 0 or minus_zero else 1
    if abs(total) >= 2**96:
        return half(code, sign, larger + 1, abs(total) // 2)
    return half(code, sign, larger, abs(total))


def normalized(xk):
    """Of 24: the word and the count."""
    sign, exponent, size = parts(xk)
    if exponent in ("infinite", "indefinite"):
        return xk, 0
    count = 48 - len(f"{size:b}".lstrip("0"))
    return made(sign, exponent - count, size * 2**count), count


def main():
    for xj in WORDS:
        for xk in WORDS:
            print(*(f"{word:020o} " for word in (xj, xk, *(result(code, xj, xk) for code in range(0o30, 0o34)))), sep="")
    for xk in WORDS:
        word, count = normalized(xk)
        kind = parts(xk)[1]
        flags = "".join("01"[kind == name] for name in ("infinite", "indefinite"))
        print(f"{xk:020o} {word:020o} {count:06o} {flags}")


if __name__ == "__main__":
    main()
