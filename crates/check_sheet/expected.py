#!/usr/bin/env python3
"""The expected output of check_sheet: python3 expected.py > stdout.

The lists are those of document 01, as they stand there; the codes added are those of document 02, request (f).
"""

THIRTY_BITS = "01 to 07, 50 to 52, 60 to 62, 70 to 72"
LEFT_OUT = "24, 25, 30 to 35, 40 to 42, 44, 45"
ADDED = "24, 30 to 33"


def codes(text):
    """Each code of a list, as two octal digits."""
    for part in text.split(", "):
        first, _, last = part.partition(" to ")
        yield from (f"{code:02o}" for code in range(int(first, 8), int(last or first, 8) + 1))


for beginning in range(0o1000):
    digits = f"{beginning:03o}"
    code, i = digits[:2], digits[2]
    length = 30 if code in codes(THIRTY_BITS) else 15
    left_out = code in codes(LEFT_OUT) and code not in codes(ADDED)
    unfit = left_out or (code == "01" and i != "0")
    print(digits, length, "unfit" if unfit else "fit")
