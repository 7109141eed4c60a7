#!/usr/bin/env python3
"""oracle/decimal_cases.py: what the program decimal_cases must write, computed here from document 01's words with exact integers.

python3 oracle/decimal_cases.py | cmp - crates/decimal_cases/stdout
"""
from fractions import Fraction


def text(raw, frac):
    """`-` if negative, integer digits, then, if the fraction is not 0, a point and its digits with no trailing zero."""
    whole, rest = divmod(abs(raw), 2**frac)
    out = ("-" if raw < 0 else "") + str(whole)
    if rest:
        # rest / 2^F is rest x 5^F / 10^F
        out += "." + str(rest * 5**frac).rjust(frac, "0").rstrip("0")
    assert Fraction(out) == Fraction(raw, 2**frac)
    return out


def lines():
    yield text(1, 15)
    for width in (8, 16, 32, 64):
        for frac in range(width + 1):
            yield text(-(2 ** (width - 1)), frac)
            yield text(2 ** (width - 1) - 1, frac)
            yield text(2**width - 1, frac)
    for frac in range(9):
        for n in range(256):
            yield text(n, frac)
            yield text(n if n < 128 else n - 256, frac)
    case = text(1, 15)
    for n in (20, 17, 16, 0):
        if len(case) <= n:
            yield case
            yield case + "*" * (n - len(case))
        else:
            yield "refused 5"
            yield "*" * n
    yield "refused 1"
    yield "refused 2"
    yield "refused 5"


if __name__ == "__main__":
    for line in lines():
        print(line)
