#!/usr/bin/env python3
"""Patterns of printf and what they write, from Python's whole numbers and the rules of C ("The fprintf function").

    tests/printf.py             writes the section `printf` of crates/leaf_table
    tests/printf.py --check     tells whether they are what it would write
    tests/printf.py --libc      compares each pattern that C allows with the snprintf of the C library here

A line of stdin is a pattern and its arguments, separated by tabs; the line of stdout is the text in brackets, or
`bad format at N`.
"""
import ctypes
import itertools
import sys

sys.dont_write_bytecode = True
from stored import store_section

BITS = {"hh": 8, "h": 16, "": 32, "l": 64, "ll": 64, "j": 64, "z": 64, "t": 64}
DIGITS = {"d": "d", "i": "d", "u": "d", "x": "x", "X": "X", "o": "o"}
FLAG_SETS = ["".join(chosen) for count in range(5) for chosen in itertools.combinations("-0+ ", count)]
WIDTHS = ["", "1", "7", "12"]
PRECISIONS = ["", ".", ".0", ".1", ".5", ".9"]

# What is wrong with a pattern, with the place of its `%`.
BAD = [
    ("%", 0), ("ab%", 2), ("%-", 0), ("%5", 0), ("%.", 0), ("%.3", 0), ("%l", 0), ("%hh", 0), ("%5%", 0), ("%-%", 0),
    ("%l%", 0), ("%.%", 0), ("%lc", 0), ("%hhc", 0), ("%ls", 0), ("%zs", 0), ("%#x", 0), ("%*d", 0), ("%.*d", 0),
    ("%p", 0), ("%n", 0), ("%f", 0), ("%e", 0), ("%Lf", 0), ("%a", 0), ("%4096d", 0), ("%.4096d", 0),
    ("%99999999999999999999d", 0), ("%.99999999999999999999d", 0), ("%lll", 0), ("%llld", 0), ("%hhhd", 0), ("%jjd", 0),
    ("%ltd", 0), ("%D", 0), ("%.-1d", 0), ("%.+d", 0), ("%5-d", 0), ("%5 d", 0), ("%d%", 2), ("%%%", 2), ("%1$d", 0),
    ("%'d", 0), ("%Id", 0), ("%qd", 0), ("%m", 0), ("%S", 0), ("%C", 0), ("%ds%y", 3),
]


def number(flags, width, precision, length, kind, value):
    """What a conversion of a number writes of an argument from 0 to 2^64 - 1."""
    bits = BITS[length]
    value %= 2**bits
    if kind in "di" and value >= 2 ** (bits - 1):
        value -= 2**bits
    least = int("0" + precision[1:]) if precision else None
    digits = format(abs(value), DIGITS[kind])
    if least == 0 and value == 0:
        digits = ""
    digits = digits.rjust(least or 0, "0")
    sign = ""
    if kind in "di":
        sign = "-" if value < 0 else "+" if "+" in flags else " " if " " in flags else ""
    room = int("0" + width) - len(sign + digits)
    if "-" in flags:
        return sign + digits + " " * room
    if "0" in flags and least is None:
        return sign + "0" * room + digits
    return " " * room + sign + digits


def text(flags, width, precision, kind, value):
    """What a conversion of a byte or a string writes."""
    if kind == "s" and precision:
        value = value[: int("0" + precision[1:])]
    return value.ljust(int("0" + width)) if "-" in flags else value.rjust(int("0" + width))


def numbers():
    """Conversions of numbers: every combination of flags, width and precision, with kinds, lengths and values in turn."""
    kinds, lengths = itertools.cycle("diuxXo"), itertools.cycle(list(BITS) + [""] * 3)
    for flags, width, precision in itertools.product(FLAG_SETS, WIDTHS, PRECISIONS):
        for _ in range(5):
            kind, length = next(kinds), next(lengths)
            bits = BITS[length]
            edges = [0, 1, 42, 2 ** (bits - 1) - 1, 2 ** (bits - 1), 2**bits - 1, 2**bits - 42, 2**32 + 7, 2**63 + 5]
            value = edges[numbers.turn % len(edges)]
            numbers.turn += 1
            yield "%" + flags + width + precision + length + kind, [value], number(flags, width, precision, length, kind, value)


numbers.turn = 0


def texts():
    """Conversions of bytes and strings."""
    for flags, width in itertools.product(FLAG_SETS, WIDTHS):
        yield "%" + flags + width + "c", [ord("Q")], text(flags, width, "", "c", "Q")
        for precision, value in zip(PRECISIONS, ["", "ab", "abcdef", "abcdefghijklmnop", "x", "abcdefgh"]):
            yield "%" + flags + width + precision + "s", [value], text(flags, width, precision, "s", value)
    for precision in PRECISIONS[1:]:
        yield "%4" + precision + "c", [ord("Z")], "   Z"


def whole():
    """Patterns of several pieces."""
    yield "", [], ""
    yield "plain", [], "plain"
    yield "%%", [], "%"
    yield "100%%%d%%", [7], "100%7%"
    yield "%5d|%-4u|%04x|%s", [2**32 - 42, 7, 255, "ab"], "  -42|7   |00ff|ab"
    yield "a%db%dc", [1, 2], "a1b2c"
    yield "%s%s", ["", ""], ""
    yield "%c%c%c", [72, 105, 256 + 33], "Hi!"
    yield "%4095d", [1], "1".rjust(4095)
    yield "%.4095d", [1], "1".rjust(4095, "0")
    yield "%00004d", [3], "0003"
    yield "%--+  d|", [3], "+3|"
    yield "%007d", [2**32 - 3], "-000003"
    yield "%0-5d|", [3], "3    |"


def good():
    return [*numbers(), *texts(), *whole()]


def lines():
    shown = [(pattern, arguments, f"[{expected}]") for pattern, arguments, expected in good()]
    shown += [(pattern, [1, 1], f"bad format at {at}") for pattern, at in BAD]
    stdin = "".join("\t".join([pattern, *map(str, arguments)]) + "\n" for pattern, arguments, _ in shown)
    return stdin, "".join(expected + "\n" for _, _, expected in shown)


def libc():
    """Compares with the C library, where C gives the combination a meaning."""
    snprintf, room, count = ctypes.CDLL(None).snprintf, ctypes.create_string_buffer(8192), 0
    for pattern, arguments, expected in good():
        values = [ctypes.c_char_p(it.encode()) if isinstance(it, str) else ctypes.c_uint64(it) for it in arguments]
        snprintf(room, 8192, pattern.encode(), *values)
        if room.value.decode() != expected:
            print(f"{pattern!r} {arguments}: {room.value.decode()!r} in C, {expected!r} here")
        count += 1
    print(f"{count} patterns compared")


def main():
    if "--libc" in sys.argv[1:]:
        libc()
    else:
        store_section("leaf_table", "printf", *(text.encode() for text in lines()))


if __name__ == "__main__":
    main()
