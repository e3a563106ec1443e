#!/usr/bin/env python3
"""The integer intrinsics over Python's whole numbers, written from the LLVM Language Reference.

    tests/intrinsics.py            writes the section `intrinsics` of crates/leaf_table
    tests/intrinsics.py --check    tells whether they are what it would write

A line of stdin is `all NAME`: all operands of the width, which is small, poison last, the first operand varying slowest. A row
is `row NAME OPERAND..`, an operand being a number without sign or `p` for poison. Answers are hexadecimal, with `p` for
poison, and two leaves stand as `first,second`.
"""
import itertools
import sys

sys.dont_write_bytecode = True
from stored import store_section

POISON = None
UNARY = ["ctpop", "bswap", "bitreverse"]
ASKED = ["ctlz", "cttz", "abs"]
BINARY = ["smin", "smax", "umin", "umax", "sadd.sat", "uadd.sat", "ssub.sat", "usub.sat"]
TOLD = [word + ".with.overflow" for word in ["sadd", "uadd", "ssub", "usub", "smul", "umul"]]
FUNNEL = ["fshl", "fshr"]
STEMS = UNARY + ASKED + BINARY + TOLD + FUNNEL


def minus(width, number):
    """The number as a signed one: the sign bit weighs -2**(width - 1)."""
    return number - ((number >> (width - 1)) << width)


def digits(number, width):
    return format(number, "0%db" % width)


def counted(stem, width, a):
    text = digits(a, width)
    if stem == "ctpop":
        return text.count("1")
    if stem == "bitreverse":
        return int(text[::-1], 2)
    return int.from_bytes(a.to_bytes(width // 8, "big"), "little")


def asked(stem, width, a, poison):
    text = digits(a, width)
    if stem == "abs":
        value = minus(width, a)
        if poison and value == -(1 << (width - 1)):
            return POISON
        return abs(value) % (1 << width)
    if a == 0:
        return POISON if poison else width
    return text.index("1") if stem == "ctlz" else width - 1 - text.rindex("1")


def chosen(stem, width, a, b):
    signed = stem[0] == "s"
    x, y = (minus(width, a), minus(width, b)) if signed else (a, b)
    low, high = (-(1 << (width - 1)), (1 << (width - 1)) - 1) if signed else (0, (1 << width) - 1)
    if stem[1:] == "min":
        return min(x, y) % (1 << width)
    if stem[1:] == "max":
        return max(x, y) % (1 << width)
    exact = {"add": x + y, "sub": x - y, "mul": x * y}[stem[1:4]]
    if stem.endswith(".sat"):
        return sorted((low, exact, high))[1] % (1 << width)
    return (exact % (1 << width), 0 if low <= exact <= high else 1)


def funnelled(stem, width, a, b, c):
    text = digits(a, width) + digits(b, width)
    amount = c % width
    if stem == "fshl":
        return int((text + "0" * amount)[amount:][:width], 2)
    return int(("0" * amount + text)[: 2 * width][width:], 2)


def arity(stem):
    return 1 if stem in UNARY else 3 if stem in FUNNEL else 2


def result(stem, width, operands):
    if POISON in operands:
        return (POISON, POISON) if stem in TOLD else POISON
    if stem in UNARY:
        return counted(stem, width, *operands)
    if stem in ASKED:
        return asked(stem, width, *operands)
    if stem in FUNNEL:
        return funnelled(stem, width, *operands)
    return chosen(stem, width, *operands)


def shown(value):
    if isinstance(value, tuple):
        return ",".join(map(shown, value))
    return "p" if value is POISON else format(value, "x")


def name(stem, width):
    return f"llvm.{stem}.i{width}"


def everything(width):
    return list(range(1 << width)) + [POISON]


def operands_of(stem, width, values):
    second = [0, 1, POISON] if stem in ASKED else values
    return itertools.product(*([values, second, values][: arity(stem)]))


PATTERN = int.from_bytes(bytes(range(1, 17)), "big")


def edges(width):
    """Numbers at the ends of the ranges, and two without a pattern."""
    top = 1 << (width - 1)
    numbers = [0, 1, width, top - 1, top, 2 * top - 1, PATTERN, PATTERN * 3]
    return sorted({number % (1 << width) for number in numbers})


def some(stem, width):
    """Edges of the width: pairs of them, and for three operands the amounts that matter."""
    values = edges(width)
    if stem in FUNNEL:
        amounts = (0, 1, 2, width // 2, width - 1, width, width + 1, 2 * width + 3, (1 << width) - 1)
        halves = [values[0], values[-1], PATTERN % (1 << width)]
        yield from itertools.product(halves, halves, sorted({amount % (1 << width) for amount in amounts}))
        yield from [(POISON, 1, 1), (1, POISON, 1), (1, 1, POISON)]
    elif stem in UNARY or stem in ASKED:
        yield from operands_of(stem, width, values + [POISON])
    else:
        yield from itertools.product(values[1:], values)
        yield from [(POISON, 1), (1, POISON)]


# the rows of the language's own examples, by hand
BY_HAND = [
    ("llvm.sadd.with.overflow.i8", (100, 100), "c8,1"), ("llvm.fshl.i8", (129, 128, 1), "3"),
    ("llvm.abs.i32", ((1 << 32) - 7, 0), "7"), ("llvm.bswap.i32", (0x12345678,), "78563412"),
    ("llvm.ctlz.i8", (0, 0), "8"), ("llvm.ctlz.i8", (0, 1), "p"), ("llvm.abs.i8", (128, 1), "p"), ("llvm.abs.i8", (128, 0), "80"),
]
# no intrinsic's name, or operands that it does not take
REFUSED = ["row llvm.bswap.i8 1", "all llvm.fadd.i4", "row llvm.ctpop.i8 256", "row llvm.ctpop.i8 1 1", "row llvm.ctlz.i8 1 2", "row llvm.umin.i8 1"]


def row(name, operands):
    return " ".join(["row", name] + ["p" if operand is POISON else str(operand) for operand in operands])


def lines():
    for stem in STEMS:
        if stem != "bswap":
            results = [shown(result(stem, 4, operands)) for operands in operands_of(stem, 4, everything(4))]
            yield "all " + name(stem, 4), " ".join(results)
    for stem in STEMS:
        for width in (16, 32, 64, 128) if stem == "bswap" else (1, 8, 16, 32, 64, 128):
            for operands in some(stem, width):
                yield row(name(stem, width), operands), shown(result(stem, width, operands))
    for which, operands, answer in BY_HAND:
        yield row(which, operands), answer
    for line in REFUSED:
        yield line, "none"


def files():
    pairs = list(lines())
    return "".join(f"{line}\n" for line, _ in pairs), "".join(f"{line}: {answer}\n" for line, answer in pairs)


def main():
    store_section("leaf_table", "intrinsics", *(text.encode() for text in files()))


if __name__ == "__main__":
    main()
