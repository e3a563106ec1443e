"""Modules that are spelled otherwise than `llvm-as` writes them, and the modules of an empty text cut to each number of bytes.

The streams are made by the encoder of tests/assemble.py from records and abbreviations that are written by hand from docs/bitcode.md, or written
out byte for byte; so are the canonical texts. What is told of a stream that is cut comes from its fields, whose widths are written by hand.
tests/bitcode.py writes the rows.
"""
from assemble import (
    ADD, BLOCK, EMPTY, EXTERNAL, FUNCTION, LAYOUT, PARAMS, PRODUCER, PTR, RET, SOURCE, TRIPLE, VARIABLE, bitcode, block, body,
    byte_record, first_version, in_line, int_type, integer, put_block, record, top, types, value)
from streams import LETTERS

# The module of an empty text in version 1, byte for byte: 36 bytes of the producer, and 32 of an empty module.
FIRST_EMPTY = bytes.fromhex(
    "42 43 C0 DE 35 0C 00 00 06 00 00 00 1A 64 4C 10 83 28 CD 8D AE EC AC 4C 0E 04 4E EE CD 2C 8D AD 0C 24 06 00"
    "21 0C 00 00 06 00 00 00 1A 64 4C D0 82 20 48 C4 00 00 00 00 01 00 00 00 00 00 00 00 00 00 00 00")

# ---- abbreviations

LITERAL, FIXED, VBR, ARRAY, CHAR6, BLOB = 0, 1, 2, 3, 4, 5


def defined(*fields):
    """A definition of these fields, each an encoding and its width or value, in a block with ids of three bits."""
    def put(out):
        out.fixed(2, 3)
        out.vbr(len(fields), 5)
        for encoding, number in fields:
            out.fixed(encoding == LITERAL, 1)
            if encoding == LITERAL:
                out.vbr(number, 8)
                continue
            out.fixed(encoding, 3)
            if encoding in (FIXED, VBR):
                out.vbr(number, 5)
    return put


def put_bytes(out, bytes_):
    """A blob."""
    out.vbr(len(bytes_), 6)
    out.align()
    for byte in bytes_:
        out.fixed(byte, 8)
    out.align()


def put_field(out, field, number):
    """A value as the field says."""
    encoding, width = field
    if encoding == FIXED:
        out.fixed(number, width)
    if encoding == VBR:
        out.vbr(number, width)
    if encoding == CHAR6:
        out.fixed(LETTERS.index(chr(number)), 6)
    if encoding == BLOB:
        put_bytes(out, number)


def by(fields, *numbers):
    """A record by the abbreviation 4, which has these fields. An array takes the numbers that are left, a blob its bytes."""
    def put(out):
        out.fixed(4, 3)
        for place, field in enumerate(fields):
            if field == (ARRAY, None):
                out.vbr(len(numbers) - place, 6)
                for number in numbers[place:]:
                    put_field(out, fields[place + 1], number)
                return
            put_field(out, field, numbers[place])
    return put


def abbreviated(fields, *numbers):
    """A definition of these fields, and a record by it."""
    def put(out):
        defined(*fields)(out)
        by(fields, *numbers)(out)
    return put


NUMBERS = [(VBR, 6), (ARRAY, None), (VBR, 6)]

# ---- one module: `@x = global i8 -1`

X_LINES = ["@x = global i8 -1"]
MINUS_ONE = integer(255)
X = [VARIABLE, 0, 1, EXTERNAL, 0, 0, 0, 1, *MINUS_ONE]
FIRST_X = [VARIABLE, *in_line(b"x"), EXTERNAL, 0, 0, 0, 1, *MINUS_ONE]
I8 = types(int_type(8))


def second_version(*entries, table=byte_record(b"x"), info=()):
    """Version 2 of that table, behind these records and definitions of BLOCKINFO."""
    return top((0, list(info)), PRODUCER, (23, [table]), (8, [record(1, 2), *entries]))


# A field a number, the first a literal, and the name's byte as Char6.
BY_FIELDS = [(LITERAL, VARIABLE), (VBR, 6), (CHAR6, None), (FIXED, 4), (FIXED, 1), (VBR, 2), (FIXED, 0), (FIXED, 1), (LITERAL, 1), (FIXED, 64)]
WITH_BLOB = [*[(VBR, 6)] * len(X), (BLOB, None)]
TABLE_WITH_BLOB = [(LITERAL, 1), (FIXED, 7), (BLOB, None)]


def wide():
    """All ids of 32 bits, in the block of types too, and no abbreviations."""
    def inside(out):
        put_block(out, 32, 17, [record(1, 8, width=32)], 32)
    module = [record(1, 2, width=32), inside, record(*X, width=32)]
    return top((13, [record(1, *b"integer profile 1", width=32)]), (23, [record(1, *b"x", width=32)]), (8, module), width=32)


SAME = [
    # A text stands anywhere in the table, and types that nothing mentions, or twice, are none of the module.
    bitcode(b"yxz", types(int_type(7), int_type(8), int_type(8), PTR), record(VARIABLE, 1, 1, EXTERNAL, 0, 2, 0, 1, *MINUS_ONE)),
    # BLOCKINFO is passed over wherever it stands.
    top((0, [record(1, 8)]), PRODUCER, (0, []), (23, [byte_record(b"x")]), (8, [record(1, 2), block(0, record(1, 8)), I8, record(*X)]), (0, [])),
    bitcode(b"x", I8, abbreviated(NUMBERS, *X)),
    # It gives abbreviations to blocks of an id, here 8; and definitions that no record uses say nothing.
    second_version(defined((FIXED, 64)), I8, by(NUMBERS, *X), info=[record(1, 8), defined(*NUMBERS)]),
    # Blobs behind the operands of records.
    bitcode(b"x", I8, abbreviated(WITH_BLOB, *X, b"\0\1\2\3\4")),
    second_version(I8, record(*X), table=abbreviated(TABLE_WITH_BLOB, None, ord("x"), b"yz")),
    wide(),
    # Version 1.
    first_version(I8, record(*FIRST_X)),
    first_version(block(0, record(1, 17)), I8, abbreviated(BY_FIELDS, *FIRST_X)),
    first_version(I8, abbreviated([*[(VBR, 6)] * len(FIRST_X), (BLOB, None)], *FIRST_X, b"")),
]

# Other modules and their canonical texts.
OTHERWISE = [
    (FIRST_EMPTY, []),
    # Version 1: texts to the end of their records, names with their sizes, the name of a struct at the end.
    (first_version(record(SOURCE, *b"a"), record(LAYOUT, *b"e"), record(TRIPLE),
                   types(int_type(8), record(6, 0), record(7, 0, 1, 0, *b"T")),
                   record(VARIABLE, *in_line(b"x"), EXTERNAL, 0, 1, 0, 1, 7, 1, *MINUS_ONE)),
     ['source_filename = "a"', 'target datalayout = "e"', 'target triple = ""', "%T = type { i8 }", "@x = global %T { i8 -1 }"]),
    (first_version(types(int_type(32)), record(FUNCTION, *in_line(b"main"), EXTERNAL, 1, 0, 0, 0),
                   body(record(PARAMS), record(BLOCK, 2, *b"b"), record(ADD, 2, *b"s", 0, 0, *integer(40), *integer(2)),
                        record(RET, 1, 0, *value(0)))),
     ["define i32 @main() {", "b:", "  %s = add i32 40, 2", "  ret i32 %s", "}"]),
]

# ---- the modules of an empty text, cut

ALIGNED = None

# How many bits each field has. A block is its id among those outside, its own, the width, the alignment and the count of words; a definition
# of VBR 6, Array and Fixed 8 is an id, a count, and three encodings, the first and the last with a width.
ENTERED = [8, 4, ALIGNED, 32]
DEFINED = [3, 5, 1, 3, 5, 1, 3, 1, 3, 5]
LEFT = [3, ALIGNED]
PRODUCER_FIELDS = [2, *ENTERED, *DEFINED, 3, 6, 6, *17 * [8], *LEFT]
TABLE_FIELDS = [2, *ENTERED, *DEFINED, 3, 6, 6, *LEFT]
VERSION_FIELDS = [3, 6, 6, 6]
TYPES_FIELDS = [3, *ENTERED, *LEFT]

# Bytes, their fields behind the magic number, and what is told where nothing is left at the top level, by the bit.
CUT = [
    (FIRST_EMPTY, [*PRODUCER_FIELDS, 2, *ENTERED, *DEFINED, *VERSION_FIELDS, *TYPES_FIELDS, *LEFT],
     {32: "foreign producer", 288: "bad record 1 in block 8, rule 5"}),
    (EMPTY, [*PRODUCER_FIELDS, *TABLE_FIELDS, 2, *ENTERED, *VERSION_FIELDS, *TYPES_FIELDS, *LEFT],
     {32: "foreign producer", 288: "bad record 1 in block 8, rule 5", 416: "bad record 2 in block 8, rule 5"}),
]

# What is told of the first of them by its length in words, from 0 up.
IN_WORDS = ["bit 0: bad magic", "foreign producer", *(f"bit {bit}: truncated" for bit in [64, 96, 126, 157, 189, 221, 253]),
            "bad record 1 in block 8, rule 5", *(f"bit {bit}: truncated" for bit in [320, 352, 382, 414, 448, 480, 512])]


def told_of(fields, at_top, size):
    """What is told of so many bytes: the first field that passes their end, at its first bit."""
    if size < 4:
        return "bit 0: bad magic"
    at = 32
    for width in fields:
        if at == 8 * size and at in at_top:
            return at_top[at]
        end = at + width if width is not ALIGNED else at + -at % 32
        if end > 8 * size:
            return f"bit {at}: truncated"
        at = end
    raise ValueError("these bytes have all fields")


def cut():
    """Each front of both, but of the second only those that are none of the first, and what is told of it."""
    code, fields, at_top = CUT[0]
    rows = [(code[:size], told_of(fields, at_top, size)) for size in range(len(code))]
    if [told for _, told in rows[::4]] != IN_WORDS:
        raise SystemExit("the fields of the module of an empty text are others")
    code, fields, at_top = CUT[1]
    return rows + [(code[:size], told_of(fields, at_top, size)) for size in range(37, len(code))]


if top(PRODUCER, (8, [defined((VBR, 6), (ARRAY, None), (FIXED, 8)), record(1, 1), types()])) != FIRST_EMPTY:
    raise SystemExit("the encoder does not make the module of an empty text in version 1")
