"""What refuses streams of blocks and records, by kind of block and rule (docs/bitcode.md, "The record table"), and what is just taken.

For each kind of block and each rule there is a record that breaks it, or it is said why there is none; then records that break two rules, of
which the least is told. Each stream is made of records that are written by hand, of a module in which all else is in order, and the index
of the record that is told is counted by hand: over the whole stream, from 0. tests/bitcode.py writes the rows.
"""
from assemble import (
    ADD, ALIAS, BLOCK, BR, CALL, EXTERNAL, FUNCTION, LAYOUT, NULL, PARAMS, PRODUCER, PTR, RET, SOURCE, TRIPLE, UNDEF, UNREACHABLE, VARIABLE,
    VOID, bitcode, block, body, byte_record, first_version, in_line, int_type, integer, listed, of_global, record, string, top, types, value)

ICMP, PHI, LOAD, STORE, ALLOCA, EXTRACTVALUE, INSERTVALUE, SWITCH = 24, 32, 33, 34, 35, 38, 39, 42
ARRAY, STRUCT, NAMED, DEFINE = 4, 5, 6, 7

OURS = b"integer profile 1"


def with_table(*entries):
    """A stream with an empty string table, and this block of the module."""
    return top(PRODUCER, (23, [byte_record(b"")]), (8, list(entries)))


# ---- a body: of `define i32 @f(i32 %0)`, behind eight types. PARAMS is record 12, BLOCK record 13, and the first line record 14.

I32, POINTER, TRUTH, NOTHING, I8, PAIR, BYTES, WIDE, MISSING = range(9)
TYPES = types(int_type(32), PTR, int_type(1), VOID, int_type(8), record(STRUCT, 0, I8, POINTER), record(ARRAY, 2, I8), int_type(65))


def in_body(*entries):
    """The string table has `f`, `a`, `b` and a zero byte at 0 to 3."""
    return bitcode(b"fab\0", TYPES, record(FUNCTION, 0, 1, EXTERNAL, 1, I32, 0, 1, I32), body(*entries))


UNNAMED = [record(PARAMS, 0), record(BLOCK, 0)]


def first_line(code, *operands):
    return in_body(*UNNAMED, record(code, *operands))


def returned(type_, *constant):
    return first_line(RET, 1, type_, *constant)


SUM = record(ADD, 0, 0, I32, *value(0), *value(0))

# The same in version 1: PARAMS is record 4.


def in_first_body(*entries):
    return first_version(types(int_type(32)), record(FUNCTION, *in_line(b"f"), EXTERNAL, 1, 0, 0, 1, 0), body(*entries))


# ---- entries: of a module of the one type `i8`, where the string table has `x` and a zero byte. The first entry is record 4.

def entries(*of):
    return bitcode(b"x\0", types(int_type(8)), *of)


def variable(*operands):
    return entries(record(VARIABLE, *operands))


def function(*operands):
    return entries(record(FUNCTION, *operands))


def alias(*operands):
    """An alias behind a variable: it is record 5."""
    return entries(X, record(ALIAS, *operands))


X = record(VARIABLE, 0, 1, EXTERNAL, 0, 0, 0, 0)
F = record(FUNCTION, 0, 1, EXTERNAL, 0, 0, 0, 0)


def in_types(*of):
    """The string table has `S` and a zero byte; the first type is record 3."""
    return bitcode(b"S\0", types(*of))


OPAQUE = record(DEFINE, 2, 0, 0, 1)
LOOP = record(DEFINE, 0, 1, 0, 0, 1)


def nested(count):
    """The names of so many structs, and a stream of them: each holds the next, whose record stands behind it, and the last an `i8`."""
    names = [b"%c%d" % (65 + at // 10, at % 10) for at in range(count)]
    fields = [*range(2, count + 1), 0]
    return names, bitcode(b"".join(names), types(
        int_type(8), *[record(NAMED, at) for at in range(count)], *[record(DEFINE, 0, 1, field, 2 * at, 2) for at, field in enumerate(fields)]))


TOO_LONG = record(ARRAY, 2**40 + 1, 0)

# By the block and the rule that are told: streams, each with the index of the record.
FAULTS = {
    (13, 1): [(top((13, [byte_record(OURS), record(1, *OURS[:16])])), 1), (top((13, [byte_record(OURS), record(1, *OURS, 49)])), 1)],
    (13, 3): [(top((13, [byte_record(OURS), record(1, *OURS[:16], 256)])), 1)],
    (13, 5): [
        (top((13, [byte_record(OURS), byte_record(OURS)])), 1),
        (top(PRODUCER, PRODUCER), 1),
        (bitcode(b"", types(), block(13)), 3),
    ],
    (23, 3): [(top(PRODUCER, (23, [record(1, 65, 256)])), 1), (top(PRODUCER, (23, [record(1, 2**32)])), 1)],
    (23, 5): [
        (top(PRODUCER, (23, [])), 1),
        (top(PRODUCER, (23, [byte_record(b"a"), byte_record(b"a")])), 2),
        (top(PRODUCER, (23, [byte_record(b"a")]), (23, [byte_record(b"a")])), 2),
        (top(PRODUCER, (8, [record(1, 1), types()]), (23, [byte_record(b"")])), 2),
        (bitcode(b"", types(), block(23, byte_record(b""))), 3),
    ],
    (8, 1): [
        (with_table(record(1), types()), 2),
        (with_table(record(1, 2, 0), types()), 2),
        (bitcode(b"a", record(SOURCE, 0), types()), 3),
        (bitcode(b"a", record(LAYOUT, 0, 1, 0), types()), 3),
        (variable(0, 1, EXTERNAL, 0, 0, 0), 4),
        (variable(0, 1, EXTERNAL, 0, 0, 0, 0, 0), 4),
        (variable(0, 1, EXTERNAL, 0, 0, 0, 1), 4),
        (function(0, 1, EXTERNAL, 0, 0, 0, 1), 4),
        (function(0, 1, EXTERNAL, 0, 0, 0, 0, 0), 4),
        (alias(1, 1, EXTERNAL, 0, 0), 5),
        (first_version(types(int_type(8)), record(VARIABLE, 9, *b"x")), 3),
    ],
    (8, 2): [
        (variable(0, 1, EXTERNAL, 0, 1, 0, 0), 4),
        (bitcode(b"x", types(PTR), record(VARIABLE, 0, 1, EXTERNAL, 0, 0, 0, 1, *of_global(1))), 4),
        (function(0, 1, EXTERNAL, 0, 1, 0, 0), 4),
        (function(0, 1, EXTERNAL, 0, 0, 0, 1, 1), 4),
        (bitcode(b"xy", types(int_type(8)), X, record(ALIAS, 1, 1, EXTERNAL, 0, 1, 0)), 5),
        # Index 1 is the alias itself, and no alias is of one.
        (bitcode(b"xy", types(int_type(8)), X, record(ALIAS, 1, 1, EXTERNAL, 0, 0, 1)), 5),
    ],
    (8, 3): [
        (variable(0, 1, 11, 0, 0, 0, 0), 4),
        (variable(0, 1, EXTERNAL, 2, 0, 0, 0), 4),
        (variable(0, 1, EXTERNAL, 0, 0, 0, 2), 4),
        (variable(0, 1, EXTERNAL, 0, 0, 0, 1, *integer(256)), 4),
        (variable(0, 1, EXTERNAL, 0, 0, 0, 1, 0), 4),
        (function(0, 1, EXTERNAL, 2, 0, 0, 0), 4),
        (function(0, 1, EXTERNAL, 0, 0, 2, 0), 4),
        (bitcode(b"xy", types(int_type(8)), X, record(ALIAS, 1, 1, EXTERNAL, 2, 0, 0)), 5),
        (first_version(record(SOURCE, 65, 256), types()), 2),
        (first_version(types(int_type(8)), record(VARIABLE, 1, 256, EXTERNAL, 0, 0, 0, 0)), 3),
    ],
    (8, 4): [
        (variable(0, 0, EXTERNAL, 0, 0, 0, 0), 4),
        (variable(0, 2, EXTERNAL, 0, 0, 0, 0), 4),
        (entries(X, X), 5),
        (entries(X, F), 5),
        (alias(0, 1, EXTERNAL, 0, 0, 0), 5),
        (first_version(types(int_type(8)), record(FUNCTION, 0, EXTERNAL, 0, 0, 0, 0)), 3),
    ],
    (8, 5): [
        (with_table(record(1, 1), types()), 2),
        (first_version()[:36] + top((8, [record(1, 2), types()]))[4:], 1),
        (with_table(record(1, 2), record(1, 2), types()), 3),
        # A version that there is not is told as such only where it comes first.
        (with_table(record(1, 2), record(1, 3), types()), 3),
        (with_table(record(SOURCE, 0, 0), types()), 2),
        (bitcode(b"", record(SOURCE, 0, 0), record(SOURCE, 0, 0), types()), 4),
        (bitcode(b"", record(TRIPLE, 0, 0), record(LAYOUT, 0, 0), types()), 4),
        (bitcode(b"", types(), record(SOURCE, 0, 0)), 3),
        (bitcode(b"xy", types(int_type(8)), F, record(VARIABLE, 1, 1, EXTERNAL, 0, 0, 0, 0)), 5),
        (bitcode(b"xyz", types(int_type(8)), X, record(ALIAS, 1, 1, EXTERNAL, 0, 0, 0), record(FUNCTION, 2, 1, EXTERNAL, 0, 0, 0, 0)), 6),
        (with_table(), 2),
        (bitcode(b"", types(), block(8)), 3),
        (top(PRODUCER, (23, [byte_record(b"")])), 2),
        (top(PRODUCER), 1),
        (top(PRODUCER, (8, [record(1, 1), types()]), (8, [])), 2),
    ],
    (8, 6): [
        (variable(0, 1, EXTERNAL, 0, 0, 0, 1, *NULL), 4),
        (variable(0, 1, EXTERNAL, 0, 0, 0, 1, *of_global(0)), 4),
        (variable(0, 1, EXTERNAL, 0, 0, 0, 1, *listed()), 4),
        (variable(0, 1, EXTERNAL, 0, 0, 0, 1, *string(b"x")), 4),
        (bitcode(b"x", types(PTR), record(VARIABLE, 0, 1, EXTERNAL, 0, 0, 0, 1, *integer(0))), 4),
    ],
    (8, 7): [
        (variable(0, 1, EXTERNAL, 0, 0, 18, 0), 4),
        (variable(0, 1, EXTERNAL, 0, 0, 2**64 - 1, 0), 4),
        # Constants nest 64 deep: of 65 casts the last may hold none.
        (variable(0, 1, EXTERNAL, 0, 0, 0, 1, *(65 * [10, 15, 0]), *integer(1)), 4),
    ],
    (8, 8): [
        (bitcode(b"a", record(SOURCE, 0, 2), types()), 3),
        (bitcode(b"a", record(LAYOUT, 1, 1), types()), 3),
        (bitcode(b"a", record(TRIPLE, 2, 0), types()), 3),
        # The sum of offset and size passes 64 bits.
        (bitcode(b"a", record(SOURCE, 2**64 - 1, 1), types()), 3),
        (variable(1, 2, EXTERNAL, 0, 0, 0, 0), 4),
        (function(2, 1, EXTERNAL, 0, 0, 0, 0), 4),
        (alias(0, 3, EXTERNAL, 0, 0, 0), 5),
    ],
    (17, 1): [
        (in_types(record(1)), 3),
        (in_types(record(1, 8, 0)), 3),
        (in_types(record(2, 0)), 3),
        (in_types(record(3, 0)), 3),
        (in_types(int_type(8), record(ARRAY, 2)), 4),
        (in_types(record(STRUCT)), 3),
        (in_types(record(NAMED)), 3),
        (in_types(int_type(8), record(DEFINE, 0, 2, 0)), 4),
        (in_types(record(DEFINE, 2, 0, 0)), 3),
        (in_types(record(DEFINE, 2, 0, 0, 1, 0)), 3),
        (first_version(types(record(DEFINE, 0))), 2),
    ],
    (17, 2): [
        (in_types(record(ARRAY, 1, 0)), 3),
        (in_types(int_type(8), record(STRUCT, 0, 0, 1)), 4),
        (in_types(record(NAMED, 0)), 3),
        (in_types(record(NAMED, 1), OPAQUE), 3),
        (in_types(int_type(8), record(DEFINE, 0, 1, 1, 0, 1)), 4),
    ],
    (17, 3): [
        (in_types(int_type(0)), 3),
        (in_types(int_type(129)), 3),
        (in_types(int_type(2**32 + 8)), 3),
        (in_types(record(STRUCT, 2)), 3),
        (in_types(record(DEFINE, 3, 0, 0, 1)), 3),
        # An opaque struct has no fields.
        (in_types(int_type(8), record(DEFINE, 2, 1, 0, 0, 1)), 4),
        (first_version(types(record(DEFINE, 2, 0, 256))), 2),
    ],
    (17, 4): [
        (in_types(record(DEFINE, 2, 0, 0, 0)), 3),
        (in_types(record(DEFINE, 2, 0, 0, 2)), 3),
        (in_types(OPAQUE, OPAQUE), 4),
        (first_version(types(record(DEFINE, 2, 0))), 2),
        (first_version(types(record(DEFINE, 2, 0, *b"S"), record(DEFINE, 2, 0, *b"S"))), 3),
    ],
    (17, 5): [
        (in_types(OPAQUE, int_type(8)), 4),
        (in_types(types()), 3),
        (bitcode(b"", types(), types()), 3),
        (bitcode(b""), 3),
        (with_table(types()), 2),
        (in_body(record(PARAMS, 0), types()), 13),
        (top((13, [types(), byte_record(OURS)])), 0),
        (top(PRODUCER, (17, [])), 1),
    ],
    (17, 7): [
        (in_types(int_type(8), TOO_LONG), 4),
        (in_types(record(NAMED, 0), record(DEFINE, 0, 1, 0, 0, 1)), 4),
        # The second of two structs that hold each other closes the circle.
        (bitcode(b"ST", types(record(NAMED, 0), record(NAMED, 1), record(DEFINE, 0, 1, 1, 0, 1), record(DEFINE, 0, 1, 0, 1, 1))), 6),
        # The first of several records that break a rule is told, also where it breaks this one.
        (bitcode(b"ST", types(record(NAMED, 0), LOOP, record(DEFINE, 3, 0, 1, 1))), 4),
        (bitcode(b"ST", types(record(NAMED, 0), LOOP, record(DEFINE, 2, 0, 1, 9))), 4),
        (in_types(record(NAMED, 0), LOOP, int_type(8)), 4),
        (in_types(record(NAMED, 0), LOOP, record(0)), 4),
        (in_types(record(NAMED, 0), LOOP, block(17)), 4),
        # The first struct is 65 deep behind the record of the last but one.
        (nested(65)[1], 132),
        # 65 deep; and 2^21 - 1 parts, each struct holding the one before it twice.
        (in_types(int_type(8), *[record(ARRAY, 1, place) for place in range(65)]), 68),
        (in_types(int_type(8), *[record(STRUCT, 0, place, place) for place in range(20)]), 23),
    ],
    (17, 8): [(in_types(record(DEFINE, 2, 0, 1, 2)), 3), (in_types(record(DEFINE, 2, 0, 2**64 - 1, 1)), 3)],
    (12, 1): [
        (in_body(record(PARAMS)), 12),
        (in_body(record(PARAMS, 0, 0)), 12),
        (in_body(record(PARAMS, 0), record(BLOCK)), 13),
        (first_line(ADD, 0, 0, I32, *value(0)), 14),
        (first_line(ADD, 0, 0, I32, *value(0), *value(0), 0), 14),
        (first_line(PHI, 0, I32, 0), 14),
        (first_line(EXTRACTVALUE, 0, PAIR, *UNDEF, 0), 14),
        (first_line(INSERTVALUE, 0, PAIR, *UNDEF, I8, *integer(1), 0), 14),
        (first_line(CALL, I32, 0, 0, 1, I32, *of_global(0), 2, *integer(1)), 14),
        (first_line(SWITCH, I32, *value(0), 0, 1), 14),
        (returned(WIDE, 1, 5), 14),
        (first_line(RET, 0, 0), 14),
        (first_line(UNREACHABLE, 0), 14),
        (in_first_body(record(PARAMS, 3, *b"a")), 4),
    ],
    (12, 2): [
        (first_line(ADD, 0, 0, MISSING, *value(0), *value(0)), 14),
        (first_line(CALL, MISSING), 14),
        (returned(I32, *value(1)), 14),
        (first_line(BR, 0, 1), 14),
        (first_line(LOAD, 0, 0, I32, *of_global(1), 0), 14),
        (first_line(PHI, 0, I32, 1, *value(0), 1), 14),
        (first_line(SWITCH, I32, *value(0), 0, 1, *integer(1), 1), 14),
        (returned(POINTER, 9, 0, MISSING, *NULL, 0), 14),
    ],
    (12, 3): [
        (first_line(ADD, 0, 4, I32, *value(0), *value(0)), 14),
        (first_line(LOAD, 0, 1, I32, *of_global(0), 0), 14),
        (first_line(ICMP, 0, 0, 0, I32, *value(0), *value(0)), 14),
        (first_line(ICMP, 0, 0, 11, I32, *value(0), *value(0)), 14),
        (first_line(CALL, I32, 0, 2, 0, *of_global(0), 0), 14),
        (first_line(EXTRACTVALUE, 0, PAIR, *UNDEF, 1, 2**32), 14),
        (first_line(ALLOCA, 0, I32, 2), 14),
        (first_line(RET, 2), 14),
        (first_line(BR, 2), 14),
        (returned(I8, *integer(256)), 14),
        (returned(TRUTH, *integer(2)), 14),
        (returned(WIDE, 1, 0, 2), 14),
        (returned(I32, 12), 14),
        (returned(BYTES, 8, 2, 104, 256), 14),
        # No constant is a `zext`, and none a `mul`.
        (returned(I32, 10, 16, I8, *integer(1)), 14),
        (returned(I32, 11, 3, 0, *integer(1), *integer(1)), 14),
        (in_first_body(record(PARAMS, 2, 256)), 4),
    ],
    (12, 4): [
        (in_body(record(PARAMS, 1, 0)), 12),
        (in_body(record(PARAMS, 2, 3)), 12),
        (in_body(record(PARAMS, 2, 1), record(BLOCK, 2, 1)), 13),
        (in_body(record(PARAMS, 0), record(BLOCK, 2, 1), record(ADD, 2, 1, 0, I32, *value(0), *value(0))), 14),
        (in_body(record(PARAMS, 0), record(BLOCK, 2, 1), record(CALL, I32, 2, 1, 0, 0, *of_global(0), 0)), 14),
        (bitcode(b"fa", types(int_type(8)), record(FUNCTION, 0, 1, EXTERNAL, 1, 0, 0, 2, 0, 0), body(record(PARAMS, 2, 1, 2, 1))), 5),
        (in_first_body(record(PARAMS, 1)), 4),
        (in_first_body(record(PARAMS, 2, *b"a"), record(BLOCK, 2, *b"a")), 5),
    ],
    (12, 5): [
        (in_body(), 12),
        (in_body(record(PARAMS, 0)), 13),
        (in_body(*UNNAMED), 14),
        (in_body(*UNNAMED, SUM), 15),
        (in_body(record(BLOCK, 0)), 12),
        (in_body(record(PARAMS, 0), record(PARAMS, 0)), 13),
        (in_body(record(PARAMS, 0), SUM), 13),
        (in_body(*UNNAMED, record(BLOCK, 0)), 14),
        (in_body(*UNNAMED, record(RET, 0), SUM), 15),
        (in_body(record(PARAMS, 0), body()), 13),
        (in_types(body()), 3),
        (bitcode(b"", body()), 3),
        # The body of a function that is declared; and one that does not come.
        (entries(F, body(record(PARAMS), record(BLOCK, 0), record(RET, 0))), 5),
        (function(0, 1, EXTERNAL, 1, 0, 0, 0), 5),
        (top(PRODUCER, (12, [])), 1),
    ],
    (12, 6): [
        (returned(POINTER, *integer(0)), 14),
        (returned(I32, *NULL), 14),
        (returned(I32, *of_global(0)), 14),
        (returned(I32, *listed()), 14),
        (returned(PAIR, *listed(integer(1))), 14),
        (returned(BYTES, *string(b"hey")), 14),
        (returned(I32, 9, 0, I8, *NULL, 0), 14),
        (first_line(LOAD, 0, 0, I32, *integer(8), 0), 14),
    ],
    (12, 7): [
        (first_line(LOAD, 0, 0, I32, *of_global(0), 18), 14),
        (first_line(STORE, 0, I32, *value(0), *of_global(0), 18), 14),
        (first_line(ALLOCA, 0, I32, 0, 18), 14),
        (returned(I32, *(65 * [11, 1, 0]), *(66 * integer(1))), 14),
    ],
    (12, 8): [
        (in_body(record(PARAMS, 3, 3)), 12),
        (in_body(record(PARAMS, 0), record(BLOCK, 2, 4)), 13),
        (first_line(ADD, 2, 2**64 - 1, 0, I32, *value(0), *value(0)), 14),
    ],
}

# Why a record of a block cannot break a rule. What BLOCKINFO holds is passed over, and breaks none.
NONE = {
    (13, 2): "it names nothing by an index",
    (13, 4): "it has no name",
    (13, 6): "it has no constant",
    (13, 7): "nothing in it has a limit but the count of its bytes, which is exact",
    (13, 8): "its bytes stand in the record itself",
    (23, 1): "any count of bytes is a table",
    (23, 2): "it names nothing by an index",
    (23, 4): "what it has are bytes; names are where other records take them for some",
    (23, 6): "it has no constant",
    (23, 7): "the table has no limit of its own",
    (23, 8): "it is the table",
    (17, 6): "it has no constant",
}

# Streams in which a record breaks two rules or three: its index and block, and the rules, each in the order of the operands.
SEVERAL = [
    (in_types(int_type(8), record(ARRAY, 1, 9, 0)), 4, 17, [2, 1]),
    (first_line(ADD, 0, 4, I32, *value(0)), 14, 12, [3, 1]),
    (in_body(record(PARAMS, 0), record(BLOCK, 2, 4, 0)), 13, 12, [8, 1]),
    (in_body(record(PARAMS, 0), record(PARAMS, 0, 0)), 13, 12, [1, 5]),
    (function(0, 1, 99, 0, 9, 0, 0), 4, 8, [3, 2]),
    (first_line(ADD, 0, 0, MISSING, *integer(1), *integer(1)), 14, 12, [2, 6]),
    (first_line(LOAD, 0, 0, MISSING, *of_global(0), 18), 14, 12, [2, 7]),
    (variable(0, 0, 99, 0, 0, 0, 0), 4, 8, [4, 3]),
    (top(PRODUCER, (23, [byte_record(b""), record(1, 256)])), 2, 23, [3, 5]),
    (variable(2, 2, 99, 0, 0, 18, 0), 4, 8, [8, 3, 7]),
    (in_body(record(PARAMS, 0), record(ADD, 0, 4, I32, *value(0), *value(0))), 13, 12, [3, 5]),
    (entries(F, X), 5, 8, [4, 5]),
    (in_types(record(NAMED, 0), record(DEFINE, 0, 1, 0, 0, 0)), 4, 17, [7, 4]),
    # Names that pass the end of the table are one name.
    (bitcode(b"f", types(int_type(8)), record(FUNCTION, 0, 1, EXTERNAL, 1, 0, 0, 2, 0, 0), body(record(PARAMS, 2, 5, 2, 6))), 5, 12, [8, 4]),
    (variable(3, 0, EXTERNAL, 0, 0, 0, 0), 4, 8, [4, 8]),
    (bitcode(b"", types(), record(SOURCE, 0, 1)), 3, 8, [8, 5]),
    (in_types(int_type(8), OPAQUE, TOO_LONG), 5, 17, [5, 7]),
    (variable(0, 1, EXTERNAL, 0, 0, 18, 1, *NULL), 4, 8, [7, 6]),
    (variable(2, 2, EXTERNAL, 0, 0, 18, 0), 4, 8, [8, 7]),
]

# Streams that no rule is told of.
OTHERS = [
    (top((0, [record(1, 8)]), (8, [record(1, 1), types()])), "foreign producer"),
    (top((23, [byte_record(OURS)]), (8, [record(1, 2), types()])), "foreign producer"),
    (top((13, [record(2, *OURS)]), (8, [record(1, 1), types()])), "foreign producer"),
    (top((13, [byte_record(OURS[:16])]), (8, [record(1, 1), types()])), "foreign producer"),
    (top((13, [byte_record(OURS + b"0")]), (8, [record(1, 1), types()])), "foreign producer"),
    (first_version()[:36] + top((8, [record(1, 0), types()]))[4:], "version 0"),
    (with_table(record(1, 2**64 - 1), types()), "version 18446744073709551615"),
    (top((13, [byte_record(OURS), record(0)])), "unknown record 0 in block 13"),
    (top((13, [byte_record(OURS), block(1)])), "unknown record 0 in block 1"),
    (top(PRODUCER, (23, [record(2)])), "unknown record 2 in block 23"),
    (top(PRODUCER, (23, [byte_record(b""), record(0, 1)])), "unknown record 0 in block 23"),
    (top(PRODUCER, (23, [block(24)])), "unknown record 0 in block 24"),
    (bitcode(b"", record(0), types()), "unknown record 0 in block 8"),
    (bitcode(b"", types(), record(8)), "unknown record 8 in block 8"),
    (in_types(record(0)), "unknown record 0 in block 17"),
    (in_types(block(2**32 - 1)), "unknown record 0 in block 4294967295"),
    (in_body(record(0)), "unknown record 0 in block 12"),
    (in_body(record(PARAMS, 0), record(3)), "unknown record 3 in block 12"),
    (first_line(10), "unknown record 10 in block 12"),
    (first_line(44), "unknown record 44 in block 12"),
    (first_line(2**16 + ADD), "unknown record 65547 in block 12"),
    (in_body(*UNNAMED, block(14)), "unknown record 0 in block 14"),
]

# ---- what is just taken

SUM_NESTED = 64 * "add (i32 " + "1" + 64 * ", i32 1)"

# Streams at the edge of a rule that they do not break, and their canonical texts.
NESTED_NAMES, NESTED = nested(64)

TAKEN = [
    (variable(0, 1, EXTERNAL, 1, 0, 17, 1, *integer(255)), ["@x = constant i8 -1, align 65536"]),
    (bitcode(b"x", types(int_type(128)), record(VARIABLE, 0, 1, EXTERNAL, 0, 0, 0, 1, 1, 0, 2**63)), [f"@x = global i128 {-2**127}"]),
    (bitcode(b"x", types(int_type(8), record(ARRAY, 2**40, 0)), record(VARIABLE, 0, 1, EXTERNAL, 0, 1, 0, 0)),
     ["@x = external global [1099511627776 x i8]"]),
    (bitcode(b"x", types(int_type(8), *[record(ARRAY, 1, place) for place in range(64)]), record(VARIABLE, 0, 1, EXTERNAL, 0, 64, 0, 0)),
     [f"@x = external global {64 * '[1 x '}i8{64 * ']'}"]),
    (NESTED, [*[f"%{one.decode()} = type {{ %{other.decode()} }}" for one, other in zip(NESTED_NAMES, NESTED_NAMES[1:])], f"%{NESTED_NAMES[-1].decode()} = type {{ i8 }}"]),
    (bitcode(b"x", record(SOURCE, 1, 0), types()), ['source_filename = ""']),
    (returned(I32, *(64 * [11, 1, 0]), *(65 * integer(1))), ["define i32 @f(i32 %0) {", "1:", f"  ret i32 {SUM_NESTED}", "}"]),
    # A value may be named in front of the record that gives it, where its block comes first on each path.
    (in_body(*UNNAMED, record(BR, 0, 2), record(BLOCK, 0), record(RET, 1, I32, *value(1)), record(BLOCK, 0),
             record(ADD, 0, 0, I32, *value(0), *integer(1)), record(BR, 0, 1)),
     ["define i32 @f(i32 %0) {", "1:", "  br label %3", "2:", "  ret i32 %4", "3:", "  %4 = add i32 %0, 1", "  br label %2", "}"]),
]


def told(block_, at, rule):
    return f"bad record {at} in block {block_}, rule {rule}"


def refused():
    """All that is refused, with what is told of it. Each block has a row for each rule, or a reason."""
    cells = {(block_, rule) for block_ in (13, 23, 8, 17, 12) for rule in range(1, 9)}
    if cells != FAULTS.keys() ^ NONE.keys():
        raise SystemExit("a block and a rule have no row and no reason, or both")
    rows = [(code, told(block_, at, rule)) for (block_, rule), of in FAULTS.items() for code, at in of]
    rows += [(code, told(block_, at, min(rules))) for code, at, block_, rules in SEVERAL]
    return rows + OTHERS
