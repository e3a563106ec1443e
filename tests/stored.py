#!/usr/bin/env python3
"""The stored input and output of the test programs: how the scripts of this folder write and check them, and how bytes stand in them.

    tests/stored.py --check    tells whether the rows of tool_table stand script by script, in the order of PARTS
"""
import pathlib
import re
import sys

sys.dont_write_bytecode = True

CRATES = pathlib.Path(__file__).resolve().parent.parent / "crates"

# The rows of tool_table that scripts write, in their order behind those that a hand wrote: the script, what its rows are, and their first run.
PARTS = [
    ("links", "Linked modules", "llvm-link -S -o - a.ll b.ll"),
    ("extracting", "Parts of texts", "llvm-extract -S extracted.ll"),
    ("running", "Programs that run", "lli run.ll"),
    ("linked_runs", "Linked programs that run", "llvm-link -S -o linked.ll a.ll b.ll"),
    ("link_text", "One text, linked and printed", "llvm-link -S -o - canonical.ll"),
    ("assemble", "Texts assembled", "llvm-as -o - assembled.ll"),
    ("bitcode", "Bitcode read", "llvm-dis -o - spelled.bc"),
    ("linked_bitcode", "Linked bitcode that runs", "llvm-link -o linked.bc a.ll b.ll"),
    ("names", "Names and numbers", "llvm-as names.ll"),
]
MARKS = {script: f"# {title}: written by tests/{script}.py.\n".encode() for script, title, _ in PARTS}
FIRSTS = {script: f"> {words}\n".encode() for script, _, words in PARTS}


def store(crate, stdin, stdout):
    """Writes both files of a crate. With --check it writes nothing, and ends the script: with 0 where they hold these bytes."""
    wanted = {CRATES / crate / "stdin": stdin, CRATES / crate / "stdout": stdout}
    if "--check" in sys.argv[1:]:
        others = " and ".join(path.name for path, data in wanted.items() if path.read_bytes() != data)
        sys.exit(f"crates/{crate}: {others}: not what {sys.argv[0]} writes" if others else 0)
    for path, data in wanted.items():
        path.write_bytes(data)


def sections(data):
    """The rows of each section, by its name: what follows a line `== NAME`, up to the next such line."""
    pieces = re.split(rb"^== (.*)\n", data, flags=re.M)
    return {name.decode(): rows for name, rows in zip(pieces[1::2], pieces[2::2])}


def store_section(crate, name, stdin, stdout):
    """The same of the rows of one section, which both files of the crate have."""
    files = []
    for file, rows in (("stdin", stdin), ("stdout", stdout)):
        all_rows = sections((CRATES / crate / file).read_bytes()) | {name: rows}
        files.append(b"".join(b"== %s\n%s" % (it.encode(), all_rows[it]) for it in all_rows))
    store(crate, *files)


def placed(stored, begins, script, rows):
    """The stored bytes with these rows in place of those of the script, before the rows of the next one."""
    behind = [begins[other] for other in list(begins)[list(begins).index(script) + 1:]]
    end = next((stored.index(begin) for begin in behind if begin in stored), len(stored))
    begin = min(stored.index(begins[script]), end) if begins[script] in stored else end
    return stored[:begin] + rows + stored[end:]


def store_part(script, runs):
    """The same of the rows of one script in tool_table: what is said of each run, and what is told of it."""
    given, told = "".join(given for given, _ in runs).encode(), "".join(told for _, told in runs).encode()
    stdin, stdout = (CRATES / "tool_table" / "stdin").read_bytes(), (CRATES / "tool_table" / "stdout").read_bytes()
    store("tool_table", placed(stdin, MARKS, script, MARKS[script] + given), placed(stdout, FIRSTS, script, told))


# ---- bytes in lines


def escaped(data):
    """A line of a script that stands for these bytes."""
    return "".join(chr(b) if 32 <= b <= 126 and b != 92 else f"\\x{b:02x}" for b in data)


def told_as(data):
    """What a test program prints of these bytes of a line: as a script has them, but a backslash twice."""
    return escaped(data).replace("\\x5c", "\\\\")


def in_lines(data, spelled):
    """A line for each line of the bytes, and one for what no line feed ends."""
    lines = data.split(b"\n")
    return "".join(f"| {spelled(line)}\n" for line in lines[:-1]) + (f"+ {spelled(lines[-1])}\n" if lines[-1] else "")


def content(text):
    """The lines of a script that give a file, a stream or a part these bytes, or this text in UTF-8. Of a list of parts each is a text,
    or (n, text) for what stands there once for each number below n."""
    if isinstance(text, bytes):
        return in_lines(text, escaped)
    if isinstance(text, str):
        return in_lines(text.encode(), escaped)
    return "".join(content(part) if isinstance(part, str) else f"each 0 {part[0]} {escaped(part[1].encode())}\n" for part in text)


def printed(data):
    """What a test program prints of the bytes that a stream or a file took."""
    return in_lines(data, told_as)


def main():
    stdin, stdout = (CRATES / "tool_table" / "stdin").read_bytes(), (CRATES / "tool_table" / "stdout").read_bytes()
    for stored, begins in [(stdin, MARKS), (stdout, FIRSTS)]:
        places = [stored.find(begin) for begin in begins.values()]
        if -1 in places or places != sorted(places):
            sys.exit(f"crates/tool_table: the rows of its scripts stand at {places}")


if __name__ == "__main__":
    main()
