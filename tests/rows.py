#!/usr/bin/env python3
"""Runs the stored rows of `tool_table` by a program: its files, its standard input, and what they
must come to.

    tests/rows.py TOOL            by the ir-tools program of this name
    tests/rows.py TOOL --large    those whose files have more than a MiB among them

The last line has the counts.

The test program `tool_table` runs the rows over objects in memory; here they run over files of a
scratch folder and real streams. Left out are rows whose streams fail or take few bytes, and those
of a file whose name is empty or no UTF-8. What a row expects was written by hand or by the other
scripts of this folder. Of rows that only read a command line, those that are a fault of its words
are run.
"""
import concurrent.futures
import itertools
import os
import pathlib
import re
import subprocess
import sys
import tempfile

sys.dont_write_bytecode = True
import stored

# The most bytes of the files of a row that is not large.
LARGE = 1 << 20
ESCAPES = re.compile(rb"\\(x[0-9a-f]{2}|.)", re.S)


def unescaped(text):
    """The bytes that a text with escapes means."""
    def meant(match):
        code = match[1]
        if len(code) == 3:
            return bytes([int(code[1:], 16)])
        return b"\n" if code == b"n" else code
    return ESCAPES.sub(meant, text)


def words_of(line):
    """The words of a line, which are one space apart; `""` is an empty one."""
    return [b"" if word == b'""' else unescaped(word) for word in line.split(b" ")] if line else []


def content_of(key, rest):
    """The bytes that a line adds to a file or to standard input."""
    if key == b"+" or key == b"|":
        return unescaped(rest) + (b"\n" if key == b"|" else b"")
    if key == b"=":
        return bytes.fromhex(rest.decode())
    if key == b"*":
        count, text = rest.split(b" ", 1)
        return unescaped(text) * int(count)
    if key == b"each":
        first, last, text = rest.split(b" ", 2)
        pieces = unescaped(text).split(b"#")
        return b"".join([(b"%d" % n).join(pieces) for n in range(int(first), int(last))])
    if key == b"sums":
        first, last = map(int, rest.split(b" "))
        numbers = range(first, last + 1)
        return b"".join(b"%%%d = add i32 %%%d, %%%d\n" % (n, n - 2, n - 1) for n in numbers)
    return b""


def size_of(key, rest):
    """About as many bytes as a line adds."""
    if key == b"each":
        first, last, text = rest.split(b" ", 2)
        return (int(last) - int(first)) * len(text)
    if key == b"*":
        count, text = rest.split(b" ", 1)
        return int(count) * len(text)
    return len(rest)


def content(lines):
    """The bytes that lines add up to."""
    return b"".join([content_of(key, rest) for key, rest in lines])


class Row:
    """A run: its words, the files that are new and its standard input, each by the lines that give
    their bytes, whether its streams fail, and the text of what it must come to."""

    def __init__(self, line, files, given, is_failing):
        self.line, self.words, self.files = line, words_of(line), files
        self.given, self.is_failing, self.expected = given, is_failing, b""

    def section(self, name):
        """The lines of content after this line of the expected text."""
        lines = rb"^" + re.escape(name) + rb"\n((?:[|+] .*\n)*)"
        found = re.search(lines, self.expected, re.M)
        return found[1] if found else b""

    def values(self, key):
        """What follows this word at the beginning of lines."""
        return re.findall(rb"^" + key + rb" (.*)$", self.expected, re.M)


def is_host_name(name):
    """Whether a file of this name can be made in a scratch folder, and opened by the program."""
    is_text = name.decode(errors="replace").encode() == name
    return is_text and name != b"" and not name.startswith(b"/") and b"\0" not in name


def expectations():
    """What is expected of the rows, in their order: each text with the words of its run."""
    text = (stored.CRATES / "tool_table" / "stdout").read_bytes()
    return re.findall(rb"^> (.*)\n((?:(?!> ).*\n)*)", text, re.M)


def groups():
    """The rows, in groups that share files, each with the size of these files."""
    group, size, files, given, failing = [], 0, [], [], False
    lines = given
    expected = iter(expectations())
    for line in (stored.CRATES / "tool_table" / "stdin").read_bytes().split(b"\n"):
        key, _, rest = line.partition(b" ")
        if key == b"file":
            lines = []
            files.append((words_of(rest)[0], lines))
        elif key == b"input":
            lines = given
        elif key in (b"fails", b"room"):
            failing = True
        elif key == b"run":
            row = Row(rest, files, given, failing)
            line, row.expected = next(expected)
            if line != rest:
                sys.exit(f"tests/rows.py: expected a row of {rest!r}, found {line!r}")
            group.append(row)
            files, given, failing = [], [], False
            lines = given
        elif key == b"clear":
            yield size, group
            group, size, files, lines = [], 0, [], given
        else:
            lines.append((key, rest))
            size += size_of(key, rest)
    yield size, group


def write(room, name, data):
    """Writes a file of the scratch folder."""
    if is_host_name(name):
        path = os.path.join(room, name)
        os.makedirs(os.path.dirname(path), exist_ok=True)
        pathlib.Path(os.fsdecode(path)).write_bytes(data)


def run(tool, words, given, room):
    """The status of a run, and what it wrote to its streams, as rows have it."""
    words = [os.fsencode(tool), *words]
    made = subprocess.run(words, input=given, capture_output=True, cwd=room, timeout=600)
    streams = [stored.printed(stream).encode() for stream in (made.stdout, made.stderr)]
    return made.returncode, *streams


def difference(tool, row, room):
    """What a run comes to otherwise than expected, or nothing."""
    written = [words_of(name)[0] for name in row.values(b"wrote")]
    for name in written:
        os.makedirs(os.path.dirname(os.path.join(room, name)), exist_ok=True)
    expected = int(row.values(b"status")[0]), row.section(b"output"), row.section(b"errors")
    found = run(tool, row.words, content(row.given), room)
    if found != expected:
        return f"found {found}, expected {expected}"
    for name, text in zip(row.values(b"wrote"), written):
        path = pathlib.Path(os.fsdecode(os.path.join(room, text)))
        data = stored.printed(path.read_bytes()).encode() if path.is_file() else b"(no file)"
        if data != row.section(b"wrote " + name):
            return f"wrote {data[:300]} to {name}"
    return None


def run_group(tool, group):
    """The rows of a group that are left out, those that passed, and what differs in the others."""
    left_out, passed, wrong = 0, 0, []
    with tempfile.TemporaryDirectory() as room:
        room = os.fsencode(room)
        for row in group:
            for name, lines in row.files:
                write(room, name, content(lines))
            names = [name for line in row.values(b"files") for name in words_of(line)]
            names += [words_of(name)[0] for name in row.values(b"wrote")]
            has_zero = any(b"\0" in word for word in row.words)
            if row.is_failing or has_zero or not all(map(is_host_name, names)):
                left_out += 1
                continue
            told = difference(tool, row, room)
            wrong += [f"{row.line.decode()}: {told}"] if told else []
            passed += not told
    return left_out, passed, wrong


def run_reading(tool, line):
    """What differs where the words of a command line are a fault."""
    words, fault = line
    with tempfile.TemporaryDirectory() as room:
        found = run(tool, words_of(words), b"", room)
    expected = 1, b"", b"| " + fault + b"\n"
    return 0, found == expected, [] if found == expected else [f"{words.decode()}: found {found}"]


def main():
    tool, is_large = str(pathlib.Path(sys.argv[1]).resolve()), sys.argv[2:] == ["--large"]
    chosen = [group for size, group in groups() if (size > LARGE) == is_large]
    text = (stored.CRATES / "tool_table" / "stdout").read_bytes()
    faults = re.findall(rb"^(.*) => ([a-z-]+: usage: .*)$", text, re.M)
    faults = [(words.strip(), fault) for words, fault in faults if b"\\x00" not in words]
    faults = [] if is_large else faults
    with concurrent.futures.ProcessPoolExecutor() as pool:
        tools = itertools.repeat(tool)
        results = list(pool.map(run_group, tools, chosen, chunksize=1 if is_large else 30))
        results += pool.map(run_reading, tools, faults, chunksize=30)
    left_out, passed, wrong = (sum(column, type(column[0])()) for column in zip(*results))
    for it in wrong:
        print(f"tests/rows.py: {it[:1000]}")
    print(f"{left_out} left out, whose streams fail, or whose files the host cannot have")
    print(f"{passed} passed, {len(wrong)} failed")
    sys.exit(1 if wrong else 0)


if __name__ == "__main__":
    main()
