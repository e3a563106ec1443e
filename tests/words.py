#!/usr/bin/env python3
"""The table ROWS of crates/ir_terminals/src/words.rt, which a new word of the language changes: the place of each row of WORDS under the number
of its word. The prover refuses another table; this script finds the right one.

    tests/words.py            writes the table, and tells which words have one number, for which FIRST has to be another
    tests/words.py --check    tells whether it stands there
"""
import pathlib
import re
import sys

PATH = pathlib.Path(__file__).resolve().parent.parent / "crates" / "ir_terminals" / "src" / "words.rt"
WIDTH = 99


def numbers(text, name):
    """The numbers of a static table."""
    return [int(number) for number in re.findall(r"\d+", re.search(rf"static {name}: \[u8; \d+\] = \[(.*?)\];", text, re.S)[1])]


def number_of(first, word):
    """The number of a word, as `slot_of` has it."""
    count = len(word)
    return (first[word[0] % 32] + 3 * word[count // 3] + 8 * word[count // 2] + word[-1] + 3 * count) % 256


def laid_out(rows):
    """The lines of the table, as `rt fmt` lays it out."""
    lines = [""]
    for row in rows:
        piece = f"{row},"
        if lines[-1] and len(lines[-1]) + 1 + len(piece) > WIDTH:
            lines.append("")
        lines[-1] += (" " if lines[-1] else "    ") + piece
    return "\n".join(lines)


def main():
    text = PATH.read_text()
    words = [word.encode() for word in re.findall(r'^    "([^"]+)" ', text, re.M)]
    first, rows, places = numbers(text, "FIRST"), [0] * 256, {}
    for place, word in enumerate(words):
        rows[number_of(first, word)] = place
        places.setdefault(number_of(first, word), []).append(word.decode())
    alike = [f"{number}: {', '.join(of)}" for number, of in places.items() if len(of) > 1]
    for line in alike:
        print(f"one number for several words, {line}")
    made = re.sub(r"(static ROWS: \[u8; 256\] = \[\n).*?(\n\];)", lambda m: m[1] + laid_out(rows) + m[2], text, flags=re.S)
    if "--check" in sys.argv[1:]:
        sys.exit("crates/ir_terminals/src/words.rt: ROWS is not the table of its words" if alike or made != text else 0)
    PATH.write_text(made)


if __name__ == "__main__":
    main()
