#!/usr/bin/env python3
"""Outside vectors: bitcode that is damaged. Of ten modules of tests/modules, as `llvm-as` writes them, 2,000 copies are changed: bytes, words of
32 bits exchanged, cut, or a part put twice. `llvm-dis` answers each by its text or by one line of docs/commands.md with status 1. What it takes it
prints, and that text is assembled to bitcode which `llvm-dis` prints as the same text. `llvm-link`, `llvm-extract` and `lli` refuse what `llvm-dis` refuses, by the same line. LLVM's own llvm-bcanalyzer-19 reads each of the ten whole, without
complaint, where it is there; and what llvm-as-19 writes is refused as a foreign producer's.

    tests/outside/mutated.py [PROGRAM [COUNT]]    ./ir-tools and 2,000, unless others are named
"""
import pathlib
import random
import re
import shutil
import subprocess
import sys
import tempfile

ROOT = pathlib.Path(__file__).resolve().parents[2]

# The lines with which a stream is refused (docs/commands.md).
REFUSALS = re.compile(
    rb"llvm-dis: -: (?:bit \d+: [a-z ]+|foreign producer|version \d+|unknown record \d+ in block \d+|bad record \d+ in block \d+, rule [1-8]"
    rb"|invalid V\d+ at .*|too many .*)\n")


def called(program, *words, given=b""):
    """The status, output and errors of a run."""
    run = subprocess.run([program, *words], input=given, capture_output=True, timeout=60)
    return run.returncode, run.stdout, run.stderr


def changed(data, dice):
    """A copy in which something is changed."""
    copy, way = bytearray(data), dice.randrange(5)
    if way == 0:
        for _ in range(dice.randrange(1, 4)):
            copy[dice.randrange(len(copy))] = dice.randrange(256)
    elif way == 1:
        at = dice.randrange(8 * len(copy))
        copy[at // 8] ^= 1 << at % 8
    elif way == 2:
        a, b = (4 * dice.randrange(len(copy) // 4) for _ in range(2))
        copy[a:a + 4], copy[b:b + 4] = copy[b:b + 4], copy[a:a + 4]
    elif way == 3:
        del copy[dice.randrange(len(copy)):]
    else:
        a = 4 * dice.randrange(len(copy) // 4)
        copy[a:a] = copy[a:a + 4 * dice.randrange(1, 5)]
    return bytes(copy)


def fault(program, data):
    """What is wrong with the answers to this stream, or None; and whether it was taken."""
    status, text, said = called(program, "llvm-dis", "-o", "-", "-", given=data)
    if status != 0:
        if status != 1 or text or not REFUSALS.fullmatch(said):
            return f"status {status}, {said[:120]}", False
        for words in (["llvm-link", "-o", "-", "-"], ["llvm-extract", "-o", "-", "-"], ["lli", "-"]):
            other = called(program, *words, given=data)
            # Bytes that do not begin as bitcode does are a text to these.
            if data[:4] == b"BC\xc0\xde" and other != (1, b"", said.replace(b"llvm-dis", words[0].encode())):
                return f"{words[0]} says {other[2][:120]}, llvm-dis {said[:120]}", False
        return None, False
    status, bytes_, said = called(program, "llvm-as", "-o", "-", "-", given=text)
    if status != 0:
        return f"its text is refused: {said[:120]}", True
    if called(program, "llvm-dis", "-o", "-", "-", given=bytes_) != (0, text, b""):
        return "its text is assembled to bitcode of another text", True
    return None, True


def originals(program):
    """Ten modules' bitcode."""
    found = []
    for path in sorted((ROOT / "tests" / "modules").glob("*.ll")):
        status, data, _ = called(program, "llvm-as", "-o", "-", "-", given=path.read_bytes())
        if status == 0:
            found.append((path, data))
    return found[:10]


def beside_llvm(files):
    """What is wrong with what LLVM 19 says of these files, or with what is said of its own."""
    wrong = []
    for path, data in files:
        with tempfile.NamedTemporaryFile(suffix=".bc") as file:
            file.write(data)
            file.flush()
            run = subprocess.run(["llvm-bcanalyzer-19", "--dump", file.name], capture_output=True)
            if run.returncode or run.stderr:
                wrong.append(f"{path.name}: llvm-bcanalyzer-19 says {run.stderr[:120]}")
    return wrong


def foreign(program, files):
    """What is wrong with the answers to bitcode that llvm-as-19 writes."""
    wrong = []
    for path, _ in files:
        data = subprocess.run(["llvm-as-19", "-o", "-", str(path)], capture_output=True, check=True).stdout
        answer = called(program, "llvm-dis", "-o", "-", "-", given=data)
        if answer != (1, b"", b"llvm-dis: -: foreign producer\n"):
            wrong.append(f"{path.name}, of llvm-as-19: {answer[2][:120]}")
    return wrong


def main():
    program = sys.argv[1] if len(sys.argv) > 1 else str(ROOT / "ir-tools")
    count = int(sys.argv[2]) if len(sys.argv) > 2 else 2000
    files, dice, taken, wrong = originals(program), random.Random(19), 0, []
    for turn in range(count):
        path, data = files[turn % len(files)]
        told, is_taken = fault(program, changed(data, dice))
        taken += is_taken
        if told:
            wrong.append(f"{path.name}, copy {turn}: {told}")
    if shutil.which("llvm-bcanalyzer-19") and shutil.which("llvm-as-19"):
        wrong += beside_llvm(files) + foreign(program, files)
    print("".join(f"{line}\n" for line in wrong), end="")
    print(f"{len(files)} files, {count} copies, {taken} taken, {len(wrong)} wrong")
    return 1 if wrong else 0


if __name__ == "__main__":
    sys.exit(main())
