#!/usr/bin/env python3
"""Outside vectors: C programs that csmith makes at random, nearly all without undefined behaviour. Each is compiled by clang-19 at -O0, -O1, -O2 and
-Os, run as a native program, and run by `lli`: its text; the bitcode that `llvm-as` writes of it; and what `llvm-link` makes of two parts into which
`llvm-extract` cuts it. Status and output must be those of the native program; where that is killed, `lli` must tell what is undefined. A text may be
refused only for a word or an intrinsic that docs/language.md leaves out, and a run may end early only since its steps are used up; what is told of
these is counted.

    tests/outside/generated.py [PROGRAM [FIRST [COUNT]]]    ./ir-tools, and the seeds from 1 on, 100 of them, unless others are named

Skipped, with status 0, where clang-19 or csmith is not there (Debian: csmith, libcsmith-dev). Ends with status 1 where something else is told or printed.
"""
import collections
import pathlib
import re
import shutil
import subprocess
import sys
import tempfile

ROOT = pathlib.Path(__file__).resolve().parents[2]
LEVELS = ("-O0", "-O1", "-O2", "-Os")
# Fields of packed structs are left out, since what points to one may be misaligned, which is undefined.
SHAPE = ["--no-packed-struct", "--max-funcs", "6", "--max-block-depth", "4", "--max-expr-complexity", "8"]
# As a user of `lli` compiles.
FLAGS = ["-w", f"@{ROOT}/examples/cflags", "-I/usr/include/csmith", "-include", "own.h"]
# What csmith's programs call of the C library beside `printf`; `lli` has no such function.
OWN = """#include <string.h>
static int own_strcmp(const char *left, const char *right) {
    while (*left && *left == *right) left++, right++;
    return (unsigned char)*left - (unsigned char)*right;
}
#define strcmp own_strcmp
"""
STEPS = 100_000_000
LEFT_OUT = re.compile(rb"lli: [^\n]*?(left out: [\w.]+|invalid V5 at @llvm\.[\w.]+|steps used up)")


def called(words, folder, limit):
    """The status, output and errors of a run, or None where it takes too many seconds."""
    try:
        run = subprocess.run(words, cwd=folder, stdin=subprocess.DEVNULL, capture_output=True, timeout=limit)
    except subprocess.TimeoutExpired:
        return None
    return run.returncode, run.stdout, run.stderr


def generated(seed, folder):
    """Whether there is a program of this seed; it is written to the folder."""
    shape = SHAPE + (["--no-volatiles"] if seed % 2 else [])
    made = called(["csmith", "--seed", str(seed), *shape, "-o", "program.c"], folder, 60)
    return made is not None and made[0] == 0


def native(level, folder):
    """The status and output of the native program, or None where it runs for long; its text is written to the folder."""
    subprocess.run(["clang-19", level, *FLAGS, "-S", "-emit-llvm", "-o", "program.ll", "program.c"], cwd=folder, check=True)
    subprocess.run(["clang-19", level, *FLAGS, "-no-pie", "-o", "program", "program.c"], cwd=folder, check=True)
    ran = called(["./program"], folder, 2)
    return ran and ran[:2]


def cut(tool, folder):
    """The program anew, linked of two parts: every second function that it defines, and all else."""
    names = re.findall(r"^define [^@]*@([\w.$-]+)\(", (folder / "program.ll").read_text(), re.M)[::2]
    chosen = [f"--func={name}" for name in names]
    for part, more in ("chosen.bc", []), ("others.bc", ["--delete"]):
        subprocess.run([tool, "llvm-extract", *chosen, *more, "-o", part, "program.ll"], cwd=folder, check=True)
    subprocess.run([tool, "llvm-link", "-o", "linked.bc", "chosen.bc", "others.bc"], cwd=folder, check=True)


def runs(tool, folder):
    """What each run of the program by `lli` gives: how it is run, and its status, output and errors."""
    lli = [tool, "lli", f"--max-steps={STEPS}"]
    first = called([*lli, "program.ll"], folder, 600)
    yield "text", first
    if LEFT_OUT.match(first[2]):
        return
    subprocess.run([tool, "llvm-as", "-o", "program.bc", "program.ll"], cwd=folder, check=True)
    yield "bitcode", called([*lli, "program.bc"], folder, 600)
    cut(tool, folder)
    yield "linked", called([*lli, "linked.bc"], folder, 600)


def compare(tool, seed, folder, counts):
    """The runs of a program that give something else than the native one."""
    for level in LEVELS:
        expected = native(level, folder)
        if expected is None:
            counts["native program runs for long"] += 1
            continue
        for how, (status, output, errors) in runs(tool, folder):
            left_out = LEFT_OUT.match(errors)
            if left_out:
                counts[left_out[1].decode()] += 1
            elif (status, output) == expected:
                counts["same"] += 1
            elif expected[0] < 0 and errors.startswith(b"lli: undefined: "):
                # What clang made of an undefined program may be killed; `lli` says why.
                counts["undefined, and natively killed"] += 1
            else:
                yield f"seed {seed}, {level}, {how}: {status}, {output[-80:]}, {errors[-160:]}, and natively {expected[0]}, {expected[1][-80:]}"


def main():
    if not (shutil.which("clang-19") and shutil.which("csmith")):
        print("clang-19 or csmith is not there")
        return
    tool = str(pathlib.Path(sys.argv[1]).resolve()) if len(sys.argv) > 1 else str(ROOT / "ir-tools")
    first, count = (int(word) for word in (sys.argv[2:4] + ["1", "100"][len(sys.argv[2:4]):]))
    counts, wrong = collections.Counter(), 0
    for seed in range(first, first + count):
        with tempfile.TemporaryDirectory() as room:
            folder = pathlib.Path(room)
            (folder / "own.h").write_text(OWN)
            if not generated(seed, folder):
                counts["not generated"] += 1
                continue
            for it in compare(tool, seed, folder, counts):
                print(it, flush=True)
                wrong += 1
    print(", ".join(f"{what}: {number}" for what, number in counts.most_common()))
    sys.exit(1 if wrong else 0)


if __name__ == "__main__":
    main()
