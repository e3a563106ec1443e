#!/usr/bin/env python3
"""Whether the functions of examples/libc.c do what those of the system's C library do.

    tests/libc.py --check              natively: 10,000 random cases a group of functions, made at
                                       -O0, -O1 and -O2, by our functions and by the system's
    tests/libc.py --run TOOL [SEED]    that, and 1,000 of them run by the ir-tools program TOOL

The cases are those of tests/libc/cases.c: the same for the same seed (1, unless one is named).
Where the results of a group differ, `cases COUNT SEED GROUP` prints each. Skipped, with one line
and status 0, where clang-19, nm or objcopy is not there.
"""
import pathlib
import shutil
import subprocess
import sys
import tempfile

ROOT = pathlib.Path(__file__).resolve().parent.parent
CLANG = ["clang-19", "-w", f"@{ROOT}/examples/cflags"]
SOURCES = {"cases": ROOT / "tests/libc/cases.c", "libc": ROOT / "examples/libc.c"}
LEVELS = ("-O0", "-O1", "-O2")
NATIVE_COUNT, RUN_COUNT = 10_000, 1_000


def called(*words):
    """The output of a command that must end with status 0."""
    return subprocess.run([str(word) for word in words], check=True, stdout=subprocess.PIPE).stdout


def native(level, room):
    """The native programs of a level: with the system's functions, and with ours."""
    for name, source in SOURCES.items():
        called(*CLANG, level, "-c", "-o", f"{room}/{name}.o", source)
    names = [line.split()[-1] for line in
             called("nm", "--defined-only", "-g", f"{room}/libc.o").decode().splitlines()]
    pathlib.Path(f"{room}/names").write_text("".join(f"{it} our_{it}\n" for it in names))
    for name in SOURCES:
        called("objcopy", f"--redefine-syms={room}/names", f"{room}/{name}.o",
               f"{room}/our_{name}.o")
    called("clang-19", "-no-pie", "-o", f"{room}/theirs", f"{room}/cases.o")
    called("clang-19", "-no-pie", "-o", f"{room}/ours", f"{room}/our_cases.o", f"{room}/our_libc.o")
    return f"{room}/theirs", f"{room}/ours"


def linked(level, room, tool):
    """The module of the cases and our functions at a level."""
    for name, source in SOURCES.items():
        called(*CLANG, level, "-S", "-emit-llvm", "-o", f"{room}/{name}.ll", source)
    called(tool, "llvm-link", f"{room}/cases.ll", f"{room}/libc.ll", ROOT / "examples/blocks.ll",
           "-o", f"{room}/cases.bc")
    return f"{room}/cases.bc"


def differences(seed, tool):
    """A line for each level at which results differ."""
    for level in LEVELS:
        with tempfile.TemporaryDirectory() as room:
            theirs, ours = native(level, room)
            if called(theirs, NATIVE_COUNT, seed) != called(ours, NATIVE_COUNT, seed):
                yield f"{level}: natively, our functions do otherwise, with seed {seed}"
            if tool is None:
                continue
            module = linked(level, room, tool)
            if called(theirs, RUN_COUNT, seed) != called(tool, "lli", module, RUN_COUNT, seed):
                yield f"{level}: in lli, our functions do otherwise, with seed {seed}"


def main():
    words = sys.argv[1:]
    if words[:1] not in (["--check"], ["--run"]) or (words[0] == "--run" and len(words) < 2):
        sys.exit(__doc__)
    missing = [name for name in ("clang-19", "nm", "objcopy") if shutil.which(name) is None]
    if missing:
        print(f"tests/libc.py: skipped: {', '.join(missing)} not there")
        return
    tool = words[1] if words[0] == "--run" else None
    wrong = list(differences(words[2] if len(words) > 2 else "1", tool))
    for line in wrong:
        print(f"tests/libc.py: {line}")
    sys.exit(1 if wrong else 0)


if __name__ == "__main__":
    main()
