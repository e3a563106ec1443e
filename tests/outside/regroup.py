#!/usr/bin/env python3
"""Links parts in every grouping that keeps their order, and compares each with linking all of them
at once; cuts modules in two, links the halves, and compares that with the module.

    tests/outside/regroup.py [--tool PROGRAM] [--jobs N] again       2,000 fixed cases
    tests/outside/regroup.py [--tool PROGRAM] [--jobs N] SEED COUNT  COUNT cases of that seed
    tests/outside/regroup.py [--tool PROGRAM] case SEED NUMBER       one of them, kept as files
    tests/outside/regroup.py [--tool PROGRAM] parts FILE FILE ..     these parts in all groupings

Two cases of three are sets of two to four parts: first those of tests/outside/known.py, then sets
at random, of tests/outside/made.py and tests/outside/small.py. Each grouping must agree with all
at once:

| what `llvm-link` reports | what must agree |
|---|---|
| a conflict, and none in an inner link | its kind, its name, and the inputs that have the parts |
| a conflict in an inner link | all at once are in conflict |
| none | standard output, standard error and status of `lli` |

The third one cuts a module by random words of `llvm-extract`, and by the same with `--delete`. The
module is a program of tests/programs, tests/linked or tests/modules, or made parts that were
linked. The halves must have no conflict, and their link must have each definition of the module
once. Where the order of symbols stays, and no local function or alias is named main, it must run
as the module does.

A case that differs is reduced and kept in a folder, which is printed. The last line counts cases.
"""
import functools
import multiprocessing
import os
import pathlib
import sys
import tempfile

sys.dont_write_bytecode = True
HERE = pathlib.Path(__file__).resolve().parent
sys.path[:0] = [str(HERE), str(HERE.parent)]
import cuts
import groupings
import known
from paths import Chance
from tool import Tool, smaller

# The seed and the number of the gate's cases, and how many differing cases are made smaller.
SEED, COUNT, SMALLER = 66, 2000, 6
# Where files cost little to write, if there is such a place.
MEMORY = "/dev/shm" if os.access("/dev/shm", os.W_OK) else None


def case_of(seed, number, tool):
    """The case of this number."""
    if number < len(known.SETS):
        return groupings.given_set(known.SETS[number])
    chance = Chance(seed * 1000003 + number)
    for _ in range(4):
        chance.below(2)
    return cuts.Cut(chance, tool) if number % 3 == 2 else groupings.made_set(chance)


def compared(program, seed, number):
    """What differs in a case, and what it was."""
    with tempfile.TemporaryDirectory(dir=MEMORY) as room:
        tool = Tool(program, room)
        case = case_of(seed, number, tool)
        lines = case.differences(tool)
        return number, lines + tool.killed, case.kinds


def keep(program, seed, number, folder, is_smaller):
    """Writes the files of a case, and what differs in it; gives what differs."""
    with tempfile.TemporaryDirectory(dir=MEMORY) as room:
        tool = Tool(program, room)
        case = case_of(seed, number, tool)
        case.differences(tool)
        if is_smaller:
            case = smaller(case, tool)
        tool.killed.clear()
        place = folder / str(number)
        place.mkdir(parents=True, exist_ok=True)
        lines = case.differences(tool) + tool.killed
        for name, text in case.files().items():
            (place / name).write_bytes(text.encode("latin-1"))
        (place / "differs.txt").write_text("\n".join(lines) + "\n")
        return lines


def run(program, seed, numbers, jobs):
    """Compares cases on several processors, and keeps what differs."""
    kinds, differing, folder = {}, [], None
    with multiprocessing.Pool(jobs) as pool:
        compare = functools.partial(compared, program, seed)
        for number, lines, found in pool.imap_unordered(compare, numbers, chunksize=8):
            for kind in found:
                kinds[kind] = kinds.get(kind, 0) + 1
            if lines:
                folder = folder or pathlib.Path(tempfile.mkdtemp(prefix=f"regroup.{seed}."))
                lines = keep(program, seed, number, folder, len(differing) < SMALLER)
                differing.append(number)
                print(f"case {number} of seed {seed}, kept in {folder / str(number)}:", flush=True)
                print("\n".join(f"  {line}" for line in lines), flush=True)
    print(", ".join(f"{count} {kind}" for kind, count in sorted(kinds.items())))
    print(f"{len(numbers)} cases, {len(differing)} differ")
    return 1 if differing else 0


def link_given(program, names):
    """Links the parts of these files in all groupings."""
    case = groupings.given_set([pathlib.Path(name).read_text("latin-1") for name in names])
    with tempfile.TemporaryDirectory(dir=MEMORY) as room:
        lines = case.differences(Tool(program, room))
    print("\n".join([*lines, f"{len(case.groupings)} groupings, {len(lines)} differ"]))
    return 1 if lines else 0


def option(words, name, otherwise):
    """Takes an option and its value out of the words."""
    if name not in words[:-1]:
        return otherwise
    at = words.index(name)
    value = words[at + 1]
    del words[at:at + 2]
    return value


def main(words):
    program = str(pathlib.Path(option(words, "--tool", HERE.parents[1] / "ir-tools")).resolve())
    jobs = int(option(words, "--jobs", os.cpu_count() or 1))
    if words == ["again"]:
        return run(program, SEED, range(COUNT), jobs)
    if len(words) == 3 and words[0] == "case":
        folder = pathlib.Path(tempfile.mkdtemp(prefix=f"regroup.{words[1]}."))
        lines = keep(program, int(words[1]), int(words[2]), folder, False)
        print("\n".join([f"kept in {folder / words[2]}", *lines]))
        return 1 if lines else 0
    if words[:1] == ["parts"] and len(words) > 2:
        return link_given(program, words[1:])
    if len(words) != 2:
        print(__doc__)
        return 2
    return run(program, int(words[0]), range(int(words[1])), jobs)


if __name__ == "__main__":
    sys.exit(main(sys.argv[1:]))
