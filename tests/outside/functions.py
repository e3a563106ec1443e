#!/usr/bin/env python3
"""Outside vectors: the canonical text of each module of tests/modules and tests/programs, which clang made, is accepted by llvm-as-19, and
llvm-dis-19 prints the functions of its bitcode as it prints those of the module itself, but for what canonical text drops.

    tests/outside/functions.py [PROGRAM [FOLDER ..]]    ./ir-tools and these two folders, unless others are named

Skipped, with status 0, where LLVM is not there.
"""
import pathlib
import re
import shutil
import subprocess
import sys
import tempfile

ROOT = pathlib.Path(__file__).resolve().parents[2]

# Words that leave no trace in canonical text, as llvm-dis-19 prints them.
DROPPED = ("dso_local|dso_preemptable|default|hidden|protected|unnamed_addr|local_unnamed_addr|tail|musttail|notail|fastcc|coldcc|zeroext|signext|inreg|noalias|nocapture|nofree|nonnull|noundef|"
           "readnone|readonly|writeonly|writable|returned|immarg|nest|allocptr|allocalign|dead_on_unwind")
BRACKETED = r"align \d+(?=[ ,)])|(?:dereferenceable|dereferenceable_or_null|align)\(\d+\)|(?:sret|range)\([^()]*\)|memory\([^()]*\)"


def assembled(folder, text):
    """The bitcode's path, or what llvm-as-19 says."""
    source, made = folder / "a.ll", folder / "a.bc"
    source.write_bytes(text.encode("latin-1"))
    run = subprocess.run(["llvm-as-19", "-o", str(made), str(source)], capture_output=True)
    if run.returncode == 0:
        return made, None
    lines = [line for line in run.stderr.decode("latin-1").splitlines() if line.strip()]
    return None, re.sub(r"^.*?error: ", "", next((line for line in lines if "error:" in line), lines[-1]))[:160]


def disassembled(path):
    # Strings of any bytes: they are printed with escapes, so that Latin-1 reads them.
    return subprocess.run(["llvm-dis-19", "-o", "-", str(path)], capture_output=True, check=True).stdout.decode("latin-1")


def outside_strings(change, line):
    """Changes what is outside the strings of a line."""
    return "".join(part if part.startswith('"') else change(part) for part in re.split(r'("[^"]*")', line))


def without_comment(line):
    """A line up to the first `;` that is outside its strings."""
    return re.match(r'(?:[^";]|"[^"]*")*', line).group()


def lines_of(printed):
    """The lines of a module, without comments, metadata, attributes and blank lines."""
    lines = [without_comment(line).rstrip() for line in printed.split("\n") if not re.match(r"attributes #|!|; ", line)]
    return [line for line in lines if line.strip()]


def undropped(line):
    """A line without what canonical text drops."""
    line = re.sub(r', section "[^"]*"', "", line)
    line = re.sub(r', ![A-Za-z.]+ !\d+|, ![A-Za-z.]+ !\{[^}]*\}', "", line)
    if re.match(r"define|declare", line):
        line = re.sub(r"\) [^()]*(?:memory\([^)]*\)|allockind\([^)]*\)|allocsize\([^)]*\)|alignstack\([^)]*\)|[^()])*$", ")" + (" {" if line.endswith("{") else ""), line)
        line = re.sub(r"declare (!\w+ !\d+ )*", "declare ", line)
    elif " call " in line or line.lstrip().startswith(("call", "tail", "musttail", "notail")):
        line = re.sub(r"\)( #\d+)$", ")", line)

    def change(part):
        if re.match(r"(?:define|declare)|.*\bcall\b", line):
            part = re.sub(rf"({BRACKETED}) ?", "", part)
        return re.sub(rf"(?<![%@\w.$-])(?:{DROPPED}) ", "", re.sub(rf"(?<![%@\w.$-])(?:{DROPPED})(?=[,)])", "", part))

    line = outside_strings(change, line)
    return re.sub(r" +([,)])", r"\1", re.sub(r"(?<=\S)  +", " ", line))


def functions_of(lines):
    """The lines of functions, in canonical spelling as far as LLVM's own additions go."""
    kept, within = [], False
    for line in lines:
        if line.startswith(("define", "declare")):
            within = True
        if within:
            kept.append(line)
        if line == "}" or line.startswith("declare"):
            within = False
    return kept


def joined(lines):
    """A `switch` on one line."""
    made = []
    for line in lines:
        if made and re.match(r"  switch .*[^\]]$", made[-1]):
            made[-1] += " " + line.strip()
        else:
            made.append(line)
    return made


def functions(folder, text):
    """The lines of the functions of a text, as llvm-dis-19 prints them, or what llvm-as-19 says."""
    made, fault = assembled(folder, text)
    if fault:
        return None, fault
    return functions_of(joined(map(undropped, lines_of(disassembled(made))))), None


def main():
    if not all(map(shutil.which, ["llvm-as-19", "llvm-dis-19"])):
        print("functions: skipped, no LLVM 19")
        return
    program = sys.argv[1] if len(sys.argv) > 1 else ROOT / "ir-tools"
    folders = [pathlib.Path(word) for word in sys.argv[2:]] or [ROOT / "tests" / "modules", ROOT / "tests" / "programs"]
    failed, alike, passed_over = [], 0, 0
    with tempfile.TemporaryDirectory() as name:
        for path in sorted(path for folder in folders for path in folder.glob("*.ll")):
            run = subprocess.run([program, "llvm-link", "-S", "-o", "-", path], capture_output=True)
            text = run.stdout.decode("latin-1")
            ours, fault = (None, run.stderr.decode("latin-1").strip()) if run.returncode else functions(pathlib.Path(name), text)
            theirs, _ = functions(pathlib.Path(name), path.read_bytes().decode("latin-1"))
            if fault is not None and "left out" in fault:
                passed_over += 1
            elif fault is not None or ours != theirs:
                pairs = [pair for pair in zip(ours or [], theirs or []) if pair[0] != pair[1]]
                failed.append(f"{path.name}: {fault or pairs[:1] or 'more lines'}")
            else:
                alike += 1
    print(f"functions: {alike} modules alike, {passed_over} with words that are left out, {len(failed)} not")
    print(*failed, sep="\n", end="\n" if failed else "")
    sys.exit(1 if failed else 0)


if __name__ == "__main__":
    main()
