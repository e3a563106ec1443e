#!/usr/bin/env python3
"""Outside vectors: what llvm-as-19 says of each text of tests/validity.py. It accepts those that are valid here and refuses the others,
but for those of which REASONS tells why not.

    tests/outside/verifier.py            counts the texts, and prints those that llvm-as-19 answers otherwise for no reason that is known
    tests/outside/verifier.py --all      prints each text too, with what is told of it and what llvm-as-19 says

Skipped, with status 0, where LLVM is not there.
"""
import pathlib
import shutil
import subprocess
import sys
import tempfile

sys.dont_write_bytecode = True
sys.path.insert(0, str(pathlib.Path(__file__).resolve().parents[1]))
import validity

LEAVES = "what is handed on has at most 65,536 leaves, here alone"
FORM = "a name is exact; llvm-as renames a known intrinsic whose suffix does not fit its type"
NAMES = "llvm-as knows some names of variables and passes over others"
BRACKETS = "lists are joined when linking, so one is written out, save at length 0"

# How the line of a refused text begins, or `ok`; words of the text; and why llvm-as-19 says otherwise.
REASONS = [
    ("invalid V1 ", "", "one byte order and pointers of 64 bits here, since a module is also run"),
    ("invalid V3 ", "[i32 0]", "the rule names 0, false, null and zeroinitializer, and no list; llvm-as folds the list when it reads"),
    ("invalid V4 ", "zeroinitializer", BRACKETS),
    ("invalid V4 ", "undef", BRACKETS),
    ("invalid V4 ", "%T", "two parts of a link may have unlike structs of one name"),
    ("invalid V4 ", "c\"ab\"", "the rule asks for a list in brackets; a byte string is another form of constant"),
    ("invalid V5 ", "@llvm.nope", "llvm-as passes over a name that it does not know"),
    ("invalid V5 ", "@llvm.bswap.i8", "llvm-as judges the width of bswap at calls alone; the manual has multiples of 16"),
    ("invalid V5 ", "getelementptr (i8, ptr @llvm.ctpop", "llvm-as folds the getelementptr by 0 when it reads; as written the callee is another constant"),
    ("invalid V5 ", "i08", FORM),
    ("invalid V5 ", "i129", FORM),
    ("invalid V5 ", "i8, ...", "declared with its type, which is not variadic; llvm-as passes over the dots"),
    ("invalid V5 ", "%P", "declared with its type, as it is written; llvm-as writes the struct out when it reads"),
    ("invalid V5 ", "@llvm.x", NAMES),
    ("invalid V5 ", "@llvm.ctors", NAMES),
    ("invalid V5 ", "@llvm.used = external", "the rule asks for an appending list; llvm-as passes over what is only declared"),
    ("invalid V5 ", "@llvm.global_", "llvm-as judges the type of a list of constructors and not its elements"),
    ("invalid V5 ", "declare ", "declared with its type; llvm-as judges an intrinsic's type where it is called"),
    ("invalid V6 ", "65537", LEAVES),
    ("invalid V6 ", "65536", LEAVES),
    ("invalid V6 ", "opaque", "llvm-as lets an opaque struct stand at declarations, variables and phis; here what is handed on, or defined, has a layout"),
    ("invalid V6 ", "global", "llvm-as lets a global have a type without a size"),
    ("invalid V7 ", "131072", "alignments go to 65,536 here; llvm-as goes to 2^32"),
    ("invalid V15 ", "i32 zeroinitializer", "the rule asks for a number; llvm-as takes zeroinitializer at i32 for 0"),
    ("invalid V19 ", "", "an alias is of a definition that linking keeps, and of the kind that its type says"),
    ("function too large: ", "", "a limit"),
    ("ok", "llvm.compiler.used = appending constant [0 x ptr] zeroinitializer", "zeroinitializer stands at length 0, and its elements have the type ptr"),
    ("ok", "llvm.lifetime.end.p0(ptr)", "both forms of the lifetime names are known; llvm-as-19 knows the one with a size"),
    ("ok", "i16 @llvm.ctpop.i8(i16 1)", "the type that is called is the one that is written; such a call is undefined when it runs"),
    ("ok", "global ptr @llvm.used", "the rule asks of uses only where the name is an intrinsic's"),
    ("ok", "[ptr null]", "the rule asks for elements of type ptr, and says nothing of their values"),
    ("ok", "{ void }", "void stands only as a return type in what an entity writes, and a struct is no entity"),
    ("ok", "align 3) align 3", "dropped words are no part of the module"),
    ("ok", "samesign", "samesign came to LLVM behind version 19"),
]


def answer(path):
    """What llvm-as-19 says of the text at that path: `accepted`, or why it is refused."""
    run = subprocess.run(["llvm-as-19", "-o", "/dev/null", path], capture_output=True, encoding="latin-1")
    lines = [line for line in run.stderr.splitlines() if line.strip()]
    if run.returncode == 0:
        return "accepted"
    if "does not verify" in lines[0]:
        return f"refused: {lines[1][:150]}"
    return f"refused: {next((line for line in lines if 'error:' in line), lines[0]).rpartition('error: ')[2][:150]}"


def reason(told, text):
    """Why llvm-as-19 answers otherwise of a text, where that is known."""
    return next((why for line, words, why in REASONS if told.startswith(line) and words in text), None)


def main():
    if not shutil.which("llvm-as-19"):
        print("verifier: skipped, no LLVM 19")
        return
    validity.written()
    alike, known, unknown = 0, 0, []
    with tempfile.TemporaryDirectory() as folder:
        path = pathlib.Path(folder) / "a.ll"
        for case, told in validity.CASES:
            text = validity.spelled(case)
            path.write_text(text)
            theirs = answer(path)
            is_alike = (told == validity.ACCEPTED) == (theirs == "accepted")
            why = None if is_alike else reason(told, text)
            alike, known = alike + is_alike, known + (why is not None)
            unknown += [text] * (not is_alike and why is None)
            if "--all" in sys.argv[1:]:
                print(f"{text[:200]}\n  here:    {told}\n  llvm-as: {theirs}" + ("" if is_alike else f"\n  since:   {why}"))
    refused = sum(told != validity.ACCEPTED for _, told in validity.CASES)
    print(f"verifier: {len(validity.CASES)} texts, {refused} refused here: llvm-as-19 says the same of {alike}, and otherwise of {known} for a known reason, of {len(unknown)} for none")
    for text in unknown:
        print(text[:200])
    sys.exit(1 if unknown else 0)


if __name__ == "__main__":
    main()
