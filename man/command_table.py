"""What docs/commands.md and the manual pages both have: the tools, their options, streams and exit
statuses. What is typed or printed is between backquotes; a word in capitals in a synopsis is the
reader's to choose. man/make_commands.py writes the pages.
"""
from collections import namedtuple

# The date of the last change to this table, for the manual pages.
DATE = "2026-12-02"

# name, one line on what it does, synopsis, inputs, output without `-o`, options, paragraphs,
# examples (a command in a checkout, and exactly what it prints).
Tool = namedtuple("Tool", "name does synopsis inputs output options text examples")

# An option, its value (or nothing), and what it does.
OPTIONS = {
    "-o": ("FILE", "Write the result to FILE, or to standard output if FILE is `-`. At most once."),
    "-S": ("", "Write text instead of bitcode."),
    "--func": ("NAME", "Select the function NAME, written without its `@`. Any number of times."),
    "--glob": ("NAME", "Select the variable NAME, written without its `@`. Any number of times."),
    "--alias": ("NAME", "Select the definition that the alias NAME names, with all of its aliases."
                        " Any number of times."),
    "--recursive": ("", "Also select each defined function that a selected function calls by"
                        " name, and so on."),
    "--delete": ("", "Keep every definition except the selected ones."),
    "--max-steps": ("N", "Stop the program after N steps, from 0 to 4294967296. Each instruction"
                         " except `phi` is one step. 1000000000 if not given. At most once."),
    "--dump": ("", "Print every block, abbreviation and record, then the counts."),
}

TOOLS = [
    Tool("llvm-as", "write the bitcode of a text", "[-o FILE] [INPUT]",
         "text", "INPUT with `.ll` at its end replaced by `.bc`, or with `.bc` added",
         ["-o"],
         ["Reads one module of LLVM IR as text, checks it and writes its bitcode. Two texts of one"
          " module give the same bytes, whatever their comments, spaces and spellings.",
          "The bitcode has this project's own records: LLVM's tools can read its blocks and"
          " abbreviations, not its instructions. Exchange modules with them as text."],
         [("./ir-tools llvm-as examples/answer.ll -o scratch/answer.bc; echo $?", "0"),
          ("echo '@x = global float 0.0' | ./ir-tools llvm-as; echo $?",
           "llvm-as: -:1:13: left out: float\n1")]),
    Tool("llvm-dis", "write the text of a bitcode file", "[-o FILE] [INPUT]",
         "bitcode", "INPUT with `.bc` at its end replaced by `.ll`, or with `.ll` added",
         ["-o"],
         ["Reads one module as bitcode, whatever its first bytes are, checks it and writes its"
          " canonical text. The text is that of the same module: a tool that reads it, which needs"
          " it to have at most 16 MiB, gets the same bitcode again.",
          "Bitcode that clang or one of LLVM's tools wrote is rejected with `foreign producer`."],
         [("./ir-tools llvm-dis scratch/answer.bc -o -",
           "define i32 @main() {\n0:\n  %1 = add i32 40, 2\n  ret i32 %1\n}"),
          ("./ir-tools llvm-dis examples/answer.ll; echo $?",
           "llvm-dis: examples/answer.ll: bit 0: bad magic\n1")]),
    Tool("llvm-link", "link modules into one", "[-S] [-o FILE] INPUT...",
         "text or bitcode", "standard output",
         ["-o", "-S"],
         ["Reads modules, checks each, and writes the one module that they link to. Run, that"
          " module prints the same bytes as the inputs run side by side without linking, and ends"
          " in the same way. If two inputs define or declare a name in ways that conflict,"
          " `llvm-link` reports the first conflict and writes nothing."],
         [("echo 'define i32 @g() { ret i32 7 }' > scratch/g.ll", ""),
          ("echo 'declare i32 @g() define i32 @main() { %1 = call i32 @g() ret i32 %1 }'"
           " > scratch/main.ll", ""),
          ("./ir-tools llvm-link scratch/main.ll scratch/g.ll -o scratch/both.bc", ""),
          ("./ir-tools lli scratch/both.bc; echo $?", "7"),
          ("./ir-tools llvm-link scratch/g.ll scratch/g.ll; echo $?",
           "llvm-link: conflict: two strong: @g in scratch/g.ll and scratch/g.ll\n1")]),
    Tool("llvm-extract", "cut definitions out of a module",
         "[-S] [-o FILE] [--func NAME] [--glob NAME] [--alias NAME] [--recursive] [--delete]"
         " [INPUT]",
         "text or bitcode", "standard output",
         ["-o", "-S", "--func", "--glob", "--alias", "--recursive", "--delete"],
         ["Reads one module, checks it, and writes the part that the options select: the selected"
          " definitions, and declarations of what they use. Without a selection it keeps no"
          " definition, and with `--delete` all of them.",
          "The module has to define each NAME, as a function, a variable or an alias. If it does"
          " not, `llvm-extract` reports the first such NAME, functions before variables before"
          " aliases, and writes nothing."],
         [("./ir-tools llvm-extract -S --func=g scratch/both.bc",
           "define i32 @g() {\n0:\n  ret i32 7\n}"),
          ("./ir-tools llvm-extract -S --func=g --delete scratch/both.bc",
           "declare i32 @g()\ndefine i32 @main() {\n0:\n  %1 = call i32 @g()\n  ret i32 %1\n}"),
          ("./ir-tools llvm-extract --glob=g scratch/both.bc; echo $?",
           "llvm-extract: no symbol @g\n1")]),
    Tool("lli", "run a program", "[--max-steps N] [INPUT [ARGUMENT...]]",
         "text or bitcode", "standard output, where the program prints",
         ["--max-steps"],
         ["Reads one module, checks it, and runs its `main`. The arguments of the program are"
          " INPUT and each ARGUMENT, as they were given. The value of `main` modulo 256 is the exit"
          " status.",
          "The program reads standard input. If the module itself came from there, the program has"
          " no input: `getchar` returns -1.",
          "A program that does something undefined is stopped, and the kind of undefined behaviour"
          " is printed on standard error."],
         [("./ir-tools lli examples/hello.ll",
           "1 squared is 1\n2 squared is 4\n3 squared is 9"),
          ("./ir-tools lli --max-steps=1 examples/answer.ll; echo $?",
           "lli: steps used up\n124"),
          ("echo 'define i32 @main() { unreachable }' | ./ir-tools lli; echo $?",
           "lli: undefined: unreachable\n125")]),
    Tool("llvm-bcanalyzer", "show the blocks and records of a bitcode file", "[--dump] [INPUT]",
         "bitcode of any producer", "standard output",
         ["--dump"],
         ["Reads one file as bitcode, of clang and LLVM too, and prints how many blocks, records"
          " and abbreviations it has: one line for each block id in ascending order, and a total."
          " A file that is no bitcode is rejected at its first wrong bit, counted from 0.",
          "With `--dump`, a block is indented by two spaces for each block around it. The operands"
          " of a record follow its code; a byte of Char6 is printed as its number, and a blob as"
          " `blob` and its number of bytes."],
         [("./ir-tools llvm-bcanalyzer scratch/answer.bc | tail -1",
           "total: 5 blocks, 9 records, 2 abbreviations"),
          ("./ir-tools llvm-bcanalyzer --dump scratch/answer.bc | sed -n 9,14p",
           "block 8 width 3 words 14\n  record 1 by 3: 2\n  block 17 width 3 words 1\n"
           "    record 1 by 3: 32\n  end 17\n  record 6 by 3: 0 4 0 1 0 0 0")]),
]

STREAMS = [
    ("standard input", "Read to its end if it is an input. If `lli` runs a module that came from a"
     " file, read when the program asks for bytes. Not touched otherwise."),
    ("standard output", "A result, written after all inputs were accepted; the output of"
     " `llvm-bcanalyzer`; and what a program prints, while it runs. If a write fails (a closed pipe"
     " is such a failure), a prefix of the output was written."),
    ("the file of a result", "Opened and written in one call, after all inputs were accepted. If"
     " the write fails, it has a prefix of the result or its former contents. No other file is"
     " written."),
    ("standard error", "One line if the tool ends with an error, else nothing. If writing that line"
     " fails, the exit status stays the same."),
]

# A status, the tools that have it (or nothing for all), and when.
STATUSES = [
    ("0", "", "The tool did its work; a program run by `lli` returned 0."),
    ("1", "", "The command line or an input was rejected, the inputs do not link, a name is"
              " missing, or a read or a write failed."),
    ("120", "", "Memory ran out."),
    ("121", "lli", "The frames of the program's functions weigh more than 4,194,304: 1 for each"
                   " call, and 1 for each scalar of its parameters and results."),
    ("122", "lli", "More than 268,435,456 bytes of the program's memory would be live."),
    ("123", "lli", "The program has no `main`, or uses a name that nothing defines."),
    ("124", "lli", "The program needs more steps than `--max-steps`."),
    ("125", "lli", "The program did something undefined."),
    ("any", "lli", "The program's own status, modulo 256; 134 after `abort`. No line is printed"
                   " then, whatever the number."),
]

# How words are read: in docs/commands.md and in ir-tools(1).
WORDS = [
    "An option has one dash or two: `-func` is `--func`, and `--S` is `-S`.",
    "A value follows `=` or is the next word: `-o=x`, `-o x`. It is never joined without `=`:"
    " `-ox` is an unknown option. Only the first `=` counts: `-o=a=b` names the file `a=b`.",
    "The next word is the value whatever it looks like: `-o --` names a file `--`.",
    "An option without a value may be repeated, with no further effect. With `=` it is unknown.",
    "After `--` every word is an input. There too, `-` is standard input.",
    "Any other word that begins with a dash has to be an option of the tool. There is no `--help`"
    " and no `--version`.",
    "No input means standard input, except for `llvm-link`. The input `-` may be named once. A file"
    " that is named twice is read twice.",
    "A number is decimal digits, without a sign and without leading zeros. A NAME is not empty.",
    "A file name is UTF-8 without a zero byte; a file of any other name cannot be read or written.",
    "`lli` reads no option after its input: in `lli a.ll one -o two` the words after `a.ll` are the"
    " program's.",
]

# What ir-tools(1) says before the tools, and of the environment.
ABOUT = [
    "One program with the tools below. TOOL names one, and each WORD is that tool's. Each is"
    " installed under its own name too: `lli a.ll` is `ir-tools lli a.ll`.",
    "They read and write modules of LLVM IR over integers of up to 128 bits, pointers, arrays and"
    " structs, as text or as bitcode of their own. The documents, among them one of all errors, and"
    " the examples are in share/doc/ir-tools.",
]
TUNABLES = "Settings of the C library's allocator. Where it is not set, the launchers set it."
