#!/usr/bin/env python3
"""Writes man/*.1 and the marked parts of docs/commands.md, both from man/command_table.py.

    man/make_commands.py            writes them
    man/make_commands.py --check    says whether they are what it would write, whether the table
                                     has the tools, options and statuses of the sources, and what
                                     `mandoc` and `man` find wrong, where these are installed
"""
import os
import pathlib
import re
import shutil
import subprocess
import sys
import textwrap

sys.dont_write_bytecode = True
from command_table import ABOUT, DATE, OPTIONS, STATUSES, STREAMS, TOOLS, TUNABLES, WORDS

ROOT = pathlib.Path(__file__).resolve().parent.parent
MARK = re.compile(r"(<!-- made: ([\w-]+) -->\n).*?(<!-- end -->\n)", re.S)


def shown(examples):
    """Commands, and what each prints, as a terminal shows them."""
    lines = []
    for command, printed in examples:
        lines += ["$ " + command] + printed.splitlines()
    return "\n".join(lines)


# ---- manual pages


def escaped(text):
    """Text as roff prints it: no escape, and each dash the one that is typed."""
    return text.replace("\\", "\\e").replace("-", "\\-")


def wrap(text, **more):
    return textwrap.fill(text, break_on_hyphens=False, break_long_words=False, **more)


def guarded(text):
    """No line is taken as a macro."""
    return re.sub(r"^(?=[.'])", r"\\&", text, flags=re.M)


def roff(text):
    """A paragraph, with what is between backquotes in bold."""
    parts = text.replace("\\", "\\e").split("`")
    for odd in range(1, len(parts), 2):
        parts[odd] = "\\fB" + parts[odd].replace("-", "\\-") + "\\fR"
    return guarded(wrap("".join(parts), width=78))


def synopsis(words):
    """Options and values of a synopsis: capitals in italics, all else that is typed in bold."""
    marked = re.sub(r"(-{1,2}[A-Za-z][a-z-]*)", lambda m: f"\\fB{escaped(m[1])}\\fR", words)
    return re.sub(r"\b([A-Z]{4,}|N)\b", r"\\fI\1\\fR", marked)


def entry(head, text):
    return f".TP\n{head}\n{roff(text)}"


def option_entry(option):
    value, text = OPTIONS[option]
    head = f"\\fB{escaped(option)}\\fR" + (f" \\fI{value}\\fR" if value else "")
    return entry(head, text)


def paragraphs(texts):
    return "\n.PP\n".join(roff(text) for text in texts)


def statuses(tool):
    rows = [(status, text) for status, only, text in STATUSES if not only or tool in ("", only)]
    return "\n".join(entry(f"\\fB{status}\\fR", text) for status, text in rows)


def sample(examples):
    """Commands and what they print, without what names the checkout."""
    text = re.sub(r"\./ir-tools |examples/|scratch/", "", shown(examples))
    return f".RS 4\n.nf\n{guarded(escaped(text))}\n.fi\n.RE"


def page(name, does, sections):
    version = (ROOT / "VERSION").read_text().strip()
    head = ('.\\" Written by man/make_commands.py.\n'
            f'.TH {name.upper()} 1 {DATE} "ir-tools {version}"\n'
            f".SH NAME\n{name} \\- {does}\n")
    return head + "".join(f".SH {title}\n{text}\n" for title, text in sections)


def see_also(name):
    names = sorted([tool.name for tool in TOOLS] + ["ir-tools"])
    return " ,\n".join(f".BR {other} (1)" for other in names if other != name)


def inputs_and_output(tool):
    inputs = f"INPUT is {tool.inputs}, or `-` for standard input"
    inputs += ", once." if tool.name == "llvm-link" else ". Without INPUT it is standard input."
    if "text or" in tool.inputs:
        inputs += " What begins with the bytes 42 43 C0 DE is bitcode, all else is text."
    if "-o" not in tool.options:
        return [inputs, f"Output goes to {tool.output}."]
    output = f"Without `-o` the result goes to {tool.output}."
    if tool.output.startswith("INPUT"):
        output = f"Without `-o` the result goes to the file {tool.output}; to standard output if" \
                 " the input is standard input."
    return [inputs, output]


def tool_page(tool):
    return page(tool.name, tool.does, [
        ("SYNOPSIS", f"\\fB{escaped(tool.name)}\\fR {synopsis(tool.synopsis)}"),
        ("DESCRIPTION", paragraphs(tool.text + inputs_and_output(tool))),
        ("OPTIONS", "\n".join(option_entry(option) for option in tool.options)
         + "\n.PP\n" + roff("How options are written is in the manual page of ir-tools.")),
        ("EXIT STATUS", statuses(tool.name)
         + "\n.PP\n" + roff("An error is one line on standard error, which begins with the name of"
                            " the tool.")),
        ("EXAMPLES", sample(tool.examples)),
        ("SEE ALSO", see_also(tool.name)),
    ])


def program_page():
    tools = "\n".join(entry(f"\\fB{escaped(tool.name)}\\fR", tool.does.capitalize() + ".")
                      for tool in TOOLS)
    return page("ir-tools", "tools for LLVM IR over integers", [
        ("SYNOPSIS", "\\fBir\\-tools\\fR \\fITOOL\\fR [\\fIWORD\\fR...]"),
        ("DESCRIPTION", paragraphs(ABOUT) + "\n" + tools),
        ("WORDS", paragraphs(WORDS)),
        ("STREAMS", "\n".join(entry(escaped(name), text) for name, text in STREAMS)),
        ("EXIT STATUS", statuses("")),
        ("ENVIRONMENT", entry("\\fBGLIBC_TUNABLES\\fR", TUNABLES)),
        ("SEE ALSO", see_also("ir-tools")),
    ])


# ---- docs/commands.md


def table(heads, rows):
    lines = [heads, ["---"] * len(heads)] + [list(row) for row in rows]
    return "".join("| " + " | ".join(line) + " |\n" for line in lines)


def parts():
    """The parts of docs/commands.md by the names of their marks."""
    made = {
        "tools": table(["tool", "use it to", "inputs", "output without `-o`"],
                       [(f"`{t.name} {t.synopsis}`", t.does, t.inputs, t.output) for t in TOOLS]),
        "options": table(["option", "tools", "effect"],
                         [(f"`{option} {value}`".replace(" `", "`"), users(option), text)
                          for option, (value, text) in OPTIONS.items()]),
        "words": "".join(wrap("- " + word, width=100, subsequent_indent="  ") + "\n"
                         for word in WORDS),
        "streams": table(["stream", "what the program does with it"], STREAMS),
        "statuses": table(["status", "when"],
                          [(status, f"`{only}`: {text}" if only else text)
                           for status, only, text in STATUSES]),
    }
    for tool in TOOLS:
        texts = "\n".join(wrap(text, width=100) + "\n" for text in tool.text)
        made[tool.name] = f"{texts}\n```\n{shown(tool.examples)}\n```\n"
    return made


def users(option):
    names = [f"`{tool.name}`" for tool in TOOLS if option in tool.options]
    return ", ".join(names)


def commands_page():
    made, path = parts(), ROOT / "docs" / "commands.md"
    return MARK.sub(lambda mark: mark[1] + made[mark[2]] + mark[3], path.read_text())


# ---- writing and checking


def pages():
    made = {f"man/{tool.name}.1": tool_page(tool) for tool in TOOLS}
    return {**made, "man/ir-tools.1": program_page(), "docs/commands.md": commands_page()}


def differences():
    """Tools, options and statuses that the sources have and the table lacks, or the reverse."""
    code = "".join(path.read_text() for path in ROOT.glob("crates/*/src/**/*.rt"))
    statuses_of = "".join(re.findall(r"fn status_of\(.*?^}", code, re.M | re.S))
    found = {
        "tools": re.findall(r'b"([\w-]+)" => Some\(Tool::', code),
        "options": re.findall(r'b"([\w-]+)" => Some\((?:PlainOption|Setting)::', code),
        "statuses": re.findall(r"=> (\d+),", statuses_of),
    }
    stated = {
        "tools": [tool.name for tool in TOOLS],
        "options": [option.lstrip("-") for option in OPTIONS],
        "statuses": [status for status, _, _ in STATUSES if status.isdigit()],
    }
    for kind, its in found.items():
        if set(its) != set(stated[kind]):
            yield f"man/command_table.py: its {kind} are not those of the sources: {sorted(its)}"


def readers(path):
    """The installed programs that read a manual page and say what is wrong with it."""
    if shutil.which("mandoc"):
        yield ["mandoc", "-Tlint", path]
    # Other programs of this name have other options.
    version = ["man", "--version"]
    if shutil.which("man") and subprocess.run(version, capture_output=True).stdout[:4] == b"man ":
        yield ["man", "--warnings", "-Tutf8", "-Z", "-l", path]


def complaints(path):
    environment = {**os.environ, "LC_ALL": "C.UTF-8", "MANROFFSEQ": "", "MANWIDTH": "80"}
    for command in readers(path):
        run = subprocess.run(command, capture_output=True, text=True, env=environment)
        yield from (run.stderr + (run.stdout if command[0] == "mandoc" else "")).splitlines()


def check():
    wrong = [f"{path}: not what man/make_commands.py writes" for path, text in pages().items()
             if not (ROOT / path).exists() or (ROOT / path).read_text() != text]
    wrong += differences()
    for path in sorted((ROOT / "man").glob("*.1")):
        wrong += complaints(str(path))
    if not list(readers("")):
        print("manual pages: read by neither mandoc nor man, which are not installed")
    sys.exit("\n".join(wrong) if wrong else 0)


def main():
    if "--check" in sys.argv[1:]:
        check()
    (ROOT / "man").mkdir(exist_ok=True)
    for path, text in pages().items():
        (ROOT / path).write_text(text)


if __name__ == "__main__":
    main()
