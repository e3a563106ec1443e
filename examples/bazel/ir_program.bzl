"""Programs of C files as one module of LLVM bitcode, and tests that run them by lli.

Each action declares the files of the workspace that it reads, and writes nothing else than its
outputs, so it runs in Bazel's sandbox, and its results may come from a remote executor or cache.
What is not declared is clang with the headers of the system: these belong to the executor's image.
"""

def _text(ctx, source):
    """The text of a C file; a text is taken as it is."""
    if source.extension == "ll":
        return source
    base = ctx.label.name + ".dir/" + source.basename[:-2]
    text = ctx.actions.declare_file(base + ".ll")
    unused = ctx.actions.declare_file(base + ".unused")
    arguments = ctx.actions.args()
    arguments.add_all([ctx.file._compile, ctx.attr.clang, ctx.attr.level, ctx.file.cflags])
    arguments.add_all([source, text, unused] + ctx.files.hdrs)
    ctx.actions.run(
        inputs = [ctx.file._compile, source, ctx.file.cflags] + ctx.files.hdrs,
        outputs = [text, unused],
        unused_inputs_list = unused,
        executable = "/bin/sh",
        arguments = [arguments],
        mnemonic = "IrText",
        progress_message = "Compiling %s" % source.short_path,
    )
    return text

def _ir_program(ctx):
    texts = [_text(ctx, source) for source in ctx.files.srcs]
    module = ctx.actions.declare_file(ctx.label.name + ".bc")
    arguments = ctx.actions.args()
    arguments.add("llvm-link")
    arguments.add("-o", module)
    arguments.add_all(texts)
    ctx.actions.run(
        inputs = texts,
        outputs = [module],
        executable = ctx.executable.tool,
        arguments = [arguments],
        mnemonic = "IrLink",
        progress_message = "Linking %s" % module.short_path,
    )
    return [DefaultInfo(files = depset([module]))]

_TOOL = attr.label(default = "@release//:ir_tools", executable = True, cfg = "exec")

ir_program = rule(
    implementation = _ir_program,
    attrs = {
        "srcs": attr.label_list(allow_files = [".c", ".ll"]),
        "hdrs": attr.label_list(allow_files = [".h"]),
        "clang": attr.string(default = "/usr/bin/clang-19"),
        "cflags": attr.label(default = "@examples//:cflags", allow_single_file = True),
        "level": attr.string(default = "-O1"),
        "tool": _TOOL,
        "_compile": attr.label(default = "//:compile.sh", allow_single_file = True),
    },
)

# Runs the program, and compares its output.
_RUN = """#!/bin/sh
set -eu
{tool} lli {program} "$@" < {input} > "$TEST_TMPDIR/printed"
cmp "$TEST_TMPDIR/printed" {output}
"""

def _ir_test(ctx):
    files = struct(
        tool = ctx.executable.tool,
        program = ctx.file.program,
        input = ctx.file.input,
        output = ctx.file.output,
    )
    script = ctx.actions.declare_file(ctx.label.name + ".sh")
    ctx.actions.write(script, is_executable = True, content = _RUN.format(
        tool = files.tool.short_path,
        program = files.program.short_path,
        input = files.input.short_path,
        output = files.output.short_path,
    ))
    runfiles = ctx.runfiles([files.tool, files.program, files.input, files.output])
    return [DefaultInfo(executable = script, runfiles = runfiles)]

ir_test = rule(
    implementation = _ir_test,
    test = True,
    attrs = {
        "program": attr.label(allow_single_file = [".bc"]),
        "input": attr.label(allow_single_file = True),
        "output": attr.label(allow_single_file = True),
        "tool": _TOOL,
    },
)
