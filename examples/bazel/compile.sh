#!/bin/sh
# compile.sh CLANG LEVEL CFLAGS SOURCE TEXT UNUSED [HEADER ..]
#
# Compiles a C file to a text. UNUSED takes those of the headers that clang did not open: a change
# of these alone does not run the action again.
set -eu
clang=$1 level=$2 cflags=$3 source=$4 text=$5 unused=$6
shift 6
"$clang" "$level" "@$cflags" -S -emit-llvm -MD -MF "$unused.d" -o "$text" "$source"
opened=$(tr -s ' \\' '\n\n' < "$unused.d")
rm "$unused.d"
for header in "$@"; do
    printf '%s\n' "$opened" | grep -qxF -e "$header" || echo "$header"
done > "$unused"
