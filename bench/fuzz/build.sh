#!/usr/bin/env bash
# Builds a fuzzer over the library for C: build.sh TARGET PROGRAM [FAULT], TARGET being member, stream, group or journal. With a number
# as the third word a fault is planted (planted.c). The address, undefined-behaviour and leak sanitizers watch all but the library's own
# code, whose allocations they see.
# It wants clang with its runtime (Debian's clang and libclang-rt-dev) and the library (bindings/build.sh); LIBRARY=FOLDER takes another
# build, CLANG=NAME another clang.
set -eu
here=$(cd "$(dirname "$0")" && pwd)
top=$here/../..
target=$1 program=$2 fault=${3:-}
library=${LIBRARY:-$top/bindings/out}
sources=(frame.c model.c text.c input.c reached.c memory.c checked.c)
flags=(-Wl,--wrap=malloc,--wrap=realloc)
[ "$target" != group ] || sources+=(past.c)
if [ -n "$fault" ]; then
    sources+=(planted.c)
    flags+=(-DPLANTED="$fault" -Wl,--wrap=jolunza_receive,--wrap=jolunza_receive_parts,--wrap=jolunza_event,--wrap=jolunza_resume)
fi
cd "$here"
"${CLANG:-clang}" -std=c11 -Wall -Wextra -Werror -pedantic -O1 -g -fsanitize=fuzzer,address,undefined -fno-sanitize-recover=all \
    -I"$top/bindings/c" "$target.c" "${sources[@]}" "$library/libjolunza.a" "${flags[@]}" -o "$program"
