#!/usr/bin/env bash
# Runs the cases of bindings/c/calls.c on each mutant of `cb_handle` and `jolunza` (checks/wrong-bodies). The prover refuses a library
# of such crates. What the edit does is done in C, in front of the call that shows it (wrong_calls.c). A line for each, `CRATE EDIT
# refused-by-test CASES` or `CRATE EDIT passes-tests`; ends with 1 where one passes all, or has no body there. It wants gcc and some
# seconds.
#   checks/wrong-calls.sh [ARCHIVE]      over this archive, or that of bindings/prebuilt
set -u
top=$(cd "$(dirname "$0")/.." && pwd)
archive=${1:-$top/bindings/prebuilt/x86_64-linux-gnu/libjolunza.a}
work=$(mktemp -d)
trap 'rm -rf "$work"' EXIT
compile=(gcc -std=c11 -O1 -Wall -Wextra -Wno-unused -I"$top/bindings/c")
"${compile[@]}" -c "$top/bindings/c/calls.c" -o "$work/calls.o" || exit 2
status=0
for file in "$top"/checks/wrong-bodies/{cb_handle,jolunza}/*.edit; do
    edit=$(basename "$file" .edit)
    crate=$(basename "$(dirname "$file")")
    if ! grep -q "if defined $edit\$" "$top/checks/wrong_calls.c"; then
        echo "$crate $edit has no body in checks/wrong_calls.c"
        status=1
        continue
    fi
    "${compile[@]}" "-D$edit" -c "$top/checks/wrong_calls.c" -o "$work/wrong.o" || exit 2
    mapfile -t wraps < <(nm "$work/wrong.o" | sed -n 's/.* T __wrap_/-Wl,--wrap=/p')
    gcc "$work/calls.o" "$work/wrong.o" "$archive" -pthread "${wraps[@]}" -o "$work/calls" || exit 2
    timeout 60 "$work/calls" > "$work/said"
    cases=$(sed -n 's/^calls.c:[0-9]*: \(test_[a-z_0-9]*\)(.*/\1/p' "$work/said" | awk '!seen[$1]++' | tr '\n' ' ')
    if [ -n "$cases" ]; then
        echo "$crate $edit refused-by-test $cases"
    else
        echo "$crate $edit passes-tests"
        status=1
    fi
done
exit "$status"
