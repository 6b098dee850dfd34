#!/usr/bin/env bash
# Tells which calls and which of their answers the inputs that were found reach: reached.sh TARGET.. runs all of each target's corpus and
# seeds once, and prints how often each call gave each answer that the header names for it. Those that were never given stand at the end.
# It wants what run.sh wants, and corpora that it left; OUT=FOLDER takes another place for these.
set -eu
here=$(cd "$(dirname "$0")" && pwd)
out=${OUT:-$here/out}
work=$(mktemp -d)
trap 'rm -rf "$work"' EXIT
JOLUNZA_LIB=${LIBRARY:-$here/../../bindings/out} python3 -B "$here/seeds.py" "$work/seeds"
for target in "$@"; do
    mkdir -p "$out/$target/corpus"
    "$here/build.sh" "$target" "$work/$target"
    REACHED=1 "$work/$target" -runs=0 "$out/$target/corpus" "$work/seeds/$target" 2> "$work/said" || { tail -n 40 "$work/said"; exit 1; }
    echo "$target"
    sed -n '/^answers of each call:$/,$p' "$work/said" | tail -n +2 | tee -a "$work/all"
done
echo "answers that no call gave:"
awk '{ for (i = 2; i < NF; i += 2) { count[$1 " " $i] += $(i + 1) } } END { for (each in count) if (count[each] == 0) print each }' \
    "$work/all" | sort
