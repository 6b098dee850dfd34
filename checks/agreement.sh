#!/usr/bin/env bash
# Runs the random calls of the plain member, the quick one and those without history (src/agreement.rt of tests_member) with more and
# longer runs than the gate does, in a scratch copy of the repository and without its proof.
#   checks/agreement.sh [RUNS [CALLS [SEED]]]     so many runs of so many calls each, with seeds from this one on
set -eu
runs=${1:-500} calls=${2:-200} seed=${3:-1001}
top=$(cd "$(dirname "$0")/.." && pwd)
work=$(mktemp -d)
trap 'rm -rf "$work"' EXIT
(cd "$top" && tar -c --exclude=out --exclude=.git .) | tar -x -C "$work"
for constant in RUNS="$runs" CALLS="$calls" SEED="$seed"; do
    sed -i "s/^const ${constant%=*}: u32 = .*;/const ${constant%=*}: u32 = ${constant#*=};/" "$work/crates/tests_member/src/agreement.rt"
    grep -q "^const ${constant%=*}: u32 = ${constant#*=};" "$work/crates/tests_member/src/agreement.rt"
done
cd "$work/crates/tests_member"
rt try --test --seconds 100000 -- agreement > "$work/shown" 2>&1 || { cat "$work/shown"; exit 1; }
grep '^test ' "$work/shown"
echo "$((runs * calls)) calls in $runs runs, with seeds from $seed on: all members answer alike"
