#!/usr/bin/env bash
# Runs random schedules, audits the traces of their histories, and then each trace with one byte changed, again and again. The program is
# trace_agreement/main.txt, which says what must hold; it becomes a crate of a scratch copy of the repository, and is not proved there.
#   checks/trace-agreement.sh [RUNS [STEPS [SEED [CHANGES]]]]     so many schedules of so many steps each, with seeds from this one on
set -eu
runs=${1:-1000} steps=${2:-60} seed=${3:-1} changes=${4:-20}
top=$(cd "$(dirname "$0")/.." && pwd)
work=$(mktemp -d)
trap 'rm -rf "$work"' EXIT
(cd "$top" && tar -c --exclude=out --exclude=.git .) | tar -x -C "$work"
mkdir -p "$work/crates/trace_agreement/src"
cp "$top/checks/trace_agreement/main.txt" "$work/crates/trace_agreement/src/main.rt"
for constant in RUNS="$runs" STEPS="$steps" SEED="$seed" CHANGES="$changes"; do
    sed -i "s/^const ${constant%=*}: u32 = .*;/const ${constant%=*}: u32 = ${constant#*=};/" "$work/crates/trace_agreement/src/main.rt"
done
below=$(sed -n 's/^cb_trace: //p' "$top/crates.txt")
echo "trace_agreement: $below cb_trace" >> "$work/crates.txt"
cd "$work/crates/trace_agreement"
rt try --seconds 100000 > "$work/shown" 2>&1 || { tail -n 20 "$work/shown"; exit 1; }
grep -q 'audited yes' "$work/shown" || { tail -n 20 "$work/shown"; exit 1; }
echo "$runs schedules of $steps steps, with seeds from $seed on: $(grep 'audited yes' "$work/shown")"
