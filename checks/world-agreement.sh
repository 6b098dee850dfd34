#!/usr/bin/env bash
# Runs random schedules by the quick members' world (cb_world) and by a world of plain members: each step has the same answer and puts
# out the same frames, and all end with the same events and histories. The program is world_agreement/main.txt; it becomes a crate of a
# scratch copy of the repository, and is not proved there.
#   checks/world-agreement.sh [RUNS [STEPS [SEED]]]     so many schedules of so many steps each, with seeds from this one on
set -eu
runs=${1:-500} steps=${2:-60} seed=${3:-1}
top=$(cd "$(dirname "$0")/.." && pwd)
work=$(mktemp -d)
trap 'rm -rf "$work"' EXIT
(cd "$top" && tar -c --exclude=out --exclude=.git .) | tar -x -C "$work"
mkdir -p "$work/crates/world_agreement/src"
cp "$top/checks/world_agreement/main.txt" "$work/crates/world_agreement/src/main.rt"
for constant in RUNS="$runs" STEPS="$steps" SEED="$seed"; do
    sed -i "s/^const ${constant%=*}: u32 = .*;/const ${constant%=*}: u32 = ${constant#*=};/" "$work/crates/world_agreement/src/main.rt"
done
below=$(sed -n 's/^cb_world: //p' "$top/crates.txt")
echo "world_agreement: ${below% bytes} cb_reference cb_world bytes" >> "$work/crates.txt"
cd "$work/crates/world_agreement"
rt try --seconds 100000 > "$work/shown" 2>&1 || { tail -n 20 "$work/shown"; exit 1; }
grep -q 'the worlds agree' "$work/shown" || { tail -n 20 "$work/shown"; exit 1; }
echo "$((runs * steps)) steps in $runs schedules, with seeds from $seed on: both worlds agree"
