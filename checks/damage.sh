#!/usr/bin/env bash
# Puts each value in place of each byte of the longest frames (LONG in src/damage.rt of tests_hostile) and gives them to fresh members of
# 64, in a scratch copy of the repository and without its proof. The gate does so with all short frames, and with one damage in 1,009 of
# these. A member that refuses is as it was; one that takes the frame is as one that takes the frames of its entries.
#   checks/damage.sh [EVERY [FROM]]     one damage in so many, from this one on (0 is the first), or all 1,606,400
# A damage takes some 60 milliseconds of a processor here, where nothing is optimized, so that all take a day.
# Several at once share the work: EVERY is then how many, and FROM is 0 for the first of them, 1 for the next.
set -eu
every=${1:-1}
from=${2:-0}
[ "$from" -lt "$every" ] || { echo "FROM is below EVERY"; exit 2; }
top=$(cd "$(dirname "$0")/.." && pwd)
work=$(mktemp -d)
trap 'rm -rf "$work"' EXIT
(cd "$top" && tar -c --exclude=out --exclude=.git .) | tar -x -C "$work"
tests=$work/crates/tests_hostile/src/damage.rt
sed -i "s/^const EVERY: usize = .*;/const EVERY: usize = $every;/; s/checked_rem(every) == Some(0)/checked_rem(every) == Some($from)/" "$tests"
grep -q "^const EVERY: usize = $every;" "$tests"
grep -q "checked_rem(every) == Some($from)" "$tests"
cd "$work/crates/tests_hostile"
rt try --test --seconds 100000 -- a_long_frame > "$work/shown" 2>&1 || { cat "$work/shown"; exit 1; }
grep '^test ' "$work/shown"
grep -q '^test result: ok\. 1 passed' "$work/shown"
echo "one damage in $every of each long frame, from the one of number $from on: each is refused, or stands in the history"
