#!/usr/bin/env bash
# Fuzzes the library for C for ten seconds by each of the fuzzers (bench/fuzz, docs/FUZZING.md), with what earlier runs have found.
# Then each has to find a fault that is planted for it. The last line is `N passed, M failed`; status 1 where one failed.
# It wants what bench/fuzz/run.sh wants. SECONDS_OF_EACH=N fuzzes longer.
set -u
top=$(cd "$(dirname "$0")/.." && pwd)
work=$(mktemp -d)
trap 'rm -rf "$work"' EXIT
seconds=${SECONDS_OF_EACH:-10}
passed=0 failed=0

# told PASSED NAME: counts it, with what was said where it failed
told() {
    if [ "$1" = 0 ]; then
        passed=$((passed + 1)) && echo "ok: $2"
    else
        failed=$((failed + 1)) && echo "FAILED: $2"
        tail -n 40 "$work/said"
    fi
}

finds_nothing() {
    "$top/bench/fuzz/run.sh" "$1" "$seconds" > "$work/said" 2>&1
}

# finds_planted TARGET FAULT: what it says is a check that does not hold, not a program that could not be built
finds_planted() {
    ! PLANTED=$2 OUT=$work/planted "$top/bench/fuzz/run.sh" "$1" 120 > "$work/said" 2>&1 && grep -q ': not so: ' "$work/said"
}

fault=0
for target in member stream group journal; do
    fault=$((fault + 1))
    finds_nothing "$target"
    told $? "$target finds nothing in $seconds s: $(sed -n 's/^stat::number_of_executed_units: *//p' "$work/said") inputs"
    finds_planted "$target" "$fault"
    told $? "$target finds a planted fault: $(sed -n 's/.*: not so: //p' "$work/said" | head -n 1)"
done
echo "$passed passed, $failed failed"
[ "$failed" = 0 ]
