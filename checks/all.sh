#!/usr/bin/env bash
# All that has to pass: the gate (`rt ci`), the library and what uses it (bindings/check.sh), the stanzas' files, the tests of private items, and
# the quickest of the scripts that refuse memory. Ends with another status than 0 where one fails. The last line counts for all five.
set -u -o pipefail
cd "$(dirname "$0")/.." || exit 2
work=$(mktemp -d)
trap 'rm -rf "$work"' EXIT
passed=0 failed=0

# add COMMAND..: runs it, shows what it prints, and counts by its last line. Where that has no count, or hides a failure, one failed.
add() {
    local status=0 count
    "$@" | tee "$work/printed" || status=1
    count=$(tail -n 1 "$work/printed")
    if [[ $count =~ ^([0-9]+)\ passed,\ ([0-9]+)\ failed ]]; then
        passed=$((passed + BASH_REMATCH[1]))
        failed=$((failed + BASH_REMATCH[2]))
        [ "${BASH_REMATCH[2]}" = 0 ] || status=0
    else
        status=1
    fi
    failed=$((failed + status))
}

# lanes: how many checks at once: one for each processor, where each has 5 GB. A check here takes 1 to 4 GB; `rt ci` by itself counts on up to
# 10 GB for the larger crates, and then leaves processors idle, or lets the longest chain wait.
lanes() {
    local processors memory
    processors=$(nproc)
    memory=$(($(sed -n 's/^MemAvailable: *\([0-9]*\) kB/\1/p' /proc/meminfo) / 5000000))
    [ "$memory" -ge 1 ] || memory=1
    echo $((memory < processors ? memory : processors))
}

export RT_JOBS=${RT_JOBS:-$(lanes)}
add rt ci
# what the gate has just proved need not be proved once more
export JOLUNZA_OVER_GATE=1
add bindings/check.sh
add checks/stanzas.py
add checks/inner-tests.sh
add checks/refuse-rooms.sh
echo "$passed passed, $failed failed"
[ "$failed" = 0 ]
