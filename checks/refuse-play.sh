#!/usr/bin/env bash
# Runs `confer play` on each schedule with one of its growths refused, every STEPth one in turn, by the kit's own switch: a
# run prints its whole text, or ends with status 5, says so, and has printed nothing. The program is refused_play/main.txt
# over the sources of confer and the texts of tests_confer; how it is run stands in refused.sh. A run takes less than MOST
# growths: the last of them are never reached, else the script fails. `refuse-memory.sh` refuses each growth, of the built
# program.
set -eu
. "$(dirname "$0")/refused.sh"
copy_whole
crate=$work/whole/crates/confer
rm -rf "$crate/proofs" "$crate/src/harness.rt" "$crate/src/cli/tests.rt" "$crate/src/cli/tests"
cp -r "$top/crates/tests_confer/src/schedules" "$top/crates/tests_confer/src/schedules.rt" "$crate/src"
add_program confer refused_play
perl -0pi -e 's/#\[cfg\(test\)\]\nmod tests;\n//' "$crate/src/cli.rt"

# add_play SCHEDULE BYTES: a run of this schedule on so many bytes, each its number
add_play() {
    local case=$work/cases/$1-$(printf '%04d' "$2")
    head -c "$2" /dev/zero | tr '\0' "\\$(printf '%03o' "$1")" > "$case"
    echo 'as it must be' > "$case.stdout"
}

# refused_of SCHEDULE BYTES: how many runs of this schedule on bytes of this pattern ended for want of memory
refused_of() {
    grep -c "^case=$1-$2 .* status=1 .*output=expected" "$work/shown" || true
}

most=${MOST:-600}
schedules=$(find "$top/schedules" -name '*.script' | wc -l)
mkdir -p "$work/cases"
for ((schedule = 0; schedule < schedules; schedule++)); do
    for ((bytes = 1; bytes < most; bytes += bytes < 10 ? 1 : ${STEP:-7})); do
        add_play "$schedule" "$bytes"
    done
done
run_cases confer "$most" "${STEPS:-1}"
for ((schedule = 0; schedule < schedules; schedule++)); do
    [ "$(refused_of "$schedule" 000.)" = 0 ] || { echo "schedule $schedule takes more than $most growths"; exit 1; }
    refused=$(refused_of "$schedule" '....')
    [ "$refused" -gt 0 ] || { echo "no run of schedule $schedule was refused memory"; exit 1; }
    echo "schedule $schedule: $refused growths refused, each ended its run with status 5 and no text"
done
echo "$schedules passed, 0 failed"
