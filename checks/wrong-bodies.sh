#!/usr/bin/env bash
# Runs the tests of a crate on each of its mutants: the edits of crates/CRATE/must-fail and of checks/wrong-bodies/CRATE, each in
# a scratch copy of the repository and without its proof. A line for each, `CRATE EDIT refused-by-test TESTS` or `CRATE EDIT passes-tests`.
# It ends with 1 where an edit does not fit the code, or where the mutant does not compile or does not run.
# No part of the gate, where the prover refuses the edits of must-fail. Some 10 seconds an edit; JOBS=2 tries two at a time.
#   checks/wrong-bodies.sh [CRATE..]      those crates, or all that have such edits
#   EDITS='NAME ..' checks/wrong-bodies.sh CRATE      those edits alone
#   checks/wrong-calls.sh      those of cb_handle and jolunza, whose tests are the cases of bindings/c/calls.c
#   FILL=1 checks/wrong-bodies.sh ..      writes the tests that refuse each, two at most, into checks/wrong-bodies/refused.tsv
set -u
top=$(cd "$(dirname "$0")/.." && pwd)
work=$(mktemp -d)
trap 'rm -rf "$work"' EXIT

say() {
    echo "$*"
    echo "$*" >> "$work/results"
}

# the crate whose tests run on a mutant of the crate; `inner-tests` is `checks/inner-tests.sh` for that crate
tests_of() {
    case $1 in
        cb_frames) echo conformance tests_base ;;
        cb_varint | cb_times | cb_diffs | cb_delay) echo tests_base conformance ;;
        cb_gaps) echo tests_base ;;
        cb_stability) echo tests_base inner-tests ;;
        cb_member) echo conformance tests_member inner-tests ;;
        cb_reference) echo conformance tests_member ;;
        cb_history) echo tests_group cb_lock ;;
        cb_causality | cb_rooms | cb_world | cb_trace) echo tests_group ;;
        cb_journal) echo tests_journal ;;
        cb_peers | cb_remote) echo tests_links ;;
        cb_node) echo tests_journal inner-tests ;;
        cb_lines | cb_replay) echo tests_journal tests_group ;;
        cb_handle | jolunza) ;;
        confer_text | confer_expand | confer_play | confer_audit) echo tests_confer ;;
        *) echo "$1" ;;
    esac
}

# plays the stanzas in the copy $1, and says of each, as of a test, whether it is answered as it stands there
play() {
    (cd "$1/crates/conformance" && rt try --steps 1000 --seconds 600 < stdin > "$1/printed") 2> "$1/said"
    if [ -s "$1/printed" ]; then
        "$1/checks/stanzas.py" tests "$1/printed"
    else
        cat "$1/said"
    fi
}

# tries one edit, $2 of the crate $1, in a copy of its own
try() {
    local crate=$1 edit=$2 name copy shown refusing of
    name=$(basename "$edit" .edit)
    if [ -z "$(tests_of "$crate")" ]; then
        say "$crate $name has-its-test-in-C: see checks/wrong-calls.sh"
        return 0
    fi
    copy=$(mktemp -d "$work/copy.XXXXXX")
    cp -r "$work/whole/." "$copy"
    if ! shown=$(perl "$top/checks/apply_edit.pl" "$copy/crates/$crate" "$edit" 2>&1); then
        say "$crate $name does-not-fit: $shown"
        rm -rf "$copy"
        return 1
    fi
    for of in $(tests_of "$crate"); do
        if [ "$of" = inner-tests ]; then
            shown=$("$copy/checks/inner-tests.sh" "$crate" 2>&1)
        elif [ "$of" = conformance ]; then
            shown=$(play "$copy" 2>&1)
        else
            shown=$(cd "$copy/crates/$of" && rt try --test --seconds 600 2>&1)
        fi
        refusing=$(grep -E '^test .* \.\.\. ' <<< "$shown" | grep -vE '\.\.\. (ok|ignored)$' | awk '{ n = split($2, path, "::"); print path[n] }')
        [ -z "$refusing" ] || break
    done
    rm -rf "$copy"
    if [ -n "$refusing" ]; then
        say "$crate $name refused-by-test" $refusing
    elif grep -q '^test result: ok\.' <<< "$shown"; then
        say "$crate $name passes-tests"
    else
        say "$crate $name does-not-run: $(grep -m1 -E 'error|fault' <<< "$shown")"
        return 1
    fi
}

mkdir "$work/whole"
: > "$work/results"
(cd "$top" && tar -c --exclude=out --exclude=.git .) | tar -x -C "$work/whole"
shopt -s nullglob
status=0
running=0
for crate in "${@:-}"; do
    for folder in "$top"/crates/${crate:-*}/must-fail "$top"/checks/wrong-bodies/${crate:-*}; do
        of=${folder#"$top"/crates/}
        of=${of%/must-fail}
        of=$(basename "$of")
        for edit in "$folder"/*.edit; do
            [ -z "${EDITS:-}" ] || [[ " $EDITS " == *" $(basename "$edit" .edit) "* ]] || continue
            if [ "$running" -ge "${JOBS:-1}" ]; then
                wait -n || status=1
                running=$((running - 1))
            fi
            try "$of" "$edit" &
            running=$((running + 1))
        done
    done
done
while [ "$running" -gt 0 ]; do
    wait -n || status=1
    running=$((running - 1))
done
[ -z "${FILL:-}" ] || "$top/checks/mutants.py" fill "$work/results"
exit "$status"
