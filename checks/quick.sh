#!/usr/bin/env bash
# A quick look that proves nothing: the tests of each crate that has some, the stanzas of conformance/ and the README's example, in the
# trial build. A line for each, and at the end how many passed. Ends with 1 where one fails. JOBS=4 runs four at a time; two if not said.
set -u
top=$(cd "$(dirname "$0")/.." && pwd)
work=$(mktemp -d)
trap 'rm -rf "$work"' EXIT

# runs the tests of the crate $1, or the program where there are none; says how it went, and leaves a file where it passed
try_one() {
    local crate=$1 began=$SECONDS out=$work/$1.out err=$work/$1.err input=/dev/null steps said
    cd "$top/crates/$crate" || return
    if grep -rqF '#[test]' src; then
        rt try --test --seconds 600 > "$out" 2> "$err"
        said=$(cat "$out" "$err" | grep -h '^test result:')
        case $said in
            "test result: ok. "*" 0 failed"*) touch "$work/$crate.passed" ;;
        esac
    else
        # the stanzas are too long for the interpreter
        [ ! -e stdin ] || input=stdin steps=1000
        rt try --steps "${steps:-20000000}" --seconds 600 < "$input" > "$out" 2> "$err" && diff "$out" stdout > "$work/$crate.diff" && touch "$work/$crate.passed"
        said="the program prints its stdout"
    fi
    if [ -e "$work/$crate.passed" ]; then
        echo "$crate: passed in $((SECONDS - began)) s: $said"
    else
        echo "$crate: FAILED in $((SECONDS - began)) s"
        cat "$out" "$err" "$work/$crate.diff" 2> /dev/null | grep -v ' \.\.\. ok$' | tail -40
    fi
}
export -f try_one
export top work

crates=$(cd "$top/crates" && grep -rlF '#[test]' ./*/src | cut -d/ -f2 | sort -u)
# shellcheck disable=SC2086
printf '%s\n' $crates conformance example_member | xargs -P "${JOBS:-2}" -I{} bash -c 'try_one {}'
passed=$(find "$work" -name '*.passed' | wc -l)
all=$(printf '%s\n' $crates conformance example_member | wc -l)
echo "$passed of $all passed in $SECONDS s"
[ "$passed" = "$all" ]
