#!/usr/bin/env bash
# Runs the built program and compares its exit statuses 0, 1, 2, 3 and 4 with what it writes and says: what the words, the reads
# and the writes of the real program do, which no test in the crate reaches.
# It wants the proved program: `rt run` in crates/confer leaves it in crates/confer/out.
set -eu
here=$(cd "$(dirname "$0")" && pwd)
confer=$here/../crates/confer/out/confer
[ -x "$confer" ] || (cd "$here/../crates/confer" && rt run -- expand --group 7 --size 3 < stdin > /dev/null)
work=$(mktemp -d)
trap 'rm -rf "$work"' EXIT
printf '%s\n' 1107000100026869 1107010101000102796f > "$work/accepted"
printf '%s\n' 1107000100026869 12070200 > "$work/refused"
printf '0.1 [1,0,0] "hi"\n1.1 [1,1,0] "yo"\n' > "$work/times"
printf '0.1 [1,0,0] "hi"\nrefused NotACast\n' > "$work/refusal"
: > "$work/nothing"

# ends STATUS OUTPUT SAID COMMAND..: the command ends so, writes this file, and says a line with these words on standard error
ends() {
    local status=$1 output=$2 said=$3 found=0
    shift 3
    "$@" > "$work/written" 2> "$work/said" || found=$?
    [ "$found" = "$status" ] || { echo "status $found and not $status: $*"; exit 1; }
    cmp "$output" "$work/written"
    if [ -z "$said" ]; then
        [ ! -s "$work/said" ] || { echo "it says something: $*"; exit 1; }
    else
        grep -qF -- "$said" "$work/said" || { echo "it does not say '$said': $*"; exit 1; }
    fi
}
expand=("$confer" expand --group 7 --size 3)
ends 0 "$work/nothing" '' "${expand[@]}" < /dev/null
ends 0 "$work/times" '' "${expand[@]}" < "$work/accepted"
ends 1 "$work/refusal" '' "${expand[@]}" < "$work/refused"
ends 2 "$work/nothing" 'Usage:' "$confer" < "$work/accepted"
ends 2 "$work/nothing" '--group <G>' "$confer" expand --help < "$work/accepted"
ends 2 "$work/nothing" "'more'" "$confer" audit more < "$work/accepted"
ends 2 "$work/nothing" '[possible values: channel, udp, tcp]' "$confer" run --link pipe < "$work/accepted"
ends 2 "$work/nothing" "'more'" "$confer" play more < "$work/accepted"
ends 2 "$work/nothing" "'65'" "$confer" expand --group 7 --size 65 < "$work/accepted"
ends 2 "$work/nothing" 'confer: a word of the command line is not UTF-8' "${expand[@]}" $'\xff' < "$work/accepted"
# a folder can be opened and not read, and the full device takes no byte
ends 3 "$work/nothing" 'confer: read fault' "${expand[@]}" < "$work"
found=0
"${expand[@]}" < "$work/accepted" > /dev/full 2> "$work/said" || found=$?
[ "$found" = 3 ] && [ "$(cat "$work/said")" = 'confer: write fault' ] || { echo "a full device: status $found"; exit 1; }
# a line that ends within the limit is answered, the one that goes past it is not
{ echo 1107000100026869; head -c 67108864 /dev/zero | tr '\0' 'g'; } > "$work/long"
head -n 1 "$work/times" > "$work/first"
ends 3 "$work/first" 'confer: input too long' "${expand[@]}" < "$work/long"
# every schedule, and what ends a script
for script in "$here"/../schedules/*.script; do
    ends 0 "${script%.script}.out" '' "$confer" play < "$script"
done
ends 3 "$work/nothing" 'confer: read fault' "$confer" play < "$work"
ends 3 "$work/nothing" 'confer: input too long' "$confer" play < "$work/long"
ends 4 "$work/nothing" 'confer: line 1: bad step' "$confer" play < /dev/null
{ cat "$here/../schedules/a_frame_comes_again.script"; echo 'say 0 main'; } > "$work/bad"
ends 4 "$work/nothing" 'confer: line 6: bad step' "$confer" play < "$work/bad"
found=0
"$confer" play < "$here/../schedules/a_frame_comes_again.script" > /dev/full 2> "$work/said" || found=$?
[ "$found" = 3 ] && [ "$(cat "$work/said")" = 'confer: write fault' ] || { echo "play to a full device: status $found"; exit 1; }
# an audit: yes, no, and what ends it
cp "$here/../examples/an-answer-overtakes.trace" "$work/trace"
printf '%s\n' 'group 7 size 3 window 4 history 2' 'cast 0 6869' 'arrive 1 0' 'cast 1 796f' 'arrive 2 1' 'arrive 2 0' > "$work/script"
sed -e '2s/1/0/' -e 3d "$work/trace" > "$work/unsent"
echo 'no Unsent member 1 entry 1' > "$work/no"
ends 0 "$work/script" '' "$confer" audit < "$work/trace"
ends 1 "$work/no" '' "$confer" audit < "$work/unsent"
ends 3 "$work/nothing" 'confer: read fault' "$confer" audit < "$work"
ends 3 "$work/nothing" 'confer: input too long' "$confer" audit < "$work/long"
ends 4 "$work/nothing" 'confer: line 1: bad trace' "$confer" audit < /dev/null
ends 4 "$work/nothing" 'confer: line 11: bad trace' "$confer" audit < <(cat "$work/trace" "$work/no")
found=0
"$confer" audit < "$work/trace" > /dev/full 2> "$work/said" || found=$?
[ "$found" = 3 ] && [ "$(cat "$work/said")" = 'confer: write fault' ] || { echo "an audit to a full device: status $found"; exit 1; }
# conferences in threads: each ends with a yes, and so does the audit of its trace
for link in channel udp tcp; do
    "$confer" run --size 3 --questions 2 --link $link > "$work/written"
    [ "$(tail -n 1 "$work/written")" = 'audit yes' ] || { echo "run over $link: no yes"; exit 1; }
    [ "$(grep -c '^member [012] casts 2 deliveries 4 entries .* orphans 0$' "$work/written")" = 3 ] || { echo "run over $link: not all was said"; exit 1; }
    "$confer" run --size 3 --questions 2 --link $link --trace > "$work/run.trace"
    "$confer" audit < "$work/run.trace" > "$work/run.script"
    "$confer" play < "$work/run.script" > "$work/written"
done
found=0
"$confer" run > /dev/full 2> "$work/said" || found=$?
[ "$found" = 3 ] && [ "$(cat "$work/said")" = 'confer: write fault' ] || { echo "a run to a full device: status $found"; exit 1; }
echo 'statuses 0, 1, 2, 3 and 4, with their outputs'
