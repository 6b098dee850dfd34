#!/usr/bin/env bash
# Runs `confer expand`, `confer play`, `confer audit` and `confer run` with each growth that they ask of the operating system refused in turn. Every run must end with status 5 and
# `confer: out of memory`, or go on as if nothing had been refused. Where it ends, `expand` must have written a beginning of the answers in whole lines, and the others nothing.
# Members in threads go on without what one of their turns was refused: so a conference may also end as one that had all its memory, or without a thread.
# It wants a C compiler and the proved program: `rt run` in crates/confer leaves it in crates/confer/out.
set -eu
here=$(cd "$(dirname "$0")" && pwd)
confer=$here/../crates/confer/out/confer
[ -x "$confer" ] || (cd "$here/../crates/confer" && rt run -- expand --group 7 --size 3 < stdin > /dev/null)
work=$(mktemp -d)
trap 'rm -rf "$work"' EXIT
cc -O -shared -fPIC -o "$work/refuse.so" "$here/refuse_nth.c" -ldl

# accepted casts as text and as hexadecimal, short ones and the longest, a refusal of each kind, and a line of 4 MB
payload=$(printf '61%.0s' {1..1024})
printf '%s\n' 1107000100026869 110701010100010122 11070103 zz 1108000100026869 1107030100026869 1107000300026869 \
    11070002008008"$payload" 11070003008008"${payload/61/00}" 11070004008008"$payload$payload" > "$work/lines"
head -c 4000000 /dev/zero | tr '\0' '0' >> "$work/lines"
status=0
"$confer" expand --group 7 --size 3 < "$work/lines" > "$work/whole" || status=$?
[ "$status" = 1 ] || { echo "the whole run ended with status $status"; exit 1; }

fault() {
    echo "growth $1 refused: $2"
    exit 1
}

# refuse NTH INPUT WORD..: runs the words on the input with this growth refused
refuse() {
    local nth=$1 input=$2
    shift 2
    status=0
    rm -f "$work/refused"
    REFUSE=$nth REFUSED=$work/refused LD_PRELOAD=$work/refuse.so "$confer" "$@" \
        < "$input" > "$work/shown" 2> "$work/said" || status=$?
}
# memory NTH: the run ended for want of memory, and said so
memory() {
    [ "$status" = 5 ] || fault "$1" "status $status"
    [ "$(cat "$work/said")" = 'confer: out of memory' ] || fault "$1" "standard error says: $(cat "$work/said")"
    ended=$((ended + 1))
}
# summary WHAT: what became of the growths before this one, of which some ended the run
passed=0
summary() {
    [ "$ended" -gt 0 ] || { echo "$1: no growth that was refused ended the run"; exit 1; }
    echo "$1: $((nth - 1)) growths, each refused in turn: $ended ended the run, $((nth - 1 - ended)) were done without"
    passed=$((passed + 1))
}
ended=0
for ((nth = 1; ; nth++)); do
    refuse "$nth" "$work/lines" expand --group 7 --size 3
    cmp -s <(head -n "$(wc -l < "$work/shown")" "$work/whole") "$work/shown" || fault "$nth" 'no beginning of the answers'
    [ -e "$work/refused" ] || break
    # the kit's libraries do without some growths: then the run is the whole one
    [ "$status" = 1 ] && cmp -s "$work/whole" "$work/shown" && continue
    memory "$nth"
done
[ "$status" = 1 ]
cmp "$work/whole" "$work/shown"
summary expand

for script in "$here"/../schedules/*.script; do
    name=$(basename "$script" .script)
    ended=0
    for ((nth = 1; ; nth++)); do
        refuse "$nth" "$script" play
        [ -e "$work/refused" ] || break
        [ "$status" = 0 ] && cmp -s "${script%.script}.out" "$work/shown" && continue
        memory "$nth"
        [ ! -s "$work/shown" ] || fault "$nth" 'something is written'
    done
    [ "$status" = 0 ]
    cmp "${script%.script}.out" "$work/shown"
    summary "play of $name"
done

cp "$here/../examples/an-answer-overtakes.trace" "$work/trace"
sed -e '2s/1/0/' -e 3d "$work/trace" > "$work/unsent"
for input in trace unsent; do
    whole=0
    "$confer" audit < "$work/$input" > "$work/whole" || whole=$?
    ended=0
    for ((nth = 1; ; nth++)); do
        refuse "$nth" "$work/$input" audit
        [ -e "$work/refused" ] || break
        [ "$status" = "$whole" ] && cmp -s "$work/whole" "$work/shown" && continue
        memory "$nth"
        [ ! -s "$work/shown" ] || fault "$nth" 'something is written'
    done
    [ "$status" = "$whole" ]
    cmp "$work/whole" "$work/shown"
    summary "audit of $input"
done

# how many growths a conference asks for differs from run to run: the first 60 are tried
ended=0
for ((nth = 1; nth <= 60; nth++)); do
    refuse "$nth" /dev/null run --questions 1 --turns 2000
    if [ "$status" = 0 ]; then
        [ "$(tail -n 1 "$work/shown")" = 'audit yes' ] || fault "$nth" 'the run ends without a yes'
    elif [ "$status" = 3 ]; then
        [ "$(cat "$work/said")" = 'confer: no thread' ] || fault "$nth" "standard error says: $(cat "$work/said")"
        ended=$((ended + 1))
    else
        memory "$nth"
        [ ! -s "$work/shown" ] || fault "$nth" 'something is written'
    fi
done
summary run
echo "$passed passed, 0 failed"
