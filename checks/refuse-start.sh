#!/usr/bin/env bash
# Runs a program of members in threads with one of its first growths refused, each in turn, and then with one of its threads refused, each
# in turn. A member or a worker that is refused can't be started, and nobody else may go on without it to the last turn, which is hours
# away: each run has a minute, and ends with status 0, 3 or 5.
#   checks/refuse-start.sh                     `confer run` of three members
#   checks/refuse-start.sh PROGRAM WORD..      another one, as crates/bench/out/bench group 3 64 32 20 channel
# It wants a C compiler and the proved program: `rt run` in crates/confer or crates/bench leaves it in the folder out there.
# THREADS is how many are refused, a member's own and those of its four workers: 15, as of three members, if not said. GROWTHS is how
# many growths are, 150 if not said: more than it takes to start all. GROWTHS=0 refuses threads alone, as of a program of the trial build, which
# has a malloc of its own.
set -eu
here=$(cd "$(dirname "$0")" && pwd)
confer=$here/../crates/confer/out/confer
if [ $# = 0 ]; then
    [ -x "$confer" ] || (cd "$here/../crates/confer" && rt run -- expand --group 7 --size 3 < stdin > /dev/null)
    set -- "$confer" run --questions 1 --turns 10000000
fi
threads=${THREADS:-15}
growths=${GROWTHS:-150}
work=$(mktemp -d)
trap 'rm -rf "$work"' EXIT
cc -O -shared -fPIC -o "$work/refuse.so" "$here/refuse_nth.c" -ldl

# refuse NAME NTH PROGRAM WORD..: runs the program with this growth or thread refused, and counts how it ended
declare -A ended
refuse() {
    local name=$1 nth=$2 status=0
    shift 2
    rm -f "$work/refused"
    env REFUSE=0 "$name=$nth" REFUSED="$work/refused" LD_PRELOAD="$work/refuse.so" \
        timeout 60 "$@" < /dev/null > "$work/shown" 2> "$work/said" || status=$?
    case $status in
        0 | 3 | 5) ;;
        124) echo "$name $nth: the others ran on"; exit 1 ;;
        *) echo "$name $nth: status $status"; cat "$work/said"; exit 1 ;;
    esac
    ended[$name $status]=$((${ended[$name $status]:-0} + 1))
}
refused=0
for ((nth = 1; nth <= growths; nth++)); do
    refuse REFUSE "$nth" "$@"
    [ ! -e "$work/refused" ] || refused=$((refused + 1))
done
[ "$growths" = 0 ] || [ "$refused" -gt 0 ] || { echo 'no growth was refused'; exit 1; }
for ((nth = 1; nth <= threads; nth++)); do
    refuse REFUSE_THREAD "$nth" "$@"
    [ -e "$work/refused" ] || { echo "thread $nth was not asked for"; exit 1; }
done
echo "$refused growths and $threads threads were refused"
for how in "${!ended[@]}"; do
    echo "$how: ${ended[$how]} runs"
done
[ "${ended[REFUSE_THREAD 3]:-0}" -gt 0 ] || { echo 'no run ended for want of a thread'; exit 1; }
echo "$((refused + threads)) passed, 0 failed"
