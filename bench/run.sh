#!/usr/bin/env bash
# Measures `confer expand` against a plain Rust program of the same job that is written for speed: some 60 MB of in-order cast
# frames of 16 senders, from a fixed seed. Compares what both write, also for lines that are cut or spoiled. Prints both times
# (the best of five), their ratio, and the peak memory of each.
# It wants rustc, /usr/bin/time (Debian's package time), and the proved program: `rt run` in crates/confer leaves it in crates/confer/out.
set -eu
here=$(cd "$(dirname "$0")" && pwd)
work=$(mktemp -d)
trap 'rm -rf "$work"' EXIT
proved=$here/../crates/confer/out/confer
[ -x "$proved" ] || (cd "$here/../crates/confer" && rt run -- expand --group 7 --size 3 < stdin > /dev/null)
rustc -O -o "$work/generate" "$here/generate.rs"
rustc -O -o "$work/plain" "$here/plain.rs"
"$work/generate" > "$work/frames"
head -c 6000000 "$work/frames" | sed '$d' > "$work/tenth"

# best INPUT COMMAND..: the least of five times in seconds, and the greatest peak of memory in KiB
best() {
    local input=$1
    shift
    for _ in 1 2 3 4 5; do
        /usr/bin/time -f '%e %M' "$@" < "$input" 2>&1 > /dev/null
    done | awk 'NR == 1 || $1 < time {time = $1} $2 > peak {peak = $2} END {print time, peak}'
}

# of some lines a beginning alone, with a space, in capitals, or of another kind, and the casts of one sender in disorder
head -n 100000 "$work/frames" | awk 'NR % 5 == 0 {print substr($0, 1, NR % 61); next} NR % 7 == 0 {print $0 " "; next}
    NR % 11 == 0 {print toupper($0); next} NR % 13 == 0 {print "1" (NR % 6) substr($0, 3); next} {print}' > "$work/spoiled"
for input in frames spoiled; do
    cmp <("$proved" expand --group 7 --size 16 < "$work/$input" || true) <("$work/plain" < "$work/$input")
done
read -r plain_time plain_peak <<< "$(best "$work/frames" "$work/plain")"
read -r proved_time proved_peak <<< "$(best "$work/frames" "$proved" expand --group 7 --size 16)"
read -r _ tenth_peak <<< "$(best "$work/tenth" "$proved" expand --group 7 --size 16)"
printf 'input   %s bytes, %s lines\n' "$(stat -c %s "$work/frames")" "$(wc -l < "$work/frames")"
printf 'plain   %s s   peak %s KiB\n' "$plain_time" "$plain_peak"
printf 'proved  %s s   peak %s KiB (on a tenth of the input: %s KiB)\n' "$proved_time" "$proved_peak" "$tenth_peak"
python3 -c "print(f'ratio   {$proved_time / $plain_time:.2f}')"
