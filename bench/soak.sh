#!/usr/bin/env bash
# Soaks groups of members that keep no history (`crates/bench_core`), with losses: 100,000, 1,000,000 and 10,000,000 deliveries at sizes 3
# and 64. The most memory that the process had in each later run must be what it had in the first, to 5 % up or down, and the plain Rust
# program must deliver the same.
#
# With losses by chance alone the peak is the record of a random course: lists grow when a member has more kept or more to deliver at once
# than ever before, and some of 64 members meet that late. So a run begins with full windows (the word `full`), twice. First all members
# cast, nobody gets that, and nobody ticks until no window has room: WINDOW - 1 casts of each of the SIZE - 1 others then wait in the
# reorder buffers of each member. Once that is repaired, all cast, and each misses the cast of the member after it alone, on which all
# that the others cast then depends: as many wait at each member, in the delay queue but for those of that one sender, and are delivered
# by one call when it comes. At one member WINDOW of each can wait, at all at once they cannot: the earliest of them depends on none, and
# is delivered where it comes. From there on frames are lost and come early by chance.
#
# The memory of a process is its anonymous pages: those of the program's file come and go with what else the machine does. A number as
# the first word divides the deliveries of the last run.
# It wants rustc, python3, and the proved program: `rt run` in crates/bench_core leaves it in crates/bench_core/out.
# PROVED=FILE measures another build: that of bench_member fails.
set -eu
here=$(cd "$(dirname "$0")" && pwd)
work=$(mktemp -d)
trap 'rm -rf "$work"' EXIT
proved=${PROVED:-$here/../crates/bench_core/out/bench_core}
[ -x "$proved" ] || (cd "$here/../crates/bench_core" && rt run -- 3 4 2 12 0 0 > /dev/null)
rustc --edition 2021 -O -C target-cpu=x86-64-v2 -o "$work/plain" "$here/plain_member.rs"
python3 - "$work/plain" "$proved" "${1:-1}" <<'END'
import re, subprocess, sys, time

plain, proved, divisor = sys.argv[1], sys.argv[2], int(sys.argv[3])
payload, lost, early = 32, 50, 10
# a small window at size 64, so that the first run, of 25 casts a member, can fill it twice
windows = {3: 64, 64: 4}
runs = [100_000, 1_000_000, 10_000_000 // divisor]
has_failed = False


def words_of(size, deliveries):
    casts = -(-deliveries // (size - 1))
    return [str(word) for word in [size, windows[size], payload, casts, lost, early, "full"]]


def memory_of(process):
    """What the process has in anonymous pages, in KB, where it has not ended."""
    with open(f"/proc/{process.pid}/status") as status:
        found = re.search(r"RssAnon:\s*(\d+) kB", status.read())
    return int(found[1]) if found else 0


def soaked(program, words):
    """What it prints, the most memory that it had in KB, and its time."""
    began = time.monotonic()
    process = subprocess.Popen([program, *words], stdout=subprocess.PIPE, text=True)
    most = 0
    while process.poll() is None:
        most = max(most, memory_of(process))
        time.sleep(0.001)
    if process.returncode != 0:
        sys.exit(f"{program} {' '.join(words)} ended with {process.returncode}")
    return process.stdout.read(), most, time.monotonic() - began


print("size  deliveries    proved, KB  plain, KB   seconds")
for size in windows:
    peaks = []
    for deliveries in runs:
        words = words_of(size, deliveries)
        printed, most, seconds = soaked(proved, words)
        said, plain_most, _ = soaked(plain, [*words, "core"])
        if printed != said:
            sys.exit(f"{' '.join(words)}: {said.strip()}, but proved {printed.strip()}")
        print(f"{size:4} {int(printed.split()[1]):11}    {most:10} {plain_most:10}   {seconds:7.1f}", flush=True)
        peaks.append(most)
    for deliveries, peak in zip(runs[1:], peaks[1:]):
        if abs(peak - peaks[0]) > 0.05 * peaks[0]:
            print(f"size {size}: {peaks[0]} KB after {runs[0]} deliveries, and {peak} KB after {deliveries}")
            has_failed = True
sys.exit(has_failed)
END
