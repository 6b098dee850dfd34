#!/usr/bin/env bash
# Measures a proved group in threads (`crates/bench`, group) against a plain Rust program of the same protocol, over channels with window
# 64 and over UDP and TCP on the loopback address with window 16, payloads of 32 bytes.
#   group.sh             processor time for each delivery, deliveries for each second, and which part of the cast frames that came were
#                        repeats; runs of some 200,000 deliveries and more, the best of three by processor time. The plain program is
#                        measured twice: with the protocol alone, and with the duties that the proved one has beside it (`plain_group.rs`)
#   group.sh burst       processor time for each delivery and deliveries for each second where 1, 4, 8 and 32 messages go in a burst, over
#                        channels with window 64 and over UDP with window 32. The plain program has no bursts: it gathers as many frames
#                        into one datagram, or into one piece of memory. Both cast so many at once only where the window has room for all
#   group.sh count       instructions (cachegrind) and system calls of a delivery, of runs with a tenth of the casts; the least of three.
#                        The plain program has the protocol alone
#   group.sh [burst | count] 10   the same with a tenth of the casts
# Valgrind runs one thread at a time and slowly, so that more ticks and repeats come to a delivery, and counts of a group in threads
# differ from run to run; one that takes more than two minutes is no run. System calls are counted by the system for perf (Debian's
# package linux-perf), at full speed; where it can't, by strace (package strace), which stops the threads at each call. Where there is no
# valgrind, or neither of these, the column is left out.
# It wants rustc, python3, and the program of `crates/bench`: bench/trial.py leaves it in bench/out, unproved. PROVED=FILE measures another build.
set -eu
here=$(cd "$(dirname "$0")" && pwd)
work=$(mktemp -d)
trap 'rm -rf "$work"' EXIT
how=time
if [ "${1:-}" = count ] || [ "${1:-}" = burst ]; then
    how=$1
    shift
fi
proved=${PROVED:-$here/out/group}
[ -x "$proved" ] || { mkdir -p "$here/out" && "$here/trial.py" bench "$proved" group; }
rustc --edition 2021 -O -o "$work/plain" "$here/plain_group.rs"
python3 - "$work/plain" "$proved" "$how" "${1:-1}" <<'END'
import os, re, shutil, subprocess, sys, time

plain, proved, how, divisor = [sys.argv[1]], [sys.argv[2], "group"], sys.argv[3], int(sys.argv[4])
links = [("channel", 64), ("udp", 16), ("tcp", 16)]
sizes = [(3, 34_000), (8, 3_600), (16, 900)]
if how == "count":
    divisor *= 10
cells = [(link, size, window, max(casts // divisor, 1)) for link, window in links for size, casts in sizes]
MOST_SECONDS = 120
INSTRUCTIONS = ["valgrind", "--tool=cachegrind", "--cache-sim=no", "--cachegrind-out-file=/dev/null"], r"I +refs: +([\d,]+)"
CALLS = [
    (["perf", "stat", "-x,", "-e", "raw_syscalls:sys_enter", "--"], r"(?m)^(\d+),,raw_syscalls:sys_enter"),
    (["strace", "-f", "-c"], r"(?m)^100\.00 +\S+ +\S+ +(\d+) .*total$"),
]


def words_of(link, size, window, casts, burst=1):
    return [str(size), str(window), "32", str(casts), link, str(burst)]


def measure(program, words):
    """Of the run with the least processor time: microseconds of it and of time, and cast frames that came, all for each delivery."""
    best = None
    for _ in range(3):
        begun = time.monotonic()
        process = subprocess.Popen([*program, *words], stdout=subprocess.PIPE)
        printed = process.stdout.read().decode().split()
        _, status, usage = os.wait4(process.pid, 0)
        elapsed = time.monotonic() - begun
        process.returncode = os.waitstatus_to_exitcode(status)
        if process.returncode != 0:
            sys.exit(f"{' '.join([*program, *words])} ended with {process.returncode}")
        deliveries, arrivals = int(printed[1]), int(printed[3])
        spent = usage.ru_utime + usage.ru_stime
        run = (1e6 * spent / deliveries, 1e6 * elapsed / deliveries, arrivals / deliveries, deliveries)
        best = run if best is None else min(best, run)
    return best


def print_times():
    print("                    processor us for a delivery, ratios to both  deliveries a second      repeats in 100 arrivals")
    print("link     size window   plain  duties  proved  ratio  ratio      plain    proved            plain  proved")
    for link, size, window, casts in cells:
        words = words_of(link, size, window, casts)
        theirs = measure(plain, words)
        duties = measure(plain, [*words, "duties"])
        ours = measure(proved, [*words, "arrivals"])
        if not theirs[3] == duties[3] == ours[3]:
            sys.exit(f"{' '.join(words)}: {theirs[3]} and {duties[3]} deliveries, but proved {ours[3]}")
        repeats = [100 * (1 - 1 / run[2]) for run in (theirs, ours)]
        print(f"{link:8} {size:4} {window:6} {theirs[0]:7.2f} {duties[0]:7.2f} {ours[0]:7.2f} {ours[0] / theirs[0]:6.2f} {ours[0] / duties[0]:6.2f}"
              f" {1e6 / theirs[1]:10.0f} {1e6 / ours[1]:9.0f}    {repeats[0]:13.1f} {repeats[1]:7.1f}", flush=True)


def print_bursts():
    print("                           processor us for a delivery, ratios to both    deliveries a second")
    print("link     size window burst   plain  duties  proved  ratio  ratio      plain    proved")
    for link, window in [("channel", 64), ("udp", 32)]:
        for size, casts in sizes[:2]:
            for burst in [1, 4, 8, 32]:
                words = words_of(link, size, window, max(casts // divisor, 1), burst)
                theirs = measure(plain, words)
                duties = measure(plain, [*words, "duties"])
                ours = measure(proved, [*words, "arrivals"])
                if not theirs[3] == duties[3] == ours[3]:
                    sys.exit(f"{' '.join(words)}: {theirs[3]} and {duties[3]} deliveries, but proved {ours[3]}")
                print(f"{link:8} {size:4} {window:6} {burst:5} {theirs[0]:7.2f} {duties[0]:7.2f} {ours[0]:7.2f}"
                      f" {ours[0] / theirs[0]:6.2f} {ours[0] / duties[0]:6.2f} {1e6 / theirs[1]:10.0f} {1e6 / ours[1]:9.0f}", flush=True)


def count_once(counter, command):
    """What the command prints, and what the counter counts in it; nothing where the counter is not there or takes too long."""
    before, pattern = counter
    if shutil.which(before[0]) is None:
        return None
    with subprocess.Popen([*before, *command], stdout=subprocess.PIPE, stderr=subprocess.PIPE, text=True, start_new_session=True) as process:
        try:
            printed, said = process.communicate(timeout=MOST_SECONDS)
        except subprocess.TimeoutExpired:
            os.killpg(process.pid, 9)
            return None
    found = re.search(pattern, said)
    if found is None:
        return None
    if process.returncode != 0:
        sys.exit(f"{' '.join(command)} ended with {process.returncode}")
    return printed, int(found[1].replace(",", ""))


def count(counter, link, size, window, casts):
    """The least counts for a delivery, of the plain and of the proved program, and their ratio."""
    words = words_of(link, size, window, casts)
    least = []
    for program in [plain, proved]:
        runs = [run for run in (count_once(counter, [*program, *words]) for _ in range(3)) if run is not None]
        deliveries = size * (size - 1) * casts
        if any(int(printed.split()[1]) != deliveries for printed, _ in runs):
            sys.exit(f"{' '.join([*program, *words])}: not {deliveries} deliveries in {runs}")
        least.append(min(number for _, number in runs) / deliveries if runs else float("nan"))
    return *least, least[1] / least[0]


def counters_here():
    """What can be counted on this machine, with how many places behind the point, and by what."""
    calls = next((counter for counter in CALLS if count_once(counter, ["true"]) is not None), None)
    instructions = INSTRUCTIONS if count_once(INSTRUCTIONS, ["true"]) is not None else None
    for name, places, counter in [("instructions", 0, instructions), ("system calls", 2, calls)]:
        print(f"{name} are counted by {counter[0][0]}" if counter else f"{name} are left out: nothing counts them here")
        if counter:
            yield f"{name} of a delivery", places, counter


def print_counts():
    counters = list(counters_here())
    print(" " * 23 + "".join(f"{name:29}" for name, _, _ in counters))
    print("link     size window" + "    plain   proved  ratio    " * len(counters))
    for cell in cells:
        link, size, window, _ = cell
        line = f"{link:8} {size:4} {window:6}"
        for _, places, counter in counters:
            theirs, ours, ratio = count(counter, *cell)
            line += f" {theirs:8.{places}f} {ours:8.{places}f} {ratio:6.2f}    "
        print(line, flush=True)


{"count": print_counts, "burst": print_bursts, "time": print_times}[how]()
END
