#!/usr/bin/env bash
# Measures the members of a group in one thread (`crates/bench_member` with histories, `crates/bench_core` without) against two plain Rust
# programs that are written for speed: `plain`, as one writes it who needs causal delivery alone, and `fair`, with the proved member's other
# duties (`plain_member.rs`, `fair_member.rs`). They run at some sizes, in order, with frames that are lost or come early, and by bursts of 8.
# All three must print the same deliveries and digest.
#   member.sh count      instructions (callgrind) and allocations (dhat) of a delivery, and peak memory: these repeat from run to run
#   member.sh count 10   the same with a tenth of the casts
#   member.sh            processor time, the best of three; a number as the first word divides the casts
#   member.sh core ..    members without history alone; how their memory grows is told by soak.sh
# It wants rustc, python3, for counts valgrind, and the proved programs: `rt run` in the two crates leaves them in out there.
# PROVED=FOLDER takes those of the crates in that folder, as CLONE/crates.
set -eu
here=$(cd "$(dirname "$0")" && pwd)
work=$(mktemp -d)
trap 'rm -rf "$work"' EXIT
crates="bench_member bench_core"
if [ "${1:-}" = core ]; then
    crates=bench_core
    shift
fi
how=time
if [ "${1:-}" = count ]; then
    how=count
    shift
fi
proved=${PROVED:-$here/../crates}
for crate in $crates; do
    [ -x "$proved/$crate/out/$crate" ] || (cd "$proved/$crate" && rt run -- 3 4 2 12 0 0 > /dev/null)
done
for program in plain fair; do
    rustc --edition 2021 -O -C target-cpu=x86-64-v2 -o "$work/$program" "$here/${program}_member.rs"
done
# help frames come in no run
rustc --edition 2021 --test -o "$work/tests" "$here/fair_member.rs"
"$work/tests" --quiet > "$work/said" || (cat "$work/said" && false)
python3 - "$work" "$proved" "$crates" "$how" "${1:-1}" "$(rustc --version)" "$(rt version)" <<'END'
import concurrent.futures, os, re, subprocess, sys

work, proved, crates, how, divisor, rustc, kit = sys.argv[1:]
window, payload = 64, 32
sizes = {3: 200_000, 8: 96_000, 16: 48_000, 64: 12_800}
# one frame in so many is lost, one comes early, and so many messages are cast at once
ways = {"in order": (0, 0, 1), "losses": (50, 10, 1), "bursts": (0, 0, 8)}
programs = ["plain", "fair", "proved"]
rows = [(crate, size, way) for crate in crates.split() for size in sizes for way in ways]


def command_of(program, row, divisor):
    crate, size, way = row
    words = [str(word) for word in [size, window, payload, sizes[size] // divisor, *ways[way]]]
    if program == "proved":
        return [f"{proved}/{crate}/out/{crate}", *words]
    return [f"{work}/{program}", *words, *(["core"] if crate == "bench_core" else [])]


def under(tool, command):
    done = subprocess.run(["valgrind", *tool, *command], capture_output=True, text=True)
    if done.returncode != 0:
        sys.exit(f"{' '.join(command)} ended with {done.returncode}: {done.stderr}")
    return done


def counted(command):
    """What it prints, its instructions, its allocations, and the most bytes that it had allocated at once."""
    calls = under(["--tool=callgrind", "--callgrind-out-file=/dev/null"], command)
    memory = under(["--tool=dhat", "--dhat-out-file=/dev/null"], command).stderr
    instructions = int(re.search(r"Collected : (\d+)", calls.stderr)[1])
    allocations, most = [int(re.search(told, memory)[1].replace(",", "")) for told in (r"Total: .* in ([\d,]+) blocks", r"At t-gmax: ([\d,]+) bytes")]
    return calls.stdout, instructions, allocations, most


def run(command):
    """What it prints, its processor time in seconds and its peak of memory in bytes."""
    process = subprocess.Popen(command, stdout=subprocess.PIPE)
    printed = process.stdout.read().decode()
    _, status, usage = os.wait4(process.pid, 0)
    process.returncode = os.waitstatus_to_exitcode(status)
    if process.returncode != 0:
        sys.exit(f"{' '.join(command)} ended with {process.returncode}")
    return printed, usage.ru_utime + usage.ru_stime, 1024 * usage.ru_maxrss


def deliveries_of(row, said):
    """How many deliveries all programs print, with the same digest."""
    if len(set(said)) != 1:
        sys.exit(f"{row}: {dict(zip(programs, said))}")
    return int(said[0].split()[1])


def ratios(plain, fair, proved):
    return f"{proved / plain:7.2f}{proved / fair:6.2f}"


def print_head(row, titles):
    """How each is built, in front of the first row, and titles in front of the rows of each crate."""
    if row == rows[0]:
        print("program  built by")
        for program in programs:
            print(f"{program:8} {f'{kit}, for x86-64-v2' if program == 'proved' else f'{rustc}, -O -C target-cpu=x86-64-v2'}")
    if row[1:] == rows[0][1:]:
        print(f"\n{titles}")


def begin(row):
    crate, size, way = row
    return f"{'with' if crate == 'bench_member' else 'none':7} {size:4} {way:8}"


def cells(counts, form):
    return "".join(format(count, form) for count in counts)


def count(row, runs):
    # Instructions, allocations and what is allocated are of a tenth of the casts: valgrind is slow. The peak of a process is of all of
    # them, since the system counts for a short run what this program had; without histories it is no more than that at any time.
    said, instructions, allocations, most = zip(*runs)
    deliveries = deliveries_of(row, said)
    memory, title = [bytes / 1024 for bytes in most], "KB allocated at once"
    if row[0] == "bench_member":
        said, _, peaks = zip(*(run(command_of(program, row, divisor)) for program in programs))
        memory, title = [peak / deliveries_of(row, said) for peak in peaks], "peak bytes a delivery"
    names = "  plain   fair proved"
    print_head(row, f"{'':21}{'instructions a delivery':36}{'allocations a delivery':24}{title}\n"
        f"history size way     {names} /plain /fair  {names}   {names}")
    print(begin(row), cells([it / deliveries for it in instructions], "7.0f"), ratios(*instructions), "  ",
        cells([it / deliveries for it in allocations], "7.2f"), "   ", cells(memory, "7.0f"), sep="", flush=True)


def print_counts():
    with concurrent.futures.ThreadPoolExecutor(os.cpu_count()) as pool:
        runs = {row: [pool.submit(counted, command_of(program, row, 10 * divisor)) for program in programs] for row in rows}
        for row in rows:
            count(row, [it.result() for it in runs[row]])


def print_times():
    for row in rows:
        turns = [[run(command_of(program, row, divisor)) for program in programs] for _ in range(3)]
        deliveries = deliveries_of(row, [said for said, _, _ in turns[0]])
        times = [1e9 * min(time for _, time, _ in runs) / deliveries for runs in zip(*turns)]
        print_head(row, f"{'':21}ns of a processor a delivery\nhistory size way       plain   fair proved /plain /fair")
        print(begin(row), cells(times, "7.0f"), ratios(*times), sep="", flush=True)


divisor = int(divisor)
print_counts() if how == "count" else print_times()
END
