#!/usr/bin/env bash
# Counts the instructions of a delivery (callgrind) in one run of a whole group in one thread, nothing lost, payloads of 32 bytes: by the
# plain Rust program, by calls in Rattle (crates/bench_member), and through the library from C and from plain Rust, where frames and
# events are copied to the caller, and what a member takes in its turn is copied in and received at once. "More" is more than by calls in Rattle. All
# four must print the same deliveries and digest. Each count is the difference of a run and one of twice the casts, so that what a program
# does once is not in it.
# It wants gcc, rustc, valgrind and python3, the library (bindings/build.sh), and the proved program: `rt run` in crates/bench_member
# leaves it in crates/bench_member/out. PROVED=FILE and LIBRARY=FOLDER measure other builds.
set -eu
here=$(cd "$(dirname "$0")" && pwd)
work=$(mktemp -d)
trap 'rm -rf "$work"' EXIT
proved=${PROVED:-$here/../crates/bench_member/out/bench_member}
library=${LIBRARY:-$here/../bindings/out}
[ -x "$proved" ] || (cd "$here/../crates/bench_member" && rt run -- 3 4 2 12 0 0 > /dev/null)
[ -e "$library/libjolunza.a" ] || "$here/../bindings/build.sh" > /dev/null
rustc --edition 2021 -O -C target-cpu=x86-64-v2 -o "$work/plain" "$here/plain_member.rs"
gcc -std=c11 -O2 -o "$work/c" "$here/bindings.c" "$library/libjolunza.a"
rustc --edition 2021 -O -C target-cpu=x86-64-v2 --crate-name jolunza --crate-type rlib -L native="$library" -l static=jolunza \
    -o "$work/libjolunza.rlib" "$here/../bindings/rust/src/lib.rs"
rustc --edition 2021 -O -C target-cpu=x86-64-v2 --extern jolunza="$work/libjolunza.rlib" -o "$work/rust" "$here/bindings.rs"
python3 - "$work" "$proved" <<'END'
import concurrent.futures, re, subprocess, sys

work, proved = sys.argv[1:]
programs = {"plain": f"{work}/plain", "Rattle": proved, "C": f"{work}/c", "Rust": f"{work}/rust"}
casts = {3: 5_000, 16: 1_200}


def counted(program, size, casts):
    """What it prints, and its instructions."""
    more = [] if program in ("C", "Rust") else ["0", "0"]
    words = [programs[program], *map(str, [size, 64, 32, casts]), *more]
    done = subprocess.run(["valgrind", "--tool=callgrind", "--callgrind-out-file=/dev/null", *words], capture_output=True, text=True)
    if done.returncode != 0:
        sys.exit(f"{' '.join(words)} ended with {done.returncode}: {done.stderr}")
    return done.stdout, int(re.search(r"Collected : (\d+)", done.stderr)[1])


def of_a_delivery(once, twice):
    deliveries = [int(said.split()[1]) for said, _ in (once, twice)]
    return (twice[1] - once[1]) / (deliveries[1] - deliveries[0])


with concurrent.futures.ThreadPoolExecutor(2) as pool:
    found = {
        (size, program): [pool.submit(counted, program, size, times * casts[size]) for times in (1, 2)] for size in casts for program in programs
    }
print("size   plain  Rattle       C    more    Rust    more")
for size in casts:
    runs = {program: [it.result() for it in found[size, program]] for program in programs}
    for program, printed in runs.items():
        if [said for said, _ in printed] != [said for said, _ in runs["plain"]]:
            sys.exit(f"{program} of {size} prints {printed}, and the plain program {runs['plain']}")
    plain, rattle, c, rust = (of_a_delivery(*runs[program]) for program in programs)
    print(f"{size:4} {plain:7.0f} {rattle:7.0f} {c:7.0f} {c - rattle:7.0f} {rust:7.0f} {rust - rattle:7.0f}")
END
