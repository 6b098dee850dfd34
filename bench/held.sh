#!/usr/bin/env bash
# Counts the instructions (callgrind) of deliveries at a member of a group of 64 while messages wait: of the proved member
# (`crates/bench`, held), and of a queue in plain Rust that looks at all that it holds. What is told is the difference between 200
# deliveries and 100, for one cast and its arrival where each is delivered alone, and for two where the later one comes first, so that
# the other lets it go; these are taken by `receive`, and by `arrive`, and the last row says how many times as much `arrive` costs.
# Then the most memory that the proved program has at once (dhat, bytes), for 200 deliveries where most wait: with fewer it is that of
# making the casts, where it has two members.
# It wants rustc, python3, valgrind, and the program of `crates/bench`: bench/trial.py leaves it in bench/out, unproved. PROVED=FILE measures another build.
set -eu
here=$(cd "$(dirname "$0")" && pwd)
work=$(mktemp -d)
trap 'rm -rf "$work"' EXIT
proved=${PROVED:-$here/out/held}
[ -x "$proved" ] || { mkdir -p "$here/out" && "$here/trial.py" bench "$proved" held; }
rustc --edition 2021 -O -C target-cpu=x86-64-v2 -o "$work/plain" "$here/plain_held.rs"
python3 - "$proved" "$work/plain" <<'END'
import concurrent.futures, os, re, subprocess, sys

proved, plain = sys.argv[1:3]
held = [1, 10, 100, 1_000, 4_000, 15_616]
# its name, the program and its first word, its last words, and how many deliveries are told together
rows = [
    ("alone", [proved, "held"], ["alone"], 1),
    ("two, receive", [proved, "held"], ["receive"], 2),
    ("two, arrive", [proved, "held"], ["arrive"], 2),
    ("looks at all", [plain], [], 1),
]


def told(tool, row, waiting, deliveries):
    """What valgrind says of a run that prints what it should."""
    name, program, words, _ = row
    command = ["valgrind", *tool, *program, str(waiting), str(deliveries), *words]
    done = subprocess.run(command, capture_output=True, text=True)
    if done.returncode != 0 or done.stdout != f"held {waiting} delivered {deliveries}\n":
        sys.exit(f"{name}, {waiting}: {done.stdout}{done.stderr}")
    return done.stderr


def instructions(row, waiting):
    callgrind = ["--tool=callgrind", "--callgrind-out-file=/dev/null"]
    fewer, more = [int(re.search(r"Collected : (\d+)", told(callgrind, row, waiting, deliveries))[1]) for deliveries in [100, 200]]
    return (more - fewer) / 100 * row[3]


def peak(row, waiting):
    said = told(["--tool=dhat", "--dhat-out-file=/dev/null"], row, waiting, 200)
    return int(re.search(r"At t-gmax: ([\d,]+) bytes", said)[1].replace(",", ""))


def table(pool, what, measure, rows, held):
    runs = {row[0]: [pool.submit(measure, row, waiting) for waiting in held] for row in rows}
    print(f"{what:18}" + "".join(f"{waiting:12}" for waiting in held))
    found = {}
    for name, cells in runs.items():
        found[name] = [cell.result() for cell in cells]
        print(f"{name:18}" + "".join(f"{cell:12.0f}" for cell in found[name]), flush=True)
    return found


with concurrent.futures.ThreadPoolExecutor(os.cpu_count()) as pool:
    found = table(pool, "instructions", instructions, rows, held)
    pairs = zip(found["two, arrive"], found["two, receive"])
    print(f"{'arrive to receive':18}" + "".join(f"{arrive / receive:12.2f}" for arrive, receive in pairs))
    table(pool, "most memory, bytes", peak, rows[:3], held[-1:])
END
