#!/usr/bin/env bash
# Counts the instructions (callgrind) with which a `FrameReader` reads a byte of a stream of small frames (`crates/bench`, stream), at
# 100 KB and at 1 MB, in pieces of 1 byte, of 13, which end within most frames, and of 4,096. What is told is the difference to the same
# program that makes the stream and reads none of it; how many times as much it is at 1 MB as at 100 KB; and, at 1 MB, how many times as
# much as in pieces of 4,096.
# It wants python3, valgrind, and the program of `crates/bench`: bench/trial.py leaves it in bench/out, unproved. PROVED=FILE measures another build.
set -eu
here=$(cd "$(dirname "$0")" && pwd)
proved=${PROVED:-$here/out/stream}
[ -x "$proved" ] || { mkdir -p "$here/out" && "$here/trial.py" bench "$proved" stream; }
python3 - "$proved" <<'END'
import concurrent.futures, os, re, subprocess, sys

program = sys.argv[1]
frame = 20
lengths = [100_000, 1_000_000]
pieces = [1, 13, 4_096]


def counted(length, piece):
    words = [program, "stream", str(length), str(piece)]
    read = length if piece else 0
    done = subprocess.run(["valgrind", "--tool=callgrind", "--callgrind-out-file=/dev/null", *words], capture_output=True, text=True)
    if done.returncode != 0 or done.stdout != f"bytes {read} frames {read // frame}\n":
        sys.exit(f"{' '.join(words)}: {done.stdout}{done.stderr}")
    return int(re.search(r"Collected : (\d+)", done.stderr)[1])


with concurrent.futures.ThreadPoolExecutor(os.cpu_count()) as pool:
    runs = {(length, piece): pool.submit(counted, length, piece) for length in lengths for piece in [0, *pieces]}
cost = {(length, piece): (runs[length, piece].result() - runs[length, 0].result()) / length for length in lengths for piece in pieces}
print("instructions of a byte")
print("pieces   100 KB     1 MB  growth  to 4,096")
for piece in pieces:
    short, long = [cost[length, piece] for length in lengths]
    print(f"{piece:6,} {short:8.1f} {long:8.1f} {long / short:7.3f} {long / cost[lengths[-1], pieces[-1]]:9.1f}")
END
