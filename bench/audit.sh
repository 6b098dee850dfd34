#!/usr/bin/env bash
# Measures `confer audit` on traces of 8 members: processor time and peak memory by the number of entries. In each trace the members cast in turn, and all
# others take what one cast before the next one casts. Times are the best of three. Prints for each trace how many lines the script has, so that a no shows.
# It wants python3 and the proved program: `rt run` in crates/confer leaves it in crates/confer/out.
set -eu
here=$(cd "$(dirname "$0")" && pwd)
confer=$here/../crates/confer/out/confer
[ -x "$confer" ] || (cd "$here/../crates/confer" && rt run -- expand --group 7 --size 3 < stdin > /dev/null)
python3 - "$confer" <<'END_OF_PROGRAM'
import os, subprocess, sys, tempfile

SIZE, WINDOW = 8, 64


def number(n):
    """Seven bits a byte, the low ones first."""
    spelled = b""
    while n >= 128:
        spelled += bytes([n % 128 + 128])
        n //= 128
    return spelled + bytes([n])


def cast_frame(sender, time, told):
    """The cast frame of a message with this time, whose sender's last one had the time that was told."""
    grown = [k for k in range(SIZE) if k != sender and time[k] > told[k]]
    frame = b"\x11" + number(7) + number(sender) + number(time[sender]) + number(len(grown))
    last = -1
    for k in grown:
        frame += number(k - last - 1) + number(time[k] - told[k])
        last = k
    return (frame + number(2) + b"hi").hex()


def trace(entries):
    time, told, lines = [0] * SIZE, [[0] * SIZE for _ in range(SIZE)], [[] for _ in range(SIZE)]
    for turn in range(entries // SIZE):
        sender = turn % SIZE
        time[sender] += 1
        frame = cast_frame(sender, time, told[sender])
        told[sender] = list(time)
        for j in range(SIZE):
            lines[j].append(f"cast {frame}" if j == sender else f"arrive {frame} {sender}.{time[sender]}")
    text = [f"cbcast 1 group 7 size {SIZE} window {WINDOW}"]
    for j in range(SIZE):
        text += [f"member {j} entries {len(lines[j])}", *lines[j]]
    return "\n".join(text + ["end", ""])


print("entries   processor s   us for an entry   peak MB   lines of the script")
for entries in (6_240, 12_480, 25_000, 50_000, 100_000):
    with tempfile.NamedTemporaryFile("w+") as file:
        file.write(trace(entries))
        file.flush()
        best = None
        for _ in range(3):
            process = subprocess.Popen([sys.argv[1], "audit"], stdin=open(file.name), stdout=subprocess.PIPE)
            lines = process.stdout.read().count(b"\n")
            _, status, usage = os.wait4(process.pid, 0)
            process.returncode = os.waitstatus_to_exitcode(status)
            if process.returncode != 0:
                sys.exit(f"{entries} entries: status {process.returncode}")
            spent = usage.ru_utime + usage.ru_stime
            best = (spent, usage.ru_maxrss / 1000) if best is None else min(best, (spent, usage.ru_maxrss / 1000))
        print(f"{entries:7} {best[0]:13.2f} {1e6 * best[0] / entries:17.1f} {best[1]:9.0f} {lines:21}", flush=True)
END_OF_PROGRAM
