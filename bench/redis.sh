#!/usr/bin/env bash
# Measures a proved group in threads (`crates/bench`, group) over UDP, of 8 members that cast bursts of 8, window 32, payloads of 32 bytes, against
# a redis server (Debian's package redis-server, on a free port, without a file) that hands the same messages on by pub/sub to plain clients
# (`redis_clients.rs`). Both run on two processors, in turn; printed are the processor time for each delivery of seven runs of each, that of the
# server and of its clients together, and the medians with their ratio. Where the machine does something else the numbers mean little.
#   redis.sh        some 200,000 deliveries a run
#   redis.sh 10     a tenth of them
# PROVED=FILE measures another build, WINDOW=N with another window. It wants rustc, python3, redis-server and the program of group.sh.
set -eu
here=$(cd "$(dirname "$0")" && pwd)
work=$(mktemp -d)
trap 'rm -rf "$work"' EXIT
proved=${PROVED:-$here/out/group}
[ -x "$proved" ] || { mkdir -p "$here/out" && "$here/trial.py" bench "$proved" group; }
command -v redis-server > /dev/null || { echo "redis.sh: there is no redis-server here" >&2; exit 1; }
rustc --edition 2021 -O -C target-cpu=x86-64-v2 -o "$work/clients" "$here/redis_clients.rs"
python3 - "$proved" "$work" "${1:-1}" "${WINDOW:-32}" <<'END'
import glob, os, socket, statistics, subprocess, sys, time

proved, work, divisor, window = sys.argv[1], sys.argv[2], int(sys.argv[3]), sys.argv[4]
SIZE, PAYLOAD, CASTS, BURST, RUNS = 8, 32, 3_600 // divisor, 8, 7
DELIVERIES = SIZE * (SIZE - 1) * CASTS
BOTH = ["taskset", "-c", "0,1"] if os.cpu_count() > 2 else []


def spent_by(pid):
    """The processor time of all threads of a process that runs, in seconds."""
    return sum(int(open(path).read().split()[0]) for path in glob.glob(f"/proc/{pid}/task/*/schedstat")) / 1e9


def run(command):
    """The processor time of a program that tells of as many deliveries as are due, in seconds."""
    process = subprocess.Popen([*BOTH, *command], stdout=subprocess.PIPE, text=True)
    printed = process.stdout.read().split()
    _, status, usage = os.wait4(process.pid, 0)
    process.returncode = os.waitstatus_to_exitcode(status)
    if process.returncode != 0 or int(printed[1]) != DELIVERIES:
        sys.exit(f"{' '.join(command)} ended with {process.returncode} and {printed}, where {DELIVERIES} deliveries are due")
    return usage.ru_utime + usage.ru_stime


def free_port():
    with socket.socket() as listener:
        listener.bind(("127.0.0.1", 0))
        return str(listener.getsockname()[1])


def answers(port):
    try:
        with socket.create_connection(("127.0.0.1", int(port))) as stream:
            stream.sendall(b"PING\r\n")
            return stream.recv(7) == b"+PONG\r\n"
    except OSError:
        return False


port = free_port()
server = subprocess.Popen([*BOTH, "redis-server", "--port", port, "--bind", "127.0.0.1", "--save", "", "--appendonly", "no", "--dir", work], stdout=subprocess.DEVNULL)
try:
    deadline = time.monotonic() + 20
    while not answers(port):
        if server.poll() is not None or time.monotonic() > deadline:
            sys.exit("redis.sh: the server does not answer")
        time.sleep(0.05)
    numbers = [str(SIZE), str(PAYLOAD), str(CASTS), str(BURST)]
    theirs, ours = [], []
    for _ in range(RUNS):
        before = spent_by(server.pid)
        clients = run([f"{work}/clients", port, *numbers])
        theirs.append(1e6 * (clients + spent_by(server.pid) - before) / DELIVERIES)
        ours.append(1e6 * run([proved, "group", str(SIZE), window, str(PAYLOAD), str(CASTS), "udp", str(BURST)]) / DELIVERIES)
finally:
    server.terminate()
    server.wait()
print(f"{SIZE} members, bursts of {BURST}, window {window} over UDP: processor us for a delivery, {DELIVERIES} deliveries a run")
for name, runs in [("redis", theirs), ("proved", ours)]:
    print(f"{name:8}" + "".join(f"{run:7.2f}" for run in sorted(runs)) + f"   median {statistics.median(runs):.2f}")
print(f"ratio {statistics.median(ours) / statistics.median(theirs):.2f}")
END
