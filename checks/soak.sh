#!/usr/bin/env bash
# Soaks groups of 3 and of 8 members in threads (`crates/bench`, soak), over channels, UDP and TCP: of a hundred frames that come to a member ten
# are lost, five come once more and ten are held back by up to 100 milliseconds, and 1 to 50 milliseconds lie between two ticks. All is drawn by a
# fixed generator; what the threads make of it is not fixed. Messages go in bursts.
#   checks/soak.sh [MINUTES]
# It goes on for so many minutes, 60 where none are said, and at least 10,000,000 deliveries must be made in an hour, in runs of at most 500,000;
# in fewer minutes as many less. Behind each run all must be cast and delivered, the audit of the histories must say yes, and no thread and no
# descriptor may be left. The most memory that the process had until the audit must be what docs/RATTLE.md says of a group in threads, to 10 % up
# or down; memory are the anonymous pages. Behind each third run comes one whose histories get full: it ends when its turns are used up, its
# talkers were shown nothing that is not in a history, and its audit says yes. At the end it says what each kind of group did in all.
# It wants python3 and the proved program: `rt run` in crates/bench leaves it in crates/bench/out. SOAKED=FILE takes another build.
set -eu
top=$(cd "$(dirname "$0")/.." && pwd)
soaked=${SOAKED:-$top/crates/bench/out/bench}
[ -x "$soaked" ] || (cd "$top/crates/bench" && rt run -- soak 3 4 5 20 channel 4 1 100000 1000000 < /dev/null > /dev/null)
exec python3 - "$soaked" "${1:-60}" <<'END_OF_PYTHON'
import os, re, select, subprocess, sys, time

program, minutes = sys.argv[1], float(sys.argv[2])
aim = int(10_000_000 * minutes / 60)
# deliveries of a run
fewest, most = 60_000, 500_000
kinds = [(size, link) for size in (3, 8) for link in ("channel", "udp", "tcp")]
window, payload, burst = 256, 32, 8
longest_history, every_turn = 16_777_216, 4_294_967_295
# what a full run has: a history of so many entries, so many turns
few_entries, few_turns = 200, 1_000
# a run that takes longer hangs
longest_run = 1_200
# what docs/GUIDE.md says under "Memory", and docs/RATTLE.md of a group in threads, in bytes: a message among the events, an entry, its
# receipt, what a frame takes beside its bytes, a name of what was delivered, and a place in a window and in a list of casts that wait for
# others
an_event, an_entry, a_receipt, around_a_frame, a_name, a_place, a_waiting = 104, 80, 88, 72, 8, 280, 48
leeway = 0.1
has_failed = False


def fails(text):
    global has_failed
    has_failed = True
    print(f"  FAILS: {text}", flush=True)


def memory_of(pid):
    """What the process has in anonymous pages, in bytes."""
    with open(f"/proc/{pid}/status") as status:
        found = re.search(r"RssAnon:\s*(\d+) kB", status.read())
    return int(found[1]) * 1024 if found else 0


def left_by(pid):
    """The threads and descriptors of the process but for its first thread and its three streams."""
    for _look in range(100):
        threads, descriptors = len(os.listdir(f"/proc/{pid}/task")) - 1, len(os.listdir(f"/proc/{pid}/fd")) - 3
        if threads == 0 and descriptors == 0:
            break
        time.sleep(0.01)
    return threads, descriptors


def soak(size, link, seed, casts, window=window, history_max=longest_history, turns=every_turn):
    """What the program counted, with its peak memory, what it left and whether the audit says yes; nothing where it failed."""
    words = [str(word) for word in ("soak", size, window, payload, casts, link, burst, seed, history_max, turns, "all")]
    began = time.monotonic()
    process = subprocess.Popen([program, *words], stdin=subprocess.PIPE, stdout=subprocess.PIPE)
    peak = 0
    while not select.select([process.stdout], [], [], 0.002)[0]:
        peak = max(peak, memory_of(process.pid))
        if time.monotonic() - began > longest_run:
            process.kill()
            process.wait()
            fails(f"{' '.join(words)} hangs")
            return None
    counted = process.stdout.readline().decode().split()
    if counted:
        left = left_by(process.pid)
    ran = time.monotonic() - began
    said, _none = process.communicate(b"\n")
    if process.returncode not in (0, 1) or not counted:
        fails(f"{' '.join(words)} ended with {process.returncode}")
        return None
    counts = {name: int(value) for name, value in zip(counted[::2], counted[1::2])}
    return counts | {"peak": peak, "left": left, "yes": said.startswith(b"audit yes"), "seconds": ran}


def due_memory(size, link, counts):
    """The bytes that a group in threads takes until it ends, beside those with which it began."""
    events = an_event * (counts["casts"] + counts["deliveries"])
    entries = (an_entry + a_receipt) * counts["entries"] + 2 * a_name * counts["names"]
    frames = around_a_frame * counts["frames"] + counts["made"]
    if link != "channel":
        # over channels members share the bytes of a frame, else each has what came to it
        frames += counts["came"]
    if link == "tcp":
        # over UDP what comes lies in blocks
        frames += around_a_frame * (counts["entries"] - counts["frames"])
    of_bursts = payload * counts["casts"]
    windows = size * window * (size * a_place + a_waiting) + size * (size - 1) * window * a_waiting
    return events + entries + frames + of_bursts + windows


def judge(counts):
    """What each run must have."""
    if not counts["yes"]:
        fails("the audit says no")
    if counts["left"] != (0, 0):
        fails(f"threads and descriptors left over: {counts['left']}")
    if counts["faults"] or counts["failures"]:
        fails(f"{counts['faults']} workers did not run, links failed {counts['failures']} times")


def say(size, link, counts, rest):
    part = f"{counts['deliveries']:9} {counts['entries']:9} {counts['refused']:8} {counts['peak'] / 2**20:7.1f}"
    print(f"{size:4}  {link:8} {part}  {rest}  {counts['seconds']:7.1f}", flush=True)


def soak_whole(size, link, deliveries, seed):
    """A run that ends when all is delivered: what was counted, with the memory that is due."""
    casts = max(deliveries // (size * (size - 1)), 1)
    begun = soak(size, link, seed, 1, window=burst)
    counts = soak(size, link, seed, casts)
    if not begun or not counts:
        return None
    due = begun["peak"] + due_memory(size, link, counts)
    say(size, link, counts, f"{due / 2**20:7.1f}  all ")
    judge(counts)
    if (counts["casts"], counts["deliveries"]) != (size * casts, size * (size - 1) * casts):
        fails(f"cast {counts['casts']}, delivered {counts['deliveries']}, of {casts} a member")
    if counts["full"]:
        fails("a history is full")
    if not (1 - leeway) * due <= counts["peak"] <= (1 + leeway) * due:
        fails(f"{counts['peak']} bytes of memory, where {due} are due")
    return counts | {"due": due}


def soak_full(size, link, seed):
    """A run whose histories get full."""
    counts = soak(size, link, seed, 1_000_000, history_max=few_entries, turns=few_turns)
    if not counts:
        return
    say(size, link, counts, f"         full {counts['full']}")
    # an inlet whose turns are used up is closed, and over channels what is sent there fails
    judge(counts | {"failures": 0})
    if counts["full"] == 0 or counts["refused"] == 0:
        fails(f"{counts['full']} histories are full, {counts['refused']} arrivals were refused")
    if counts["entries"] > size * few_entries or counts["shown"] > counts["casts"] + counts["deliveries"]:
        fails(f"{counts['entries']} entries, and {counts['shown']} messages were shown")


def say_all(size, link, runs):
    """What the runs of a kind did, with the least and the greatest part of the memory that was due."""
    deliveries, entries, refused = (sum(run[name] for run in runs) for name in ("deliveries", "entries", "refused"))
    parts = [run["peak"] / run["due"] for run in runs]
    last = f"{runs[-1]['peak'] / 2**20:.1f} MiB of {runs[-1]['due'] / 2**20:.1f}"
    seconds = sum(run["seconds"] for run in runs)
    print(
        f"{size} over {link}: {len(runs)} runs, {deliveries} deliveries, {entries} entries, {refused} refused, "
        f"memory {min(parts):.3f} to {max(parts):.3f} of what is due, in the last run {last}, {seconds:.0f} seconds"
    )


print("size  link     deliveries   entries  refused  memory      due       seconds")
began, runs, whole = time.monotonic(), 0, {}
while time.monotonic() - began < 60 * minutes:
    size, link = kinds[runs % len(kinds)]
    counts = soak_whole(size, link, min(most, max(aim // 12, fewest)), runs + 1)
    if counts:
        whole.setdefault((size, link), []).append(counts)
    runs += 1
    if runs % 3 == 0:
        soak_full(*kinds[runs // 3 % len(kinds)], runs + 1_000)
for (size, link), done in whole.items():
    say_all(size, link, done)
total = sum(counts["deliveries"] for done in whole.values() for counts in done)
print(f"{total} deliveries in {runs} runs and {(time.monotonic() - began) / 60:.1f} minutes")
if total < aim:
    fails(f"{aim} were to be made")
sys.exit(has_failed)
END_OF_PYTHON
