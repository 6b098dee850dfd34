#!/usr/bin/env python3
"""Runs the gate on a fresh clone of the last commit and prints what it costs: for each crate the processor seconds of its check, of its
tests and of its mutants, and their sum. No part of the gate; let nothing else run beside it.

    checks/gate_times.py            all crates, with nothing kept, and the longest chain
    checks/gate_times.py NAME..     these crates and those below them, as far as nothing is kept of them on this machine
    checks/gate_times.py --rest     all crates, as far as nothing is kept of them on this machine
    checks/gate_times.py --fill     with any of these: writes the table into docs/CONTRIBUTING.md, between the two marks

A commit may be measured in several sittings: what one of them measures joins the table of the commit, which is kept in /var/tmp. A crate
that no sitting has measured yet has no numbers in it, and such a table is not written into the page.
"""
import collections
import json
import os
import re
import subprocess
import sys
import tempfile
import time

TOP = os.path.dirname(os.path.dirname(os.path.abspath(__file__)))
MARK = f"GATE_TIMES={os.getpid()}"
TICKS = os.sysconf("SC_CLK_TCK")
KINDS = ("check", "tests", "mutants")
KEPT = "/var/tmp/jolunza-gate-times"


def gate_of(names, is_rest):
    """The gate's command. Where all is measured, a kit that keeps what an earlier run proved is made to prove it anew."""
    asked = subprocess.run(["rt", "help"], capture_output=True, text=True)
    keeps = "--anew" in asked.stdout + asked.stderr
    return ["rt", "ci", *names] if names or is_rest or not keeps else ["rt", "ci", "--anew"]


def work_of(pid):
    """Which crate a process of the gate works for, and on what; None for all other processes."""
    with open(f"/proc/{pid}/environ", errors="replace") as it:
        if MARK not in it.read().split("\0"):
            return None
    with open(f"/proc/{pid}/cmdline", errors="replace") as it:
        words = it.read().split("\0")
    if "--crate-name" not in words:
        return None
    crate = words[words.index("--crate-name") + 1]
    if "/rt-edit-" in os.readlink(f"/proc/{pid}/cwd"):
        return crate, "mutants"
    return crate, "tests" if "--test" in words else "check"


def look(seconds, spans):
    """Notes what each process has used so far, and from when to when each kind of work was seen."""
    for pid in filter(str.isdigit, os.listdir("/proc")):
        try:
            work = work_of(pid)
            if work is None:
                continue
            with open(f"/proc/{pid}/stat") as it:
                fields = it.read().rpartition(")")[2].split()
        except OSError:
            continue
        seconds[work, pid, fields[19]] = (int(fields[11]) + int(fields[12])) / TICKS
        first, _ = spans.get(work, (time.time(), 0))
        spans[work] = first, time.time()


def run_gate(command, clone):
    """Runs the gate there, and returns its last line, its minutes, and what was seen of its processes."""
    seconds, spans, begun = {}, {}, time.time()
    name, _, value = MARK.partition("=")
    with tempfile.TemporaryFile("w+") as said:
        gate = subprocess.Popen(command, cwd=clone, stdout=said, stderr=said, env={**os.environ, name: value})
        while gate.poll() is None:
            look(seconds, spans)
            time.sleep(0.3)
        said.seek(0)
        last = said.read().strip().splitlines()[-1]
    return last, (time.time() - begun) / 60, seconds, spans


def crates_of(clone):
    with open(f"{clone}/crates.txt") as it:
        lines = [line.split("#")[0].partition(":") for line in it]
    # of `jolunza staticlib: ..` the name is the first word
    return {name.split()[0]: below.split() for name, colon, below in lines if colon}


def longest_chain(crates, spans):
    """The crate behind which the gate waits longest, and for how many seconds: the checks of all below it, its own check or its
    tests, and its mutants."""

    def span(crate, kind):
        first, last = spans.get((crate, kind), (0, 0))
        return last - first

    checked = {}
    for crate, below in crates.items():
        checked[crate] = max([checked[it] for it in below if it in checked], default=0) + span(crate, "check")

    def ended(crate):
        longer = max(0, span(crate, "tests") - span(crate, "check"))
        return checked[crate] + longer + span(crate, "mutants")

    longest = max(crates, key=ended)
    return longest, ended(longest)


def joined(commit, crates, seconds):
    """The processor seconds of each crate of the commit: those of this sitting, and of the ones before."""
    used = collections.Counter()
    for (work, _, _), spent in seconds.items():
        used[work] += spent
    measured = {crate: [used[crate, kind] for kind in KINDS] for crate in crates if used[crate, "check"]}
    os.makedirs(KEPT, exist_ok=True)
    path = f"{KEPT}/{commit}.json"
    if os.path.exists(path):
        with open(path) as it:
            measured = {**json.load(it), **measured}
    with open(path, "w") as it:
        json.dump(measured, it)
    return measured


def table(crates, measured):
    rows = [[f"`{crate}`", *measured[crate]] for crate in crates if crate in measured]
    rows.append(["all", *(sum(row[at] for row in rows) for at in (1, 2, 3))])
    lines = [f"| Crate | {' | '.join(KINDS)} | sum |", "|---|---|---|---|---|"]
    lines += [f"| {name} | {' | '.join(f'{it:.0f}' for it in spent)} | {sum(spent):.0f} |" for name, *spent in rows]
    lines += [f"| `{crate}` | not measured | | | |" for crate in crates if crate not in measured]
    return "\n".join(lines)


def fill(told):
    page = f"{TOP}/docs/CONTRIBUTING.md"
    with open(page) as it:
        text = it.read()
    between = re.compile(r"(?<=<!-- gate times -->\n).*(?=<!-- end of gate times -->)", re.S)
    with open(page, "w") as it:
        it.write(between.sub(lambda _: told + "\n", text))


def main(words):
    names = [it for it in words if not it.startswith("--")]
    is_all = not names and "--rest" not in words
    with tempfile.TemporaryDirectory(prefix="gate-times-") as room:
        clone = f"{room}/clone"
        subprocess.run(["git", "clone", "-q", TOP, clone], check=True)
        commit, day = subprocess.run(["git", "log", "-1", "--format=%h %cs"], cwd=clone, capture_output=True, text=True, check=True).stdout.split()
        last, minutes, seconds, spans = run_gate(gate_of(names, "--rest" in words), clone)
        crates = crates_of(clone)
    measured = joined(commit, crates, seconds)
    lacking = [crate for crate in crates if crate not in measured]
    spent = sum(sum(it) for it in measured.values()) / 60
    told = f"Commit {commit} of {day}: {spent:.0f} processor minutes on {os.cpu_count()} processors"
    if is_all:
        crate, chain = longest_chain(crates, spans)
        told += f", {minutes:.0f} minutes of time; the longest chain, that of `{crate}`, {chain / 60:.0f} minutes"
    told += f". Processor seconds of each crate:\n\n{table(crates, measured)}"
    print(f"{told}\n\n{last}")
    if "--fill" in words and not lacking:
        fill(told)
    return 0 if re.search(r", 0 failed$|This is not the gate", last) else 1


if __name__ == "__main__":
    sys.exit(main(sys.argv[1:]))
