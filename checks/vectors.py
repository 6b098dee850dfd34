#!/usr/bin/env python3
"""Runs the vectors of docs/PROTOCOL.md and the examples of examples/runs.txt by the program, as the trial build makes it, and compares.

In PROTOCOL a line '`confer expand ..`, alone:' or '.., in order:' is followed by a table: a frame, and what is printed of it, a
line for each message of a burst. A line that begins with '`confer' and has no such form, or no table, is a fault before anything
is run. In runs.txt a line is 'FILE STATUS WORDS ..': FILE is the input, and FILE.out what is printed.
A file of examples/ with an output that runs.txt does not name is such a fault too.
One build for each command line, some two minutes each: checks/vectors.py [PART OF A COMMAND LINE]
checks/vectors.py list prints what would be run, in a second.
"""

import pathlib
import re
import subprocess
import sys
import tempfile

TOP = pathlib.Path(__file__).resolve().parent.parent

# a line that says what is run
MARK = r"`confer .*:"


def rows(lines):
    """The frames and answers of the table that these lines begin with."""
    found = []
    for line in lines:
        if line.startswith("|"):
            frame, printed = (re.findall(r"`([^`]*)`", cell) for cell in line.split("|")[1:3])
            if frame:
                found.append((frame[0].replace(" ", ""), "\n".join(printed)))
        elif line.strip() or found:
            break
    return found


def vectors(text):
    """Command line, input, what is printed of it and the status, for each vector."""
    lines = text.split("\n")
    for place, line in enumerate(lines):
        if not re.fullmatch(MARK, line):
            continue
        marked = re.fullmatch(r"`confer (expand [^`]*)`, (alone|in order):", line)
        table = rows(lines[place + 1 :]) if marked else []
        if not table:
            sys.exit(f"docs/PROTOCOL.md:{place + 1}: no vectors: {line}")
        runs = [table] if marked[2] == "in order" else [[row] for row in table]
        for run in runs:
            given = "".join(frame + "\n" for frame, _ in run)
            printed = "".join(answer + "\n" for _, answer in run)
            yield marked[1], given, printed, int("refused" in printed)


def examples(folder):
    """The same for each example."""
    lines = (folder / "runs.txt").read_text().splitlines()
    listed = [line.split() for line in lines if not line.startswith("#")]
    outputs = {path.name for path in folder.glob("*.out")}
    if outputs != {f"{name}.out" for name, *_ in listed}:
        sys.exit(f"examples/runs.txt: its files and the outputs of examples/ differ: {sorted(outputs)}")
    for name, status, *words in listed:
        yield " ".join(words), (folder / name).read_text(), (folder / f"{name}.out").read_text(), int(status)


def run(command, cases):
    """What does not come as the pages say, of these inputs to one command line."""
    with tempfile.TemporaryDirectory() as folder:
        for place, (given, printed, _) in enumerate(cases):
            pathlib.Path(folder, f"{place:03}").write_text(given)
            pathlib.Path(folder, f"{place:03}.stdout").write_text(printed)
        call = ["rt", "try", "--cases", folder, "--", *command.split()]
        shown = subprocess.run(call, cwd=TOP / "crates/confer", capture_output=True, text=True)
    said = shown.stdout + shown.stderr
    bad = []
    for place, (given, printed, status) in enumerate(cases):
        line = re.search(rf"^case={place:03} .*$", said, re.M)
        wanted = f"run=ended status={status} "
        if not line or wanted not in line[0] or "output=expected" not in line[0]:
            bad.append(f"{command}\n{given}is to print, with status {status},\n{printed}{line and line[0]}")
    return bad if len(bad) < len(cases) else bad + [said[-2000:]]


def main():
    part = sys.argv[1] if len(sys.argv) > 1 else ""
    wanted = {}
    for command, given, printed, status in [*vectors((TOP / "docs/PROTOCOL.md").read_text()), *examples(TOP / "examples")]:
        if part == "list" or part in command:
            wanted.setdefault(command, []).append((given, printed, status))
    if part == "list":
        for command, cases in wanted.items():
            print(f"confer {command}: {len(cases)} runs")
        return
    bad = []
    for command, cases in wanted.items():
        bad += run(command, cases)
        print(f"confer {command}: {len(cases)} runs", flush=True)
    print("\n".join(bad))
    sys.exit(1 if bad or not wanted else 0)


main()
