#!/usr/bin/env python3
"""turns.py [SECONDS]: casts a second of two members with journals on the disk here, call by call and by turns of 16 casts.

Each waits for the disk before it sends: call by call once for each call, by turns (`Journal.turn`) once for all calls of a turn.
"""
import os
import pathlib
import sys
import tempfile
import time

sys.path.insert(0, str(pathlib.Path(__file__).resolve().parent.parent / "bindings/python"))
from jolunza import Call, Journal, Output, Settings

MANY = 16
PAYLOAD = b"a" * 32


def frames_of(outputs):
    return [frame.bytes for output in outputs if isinstance(output, Output) for frame in output.frames]


def call_by_call(journal, received):
    outputs = [journal.receive(frame) for frame in received]
    outputs += [journal.cast(PAYLOAD) for _ in range(MANY)]
    return frames_of([*outputs, journal.tick()])


def by_turns(journal, received):
    return frames_of(journal.turn([*map(Call.receive, received), *[Call.cast(PAYLOAD)] * MANY, Call.tick()]))


def casts_a_second(turn, seconds):
    with tempfile.TemporaryDirectory(dir=os.getcwd()) as folder:
        journals = [Journal(f"{folder}/{me}", Settings(7, 2, 64, me)) for me in range(2)]
        sent, began, casts = [[], []], time.monotonic(), 0
        while time.monotonic() - began < seconds:
            for me in range(2):
                sent[me] = turn(journals[me], sent[1 - me])
                casts += MANY
        took = time.monotonic() - began
        if sum(journals[0].time()) < casts - MANY:
            sys.exit("a cast was refused or lost")
        for journal in journals:
            journal.close()
    return casts / took


def main():
    seconds = float(sys.argv[1]) if len(sys.argv) > 1 else 5
    for name, turn in (("call by call", call_by_call), ("by turns of 16 casts", by_turns)):
        print(f"{name}: {casts_a_second(turn, seconds):,.0f} casts a second")


main()
