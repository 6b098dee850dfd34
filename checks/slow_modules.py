#!/usr/bin/env python3
"""Prints the modules of a crate's proofs that took longest in its last check: seconds and name, the slowest first. A check keeps a file
for each module as it is done, so the time between two files is what the later one took. No part of the gate.

    cd crates/NAME && rm -rf out && rt check --test --jobs 1 && ../../checks/slow_modules.py
    checks/slow_modules.py MINUTES      only what was checked in the last MINUTES, where out/ was kept

NAME.Lts is the borrow checker's part of a function. It grows with the exits of the function (`?`, asserts) times the values with a
destructor that live there, and much faster than its length: a table and one small function that reads it cost far less.
"""
import os
import pathlib
import sys
import time


def main():
    since = time.time() - 60 * float(sys.argv[1]) if len(sys.argv) > 1 else 0
    kept = pathlib.Path("out/incremental")
    done = sorted((it.stat().st_mtime_ns / 1e9, it.name) for it in kept.rglob("*") if it.is_file())
    done = [it for it in done if it[0] >= since]
    took = [(later - before, name) for (before, _), (later, name) in zip(done, done[1:])]
    for seconds, name in sorted(took, reverse=True)[:20]:
        print(f"{seconds:6.1f} {name.removeprefix('Rattle-').removesuffix('.oantt')}")


if __name__ == "__main__":
    sys.exit(main())
