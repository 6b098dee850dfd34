#!/usr/bin/env python3
"""What the library is made of, as one sum: sources.py prints the kit's line and a sha256 over the sorted paths and bytes of src/, specs/ and
proofs/ of `jolunza` and of each crate below it, their lines of crates.txt, and build.sh. The kit's line is a part of the sum.

    sources.py                  prints it
    sources.py --compare FILE   compares it with FILE, which an earlier run printed; status 1 where they differ
"""
import hashlib
import os
import subprocess
import sys

TOP = os.path.dirname(os.path.dirname(os.path.abspath(__file__)))


def crates():
    """The lines of crates.txt by their crates' names."""
    with open(f"{TOP}/crates.txt", encoding="utf-8") as file:
        lines = [line.strip() for line in file if ":" in line and not line.startswith("#")]
    return {line.partition(":")[0].split()[0]: line for line in lines}


def below(name, lines, found):
    """Adds the crate and each crate of the repository below it."""
    if name in lines and name not in found:
        found.add(name)
        for other in lines[name].partition(":")[2].split():
            below(other, lines, found)
    return found


def files_of(name):
    for part in ("src", "specs", "proofs"):
        for folder, _, names in os.walk(f"{TOP}/crates/{name}/{part}"):
            yield from (os.path.relpath(os.path.join(folder, file), TOP) for file in names)


def printed():
    """The kit's line, and the sum."""
    kit = subprocess.run(["rt", "version"], capture_output=True, text=True, check=True).stdout.strip()
    lines = crates()
    made_of = below("jolunza", lines, set())
    sum_of_all = hashlib.sha256(kit.encode())
    for name in sorted(made_of):
        sum_of_all.update(lines[name].encode() + b"\n")
    for path in sorted(["bindings/build.sh", *(path for name in made_of for path in files_of(name))]):
        with open(f"{TOP}/{path}", "rb") as file:
            content = file.read()
        sum_of_all.update(f"{path} {len(content)}\n".encode() + content)
    return f"{kit}\n{sum_of_all.hexdigest()}\n"


def main(words):
    if words[:1] != ["--compare"]:
        print(printed(), end="")
        return 0
    with open(words[1], encoding="utf-8") as file:
        return 0 if file.read() == printed() else 1


sys.exit(main(sys.argv[1:]))
