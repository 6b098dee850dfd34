#!/usr/bin/env python3
"""The mutants and what refuses each: the edits of crates/CRATE/must-fail and checks/wrong-bodies/CRATE, and the lines of
checks/wrong-bodies/refused.tsv (crate, edit, the tests that fail on it, what else refuses it).

  checks/mutants.py [CRATE..]         lists them: the edit, what tries it, what refuses it
  checks/mutants.py check             ends with 1, and a line for each fault, where an edit has no line or two, or a line no edit; a line
                                      names nothing that refuses the edit, or a test that is not there; the text that an edit exchanges is
                                      not in its file exactly once; the gate tries more than ten edits of a crate
  checks/mutants.py fill RESULTS      writes the tests of what checks/wrong-bodies.sh printed into refused.tsv, two of each edit at most
"""
import collections
import glob
import os
import re
import sys

import stanzas

DATA = "checks/wrong-bodies/refused.tsv"
MOST_AT_THE_GATE, MOST_TESTS = 10, 2
IN_C = ["cb_handle", "jolunza"]
faults = []


def fault(path, line, text):
    faults.append(f"{path}:{line}: {text}")
    print(faults[-1])


def read(path):
    with open(path, encoding="utf-8") as file:
        return file.read()


def edits():
    """The file of each edit, by its crate and its name."""
    found = {}
    for path in sorted(glob.glob("crates/*/must-fail/*.edit") + glob.glob("checks/wrong-bodies/*/*.edit")):
        parts = path.split("/")
        found[parts[1] if parts[0] == "crates" else parts[2], parts[-1][: -len(".edit")]] = path
    return found


def rows():
    """The lines of the data: the number of each, and its four fields."""
    for number, line in enumerate(read(DATA).splitlines(), 1):
        if line and not line.startswith("#"):
            fields = line.split("\t")
            if len(fields) == 4:
                yield number, fields
            else:
                fault(DATA, number, f"{len(fields)} fields, not 4")


def tests():
    """The names of all tests and stanzas: of the crates, of checks/inner-tests, of bindings/c/calls.c, and of conformance/."""
    paths = glob.glob("crates/**/*.rt", recursive=True) + glob.glob("checks/inner-tests/**/*.test", recursive=True)
    found = set(re.findall(r"\btest_\w+", read("bindings/c/calls.c")))
    for path in paths:
        found.update(re.findall(r"#\[test\b[^\n]*\s+(?:(?:#\[|//)[^\n]*\s+)*(?:pub )?fn (\w+)", read(path)))
    for path in glob.glob("conformance/*.txt"):
        found.update(stanzas.name(sentence) for sentence in re.findall(r"(?m)^\n# (.*)", read(path)))
    return found


def look_at_edit(crate, path):
    text, file, old = {}, None, None
    for number, line in enumerate(read(path).splitlines(), 1):
        word, _, rest = line.partition(": ")
        if word == "file":
            file = rest
            if not os.path.isfile(f"crates/{crate}/{file}"):
                fault(path, number, f"{file} is not there")
                return
            text.setdefault(file, read(f"crates/{crate}/{file}"))
        elif word == "old":
            old = rest
            if text[file].count(old) != 1:
                fault(path, number, f"the text is in {file} {text[file].count(old)} times")
        elif word.rstrip(":") == "new":
            text[file] = text[file].replace(old, rest, 1)


def check():
    there, known, seen = edits(), tests(), set()
    for number, (crate, name, refusing, other) in rows():
        if (crate, name) not in there:
            fault(DATA, number, f"{crate} has no edit {name}")
        elif (crate, name) in seen:
            fault(DATA, number, f"{name} has two lines")
        elif not refusing and not other:
            fault(DATA, number, f"nothing refuses {name}; where nobody has tried it, write (not tried)")
        for test in refusing.split(", ") if refusing else []:
            if test not in known and not os.path.isfile(test):
                fault(DATA, number, f"{test} is no test")
        seen.add((crate, name))
    for (crate, name), path in there.items():
        if (crate, name) not in seen:
            fault(path, 1, f"it has no line in {DATA}")
        look_at_edit(crate, path)
    at_the_gate = collections.Counter(crate for (crate, _), path in there.items() if path.startswith("crates/"))
    for crate, count in at_the_gate.items():
        if count > MOST_AT_THE_GATE:
            fault(f"crates/{crate}/must-fail", 1, f"{count} edits, more than {MOST_AT_THE_GATE}")


def fill(results):
    refused = {}
    for line in read(results).splitlines():
        words = line.split()
        if len(words) > 3 and words[2] == "refused-by-test":
            refused[words[0], words[1]] = ", ".join(words[3 : 3 + MOST_TESTS])
    lines = read(DATA).splitlines()
    for number, (crate, name, _, other) in rows():
        if (crate, name) in refused:
            other = re.sub(r"\((?:tests )?not tried\)", "", other).strip()
            lines[number - 1] = "\t".join((crate, name, refused[crate, name], other))
    with open(DATA, "w", encoding="utf-8") as file:
        file.write("\n".join(lines) + "\n")


def show(crates):
    there = edits()
    for _, (crate, name, refusing, other) in rows():
        if not crates or crate in crates:
            by_hand = "checks/wrong-calls.sh" if crate in IN_C else "checks/wrong-bodies.sh"
            tried = "the gate" if there[crate, name].startswith("crates/") else by_hand
            print(f"{crate} {name} [{tried}]: {'; '.join(filter(None, (refusing, other)))}")


def main():
    os.chdir(os.path.join(os.path.dirname(os.path.abspath(__file__)), ".."))
    words = sys.argv[1:]
    if words[:1] == ["check"]:
        check()
    elif words[:1] == ["fill"]:
        fill(words[1])
    else:
        show(words)
    return 1 if faults else 0


sys.exit(main())
