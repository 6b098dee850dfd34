#!/usr/bin/env python3
"""The stanzas of conformance/: the files joined are what crates/conformance reads and prints.

  checks/stanzas.py             ends with 1 where files, stdin and stdout differ, an answer is an error, or two stanzas have one sentence.
                                The last line counts
  checks/stanzas.py join        writes the files and stdin anew from stdout
  checks/stanzas.py tests OUT   a line for each stanza as for a test: whether OUT, which a program printed, answers it so
"""
import pathlib, re, sys

TOP = pathlib.Path(__file__).resolve().parent.parent
PROGRAM = TOP / "crates/conformance"


def files():
    return sorted((TOP / "conformance").glob("*.txt"))


def name(sentence):
    """A stanza's name: its sentence in small letters, with _ for spaces and no signs."""
    return re.sub(r"[^a-z0-9 ]", "", sentence.lower()).replace(" ", "_")


def stanzas(text):
    """Each stanza's name and its lines, from its sentence to the next one."""
    found, before = [], ""
    for line in text.splitlines():
        if line.startswith("# ") and before == "":
            found.append((name(line[2:]), []))
        if found:
            found[-1][1].append(line)
        before = line
    return found


def compare(wanted, printed):
    there = dict(stanzas(printed))
    failed = [of for of, lines in stanzas(wanted) if there.get(of) != lines]
    for of, _ in stanzas(wanted):
        print(f"test conformance::{of} ... {'FAILED' if of in failed else 'ok'}")
    print(f"test result: {'FAILED' if failed else 'ok'}. {len(failed)} failed")


def join():
    """Cuts stdout at the first line of each file, which begins with ##."""
    pieces = re.split(r"(?m)^(?=## )", (PROGRAM / "stdout").read_text())[1:]
    assert len(pieces) == len(files()), "each file begins with a line ##"
    for file, piece in zip(files(), pieces):
        file.write_text(piece)
    (PROGRAM / "stdin").write_text("".join(pieces))


def check():
    joined = "".join(file.read_text() for file in files())
    found = [of for of, _ in stanzas(joined)]
    faults = [f"{PROGRAM.name}/{of} is not the files joined" for of in ("stdin", "stdout") if (PROGRAM / of).read_text() != joined]
    faults += [f"an answer is an error: {line}" for line in joined.splitlines() if line.startswith(" !")]
    faults += [f"two stanzas are named {of}" for of in sorted(set(found)) if found.count(of) > 1]
    for fault in faults:
        print(fault)
    print(f"{len(found)} stanzas")
    print(f"{0 if faults else 1} passed, {1 if faults else 0} failed")
    return 1 if faults else 0


def main(words):
    if words == ["join"]:
        join()
    elif words[:1] == ["tests"] and len(words) == 2:
        compare("".join(file.read_text() for file in files()), pathlib.Path(words[1]).read_text(errors="replace"))
    else:
        return check()
    return 0


if __name__ == "__main__":
    sys.exit(main(sys.argv[1:]))
