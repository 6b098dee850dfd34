#!/usr/bin/env python3
"""Makes the tables of docs/PROMISES.md from the contracts: each public call with a contract, the first sentence of its doc comment, the
names of its clauses and its file. A law is a call that does nothing. The paragraphs of a crate's head that begin as NOT_PROVED follow its
table. The text above the mark in the page is written by hand.

  checks/promises.py           ends with 1 where the page differs from the contracts; checks/pages.sh runs this too
  checks/promises.py write     writes the page
"""
import glob
import os
import re
import sys
from textwrap import wrap

PAGE, MARK = "docs/PROMISES.md", "<!-- made by checks/promises.py from the contracts: run it with `write` after a change -->"
LEFT_OUT = r"tests_\w+|bench\w*|example_member|confer_fakes|cb_handle\w*"
NOT_PROVED = ("Only tested", "Not proved", "The premises")
MOST_LINES_BY_HAND, WIDTH = 40, 120


def read(path):
    with open(path, encoding="utf-8") as file:
        return file.read()


def crates():
    lines = (line.partition(":")[0].split() for line in read("crates.txt").splitlines() if not line.startswith("#"))
    return [words[0] for words in lines if words and not re.fullmatch(LEFT_OUT, words[0])]


def first_sentence(doc):
    """The first sentence of a doc comment, on one line and fit for a cell of a table."""
    paragraph = " ".join(doc[: doc.index("")] if "" in doc else doc)
    end = re.search(r"(?<!\.)\.(?=\s+[A-Z`(]|$)", paragraph)
    return (paragraph[: end.end()] if end else paragraph).replace("|", r"\|")


def paragraphs(path):
    """The paragraphs of a source's head."""
    head = re.match(r"(?://!.*\n)*", read(path))[0]
    lines = [line[3:].strip() for line in head.splitlines()]
    return [text.strip() for text in " ".join(line or "\n" for line in lines).split("\n")]


def root(crate):
    return next(path for path in (f"crates/{crate}/src/lib.rt", f"crates/{crate}/src/main.rt") if os.path.isfile(path))


def exported(crate):
    """The names that the crate gives its users, and its public modules."""
    text = read(root(crate))
    own = set(re.findall(r"^(?:pub )?mod (\w+);", text, re.M))
    names = set()
    for module, several, one in re.findall(r"^pub use (?:crate::)?(\w+)(?:::\w+)*::(?:\{([^}]*)\}|(\w+));", text, re.M):
        if module in own:
            names.update(re.findall(r"\w+", several or one))
    return names, re.findall(r"^pub mod (\w+);", text, re.M)


def functions(path):
    """Each function with a contract: the block that it is in, whether it is public, its name, doc comment and clauses, whether it is a law."""
    block, doc, lines = "", [], iter(read(path).splitlines())
    for line in lines:
        comment = re.match(r"\s*/// ?(.*)", line)
        begun = re.match(r"(    )?(pub )?(?:const |unsafe |extern \"C\" )*fn (\w+)", line)
        if comment:
            doc.append(comment[1].strip())
            continue
        if re.match(r"(?:pub )?(?:impl|trait)\b.*\{$", line):
            block = line
        elif line == "}":
            block = ""
        elif begun and (begun[1] or not block):
            clauses, text, depth = [], line, 0
            while not (depth == 0 and re.fullmatch(r"\s*\{\}?|.*;", text)) and (clauses or not re.search(r"\{\}?$", text)):
                text = next(lines)
                clause = re.match(r"\s+(?:ensures|requires)(?: (\w+))? \{", text) if depth == 0 else None
                clauses += [clause[1] or ""] if clause else []
                depth += text.count("{") - text.count("}") if clause or depth else 0
            if clauses:
                yield block, bool(begun[2]), begun[3], doc, clauses, text == "{}"
        if not line.lstrip().startswith("#["):
            doc = []


def bare(name):
    """A type without its parameters."""
    return re.match(r"&?(?:mut )?(?:\w+::)*(\w+)", re.sub(r"^<[^>]*(?:>>)?>\s*", "", name.strip()))[1]


def rows(crate):
    """The calls and the laws of a crate, each as a row of its table."""
    names, modules = exported(crate)
    calls, laws = [], []
    for path in sorted(glob.glob(f"crates/{crate}/src/**/*.rt", recursive=True)):
        module = path.split("/src/")[1][: -len(".rt")]
        if re.search(r"(^|/)tests(/|$)", module):
            continue
        for block, is_public, name, doc, clauses, is_law in functions(path):
            trait = re.match(r"pub trait (\w+)", block)
            of = re.match(r"impl(.*?)(?: for (.*))? \{$", block)
            if trait:
                shown = trait[1] in names and f"{trait[1]}::{name}"
            elif of and of[2]:
                shown = {bare(of[1]), bare(of[2])} <= names and f"{bare(of[2])}::{name}"
                doc = doc or [f"As `{bare(of[1])}::{name}` promises, and what these clauses add."]
            elif of:
                shown = is_public and bare(of[1]) in names and f"{bare(of[1])}::{name}"
            else:
                is_exported = name in names or module == "lib" or module.split("/")[0] in (*modules, "laws")
                shown = is_public and is_exported and name
            if shown:
                said = [clause for clause in clauses if clause]
                row = f"| {'law ' if is_law else ''}`{shown}` | {first_sentence(doc)} | "
                row += f"`{module}`{': ' if said else ''}{', '.join(f'`{clause}`' for clause in said)} |"
                (laws if is_law else calls).append(row)
    return calls + laws


def tables():
    lines = []
    for crate in crates():
        table = rows(crate)
        if table:
            head = paragraphs(root(crate))
            lines += ["", f"## `{crate}`", "", *wrap(head[0], WIDTH), "", "| Call | Promise | File: clauses |", "|---|---|---|", *table]
            for text in head:
                if text.startswith(NOT_PROVED):
                    lines += ["", *wrap(text, WIDTH)]
    return "\n".join(lines) + "\n"


def main():
    os.chdir(os.path.join(os.path.dirname(os.path.abspath(__file__)), ".."))
    page = read(PAGE)
    by_hand, _, made = page.partition(MARK + "\n")
    wanted = tables()
    if sys.argv[1:] == ["write"]:
        with open(PAGE, "w", encoding="utf-8") as file:
            file.write(by_hand + MARK + "\n" + wanted)
        return 0
    faults = []
    if made != wanted:
        faults.append("it differs from the contracts: run checks/promises.py write")
    if by_hand.count("\n") > MOST_LINES_BY_HAND:
        faults.append(f"more than {MOST_LINES_BY_HAND} lines are written by hand")
    for text in faults:
        print(f"{PAGE}:1: {text}")
    return 1 if faults else 0


sys.exit(main())
