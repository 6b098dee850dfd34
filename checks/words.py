#!/usr/bin/env python3
"""Counts the turns of phrase that hinder a reader, and ends with 1 where one occurs more often than its limit here allows.

The three columns are the pages, the doc comments of the crates, and the bindings' header, doc comments and docstrings. Code blocks,
code within a line, headings, questions and the part of a page that a script makes are left out. A limit is the count of the day that it was
written, and is only ever lowered. The goals, over all columns: 18 of "so many" and "as many", 20 of "behind", 7 comments that begin with
What; in pages 11 of "stands" and 19 of "says" and "tells".

  checks/words.py              prints the table; checks/pages.sh runs this too
  checks/words.py FILE..       prints each place in these files, and counts nothing
  checks/words.py limits       prints the counts of today as the limits below are written
"""
import ast
import bisect
import glob
import os
import re
import sys

PAGES = ["README.md", "docs/*.md", "bindings/*/README.md", "SECURITY.md", "CHANGELOG.md"]
DOC_COMMENTS = ["crates/**/*.rt"]
BINDINGS = ["bindings/c/*.h", "bindings/rust/src/**/*.rs", "bindings/python/*.py"]
BEGIN = r"(?:^|(?<=[.!?:]\s)|(?<=[.!?:][)\"'*]\s))[\"'(*]*"
FORMS = r"\b(?:is|are|was|were|be|been) "
PATTERNS = {
    "Who ..": BEGIN + r"Who\b",
    "What ..": BEGIN + r"What\b",
    "Of ..": BEGIN + r"Of\b",
    "So ..": BEGIN + r"So\b",
    "Where ..": BEGIN + r"Where\b",
    "That ..": BEGIN + r"That\b",
    "a comment begins with What": r"^What\b",
    "so many, as many": r"(?i)\b(?:so|as) many\b",
    "behind": r"(?i)\bbehind\b",
    "in front of": r"(?i)\bin front of\b",
    "stands": r"(?i)\b(?:stands?|stood)\b",
    "says": r"(?i)\b(?:says?|said)\b",
    "tells, is told": r"(?i)\btells?\b|" + FORMS + r"told\b",
    "is had": r"(?i)" + FORMS + r"had\b",
    "goes": r"(?i)\b(?:goes|went)\b",
    "hands out": r"(?i)\bhand(?:s|ed)? out\b",
    "leaves": r"(?i)\bleaves\b",
    "the ten phrases": "(?i)" + "|".join([
        r"waits until it has delivered as many", r"the frames as they are", r"written down before it is sent", r"one first fault",
        r"who sent nothing for", r"the message lacks nothing", r"behind a keep that failed", r"leaves to be cast again",
        r"not more than so much", r"so where it has seen all"]),
}
LIMITS = {
    "Who ..": [0, 41, 0],
    "What ..": [3, 512, 0],
    "Of ..": [2, 73, 0],
    "So ..": [1, 62, 0],
    "Where ..": [0, 94, 0],
    "That ..": [1, 10, 0],
    "a comment begins with What": [0, 456, 0],
    "so many, as many": [0, 229, 0],
    "behind": [1, 165, 0],
    "in front of": [0, 7, 0],
    "stands": [4, 184, 0],
    "says": [20, 335, 0],
    "tells, is told": [2, 62, 0],
    "is had": [0, 0, 0],
    "goes": [1, 70, 0],
    "hands out": [4, 57, 0],
    "leaves": [16, 22, 0],
    "the ten phrases": [0, 3, 0],
}


def files(patterns):
    return sorted({path for pattern in patterns for path in glob.glob(pattern, recursive=True)})


def read(path):
    with open(path, encoding="utf-8") as file:
        return file.read()


def paragraphs(lines):
    """The paragraphs, list items and cells of numbered lines of Markdown, each as a list of numbered lines."""
    found, fenced = [[]], False
    for number, line in lines:
        is_fence = line.lstrip().startswith("```")
        fenced ^= is_fence
        text = re.sub(r"`[^`]*`", "CODE", line.strip())
        text = re.sub(r"\[([^\]]*)\]\([^)]*\)", r"\1", text)
        if fenced or is_fence or not text or text.startswith(("#", "<!--", "|--", "---")):
            found.append([])
        elif text.startswith("|"):
            found.extend([(number, cell.strip())] for cell in text.strip("|").split("|"))
            found.append([])
        else:
            item = re.match(r"(?:[-*>]|\d+\.) ", text)
            if item:
                found.append([])
            found[-1].append((number, text[item.end():] if item else text))
    return [paragraph for paragraph in found if paragraph]


def comments(path):
    """The doc comments of a source, each as a list of numbered lines."""
    text = read(path)
    if path.endswith(".py"):
        for node in ast.walk(ast.parse(text)):
            if isinstance(node, (ast.Module, ast.ClassDef, ast.FunctionDef)) and ast.get_docstring(node):
                yield list(enumerate(ast.get_docstring(node).splitlines(), node.body[0].lineno))
        return
    block = []
    for number, line in enumerate(text.splitlines() + [""], 1):
        mark = r"\s*(?:/\*+|\*/|\*|//+)\s?(.*?)(?:\*/)?$" if path.endswith(".h") else r"\s*//[/!]\s?(.*)$"
        found = re.match(mark, line)
        if found:
            block.append((number, found[1]))
        elif block:
            yield block
            block = []


def texts(path):
    """The paragraphs of a file, with whether each is the first of a comment."""
    if path.endswith(".md"):
        text = read(path).split("<!-- made by ")[0]
        yield from ((False, paragraph) for paragraph in paragraphs(enumerate(text.splitlines(), 1)))
    else:
        for comment in comments(path):
            yield from ((place == 0, paragraph) for place, paragraph in enumerate(paragraphs(comment)))


def places(path):
    """Each place where a pattern is found: its name, the line, and the words there."""
    for is_first, paragraph in texts(path):
        starts, text = [], ""
        for _, line in paragraph:
            starts.append(len(text))
            text += line + " "
        for name, pattern in PATTERNS.items():
            if name.startswith("a comment") and not is_first:
                continue
            for found in re.finditer(pattern, text):
                end = re.search(r"[.!?](?:\s|$)", text[found.start():])
                if not (name.endswith("..") and end and end[0][0] == "?"):
                    line = paragraph[bisect.bisect(starts, found.start()) - 1][0]
                    yield name, line, text[found.start():][:60].strip()


def counts():
    columns = [files(PAGES), files(DOC_COMMENTS), [path for path in files(BINDINGS) if "/test_" not in path]]
    table = {name: [0] * len(columns) for name in PATTERNS}
    for column, paths in enumerate(columns):
        for path in paths:
            for name, _line, _words in places(path):
                table[name][column] += 1
    return table


def main():
    os.chdir(os.path.join(os.path.dirname(os.path.abspath(__file__)), ".."))
    words = sys.argv[1:]
    if words and words != ["limits"]:
        for path in words:
            for name, line, text in sorted(places(path), key=lambda place: place[1]):
                print(f"{path}:{line}: {name}: {text}")
        return 0
    table = counts()
    if words:
        for name, row in table.items():
            print(f'    "{name}": {row},')
        return 0
    print(f"{'':28}{'pages':>14}{'comments':>14}{'bindings':>14}")
    above = 0
    for name, row in table.items():
        limits = LIMITS[name]
        above += sum(count > limit for count, limit in zip(row, limits))
        print(f"{name:28}" + "".join(f"{f'{count} of {limit}' + (' !' if count > limit else ''):>14}" for count, limit in zip(row, limits)))
    print(f"{above} counts are above their limits (marked with !); checks/words.py FILE.. names the places")
    return 1 if above else 0


sys.exit(main())
