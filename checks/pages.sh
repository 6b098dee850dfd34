#!/usr/bin/env bash
# Looks at the pages: ends with 1, and a line for each fault, where
#   - a line of README.md, docs/GUIDE.md, docs/RATTLE.md or docs/OPERATING.md has more than 120 characters, or a paragraph of these more than
#     five lines; a line of text of any other page has more than 120; README.md or docs/PERFORMANCE.md more than 120 lines;
#   - a page has a word that was exchanged for a better one, or checks/words.py counts more of a phrase than its limit;
#   - a measured figure of the guide or of OPERATING is not in docs/PERFORMANCE.md;
#   - a link leads nowhere, to a file or to a heading, or a comment or script names a page of docs/ that is not there;
#   - a code block differs from the text that it shows, or a fenced block is not closed;
#   - docs/PROMISES.md is not what checks/promises.py makes of the contracts;
#   - checks/mutants.py finds that the mutants and checks/wrong-bodies/refused.tsv differ;
#   - an example does not run, or prints something else.
# In the pages a block ```sh is an example, run by bash at the top of a scratch copy. It has to end with status 0, or N after `sh status=N`.
# Where the next block is ```text without a PATH, that is what it prints: `..` stands there for any text, and alone on a line for any lines. One after
# `sh long` is not run. A block ```rust PATH#MARK shows the lines of PATH between `// MARK: begin` and `// MARK: end`; without a mark
# it shows some lines of PATH. So do ```c, ```text and, with `#` for `//`, ```python. In the pages of
# bindings/ a block without PATH is left to the tests there.
#   checks/pages.sh          all of it; an example takes a minute or two. JOBS=4 runs four at a time; two if not said
#   checks/pages.sh text     all but the examples, in some seconds
#   checks/pages.sh WORD     all, but of the examples only those whose commands have this word
set -u
top=$(cd "$(dirname "$0")/.." && pwd)
cd "$top" || exit 2
exec python3 - "$top" "${1:-all}" "${JOBS:-2}" <<'END'
import concurrent.futures, os, re, shutil, subprocess, sys, tempfile, time

top, what, jobs = sys.argv[1], sys.argv[2], int(sys.argv[3])
NARROW = ["README.md", "docs/GUIDE.md", "docs/RATTLE.md", "docs/OPERATING.md"]
MOST_LINES = {"README.md": 120, "docs/PERFORMANCE.md": 120}
WIDE = ["schedules/README.md"]
OLD_WORDS = r"\b(puts? out|lets? go of|told|(?:seen|shown) twice|beside the gate|by turns)\b"
RUN = ["README.md", "docs/GUIDE.md", "docs/RATTLE.md", "docs/OPERATING.md", "docs/PROGRAM.md"]
MOST_CHARACTERS, MOST_PARAGRAPH_LINES, MOST_SECONDS = 120, 5, 900
faults = []


def fault(page, line, text):
    faults.append(f"{page}:{line}: {text}")
    print(faults[-1], flush=True)


def read(path):
    with open(path, encoding="utf-8") as file:
        return file.read()


def files_here():
    listed = subprocess.run(["git", "ls-files", "-co", "--exclude-standard"], capture_output=True, text=True, check=True)
    return [name for name in listed.stdout.splitlines() if os.path.isfile(name)]


def look_at_figures(page, heading):
    """The tables under the heading have no number, but in their first row and column, that the page of measurements has not."""
    measured = set(re.findall(r"[\d,.]*\d", read("docs/PERFORMANCE.md")))
    text = read(page)
    begin = text.index(f"\n{heading}\n") + 1
    first = text[:begin].count("\n") + 1
    rows = text[begin:].split("\n## ")[0].splitlines()
    for number, line in enumerate(rows, first):
        if line.startswith("|") and not (number > first and not rows[number - first - 1].startswith("|")):
            for figure in re.findall(r"[\d,.]*\d", "|".join(line.split("|")[2:])):
                if figure not in measured:
                    fault(page, number, f"{figure} is not in docs/PERFORMANCE.md")


def with_fences(text):
    """Each line with its number and whether it is part of a fenced block."""
    inside = False
    for number, line in enumerate(text.splitlines(), 1):
        fence = line.lstrip().startswith("```")
        yield number, line, inside or fence
        inside ^= fence


def blocks(text):
    """The fenced blocks: the number of the first line, the words behind the fence, the lines."""
    found, body = [], None
    for number, line in enumerate(text.splitlines(), 1):
        if not line.lstrip().startswith("```"):
            if body is not None:
                body.append(line)
        elif body is None:
            first, words, body = number, line.strip()[3:].split(), []
        else:
            found.append((first, words, body))
            body = None
    return found


def look_at_blocks(page, text):
    fences = [number for number, line in enumerate(text.splitlines(), 1) if line.lstrip().startswith("```")]
    if len(fences) % 2:
        fault(page, fences[-1], "a fenced block is not closed")


def look_at_text(page, text):
    lines = text.splitlines()
    made_from = next((number for number, line in enumerate(lines, 1) if line.startswith("<!-- made by ")), len(lines) + 1)
    if len(lines) > MOST_LINES.get(page, len(lines)):
        fault(page, len(lines), f"{len(lines)} lines, more than {MOST_LINES[page]}")
    for number, line, is_code in with_fences(text):
        is_free = page in WIDE or (page not in NARROW and (is_code or line.startswith("|")))
        if len(line) > MOST_CHARACTERS and not is_free:
            fault(page, number, f"{len(line)} characters, more than {MOST_CHARACTERS}")
        old = re.search(OLD_WORDS, re.sub(r"`[^`]*`", "", line), re.I)
        if old and not is_code and number < made_from:
            fault(page, number, f"\"{old[1]}\" is no word of these pages")


def look_at_paragraphs(page, text):
    length = 0
    for number, line, is_code in with_fences(text):
        begins_anew = re.match(r"\s*([-*]|\d+\.) ", line)
        if is_code or not line.strip() or line.startswith(("#", "|", "<!--")):
            length = 0
        else:
            length = 1 if begins_anew else length + 1
        if length == MOST_PARAGRAPH_LINES + 1:
            fault(page, number, f"a paragraph of more than {MOST_PARAGRAPH_LINES} lines")


def anchors(text):
    """The names of a page's headings, as they stand in links."""
    names, seen = set(), {}
    for _number, line, is_code in with_fences(text):
        heading = re.match(r"#+ (.*)", line)
        if is_code or not heading:
            continue
        title = re.sub(r"\[([^\]]*)\]\([^)]*\)", r"\1", heading[1].strip())
        name = re.sub(r"[^\w\- ]", "", title.lower()).replace(" ", "-")
        again = seen.get(name, 0)
        seen[name] = again + 1
        names.add(f"{name}-{again}" if again else name)
    return names


def look_at_links(page, text):
    for number, line, is_code in with_fences(text):
        if is_code:
            continue
        for target in re.findall(r"\]\(([^)\s]+)\)", re.sub(r"`[^`]*`", "", line)):
            if re.match(r"[a-z]+:", target):
                continue
            path, _, name = target.partition("#")
            path = os.path.normpath(os.path.join(os.path.dirname(page), path)) if path else page
            if not os.path.exists(path):
                fault(page, number, f"the link {target} leads to no file")
            elif name and path.endswith(".md") and name not in anchors(read(path)):
                fault(page, number, f"the link {target} leads to no heading")


def look_at_names(path):
    for number, line in enumerate(read(path).splitlines(), 1):
        for name in re.findall(r"docs/[A-Z][A-Za-z_]*\.md", line):
            if not os.path.exists(name):
                fault(path, number, f"{name} is not there")


def shown_at(path, mark):
    """What stands between the marks, as lists of lines."""
    return [found.splitlines() for _, found in re.findall(rf"^(//|#) {mark}: begin\n(.*?)^\1 {mark}: end$", read(path), re.S | re.M)]


def look_with(*command):
    looked = subprocess.run([sys.executable, *command], capture_output=True, text=True)
    if looked.returncode:
        fault(command[0], 1, f"it ends with {looked.returncode}\n{looked.stdout}{looked.stderr}")


def stands_in(path, body):
    lines = read(path).splitlines()
    return any(lines[at : at + len(body)] == body for at in range(len(lines)))


def look_at_code(page, text):
    for number, words, body in blocks(text):
        if words[:1] not in (["rust"], ["c"], ["python"], ["text"]) or words == ["text"] or (page.startswith("bindings/") and len(words) == 1):
            continue
        path, _, mark = (words + [""])[1].partition("#")
        if not os.path.isfile(path):
            fault(page, number, "the code stands in no file")
        elif not (body in shown_at(path, mark) if mark else stands_in(path, body)):
            fault(page, number, f"the code is not that of {path}")


def examples(page, text):
    """The line, the commands, the status and the lines to be printed, of each example."""
    found = blocks(text)
    for place, (number, words, body) in enumerate(found):
        if words[:1] != ["sh"] or "long" in words:
            continue
        status = next((int(word[7:]) for word in words if word.startswith("status=")), 0)
        behind = found[place + 1] if place + 1 < len(found) else (0, [], [])
        yield page, number, "\n".join(body), status, behind[2] if behind[1] == ["text"] else None


def pattern(lines):
    parts = []
    for line in lines:
        parts.append(r"(?:.*\n)*?" if line.strip() == ".." else ".*".join(map(re.escape, line.split(".."))) + r"\n")
    return re.compile("".join(parts))


def run(example, copy):
    page, number, commands, status, wanted = example
    began = time.monotonic()
    try:
        ran = subprocess.run(["bash", "-euc", commands], cwd=copy, capture_output=True, text=True, timeout=MOST_SECONDS)
    except subprocess.TimeoutExpired:
        return [f"the example has not ended after {MOST_SECONDS} seconds"]
    said = []
    if ran.returncode != status:
        said.append(f"the example ends with status {ran.returncode}, not {status}\n{ran.stdout}{ran.stderr}")
    if wanted is not None and not pattern(wanted).fullmatch(ran.stdout):
        said.append(f"the example prints something else:\n{ran.stdout}")
    print(f"{page}:{number}: ran in {time.monotonic() - began:.0f} s", flush=True)
    return said


def run_all(todo):
    with tempfile.TemporaryDirectory() as copy:
        for name in files_here():
            os.makedirs(os.path.join(copy, os.path.dirname(name)), exist_ok=True)
            shutil.copy(name, os.path.join(copy, name))
        with concurrent.futures.ThreadPoolExecutor(jobs) as pool:
            for example, said in zip(todo, pool.map(lambda one: run(one, copy), todo)):
                for text in said:
                    fault(example[0], example[1], text)


names = files_here()
todo = []
for page in (name for name in names if name.endswith(".md")):
    text = read(page)
    look_at_text(page, text)
    look_at_blocks(page, text)
    look_at_links(page, text)
    look_at_code(page, text)
    if page in NARROW:
        look_at_paragraphs(page, text)
    if page in RUN:
        todo.extend(examples(page, text))
look_at_figures("docs/GUIDE.md", "## Memory")
look_at_figures("docs/OPERATING.md", "### Journals measured")
look_with("checks/promises.py")
look_with("checks/words.py")
look_with("checks/mutants.py", "check")
for path in names:
    if path.endswith((".rt", ".antt", ".sh", ".py", ".md")):
        look_at_names(path)
todo = [example for example in todo if what == "all" or what in re.split(r"\W+", example[2])] if what != "text" else []
run_all(todo)
print(f"{len(faults)} faults, {len(todo)} examples run")
sys.exit(1 if faults else 0)
END
