#!/usr/bin/env bash
# Counts the instructions (callgrind) that one received frame costs a member of a group of 64 whose windows are full, through the library
# for C, without a history: bench/attack.c has the states and the frames. A row for each attack: the window, the frame's bytes, the code
# that is answered, the instructions of the one call, the messages that it delivers, the frames that are to be sent and their bytes, the
# frames that were forged before and their bytes, and the instructions for each byte of the frame and for each byte of all.
#   bench/attack.sh                      all attacks, windows 64 and 256
#   bench/attack.sh table ATTACK..       these
#   bench/attack.sh search STEPS [SEED]  climbs so many steps over who waits for whom at window 8, where all goes at once, and a fourth as
#                                        many over the ranges of a request at window 256; both from the best of eight random beginnings
#                                        and the attacks of the table. Prints the most that it found, and what those attacks cost
# It wants gcc, valgrind, python3, and the library (bindings/build.sh). ARCHIVE=FILE takes another archive, JOBS=4 runs four at a time,
# and WINDOWS=256 has a table of that window alone.
set -eu
here=$(cd "$(dirname "$0")" && pwd)
work=$(mktemp -d)
trap 'rm -rf "$work"' EXIT
archive=${ARCHIVE:-$here/../bindings/out/libjolunza.a}
[ -e "$archive" ] || "$here/../bindings/build.sh" > /dev/null
gcc -std=c11 -O2 -Wall -Wextra -Werror -pedantic -o "$work/attack" "$here/attack.c" "$archive"
python3 - "$work/attack" "${JOBS:-2}" "$@" <<'END'
import concurrent.futures, os, random, re, subprocess, sys

program, jobs, *words = sys.argv[1:]
OTHERS = 63
CODES = {"0": "", "10": "Impossible", "11": "TooFar", "12": "Malformed", "14": "Overlap"}
ATTACKS = [
    "in-order", "star", "star-of-bursts", "chain", "ladder", "ladder-of-bursts", "behind", "window-of-one", "looked-at", "early", "status",
    "request", "short-request", "help", "short-help", "overlap", "repeat", "too-far", "malformed-burst", "malformed-status", "malformed-help",
]
pool = concurrent.futures.ThreadPoolExecutor(int(jobs))


def counted(words, text=""):
    """The instructions of the one call, and what the program says of it."""
    tool = ["--tool=callgrind", "--callgrind-out-file=/dev/null", "--toggle-collect=counted*"]
    command = ["valgrind", *tool, program, *words]
    done = subprocess.run(command, input=text, capture_output=True, text=True)
    if done.returncode != 0:
        sys.exit(f"{' '.join(words)} ended with {done.returncode}: {done.stderr}")
    return int(re.search(r"Collected : (\d+)", done.stderr)[1]), done.stdout.split()


def print_row(instructions, said):
    name, window, length, _, code, _, delivered, _, frames, _, sent, _, before, _, bytes_before, _, _ = said
    print(f"{name:16} {window:>4} {length:>5} {CODES[code]:10} {instructions:>11,} {int(delivered):>6,} {frames:>3} {int(sent):>6,}"
          f" {int(before):>6,} {int(bytes_before):>10,} {instructions / int(length):>11,.0f}"
          f" {instructions / (int(length) + int(bytes_before)):>7,.1f}", flush=True)


def table(names):
    print("attack              W bytes refused    instructions deliv. out  bytes before      bytes      a byte  of all")
    runs = [pool.submit(counted, [name, window]) for window in os.environ.get("WINDOWS", "64 256").split() for name in names]
    for run in runs:
        print_row(*run.result())


def random_ranges(chance):
    skips = [chance.choice([0, 0, 1, chance.randrange(40)]) for _ in range(chance.randint(1, 32))]
    return [(skip, chance.choice([0, 0, 1, chance.randrange(300)])) for skip in skips]


def other_ranges(chance, ranges):
    ranges = list(ranges)
    place = chance.randrange(len(ranges))
    if chance.random() < 0.3 and len(ranges) < 32:
        ranges.insert(place, chance.choice(random_ranges(chance)))
    elif chance.random() < 0.1 and len(ranges) > 1:
        del ranges[place]
    else:
        skip, extra = ranges[place]
        ranges[place] = (max(0, skip + chance.randint(-3, 3)), max(0, extra + chance.choice([-64, -8, -1, 0, 1, 8, 64])))
    return ranges


def cost_of_ranges(ranges):
    return counted(["ranges", "256", "0", *(str(number) for pair in ranges for number in pair)])


def random_pattern(chance):
    share = chance.random()
    return chance.sample(range(OTHERS), OTHERS), [[chance.random() < share for _ in range(OTHERS)] for _ in range(OTHERS)]


def other_pattern(chance, pattern):
    order, rows = list(pattern[0]), list(pattern[1])
    for _ in range(chance.choice([1, 4, 16])):
        j = chance.randrange(OTHERS)
        kind = chance.randrange(5)
        share, least = chance.random(), chance.randrange(OTHERS)
        if kind == 0:
            rows[j] = [chance.random() < share for _ in range(OTHERS)]
        elif kind == 1:
            rows[j] = [k > least for k in range(OTHERS)]
        elif kind == 2:
            rows[j] = [k < least for k in range(OTHERS)]
        elif kind == 3:
            rows[j] = [not sees if k == least else sees for k, sees in enumerate(rows[j])]
        else:
            order[j], order[least] = order[least], order[j]
    return order, rows


def cost_of_pattern(pattern):
    order, rows = pattern
    text = " ".join(map(str, order)) + "\n" + "".join("".join("01"[sees] for sees in row) + "\n" for row in rows)
    return counted(["mask", "8"], text)


def known_ranges():
    """The request of the table: 31 ranges of which nothing is kept, and one of 64 numbers that are."""
    return [[(0, 0)] * 31 + [(194, 63)]]


def known_patterns():
    """The star, the chain and the ladder of the table."""
    order = list(range(OTHERS))
    half = OTHERS // 2
    return [
        (order, [[False] * OTHERS for _ in order]),
        (order, [[True] * OTHERS for _ in order]),
        (order, [[k > j if j < half else k < j for k in order] for j in order]),
    ]


def climb(chance, steps, begins, other, cost):
    """The most that so many steps of four tries each find, from the best of these beginnings."""
    best, found = max(zip(pool.map(cost, begins), begins), key=lambda one: one[0][0])
    for _ in range(steps):
        tries = [other(chance, found) for _ in range(4)]
        cost_now, now = max(zip(pool.map(cost, tries), tries), key=lambda one: one[0][0])
        if cost_now[0] >= best[0]:
            best, found = cost_now, now
    return best, found


def search(steps, seed):
    chance = random.Random(seed)
    begins = [random_ranges(chance) for _ in range(8)] + known_ranges()
    best, found = climb(chance, steps // 4, begins, other_ranges, cost_of_ranges)
    print_row(*best)
    print("  skips and extras:", *found)
    print_row(*cost_of_ranges(known_ranges()[0]))
    begins = [random_pattern(chance) for _ in range(8)] + known_patterns()
    best, found = climb(chance, steps, begins, other_pattern, cost_of_pattern)
    print_row(*best)
    print("  order:", *found[0])
    for j, row in enumerate(found[1]):
        print(f"  {j:2} sees", "".join("01"[sees] for sees in row))
    for name in ("star", "chain", "ladder"):
        print_row(*counted([name, "8"]))


if words[:1] == ["search"]:
    search(int(words[1]), int(words[2]) if len(words) > 2 else 1)
else:
    table(words[1:] or ATTACKS)
END
