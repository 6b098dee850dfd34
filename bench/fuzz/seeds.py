#!/usr/bin/env python3
"""Writes what the fuzzers begin with: FOLDER/member, FOLDER/stream and FOLDER/group get an input for each member of the stanzas
(conformance/members.txt) and for each stored schedule (schedules/), FOLDER/journal the journals that the library's
members tell in these, whole and damaged. It speaks of inputs as member.c, stream.c, group.c, journal.c and input.c read them: of rooms
and screens, and of numbers that no byte can say, it leaves lines out. It wants the library for Python (bindings/build.sh)."""
import pathlib
import sys

TOP = pathlib.Path(__file__).resolve().parent.parent.parent
sys.path.insert(0, str(TOP / "bindings/python"))
import jolunza  # noqa: E402  (found there)

# the calls of member.c and the steps of group.c, by the byte that asks for them
CAST, BURST, TICK, HELP, RAW, LOAD, ONE_PART, SELDOM = 0, 1, 2, 3, 4, 5, 8, 10
GROUP_CAST, GROUP_BURST, GROUP_ARRIVE, GROUP_TICK, GROUP_HELP, GROUP_BACK = 0, 2, 3, 10, 12, 14
HONEST = 0
RAW_TEXT, WRITTEN, REFUSES = 0, 1, 2  # how journal.c comes by a text
LIMIT_ABOVE_ALL = 255
BYTES_OF_ENDS = 16  # how many bytes stand behind a stream


def settings(size, window, me, limit):
    """The four bytes that settings_of reads: a window of up to 8, and a limit of 0, below 16 or 1,000."""
    size_byte = size - 2 if size <= 4 else 191 + size
    limit_byte = 0 if limit == 0 else 1 + 4 * limit if limit < 16 else 2
    return bytes([size_byte, (window - 1) % 8, me, limit_byte])


def bytes_in(words):
    """Words of hexadecimal; 00*1024 is a byte that stands there that often."""
    parts = (word.partition("*") for word in words)
    return b"".join(bytes.fromhex(digits) * int(count or 1) for digits, _, count in parts)


def payload_bytes(word):
    return bytes_in([word[1:]]) if word.startswith("x") else word[1:-1].encode()


def raw(frame):
    return bytes([RAW, len(frame)]) + frame if len(frame) < 64 else b""


def member_call(words):
    if words[0] == "cast":
        return bytes([CAST, len(payload_bytes(words[1])) % 64])
    if words[0] == "burst":
        lengths = [len(payload_bytes(word)) % 64 for word in words[1:]]
        return bytes([BURST, len(lengths) % 34, 1, *lengths])
    if words[0] == "take":
        return raw(bytes_in(words[1:]))
    if words[0] == "tick":
        return bytes([TICK])
    if words[0] == "help":
        return bytes([HELP, int(words[1]) % 256])
    return b""


def limit_of(words):
    """The limit of the history in a line `member M of N group G window W`, or with `history H` behind it."""
    return int(words[9]) if len(words) > 9 else 1_000


def lead(words):
    """The settings of such a line."""
    return settings(int(words[3]), int(words[7]), int(words[1]), limit_of(words))


def examples():
    """Of each member of the stanzas of which something is asked the words of its line, and those of each call."""
    runs = []
    for line in (TOP / "conformance/members.txt").read_text().splitlines():
        words = line.split()
        if not words or line[0] in " #":
            continue
        if words[0] == "member":
            runs.append((words, []))
        else:
            runs[-1][1].append(words)
    return [(words, calls) for words, calls in runs if calls]


def spelled(number):
    return bytes([number]) if number < 128 else bytes([number % 128 + 128]) + spelled(number // 128)


def stream_of(calls):
    frames = [bytes_in(words[1:]) for words in calls if words[0] == "take"]
    return b"".join(spelled(len(frame)) + frame for frame in frames if frame)


def examples_as_inputs():
    for words, calls in examples():
        yield "member", lead(words) + b"".join(member_call(call) for call in calls)
        for piece in [0, 6, 254]:
            yield "stream", lead(words) + bytes([piece, BYTES_OF_ENDS - 1]) + stream_of(calls) + bytes(BYTES_OF_ENDS - 1)


def group_step(words, size):
    """The two bytes of a step; a member is counted modulo the group's size."""
    member = int(words[1])
    if member >= size or words[0] in ("say", "answer", "screen"):
        return b""
    if words[0] == "cast":
        return bytes([GROUP_CAST + 16 * member, len(words[2]) // 2 % 64])
    if words[0] == "burst":
        return bytes([GROUP_BURST + 16 * member, len(words[2:]) - 1])
    if words[0] == "arrive":
        return bytes([GROUP_ARRIVE + 16 * member, int(words[2]) % 256])
    if words[0] == "tick":
        return bytes([GROUP_TICK + 16 * member, 0])
    if words[0] == "help":
        return bytes([GROUP_HELP + 16 * member, int(words[2]) % size])
    return b""


def back_again(words, how):
    """The member of a step ends and comes back, in one of so many ways."""
    return bytes([GROUP_BACK + 16 * (int(words[1]) % 16), how, how % 3, 37 * how % 256])


def group_lead(words, limit_byte, trust):
    size = int(words[3])
    size_byte = 0 if size == 4 else 3 + 4 * (size - 2)
    return bytes([size_byte, (int(words[5]) - 1) % 8, limit_byte, trust])


def schedules_as_inputs():
    for script in sorted((TOP / "schedules").glob("*.script")):
        first, *lines = [line.split() for line in script.read_text().splitlines() if line.strip()]
        steps = b"".join(group_step(words, int(first[3])) for words in lines)
        for limit_byte, trust in [(0, HONEST), (1, HONEST), (1, 1), (0, 2), (200, 3)]:
            yield "group", group_lead(first, limit_byte, trust) + steps
        for how in range(16):
            steps = b"".join(group_step(words, int(first[3])) + back_again(words, how) for words in lines)
            yield "group", group_lead(first, how % 2, HONEST) + steps


def loaded_without_memory():
    """A request that was answered comes again, loaded, and is refused memory: its first allocation, or all. No other seed has that."""
    cast_and_request = member_call(["cast", '""']) + raw(bytes.fromhex("13070002010000"))
    for refused in [0, 1]:
        yield "member", settings(3, 4, 2, 1000) + cast_and_request + bytes([LOAD, 1, 1, SELDOM, 2, refused, ONE_PART, 0])


def made(call, *given):
    """Makes a call that may be refused; the frames that it leaves to be sent."""
    try:
        return [frame.bytes for frame in call(*given).frames]
    except jolunza.Refusal:
        return []


def told(member):
    """The journal that a member with a history tells, line by line."""
    return member.journal_head() + b"".join(member.journal_line(index) for index in range(member.counts().entries))


def journal_of_example(words, calls):
    """What the member of a stanza tells; nothing where it keeps no history, or is none."""
    if limit_of(words) == 0:
        return b""
    try:
        member = jolunza.Member(int(words[5]), int(words[3]), int(words[7]), int(words[1]), limit_of(words))
    except jolunza.Refusal:
        return b""
    by_word = {
        "cast": lambda call: made(member.cast, payload_bytes(call[1])),
        "burst": lambda call: made(member.cast_burst, [payload_bytes(word) for word in call[1:]]),
        "take": lambda call: made(member.receive, bytes_in(call[1:])),
        "tick": lambda call: made(member.tick),
    }
    for call in calls:
        by_word.get(call[0], lambda call: None)(call)
    return told(member)


def bytes_of_step(word):
    """The payload of a step of a schedule; - is none."""
    return b"" if word == "-" else bytes.fromhex(word)


def step_of(members, sent, words):
    """A step of a schedule by the library's members; what it leaves to be sent joins what was sent."""
    member = members[int(words[1]) % len(members)]
    if words[0] == "cast":
        sent.extend(made(member.cast, bytes_of_step(words[2])))
    elif words[0] == "burst":
        sent.extend(made(member.cast_burst, [bytes_of_step(word) for word in words[2:]]))
    elif words[0] == "tick":
        sent.extend(made(member.tick))
    elif words[0] == "arrive" and int(words[2]) < len(sent):
        sent.extend(made(member.receive, sent[int(words[2])]))


def journals():
    """Of each worked example and of each member of a stored schedule: what it tells."""
    for words, calls in examples():
        yield journal_of_example(words, calls)
    for script in sorted((TOP / "schedules").glob("*.script")):
        first, *lines = [line.split() for line in script.read_text().splitlines() if line.strip()]
        members = [jolunza.Member(int(first[1]), int(first[3]), int(first[5]), me, 1_000_000) for me in range(int(first[3]))]
        sent = []
        for words in lines:
            step_of(members, sent, words)
        yield from map(told, members)


def of_another(text):
    """The journal with another member's number in its head."""
    head, rest = text.split(b"\n", 1)
    return head[:-1] + (b"0" if head.endswith(b" 1") else b"1") + b"\n" + rest


def damaged(text):
    """The journal as it is; torn; with a bad line; of another member; with a line too many, too few, or in the place of another."""
    lines = text.splitlines(keepends=True)
    yield text
    yield text[:-1]
    yield text[: len(text) - len(lines[-1]) // 2]
    yield text[: len(lines[0]) - 1]
    yield text + b"tick 1\n"
    yield of_another(text)
    yield text + lines[-1]
    yield b"".join(lines[:1] + lines[2:])
    yield b"".join(lines[:1] + lines[:0:-1])


def journals_as_inputs():
    """Behind the settings, of which only the limit is read: 1,000, none, 2, or one above all. Of some an allocation is refused."""
    for text in sorted({text for text in journals() if text}):
        for number, damage in enumerate(damaged(text)):
            yield "journal", settings(3, 4, 0, [1000, 0, 2][number % 3]) + bytes([RAW_TEXT]) + damage
        yield "journal", settings(3, 4, 0, 1000) + bytes([RAW_TEXT + REFUSES, len(text) % 64]) + text
        yield "journal", settings(3, 4, 0, 0)[:3] + bytes([LIMIT_ABOVE_ALL, RAW_TEXT]) + text


def written_journals():
    """Those that journal.c writes itself: bursts, casts, ticks and frames, changed or not."""
    for size in [2, 3, 4]:
        for how in range(16):
            steps = bytes([how % 8, 20 + how]) + bytes(5 * i * (how + 3) % 256 for i in range(96))
            yield "journal", settings(size, 8, 0, 1000) + bytes([WRITTEN + 4 * (how % 4), 24]) + steps


def main():
    folder = pathlib.Path(sys.argv[1])
    inputs = [*examples_as_inputs(), *schedules_as_inputs(), *loaded_without_memory(), *journals_as_inputs(), *written_journals()]
    for number, (target, text) in enumerate(inputs):
        (folder / target).mkdir(parents=True, exist_ok=True)
        (folder / target / f"seed-{number:03}").write_bytes(text)


main()
