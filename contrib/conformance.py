#!/usr/bin/env python3
"""Plays the stanzas of conformance/ over the built library, by the wrapper for Python: an example of a second implementation's way to do it.

Members are played with a history, without one, and by one that comes back by its journal before each call. The library tells group
and sender of a frame, and has no streams. A line for each answer that differs, and at last the count. Ends with 1 where one differs.

  contrib/conformance.py [FILE..]     those files; else all. JOLUNZA_LIB names the folder of the library
"""
from __future__ import annotations

import pathlib
import re
import sys
from collections.abc import Callable, Iterator
from itertools import groupby
from typing import Optional

TOP = pathlib.Path(__file__).resolve().parent.parent
sys.path.insert(0, str(TOP / "bindings/python"))

from jolunza import Code, Delayed, Event, Frame, Member, Output, Refusal, sender  # noqa: E402

ROOM = 1_000
LONG = 16


def bytes_of(words: str) -> bytes:
    """Words of hexadecimal; `00*1024` is a byte that stands there that often."""
    parts = (word.partition("*") for word in words.split())
    return b"".join(bytes.fromhex(digits) * int(count or 1) for digits, _, count in parts)


def payload_of(word: str) -> bytes:
    return bytes_of(word[1:]) if word.startswith("x") else word[1:-1].encode()


def spelled(given: bytes) -> str:
    """In hexadecimal, many equal bytes as a word of their own."""
    runs = [(byte, len(list(run))) for byte, run in groupby(given)]
    words = [f" {byte:02x}*{count} " if count >= LONG else f"{byte:02x}" * count for byte, count in runs]
    return " ".join("".join(words).split())


def payload(given: bytes) -> str:
    if len(given) >= LONG and len(set(given)) == 1:
        return "x" + spelled(given)
    is_plain = all(32 <= byte <= 126 and byte not in b'"\\' for byte in given)
    return f'"{given.decode()}"' if is_plain else "x" + given.hex()


def time_of(time: tuple[int, ...]) -> str:
    return "[" + ",".join(map(str, time)) + "]"


def message(event: Event) -> str:
    return f" {'cast' if event.is_own else '='} {event.name} {time_of(event.time)} {payload(event.payload)}"


def frames(sent: tuple[Frame, ...]) -> list[str]:
    return [f" to {'all' if frame.to is None else frame.to} {spelled(frame.bytes)}" for frame in sent]


def name(code: Code) -> str:
    """The name of a refusal, as the protocol has it."""
    return "".join(word.capitalize() for word in code.name.split("_"))


def cast(output: Output) -> list[str]:
    event = output.events[0]
    return [f" cast {event.name} {time_of(event.time)}", *frames(output.frames)]


def burst(output: Output) -> list[str]:
    return [f" burst of {len(output.events)}", *cast(output)]


def arrival(output: Output) -> list[str]:
    if output.is_repeat:
        return [" repeat"]
    return [" changed" if output.is_entered else " unchanged", *map(message, output.events), *frames(output.frames)]


def helped(output: Output) -> list[str]:
    return frames(output.frames) or [" none"]


def waits(delayed: Optional[Delayed]) -> str:
    if delayed is None:
        return " none"
    if delayed.awaits is None:
        return f" {delayed.name} awaits none"
    numbers = delayed.awaits.numbers
    return f" {delayed.name} awaits {delayed.awaits.sender}.{numbers[0]}-{numbers[-1]}"


def or_else(call: Callable[[], str], otherwise: str) -> list[str]:
    """Of who is no member something is said and nothing refused."""
    try:
        return [call()]
    except Refusal as refusal:
        if refusal.code is Code.BAD_MEMBER:
            return [otherwise]
        raise


def delivered(member: Member, of: int) -> str:
    time = member.time()
    return f" {time[of]}" if of < len(time) else " none"


def read(member: Member, word: str, rest: str) -> Optional[list[str]]:
    """What is read of a member; None where the library has no such call."""
    if word == "help":
        of, _, among = rest.partition(" among")
        return helped(member.help_among(int(of), [int(it) for it in among.split()]) if "among" in rest else member.help(int(of)))
    of = int(rest) if rest else 0
    answers: dict[str, Callable[[], list[str]]] = {
        "time": lambda: [f" {time_of(member.time())}"],
        "waiting": lambda: [f" {member.waiting()}"],
        "stable": lambda: or_else(lambda: f" {member.stable_of(of)}", " none") if rest else [f" {member.stable()}"],
        "delivered": lambda: [delivered(member, of)],
        "acknowledged": lambda: or_else(lambda: f" {member.acknowledged_by(of)}", " none"),
        "full": lambda: or_else(lambda: " yes" if member.keeps_window_full(of) else " no", " no"),
        "waits": lambda: or_else(lambda: waits(member.waits_for(of)), " none"),
        "missing": lambda: ["".join(f" {it[0]}-{it[-1]}" for it in member.missing(of)) or " none"],
    }
    return answers[word]() if word in answers else None


class Player:
    """A member that plays a stanza, with its journal: the lines of all entries so far."""

    def __init__(self, seat: tuple[int, int, int, int], history_max: int, is_resumed: bool) -> None:
        me, size, group, window = seat
        self.member = Member(group, size, window, me, history_max)
        self.history_max, self.is_resumed = history_max, is_resumed
        self.head = self.member.journal_head()
        self.lines: list[bytes] = []

    def note(self) -> None:
        """Keeps the lines of the entries that the last call added."""
        first = len(self.lines) if self.history_max else 0
        self.lines += [self.member.journal_line(index) for index in range(first, self.member.counts().entries)]

    def answer(self, line: str) -> Optional[list[str]]:
        if self.is_resumed:
            self.member.close()
            self.member = Member.resume(self.head + b"".join(self.lines), self.history_max).member
        try:
            return self.answered(*line.partition(" ")[::2])
        except Refusal as refusal:
            return [f" {name(refusal.code)}"]

    def answered(self, word: str, rest: str) -> Optional[list[str]]:
        changing: dict[str, Callable[[], list[str]]] = {
            "cast": lambda: cast(self.member.cast(payload_of(rest))),
            "burst": lambda: burst(self.member.cast_burst([payload_of(it) for it in rest.split()])),
            "take": lambda: arrival(self.member.receive(bytes_of(rest))),
            "tick": lambda: ticked(self.member.tick()),
        }
        if word in changing:
            text = changing[word]()
            self.note()
            return text
        if word == "entries":
            return [f" {line.decode().rstrip()}" for line in self.lines] or [" none"]
        if word == "events":
            return list(map(message, self.member.events())) or [" none"] if self.history_max else None
        return read(self.member, word, rest)


def ticked(output: Output) -> list[str]:
    return [" changed" if output.is_entered else " unchanged", *frames(output.frames)]


def decoded(given: bytes) -> list[str]:
    """The beginning of what a frame says."""
    try:
        group, member = sender(given)
        return [f" group {group} {member}"]
    except Refusal as refusal:
        return [f" {name(refusal.code)}"]


def shortened(answer: list[str]) -> list[str]:
    """Of the answer to `decode` what the library tells: group and sender, or that it is no frame."""
    found = re.match(r" group (\d+) (?:cast |burst |\w+ of )(\d+)", answer[0])
    return [f" group {found[1]} {found[2]}"] if found else [" Malformed"]


class Stage:
    """Plays line by line. `said` counts answers, `passed_over` calls that the library does not have."""

    def __init__(self) -> None:
        self.players: list[Player] = []
        self.said = self.passed_over = self.differing = 0

    def open(self, words: str) -> list[list[str]]:
        found = re.fullmatch(r"(\d+) of (\d+) group (\d+) window (\d+)(?: history (\d+))?", words)
        assert found, words
        *seat, limit = (None if it is None else int(it) for it in found.groups())
        kinds = [(0, False), (0, True), (ROOM, False), (ROOM, True)] if limit is None else [(limit, False), (limit, True)]
        self.players = []
        try:
            self.players = [Player(tuple(seat), *kind) for kind in kinds]  # type: ignore[arg-type]
        except Refusal as refusal:
            return [[f" {name(refusal.code)}"]]
        return [[]]

    def answers(self, line: str) -> list[Optional[list[str]]]:
        word, _, rest = line.partition(" ")
        # a history of none keeps none here, and is a bad limit elsewhere
        if word in ("stream", "feed") or (word == "member" and line.endswith("history 0")):
            return [None]
        if word == "decode":
            return [decoded(bytes_of(rest))]
        return list(self.open(rest)) if word == "member" else [player.answer(line) for player in self.players]

    def play(self, place: str, line: str, wanted: list[str]) -> None:
        if line.startswith("decode"):
            wanted = shortened(wanted)
        wanted = [re.sub(r"^ Malformed\(\w+\)$", " Malformed", it) for it in wanted]
        for answer in self.answers(line):
            if answer is None:
                self.passed_over += 1
            elif answer == wanted:
                self.said += 1
            else:
                self.differing += 1
                print(f"{place}: {line}", *answer, "in place of", *wanted, sep="\n")


def calls(path: pathlib.Path) -> Iterator[tuple[str, str, list[str]]]:
    """Each call of a file with its place and its answer."""
    call: Optional[tuple[str, str, list[str]]] = None
    for number, line in enumerate(path.read_text().splitlines(), 1):
        if line.startswith(" ") and call:
            call[2].append(line)
        elif line and not line.startswith("#"):
            if call:
                yield call
            call = (f"{path.name}:{number}", line, [])
    if call:
        yield call


def main(words: list[str]) -> int:
    stage = Stage()
    for path in [pathlib.Path(word) for word in words] or sorted((TOP / "conformance").glob("*.txt")):
        for call in calls(path):
            stage.play(*call)
    print(f"{stage.said} answers as in the files, {stage.differing} others, {stage.passed_over} that the library does not give")
    return 1 if stage.differing or not stage.said else 0


if __name__ == "__main__":
    sys.exit(main(sys.argv[1:]))
