"""Tests of the module: python3 -m unittest"""

from __future__ import annotations

import _ctypes
import contextlib
import copy
import doctest
import io
import os
import pickle
import random
import resource
import tempfile
import threading
import time
import unittest
from typing import Any, Callable, Iterable, Iterator, NamedTuple, Optional
from unittest import mock

import jolunza
import three_members
from jolunza import Awaited, Code, Counts, Delayed, Entry, Event, Frame, JolunzaError, JournalFault, Kind, LockedJournal, Member, Name
from jolunza import OtherJournal, Output, Refusal, Settings

HI = bytes.fromhex("11 07 00 01 00 02 68 69")
YO = bytes.fromhex("11 07 01 01 01 00 01 02 79 6f")
HI_YO = bytes.fromhex("21 07 00 01 00 02 02 68 69 02 79 6f")
A_B = bytes.fromhex("21 07 01 01 01 00 02 02 01 61 01 62")
HELP = bytes.fromhex("23 07 02 01 00 01 00 01")
NOTHING = Output((), (), False, False)


class Did(NamedTuple):
    """The parts of an output that many tests look at."""

    is_repeat: bool
    is_entered: bool
    delivered: int


CHANGED, UNCHANGED, REPEAT = Did(False, True, 0), Did(False, False, 0), Did(True, False, 0)


def did(output: Output) -> Did:
    return Did(output.is_repeat, output.is_entered, len(output.events))


def opened(me: int, window: int = 4, history_max: int = 100_000) -> Member:
    return Member(7, 3, window, me, history_max)


def after(me: int, *frames: bytes, window: int = 4) -> Member:
    """A member that took these."""
    member = opened(me, window)
    for frame in frames:
        member.receive(frame)
    return member


def that_cast(me: int, *payloads: bytes, window: int = 4) -> tuple[Member, list[bytes]]:
    """A member, and the frames of its casts."""
    member = opened(me, window)
    return member, [frame.bytes for payload in payloads for frame in member.cast(payload).frames]


def calls(member: Member) -> tuple[Callable[[], object], ...]:
    """Each call of a member that is open."""
    return (
        lambda: member.cast(b"hi"),
        lambda: member.cast_burst([b"hi", b"yo"]),
        lambda: member.receive(YO),
        lambda: member.load(YO),
        lambda: member.receive_loaded(0, len(YO)),
        lambda: member.receive_parts(0, [len(YO)]),
        member.tick,
        lambda: member.help(1),
        lambda: member.help_among(1, [0]),
        member.counts,
        lambda: list(member.events()),
        lambda: list(member.entries()),
        member.time,
        member.stable,
        lambda: member.stable_of(1),
        lambda: member.acknowledged_by(1),
        lambda: member.keeps_window_full(1),
        member.waiting,
        lambda: member.waits_for(1),
        lambda: member.missing(1),
        member.journal_head,
        lambda: member.journal_line(0),
    )


class Slow:
    """Stands for the library: counts its calls, and how many of them ran at once at most."""

    calls = inside = most = 0

    def __getattr__(self, name: str) -> Callable[..., int]:
        return self._call

    def _call(self, *given: object) -> int:
        self.calls, self.inside = self.calls + 1, self.inside + 1
        self.most = max(self.most, self.inside)
        time.sleep(0.005)
        self.inside -= 1
        return 0


class Case(unittest.TestCase):
    def refuses(self, code: Code, member: Member, call: Callable[..., object], *given: object) -> None:
        """The call is refused just so, and changes nothing."""
        before = (state(member), watched(member))
        with self.assertRaises(Refusal) as raised:
            call(member, *given)
        self.assertEqual(raised.exception.code, code)
        self.assertEqual((state(member), watched(member)), before)

    def answers(self, member: Member, given: str, answer: object) -> None:
        frame = bytes.fromhex(given)
        if isinstance(answer, Code):
            self.refuses(answer, member, Member.receive, frame)
        else:
            self.assertEqual(did(member.receive(frame)), answer, given)


def state(member: Member) -> tuple[object, ...]:
    """All that can be read of it."""
    read = (member.counts(), list(member.events()), list(member.entries()))
    return (*read, member.time(), member.stable(), [member.stable_of(other) for other in range(3)], missing(member))


def watched(member: Member) -> tuple[object, ...]:
    """What is read of it by who watches it."""
    reads = (member.acknowledged_by, member.keeps_window_full, member.waits_for)
    return (member.waiting(), [[read(other) for read in reads] for other in range(3)])


def others(member: Member) -> list[int]:
    return [other for other in range(3) if other != member.settings.me]


def helps(member: Member) -> list[tuple[Frame, ...]]:
    """Whom it asks for what is missing of each other member of a group of three."""
    return [member.help(other).frames for other in others(member)]


def missing(member: Member) -> list[list[range]]:
    """Of each other member of a group of three."""
    return [member.missing(other) for other in others(member)]


class WorkedExamples(Case):
    """Of docs/PROTOCOL.md, section 12: one member of group 7, of three members, with a window of 4."""

    def test_a_cast(self) -> None:
        member = opened(0)
        nothing_known: list[object] = [0, [0, 0, 0], [[], []]]
        self.assertEqual(state(member), (Counts(0, 0), [], [], (0, 0, 0), *nothing_known))
        event = Event(True, Name(0, 1), (1, 0, 0), b"hi")
        self.assertEqual(member.cast(b"hi"), Output((Frame(None, HI),), (event,), False, True))
        self.assertEqual(state(member), (Counts(1, 1), [event], [Entry(Kind.CAST, HI, ())], (1, 0, 0), *nothing_known))

    def test_a_payload_without_bytes(self) -> None:
        member = opened(0)
        for number, given in enumerate((b"", bytearray(), memoryview(b"")), 1):
            output = member.cast(given)
            self.assertEqual(output.frames, (Frame(None, bytes([0x11, 7, 0, number, 0, 0])),))
        self.assertEqual([event.payload for event in member.events()], [b"", b"", b""])

    def test_a_burst(self) -> None:
        member = opened(0)
        events = (Event(True, Name(0, 1), (1, 0, 0), b"hi"), Event(True, Name(0, 2), (2, 0, 0), b"yo"))
        self.assertEqual(member.cast_burst((b"hi", memoryview(b"yo"))), Output((Frame(None, HI_YO),), events, False, True))
        read = Counts(2, 1), [*events], [Entry(Kind.CAST, HI_YO, ())], (2, 0, 0)
        self.assertEqual(state(member), (*read, 0, [0, 0, 0], [[], []]))

    def test_a_burst_answers_a_burst(self) -> None:
        member = after(1, HI_YO)
        output = member.cast_burst([b"a", b"b"])
        self.assertEqual(output.frames, (Frame(None, A_B),))
        self.assertEqual([event.time for event in output.events], [(2, 1, 0), (2, 2, 0)])
        self.assertEqual(list(member.events(2)), [*output.events])
        self.assertEqual(member.cast(b"c").frames, (Frame(None, bytes.fromhex("11 07 01 03 00 01 63")),))

    def test_a_burst_that_overtakes_waits_as_a_whole(self) -> None:
        member = opened(2)
        self.assertEqual(did(member.receive(A_B)), CHANGED)
        self.assertEqual(did(member.receive(HI_YO)), Did(False, True, 4))
        names = (Name(0, 1), Name(0, 2), Name(1, 1), Name(1, 2))
        self.assertEqual(list(member.entries()), [Entry(Kind.ARRIVE, A_B, ()), Entry(Kind.ARRIVE, HI_YO, names)])
        self.assertEqual([event.time for event in member.events()], [(1, 0, 0), (2, 0, 0), (2, 1, 0), (2, 2, 0)])
        for again in (HI_YO, A_B):
            self.assertEqual(member.receive(again), NOTHING._replace(is_repeat=True))

    def test_a_burst_of_which_a_part_is_there(self) -> None:
        member = opened(2)
        rows: list[tuple[str, object]] = [
            ("21 07 00 04 00 02 00 00", Code.TOO_FAR),
            ("11 07 00 02 00 00", CHANGED),
            ("21 07 00 01 00 02 00 00", Code.OVERLAP),
            ("21 07 00 01 00 00", Code.MALFORMED),
            ("21 07 00 01 00 21", Code.MALFORMED),
            ("11 07 00 01 00 00", Did(False, True, 2)),
        ]
        for given, answer in rows:
            self.answers(member, given, answer)

    def test_an_answer_waits_for_its_question(self) -> None:
        member = opened(2)
        self.assertEqual(member.receive(YO), NOTHING._replace(is_entered=True))
        self.assertEqual((list(member.events()), member.missing(0), member.missing(1)), ([], [range(1, 2)], []))
        events = [Event(False, Name(0, 1), (1, 0, 0), b"hi"), Event(False, Name(1, 1), (1, 1, 0), b"yo")]
        self.assertEqual(member.receive(HI), Output((), tuple(events), False, True))
        self.assertEqual(list(member.events()), events)
        self.assertEqual([str(event.name) for event in events], ["0.1", "1.1"])
        entries = [Entry(Kind.ARRIVE, YO, ()), Entry(Kind.ARRIVE, HI, (Name(0, 1), Name(1, 1)))]
        self.assertEqual(list(member.entries()), entries)
        self.assertEqual((list(member.events(1)), list(member.entries(1))), (events[1:], entries[1:]))

    def test_what_arrives_is_refused_by_the_first_rule_that_it_breaks(self) -> None:
        member, _ = that_cast(0, b"hi")
        rows: list[tuple[str, object]] = [
            ("11 07 00 01 00 02 68 69", REPEAT),
            ("12 07 00 01 00 01", UNCHANGED),
            ("11 07 00 09 00 00", Code.IMPOSSIBLE),
            ("12 07 01 01 00 02", Code.IMPOSSIBLE),
            ("13 07 00 00 01 00 00", Code.IMPOSSIBLE),
            ("12 07 00 01 00 02", Code.IMPOSSIBLE),
            ("11 08 01 01 00 00", Code.OTHER_GROUP),
            ("11 07 03 01 00 00", Code.BAD_MEMBER),
            ("11 07 40", Code.MALFORMED),
            ("", Code.MALFORMED),
            ("11 07 01 02 00 02 6f 6b", CHANGED),
            ("11 07 01 01 01 00 01 02 79 6f", Did(False, True, 2)),
        ]
        for given, answer in rows:
            self.answers(member, given, answer)
        self.assertEqual((member.time(), member.stable()), ((1, 2, 0), 0))
        self.answers(member, "12 07 02 01 00 01", CHANGED)
        self.assertEqual(member.stable(), 1)
        self.assertEqual(member.receive(bytes.fromhex("13 07 02 00 01 00 00")), NOTHING)

    def test_a_tick_says_a_status_and_asks_for_what_is_missing(self) -> None:
        member = opened(2)
        for is_entered in (True, False):
            self.assertEqual(member.tick(), Output((Frame(None, bytes.fromhex("12 07 02 00")),), (), False, is_entered))
            self.assertEqual(member.counts(), Counts(0, 1))
        _, (first, second, _, fourth) = that_cast(0, b"a", b"b", b"c", b"d")
        for frames, status, request in (
            ((first, fourth), "12 07 02 01 00 01", "13 07 02 00 01 01 01"),
            ((second, fourth), "12 07 02 00", "13 07 02 00 02 00 00 00 00"),
        ):
            member = after(2, *frames)
            self.assertEqual(member.tick().frames, (Frame(None, bytes.fromhex(status)), Frame(0, bytes.fromhex(request))))
        self.assertEqual(list(member.entries())[-1], Entry(Kind.TICK, bytes.fromhex("12 07 02 00"), ()))

    def test_a_request_is_answered_by_the_asked_member(self) -> None:
        member, _ = that_cast(0, b"a", b"b", b"c", b"d")
        request = bytes.fromhex("13 07 02 00 01 01 01")
        again = ["11 07 00 02 00 01 62", "11 07 00 03 00 01 63"]
        self.assertEqual(member.receive(request), NOTHING._replace(frames=tuple(Frame(2, bytes.fromhex(text)) for text in again)))
        self.assertEqual(opened(1).receive(request), NOTHING)

    def test_a_third_member_is_asked_for_what_is_missing(self) -> None:
        for history_max in (100, 0):
            member = opened(2, history_max=history_max)
            self.assertEqual(helps(member), [(), ()])
            self.assertEqual(did(member.receive(bytes.fromhex("12 07 01 01 00 02"))), CHANGED)
            before = state(member)
            self.assertEqual(member.help(0), NOTHING._replace(frames=(Frame(1, HELP),)))
            self.assertEqual(helps(member), [(Frame(1, HELP),), ()])
            self.assertEqual(member.help_among(0, [2, 0, 1]), member.help(0))
            for nobody in ([], [0, 2]):
                self.assertEqual(member.help_among(0, nobody), NOTHING)
            for other, members in ((2, [1]), (3, [1]), (0, [1, 3]), (0, [-1])):
                self.refuses(Code.BAD_MEMBER, member, Member.help_among, other, members)
            self.assertEqual(state(member), before)
            member.receive(bytes.fromhex("11 07 00 01 00 01 61"))
            self.assertEqual(helps(member), [(Frame(1, bytes.fromhex("23 07 02 01 00 01 01 00")),), ()])
            member.receive(bytes.fromhex("11 07 00 02 00 01 62"))
            self.assertEqual(helps(member), [(), ()])

    def test_what_waits_tells_what_it_waits_for(self) -> None:
        member = after(2, bytes.fromhex("11 07 01 01 01 00 02 00"), bytes.fromhex("11 07 00 03 00 00"))
        both = Awaited(0, range(1, 3))
        self.assertEqual(member.waiting(), 2)
        self.assertEqual(member.waits_for(0), Delayed(Name(0, 3), both))
        self.assertEqual(member.waits_for(1), Delayed(Name(1, 1), both))
        self.assertEqual(member.waits_for(2), None)
        member.receive(bytes.fromhex("21 07 00 01 00 02 00 00"))
        self.assertEqual((member.waiting(), member.waits_for(0), member.waits_for(1)), (0, None, None))
        # forged: it counts a message that this member has yet to cast
        member.receive(bytes.fromhex("11 07 01 02 01 02 01 00"))
        self.assertEqual(member.waits_for(1), Delayed(Name(1, 2), Awaited(2, range(1, 2))))
        member.cast(b"")
        self.assertEqual(member.waits_for(1), Delayed(Name(1, 2), None))

    def test_who_delivered_none_of_the_last_casts_keeps_the_window_full(self) -> None:
        member, _ = that_cast(0, b"a", b"b", b"c")
        self.assertEqual([member.keeps_window_full(other) for other in range(3)], [False] * 3)
        member.cast(b"d")
        self.assertEqual([member.keeps_window_full(other) for other in range(3)], [False, True, True])
        member.receive(bytes.fromhex("12 07 01 01 00 01"))
        self.assertEqual([member.keeps_window_full(other) for other in range(3)], [False, False, True])
        self.assertEqual([member.acknowledged_by(other) for other in range(3)], [4, 1, 0])

    def test_a_helper_hands_on_what_it_has_delivered(self) -> None:
        frames = [bytes.fromhex("11 07 00 01 00 01 61"), bytes.fromhex("11 07 00 02 00 01 62")]
        for window, handed_on in ((4, frames), (1, frames[1:])):
            member = after(1, *frames, window=window)
            member.cast(b"x")
            self.assertEqual(member.receive(HELP), NOTHING._replace(frames=tuple(Frame(2, frame) for frame in handed_on)))
        self.answers(member, "12 07 02 01 00 02", CHANGED)
        self.assertEqual((member.receive(HELP), member.stable_of(0)), (NOTHING, 2))
        member = after(1, *frames[1:])
        self.assertEqual(member.receive(HELP), NOTHING)
        for given, answer in (
            ("23 07 01 01 00 01 00 00", Code.IMPOSSIBLE),
            ("23 07 02 01 02 01 00 00", Code.IMPOSSIBLE),
            ("23 07 02 01 01 01 00 00", Code.IMPOSSIBLE),
            ("23 07 02 01 03 01 00 00", Code.BAD_MEMBER),
            ("23 08 02 01 00 01 00 00", Code.OTHER_GROUP),
            ("23 07 02 01 00 00", Code.MALFORMED),
        ):
            self.answers(member, given, answer)

    def test_a_cast_beyond_the_window(self) -> None:
        member = opened(2)
        self.answers(member, "11 07 00 05 00 00", Code.TOO_FAR)
        self.answers(member, "11 07 00 04 00 00", CHANGED)

    def test_a_history_of_one_entry(self) -> None:
        member = opened(0, history_max=1)
        member.cast(b"hi")
        for given, answer in (
            ("11 07 01 01 00 00", Code.HISTORY_FULL),
            ("11 07 00 01 00 02 68 69", REPEAT),
            ("12 07 01 00", UNCHANGED),
            ("12 07 01 01 02 05", Code.HISTORY_FULL),
        ):
            self.answers(member, given, answer)
        self.refuses(Code.HISTORY_FULL, member, Member.tick)
        self.refuses(Code.HISTORY_FULL, member, Member.cast, b"")


class Refusals(Case):
    """Each code that no worked example answers."""

    def test_of_opening(self) -> None:
        for given, code in (
            ((7, 1, 4, 0, 10), Code.BAD_GROUP),
            ((7, 65, 4, 0, 10), Code.BAD_GROUP),
            ((7, 3, 0, 9, 16_777_217), Code.BAD_GROUP),
            ((7, 3, 257, 0, 10), Code.BAD_GROUP),
            ((7, 3, 4, 3, 16_777_217), Code.BAD_MEMBER),
            ((7, 3, 4, 0, 16_777_217), Code.BAD_LIMIT),
        ):
            with self.assertRaises(Refusal) as raised:
                Member(*given)
            self.assertEqual(raised.exception.code, code)
        for group, limit in ((0, 0), (0, 1), (0xFFFF_FFFF, 16_777_216)):
            Member(group, 64, 256, 63, limit).close()

    def test_of_casting(self) -> None:
        member, _ = that_cast(0, b"a" * 1024, b"b", b"c")
        self.refuses(Code.PAYLOAD_TOO_LONG, member, Member.cast, b"a" * 1025)
        member.cast(b"d")
        self.refuses(Code.WINDOW_FULL, member, Member.cast, b"e")
        self.refuses(Code.PAYLOAD_TOO_LONG, member, Member.cast, b"a" * 1025)

    def test_of_bursts(self) -> None:
        member = opened(0, history_max=1)
        for payloads, code in (
            ([], Code.EMPTY_BURST),
            ([b""] * 33, Code.BURST_TOO_LONG),
            ([b"a" * 2000] * 33, Code.BURST_TOO_LONG),
            ([b"a" * 1024, b"b"], Code.PAYLOAD_TOO_LONG),
            ([b"a" * 33] * 32, Code.PAYLOAD_TOO_LONG),
            ([b""] * 5, Code.WINDOW_FULL),
        ):
            self.refuses(code, member, Member.cast_burst, payloads)
        member.cast_burst([b"a" * 1023, b"", b"b"])
        self.assertEqual([len(event.payload) for event in member.events()], [1023, 0, 1])
        self.refuses(Code.WINDOW_FULL, member, Member.cast_burst, [b"", b""])
        self.refuses(Code.HISTORY_FULL, member, Member.cast_burst, [b""])

    def test_of_a_number_that_no_member_has(self) -> None:
        member, _ = that_cast(1, b"hi")
        of_others: list[Callable[[Member, int], object]] = [Member.missing, Member.help]
        of_all = [*of_others, Member.stable_of, Member.acknowledged_by, Member.keeps_window_full, Member.waits_for]
        for call in of_all:
            for other in (3, 99, 0xFFFF_FFFF, -1, 1 << 32, (1 << 64) + 1):
                self.refuses(Code.BAD_MEMBER, member, call, other)
        for call in of_others:
            self.refuses(Code.BAD_MEMBER, member, call, 1)
        for me in (-1, 1 << 32):
            with self.assertRaises(Refusal) as raised:
                Member(7, 3, 4, me)
            self.assertEqual(raised.exception.code, Code.BAD_MEMBER)

    def test_of_a_closed_member(self) -> None:
        with opened(0) as member:
            member.cast(b"hi")
        for call in calls(member):
            with self.assertRaises(Refusal) as raised:
                call()
            self.assertEqual((raised.exception.code, str(raised.exception)), (Code.CLOSED, "the handle holds no member"))

    def test_without_memory(self) -> None:
        """Members are opened until there is no memory. What nobody holds is freed, and then the same call succeeds."""
        limits = resource.getrlimit(resource.RLIMIT_AS)
        with open("/proc/self/statm", encoding="ascii") as file:
            used = int(file.read().split()[0]) * resource.getpagesize()
        self.addCleanup(resource.setrlimit, resource.RLIMIT_AS, limits)
        resource.setrlimit(resource.RLIMIT_AS, (used + (64 << 20), limits[1]))
        held: list[Member] = []
        with self.assertRaises(Refusal) as raised:
            held.extend(Member(7, 64, 256, 0) for _ in range(100))
        self.assertEqual(raised.exception.code, Code.NO_MEMORY)
        self.assertGreater(len(held), 0)
        held.clear()
        for _ in range(100):
            Member(7, 64, 256, 0).tick()

    def test_of_an_index_that_is_not_there(self) -> None:
        """The module asks for no such entry, but the call below it."""
        with self.assertRaises(Refusal) as raised:
            opened(0)._entry(0, 1)
        self.assertEqual(raised.exception.code, Code.NONE_THERE)

    def test_of_a_later_library(self) -> None:
        """It may answer what the module has no name for."""
        member, later = opened(0), max(Code) + 1
        library = mock.Mock(**{"jolunza_tick.return_value": later})
        with mock.patch.object(member, "_library", library), self.assertRaises(Refusal) as raised:
            member.tick()
        self.assertEqual((raised.exception.code, raised.exception.code.name), (later, f"UNKNOWN_{later}"))
        self.assertEqual(str(raised.exception), f"unknown code {later}")
        with self.assertRaises(ValueError):
            Code(-1)


class Errors(Case):
    def test_each_is_a_jolunza_error(self) -> None:
        for error in (Refusal, JournalFault, OtherJournal, LockedJournal):
            self.assertTrue(issubclass(error, JolunzaError))

    def test_which_are_of_a_frame_and_which_pass(self) -> None:
        of_frames = (Code.MALFORMED, Code.OTHER_GROUP, Code.BAD_MEMBER, Code.IMPOSSIBLE, Code.TOO_FAR, Code.OVERLAP, Code(99))
        for code in (*Code, Code(99)):
            for call in ("receive", "receive_loaded", "receive_parts"):
                self.assertEqual(Refusal(code, call).is_frame_fault, code in of_frames, code.name)
            self.assertFalse(Refusal(code, "help").is_frame_fault)
            self.assertEqual(Refusal(code, "cast").is_transient, code in (Code.WINDOW_FULL, Code.NO_MEMORY))
        with self.assertRaises(Refusal) as raised:
            opened(1).help(9)
        self.assertFalse(raised.exception.is_frame_fault)
        with self.assertRaises(Refusal) as raised:
            opened(1).receive(bytes.fromhex("11 07 09 01 00 00"))
        self.assertTrue(raised.exception.is_frame_fault)

    def test_each_code_has_a_sentence(self) -> None:
        self.assertEqual(len({code.text for code in Code}), len(Code))
        for code in Code:
            self.assertRegex(code.text, "^[a-z].*[^.]$")
        self.assertEqual(str(Refusal(Code.WINDOW_FULL, "cast")), "the window is full: try again after the next frame")

    def test_what_is_printed(self) -> None:
        full, damaged = Refusal(Code.WINDOW_FULL, "cast"), Refusal(Code.BAD_LINE, "resume", 4, "a/b")
        self.assertEqual(repr(full), "Refusal(Code.WINDOW_FULL, 'cast')")
        self.assertEqual(repr(damaged), "Refusal(Code.BAD_LINE, 'resume', line=4, path='a/b')")
        self.assertEqual(str(damaged), "a/b, line 4: a line of the journal is damaged")
        self.assertEqual(repr(Code(99)), "<Code.UNKNOWN_99: 99>")
        self.assertEqual(repr(opened(1)), "Member(group=7, size=3, window=4, me=1, history_max=100000)")
        other = OtherJournal("a/b", Settings(7, 3, 8, 1))
        self.assertEqual(str(other), "a/b: the journal is of member 1 of 3, group 7, window 8")
        for error in (full, damaged, other, JournalFault("a/b", "gone"), LockedJournal("a/b", "another has the journal open")):
            again = pickle.loads(pickle.dumps(error))
            self.assertEqual((type(again), str(again), vars(again)), (type(error), str(error), vars(error)))


class Senders(Case):
    def test_of_each_kind_of_frame(self) -> None:
        for frame, sender in ((HI, (7, 0)), (YO, (7, 1)), (A_B, (7, 1)), (HELP, (7, 2))):
            self.assertEqual(jolunza.sender(frame), sender)
        self.assertEqual(jolunza.sender(bytearray.fromhex("12 08 02 01 00 01")), (8, 2))
        self.assertEqual(jolunza.sender(memoryview(bytes.fromhex("13 07 02 00 01 00 00"))), (7, 2))
        for given in (b"", b"?", HI[:-1], HI + b"?"):
            with self.assertRaises(Refusal) as raised:
                jolunza.sender(given)
            self.assertEqual((raised.exception.code, raised.exception.is_frame_fault), (Code.MALFORMED, True))


class Loading(Case):
    """Frames that are parts of bytes that were loaded at once."""

    def test_parts_are_taken_in_any_order(self) -> None:
        _, (first, second) = that_cast(0, b"a", b"bc")
        for history_max in (100, 0):
            member = opened(1, history_max=history_max)
            loaded = bytearray(first + second)
            member.load(memoryview(loaded))
            loaded[:] = bytes(len(loaded))
            self.assertEqual(member.counts(), Counts(0, 0))
            self.assertEqual(did(member.receive_loaded(len(first), len(second))), CHANGED)
            member.cast(b"hi")
            self.assertEqual(did(member.receive_loaded(0, len(first))), Did(False, True, 2))
            self.assertEqual(did(member.receive_loaded(0, len(first))), REPEAT)

    def test_parts_are_taken_in_one_call(self) -> None:
        _, frames = that_cast(0, b"a", b"bc", b"d")
        lengths = [len(frame) for frame in frames]
        for history_max in (100, 0):
            member = opened(1, history_max=history_max)
            member.cast(b"hi")
            member.load(b"".join(frames) + b"\0")
            taken, output = member.receive_parts(0, [*lengths, 1])
            self.assertEqual((taken, output.frames, did(output)), (3, (), Did(False, True, 3)))
            self.assertEqual([event.payload for event in output.events], [b"a", b"bc", b"d"])
            kept = state(member)
            refused: list[tuple[int, list[int], Code]] = [
                (sum(lengths), [1], Code.MALFORMED),
                (sum(lengths), [2], Code.NONE_THERE),
                (0, [], Code.NONE_THERE),
            ]
            for first, given, code in refused:
                with self.assertRaises(Refusal) as raised:
                    member.receive_parts(first, given)
                self.assertEqual(raised.exception.code, code)
            for first, given in ((-1, [8]), (0, [-1]), (0, [1 << 64])):
                with self.assertRaises(OverflowError):
                    member.receive_parts(first, given)
            self.assertEqual(state(member), kept)

    def test_what_was_taken_stays_and_what_was_not_is_gone(self) -> None:
        _, (first, second) = that_cast(0, b"a", b"bc")
        member = opened(1)
        member.load(first + second)
        member.receive_loaded(0, len(first))
        member.load(b"")
        self.assertEqual([event.payload for event in member.events()], [b"a"])
        self.part_is_refused(member, len(first), len(second), Code.NONE_THERE)

    def test_of_what_is_not_loaded(self) -> None:
        member = opened(1)
        self.part_is_refused(member, 0, 1, Code.NONE_THERE)
        self.part_is_refused(member, 0, 0, Code.MALFORMED)
        member.load(HI)
        most = (1 << 64) - 1
        for first, length in ((0, 9), (1, 8), (8, 1), (9, 0), (0, most), (1, most), (most, 1), (most, most)):
            self.part_is_refused(member, first, length, Code.NONE_THERE)
        self.part_is_refused(member, 8, 0, Code.MALFORMED)
        self.part_is_refused(member, 1, 7, Code.MALFORMED)
        for first, length in ((-1, 8), (0, -1), (1 << 64, 1)):
            with self.assertRaises(OverflowError):
                member.receive_loaded(first, length)
        self.assertEqual(did(member.receive_loaded(0, 8)), Did(False, True, 1))

    def part_is_refused(self, member: Member, first: int, length: int, code: Code) -> None:
        before = state(member)
        with self.assertRaises(Refusal) as raised:
            member.receive_loaded(first, length)
        self.assertEqual(raised.exception.code, code)
        self.assertEqual(state(member), before)


class WithoutHistory(Case):
    """Each call answers what it did itself, and only the last one that was done can be read."""

    def test_is_what_is_opened(self) -> None:
        member = Member(7, 3, 4, 0)
        self.assertFalse(member.keeps_history)
        self.assertFalse(Member.resume(member.journal_head()).member.keeps_history)
        for payload in (b"before", b"hi"):
            member.cast(payload)
        self.assertEqual([event.payload for event in member.events()], [b"hi"])

    def test_of_calls_one_after_another(self) -> None:
        """None loses frames or events of the one before, whatever is read between them."""
        first, second = bytes.fromhex("11 07 02 01 00 01 61"), bytes.fromhex("11 07 01 01 00 01 62")
        request, status = bytes.fromhex("13 07 02 00 01 00 00"), bytes.fromhex("12 07 01 01 02 02")
        loaded = [bytes.fromhex("11 07 02 02 00 01 63"), bytes.fromhex("11 07 01 02 00 01 64"), request]
        calls: list[Callable[[Member], Output]] = [
            lambda member: member.cast(b"hi"),
            lambda member: member.cast_burst([b"a", b"b"]),
            lambda member: member.receive(first),
            lambda member: member.receive(second),
            lambda member: member.receive(second),
            lambda member: member.receive(request),
            lambda member: member.receive(status),
            lambda member: member.help(2),
            Member.tick,
            Member.tick,
            lambda member: member.receive_parts(0, list(map(len, loaded)))[1],
            lambda member: member.receive_loaded(0, len(loaded[0])),
        ]
        kept, plain = opened(0, history_max=100), opened(0, history_max=0)
        for member in (kept, plain):
            member.load(b"".join(loaded))
        outputs = [call(kept) for call in calls]
        self.assertEqual([call(plain) for call in calls], outputs)
        self.assertEqual([len(output.frames) for output in outputs], [1, 1, 0, 0, 0, 1, 0, 1, 2, 2, 1, 0])
        self.assertEqual([len(output.events) for output in outputs], [1, 2, 1, 1, 0, 0, 0, 0, 0, 0, 2, 0])
        self.assertEqual([event for output in outputs for event in output.events], list(kept.events()))
        self.assertEqual([output.is_repeat for output in outputs], [place in (4, 11) for place in range(12)])
        self.assertEqual([output.is_entered for output in outputs], [place in (0, 1, 2, 3, 6, 8, 10) for place in range(12)])

    def test_of_deliveries(self) -> None:
        member = opened(2, history_max=0)
        self.assertEqual(did(member.receive(YO)), CHANGED)
        self.assertEqual((list(member.events()), list(member.entries())), ([], [Entry(Kind.ARRIVE, YO, ())]))
        output = member.receive(HI)
        names = (Name(0, 1), Name(1, 1))
        self.assertEqual(tuple(event.name for event in output.events), names)
        self.assertEqual((list(member.events()), list(member.entries())), ([*output.events], [Entry(Kind.ARRIVE, HI, names)]))
        self.answers(member, "ff", Code.MALFORMED)
        self.assertEqual(member.help(0), NOTHING)
        self.assertEqual(member.counts(), Counts(2, 1))
        self.assertEqual(did(member.receive(HI)), REPEAT)
        self.assertEqual(member.counts(), Counts(0, 0))

    def test_that_is_never_full(self) -> None:
        member = opened(2, history_max=0)
        for number in range(1, 100):
            self.assertEqual(did(member.receive(bytes([0x11, 7, 0, number, 0, 0]))), Did(False, True, 1))
        self.assertEqual((member.time(), member.counts()), ((99, 0, 0), Counts(1, 1)))


class Copies(Case):
    """More than one buffer of the module holds."""

    def test_of_events(self) -> None:
        payloads = [bytes([place]) * (place * 41 % 1025) for place in range(100)]
        member, _ = that_cast(1, *payloads, window=256)
        events = list(member.events())
        self.assertEqual([event.payload for event in events], payloads)
        self.assertEqual([event.time for event in events], [(0, number, 0) for number in range(1, 101)])
        self.assertEqual([event.name for event in events], [Name(1, number) for number in range(1, 101)])
        for first in (1, 16, 99, 100, 1000):
            self.assertEqual(list(member.events(first)), events[first:])

    def test_of_a_burst(self) -> None:
        payloads = [bytes([place]) * 32 for place in range(32)]
        member = opened(1, window=256)
        events = [event for _ in range(3) for event in member.cast_burst(payloads).events]
        self.assertEqual(list(member.events()), events)
        self.assertEqual([event.payload for event in events], payloads * 3)
        self.assertEqual([event.time for event in events], [(0, number, 0) for number in range(1, 97)])

    def test_of_events_that_come_while_they_are_read(self) -> None:
        member, _ = that_cast(1, *[b"a"] * 40, window=256)
        events = member.events()
        next(events)
        member.cast(b"last")
        self.assertEqual([event.payload for event in events], [b"a"] * 39 + [b"last"])

    def test_of_frames_and_missing_ranges(self) -> None:
        payloads = [bytes([place]) * (1024 - place) for place in range(64)]
        member, frames = that_cast(0, *payloads, window=64)
        other = after(2, *frames[1::2], window=64)
        self.assertEqual(other.missing(0), [range(number, number + 1) for number in range(1, 65, 2)])
        request = other.tick().frames[1]
        self.assertEqual(member.receive(request.bytes).frames, tuple(Frame(2, frame) for frame in frames[::2]))

    def test_of_the_names_that_one_arrival_delivered(self) -> None:
        _, frames = that_cast(0, *[b"a"] * 40, window=64)
        member = after(2, *frames[:0:-1], window=64)
        output = member.receive(frames[0])
        *_, last = member.entries()
        self.assertEqual(last, Entry(Kind.ARRIVE, frames[0], tuple(Name(0, number) for number in range(1, 41))))
        self.assertEqual(tuple(event.name for event in output.events), last.delivered)


class Values(Case):
    def test_numbers_that_ctypes_would_cut(self) -> None:
        for given in ((1 << 32, 3, 4, 0), (-1, 3, 4, 0), (7, (1 << 32) + 3, 4, 0), (7, 3, 4, 0, 1 << 64)):
            with self.assertRaises(OverflowError):
                Member(*given)
        for read in (opened(0).events, opened(0).entries):
            with self.assertRaises(OverflowError):
                list(read(-1))

    def test_payloads_are_bytes(self) -> None:
        member = opened(0)
        calls: list[Callable[[Any], object]] = [member.cast, member.receive, member.load, lambda given: member.cast_burst([b"hi", given])]
        for given in ("hi", 5, None):
            for call in calls:
                with self.assertRaises(TypeError):
                    call(given)
        for payloads in ("hi", b"hi", 5, None):
            with self.assertRaises(TypeError):
                member.cast_burst(payloads)  # type: ignore[arg-type]
        for call in (member.help, lambda number: member.receive_loaded(0, number), lambda number: Member(7, 3, 4, number)):
            with self.assertRaises(TypeError):
                call(0.5)
        self.assertEqual(member.counts(), Counts(0, 0))

    def test_a_member_has_no_copy(self) -> None:
        with self.assertRaises((TypeError, ValueError)):
            copy.deepcopy(opened(0))

    def test_threads_take_turns(self) -> None:
        for call in calls(member := opened(0)):
            library = Slow()
            with mock.patch.object(member, "_library", library):
                threads = [threading.Thread(target=call) for _ in range(3)]
                for thread in threads:
                    thread.start()
                for thread in threads:
                    thread.join()
            self.assertEqual((library.most, library.calls % 3), (1, 0))
            self.assertGreater(library.calls, 0)

    def test_no_library(self) -> None:
        with mock.patch.dict(os.environ, JOLUNZA_LIB="/nowhere"):
            with self.assertRaisesRegex(JolunzaError, "/nowhere/libjolunza.so.*JOLUNZA_LIB names"):
                jolunza.library.__wrapped__()

    def test_an_older_library(self) -> None:
        """It lacks a call; here all of them."""
        with tempfile.TemporaryDirectory() as folder, mock.patch.dict(os.environ, JOLUNZA_LIB=folder):
            os.symlink(_ctypes.__file__, os.path.join(folder, jolunza.LIBRARY))
            with self.assertRaisesRegex(JolunzaError, "undefined symbol: jolunza_"):
                jolunza.library.__wrapped__()


def pasts(order: list[Name], logs: list[list[Name]]) -> dict[Name, set[Name]]:
    """Of each message, in the order of the casts, what happened before it: what stands before its cast in its sender's log, and what
    happened before that. No time is read."""
    past: dict[Name, set[Name]] = {}
    gathered: list[set[Name]] = [set() for _ in logs]
    places = [0 for _ in logs]
    for name in order:
        me = name.sender
        place = logs[me].index(name)
        gathered[me].update(*({one} | past[one] for one in logs[me][places[me] : place]))
        past[name] = set(gathered[me])
        places[me] = place
    return past


def too_early(order: list[Name], logs: list[list[Name]]) -> Iterator[tuple[int, Name]]:
    """Who has a message in its log before something that happened before it."""
    past = pasts(order, logs)
    for me, log in enumerate(logs):
        seen: set[Name] = set()
        for name in log:
            if not past[name] <= seen:
                yield me, name
            seen.add(name)


class Network:
    """Loses, repeats and reorders frames, as its seed says."""

    def __init__(self, seed: int, size: int) -> None:
        self.dice, self._size = random.Random(seed), size
        self.on_its_way: list[tuple[int, bytes]] = []
        self.lost = self.repeated = self.overtaken = 0

    def send(self, me: int, frames: Iterable[Frame]) -> None:
        for frame in frames:
            for to in range(self._size) if frame.to is None else [frame.to]:
                copies = 0 if to == me else self.dice.choice((0, 1, 1, 1, 2))
                self.lost += to != me and copies == 0
                self.repeated += copies == 2
                self.on_its_way += [(to, frame.bytes)] * copies

    def take(self) -> Optional[tuple[int, bytes]]:
        """Any of the frames that are on their way."""
        if not self.on_its_way:
            return None
        place = self.dice.randrange(len(self.on_its_way))
        self.overtaken += place > 0
        return self.on_its_way.pop(place)


class Group:
    """Members over such a network, and of each the events that its calls answered."""

    def __init__(self, seed: int, messages: int, window: int = 8, history_max: int = 0) -> None:
        self.members = [Member(7, 3, window, me, history_max) for me in range(3)]
        self.network, self.left = Network(seed, 3), messages
        self.shown: list[list[Event]] = [[] for _ in self.members]
        self.order: list[Name] = []

    def call(self, me: int, call: Callable[..., Output], *given: object) -> None:
        output = call(self.members[me], *given)
        self.network.send(me, output.frames)
        self.shown[me] += output.events

    def cast(self, me: int) -> None:
        """One message, or two at once."""
        if not self.left:
            return
        payloads = [b"message %d" % left for left in range(self.left, max(self.left - 2, 0), -1)]
        last = self.members[me].time()[me]
        try:
            if self.left % 3 == 0:
                self.call(me, Member.cast_burst, payloads)
            else:
                self.call(me, Member.cast, payloads[0])
        except Refusal as refusal:
            if refusal.code != Code.WINDOW_FULL:
                raise
        else:
            cast = range(last + 1, self.members[me].time()[me] + 1)
            self.left -= len(cast)
            self.order += [Name(me, number) for number in cast]

    def step(self) -> None:
        """A frame arrives, or somebody casts or ticks."""
        dice = self.network.dice
        taken = self.network.take() if dice.random() < 0.7 else None
        if taken:
            self.call(taken[0], Member.receive, taken[1])
        elif dice.random() < 0.7:
            self.cast(dice.randrange(3))
        else:
            self.call(dice.randrange(3), Member.tick)

    def run(self, steps: int) -> int:
        """Until all is said, delivered and known to be, or for so many steps; says how many."""
        for step in range(steps):
            if not self.left and all(self.members[name.sender].stable() >= name.number for name in self.order[-50:]):
                return step
            self.step()
        return steps

    def logs(self) -> list[list[Name]]:
        return [[event.name for event in events] for events in self.shown]


THREE_MEMBERS = """\
member 0 casts 0.1 when?
member 1 shows 0.1 when?
member 1 casts 1.1 noon
member 0 shows 1.1 noon
member 2 shows 0.1 when?
member 2 shows 1.1 noon
member 0 dropped 1 datagram
all have 1 cast of member 0
"""


class Example(Case):
    def test_three_members(self) -> None:
        printed = io.StringIO()
        with contextlib.redirect_stdout(printed):
            three_members.main()
        self.assertEqual(printed.getvalue(), THREE_MEMBERS)


class Lossy(Case):
    MESSAGES = 1_000

    def test_three_members(self) -> None:
        for history_max in (0, 100_000):
            self.all_is_delivered(Group(5, self.MESSAGES, history_max=history_max))

    def all_is_delivered(self, group: Group) -> None:
        self.assertLess(group.run(200_000), 200_000)
        logs = group.logs()
        self.assertEqual([sorted(log) for log in logs], [sorted(group.order)] * 3)
        self.assertEqual(len(set(group.order)), self.MESSAGES)
        self.assertEqual(list(too_early(group.order, logs)), [])
        spoken = {event.name: event.payload for event in group.shown[0]}
        self.assertEqual({spoken[name] for name in group.order}, {b"message %d" % left for left in range(1, 1001)})
        for member, events in zip(group.members, group.shown):
            self.assertEqual({event.name: event.payload for event in events}, spoken)
            if member.keeps_history:
                self.assertEqual(list(member.events()), events)
        for count in (group.network.lost, group.network.repeated, group.network.overtaken):
            self.assertGreater(count, self.MESSAGES // 2)

    def test_a_message_that_is_too_early_is_found(self) -> None:
        group = Group(6, 60)
        group.run(20_000)
        order, logs = group.order, group.logs()
        self.assertEqual(list(too_early(order, logs)), [])
        past, log = pasts(order, logs), logs[2]
        own = {name for name in log if name.sender == 2}
        pairs = [place for place in range(len(log) - 1) if log[place] in past[log[place + 1]] and not own & {*log[place : place + 2]}]
        self.assertGreater(len(pairs), 10)
        for place in pairs:
            swapped = log[:place] + [log[place + 1], log[place]] + log[place + 2 :]
            self.assertIn((2, log[place + 1]), list(too_early(order, [logs[0], logs[1], swapped])))


def load_tests(loader: unittest.TestLoader, tests: unittest.TestSuite, pattern: Optional[str]) -> unittest.TestSuite:
    """The page's example is a test too."""
    tests.addTests(doctest.DocFileSuite("README.md"))
    return tests


if __name__ == "__main__":
    unittest.main()
