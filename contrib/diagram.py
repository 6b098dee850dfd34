#!/usr/bin/env python3
"""Draws who knew what when in a group: a space-time diagram (SVG) of a trace, or of journals of its members.

    diagram.py FILE..               the picture, on standard output
    diagram.py --past 1.3 FILE..    with all that happened before message 1.3 in colour
    diagram.py --shiviz FILE..      the casts and deliveries as a log for ShiViz

A FILE is a trace, a part of one, or a journal; several are joined, and `-` is standard input. Python 3.9, the standard library alone.
The order of each member's entries, and the cast of each delivery, give what happened before what. Vector times are
shown and compared with what was delivered. They only say what happened before a cast of a member whose history is not given.
"""

from __future__ import annotations

import argparse
import bisect
import dataclasses
import enum
import heapq
import html
import json
import math
import re
import sys
from collections import defaultdict
from typing import Callable, Iterator, NamedTuple, Optional, Tuple

MOST_MEMBERS, LONGEST_PAYLOAD, MOST_MESSAGES, LAST_NUMBER = 64, 1024, 32, 0xFFFFFFFF


class Fault(Exception):
    """What is wrong with what was given. The text names the file and the line."""


# ---- what the files contain

NUMBER, HEX, NAME = "(?:0|[1-9][0-9]{0,9})", "(?:[0-9a-f]{2})+", r"(?:0|[1-9][0-9]?)\.[1-9][0-9]{0,9}"
HEAD = re.compile(f"cbcast 1 group ({NUMBER}) size ({NUMBER}) window ({NUMBER})(?: member ({NUMBER}))?")
MEMBER_OR_END = re.compile(f"member ({NUMBER}) entries ({NUMBER})|end")
ENTRY = re.compile(f"(cast|tick) ({HEX})|(arrive) ({HEX}) (-|{NAME}(?: {NAME})*)")


class Name(NamedTuple):
    """A message: who cast it, and its number there."""

    sender: int
    number: int

    def __str__(self) -> str:
        return f"{self.sender}.{self.number}"


class Group(NamedTuple):
    number: int
    size: int
    window: int


class Entry(NamedTuple):
    """A line of a history; `place` is its file and number."""

    place: str
    word: str
    frame: bytes
    names: tuple[Name, ...]


class History(NamedTuple):
    place: str
    member: int
    entries: list[Entry]


class Text:
    """The lines of a file, taken one after the other. Bytes behind the last line feed are no line."""

    def __init__(self, path: str, data: bytes) -> None:
        *self._lines, self.torn = data.decode("latin-1").split("\n")
        self._path, self._taken = path, 0

    @property
    def place(self) -> str:
        return f"{self._path}:{self._taken}"

    @property
    def left(self) -> int:
        return len(self._lines) - self._taken

    def take(self, form: re.Pattern[str], wanted: str) -> re.Match[str]:
        self._taken += 1
        if self.left < 0:
            raise Fault(f"{self.place}: the file is cut: {wanted} is missing")
        match = form.fullmatch(self._lines[self._taken - 1])
        if not match:
            raise Fault(f"{self.place}: the line is not {wanted}")
        return match


def name_of(word: str) -> Optional[Name]:
    if not re.fullmatch(NAME, word):
        return None
    name = Name(*map(int, word.split(".")))
    return name if name.sender < MOST_MEMBERS and name.number <= LAST_NUMBER else None


def take_entry(text: Text, wanted: str) -> Entry:
    match = text.take(ENTRY, wanted)
    names = [name_of(word) for word in (match[5] or "-").split() if word != "-"]
    if None in names:
        raise Fault(f"{text.place}: the line is not {wanted}")
    return Entry(text.place, match[1] or match[3], bytes.fromhex(match[2] or match[4]), tuple(filter(None, names)))


def take_entries(text: Text, member: int, count: int) -> list[Entry]:
    return [take_entry(text, f"entry {number} of member {member}") for number in range(1, count + 1)]


def member_of(text: Text, word: str, group: Group) -> int:
    if int(word) >= group.size:
        raise Fault(f"{text.place}: member {word} is out of range: the members are 0 to {group.size - 1}")
    return int(word)


def histories_in_trace(text: Text, group: Group) -> list[History]:
    found: list[History] = []
    while True:
        match = text.take(MEMBER_OR_END, "`member I entries C`, or `end` behind the last member")
        if match[0] == "end":
            break
        place, member = text.place, member_of(text, match[1], group)
        found.append(History(place, member, take_entries(text, member, int(match[2]))))
    if text.left or text.torn or not found:
        raise Fault(f"{text.place}: `end` is the last line, and not the first behind the head")
    return found


def read(path: str, data: bytes) -> tuple[Group, list[History]]:
    """The histories of a file, and a note on standard error where a journal's last line is torn, as a crash leaves it."""
    text = Text(path, data)
    match = text.take(HEAD, "the head of a trace or of a journal, `cbcast 1 group G size N window W ..`")
    group = Group(*(int(match[field]) for field in (1, 2, 3)))
    if group.number > LAST_NUMBER or not 2 <= group.size <= MOST_MEMBERS or not 1 <= group.window <= 256:
        raise Fault(f"{text.place}: a group has a number of 32 bits, 2 to {MOST_MEMBERS} members, and a window of 1 to 256")
    if match[4] is None:
        return group, histories_in_trace(text, group)
    place, member = text.place, member_of(text, match[4], group)
    history = History(place, member, take_entries(text, member, text.left))
    if text.torn:
        print(f"{text.place}: note: the line behind this one is torn, and is left out", file=sys.stderr)
    return group, [history]


# ---- what frames say


class Message(NamedTuple):
    """What a frame says of one message: by how much other fields of the sender's time grew since its previous cast, and the payload."""

    name: Name
    growth: tuple[tuple[int, int], ...]
    payload: bytes


class Frame:
    """A cast or a burst, read from the left: the faults are those of the protocol."""

    def __init__(self, place: str, data: bytes) -> None:
        self._place, self._data, self._at = place, data, 0

    def refuse(self, fault: str) -> Fault:
        return Fault(f"{self._place}: the frame is refused: {fault}")

    def take(self, count: int) -> bytes:
        taken = self._data[self._at : self._at + count]
        if len(taken) < count:
            raise self.refuse("Short")
        self._at += count
        return taken

    def number(self) -> int:
        number = 0
        for place in range(5):
            byte = self.take(1)[0]
            number += (byte & 127) << 7 * place
            if byte < 128:
                break
        if byte >= 128 or number > LAST_NUMBER:
            raise self.refuse("TooLarge")
        if byte == 0 and place > 0:
            raise self.refuse("NotMinimal")
        return number

    def wanted(self, fault: str, least: int, most: int) -> int:
        number = self.number()
        if not least <= number <= most:
            raise self.refuse(fault)
        return number

    def growth(self, sender: int, group: Group) -> tuple[tuple[int, int], ...]:
        index, found = -1, []
        for _ in range(self.number()):
            index += 1 + self.number()
            if index >= group.size or index == sender:
                raise self.refuse("OwnField" if index == sender else "BadMember")
            found.append((index, self.wanted("ZeroDifference", 1, LAST_NUMBER)))
        return tuple(found)

    def payloads(self, count: int) -> list[bytes]:
        room, found = LONGEST_PAYLOAD, []
        for _ in range(count):
            found.append(self.take(self.wanted("PayloadTooLong", 0, room)))
            room -= len(found[-1])
        if self._at < len(self._data):
            raise self.refuse("Trailing")
        return found

    def messages(self, group: Group) -> list[Message]:
        """Those of a cast or of a burst; none of a status."""
        kind = self.take(1)[0]
        if kind == 0x12:
            return []
        if kind not in (0x11, 0x21):
            raise self.refuse("it is no cast, no burst and no status")
        self.wanted("OtherGroup", group.number, group.number)
        sender = self.wanted("BadMember", 0, group.size - 1)
        first = self.wanted("ZeroNumber", 1, LAST_NUMBER)
        growth = self.growth(sender, group)
        most = min(MOST_MESSAGES, LAST_NUMBER - first + 1)
        count = 1 if kind == 0x11 else self.wanted("EmptyBurst or BurstTooLong", 1, most)
        named = enumerate(self.payloads(count))
        return [Message(Name(sender, first + place), () if place else growth, payload) for place, payload in named]


# ---- what happened, and before what

Time = Tuple[int, ...]


class Kind(enum.Enum):
    CAST = "casts"
    DELIVERY = "delivers"
    WAIT = "keeps"


@dataclasses.dataclass(eq=False)
class Point:
    """A cast, a delivery, or the arrival of a message that waits; the last is no event, and stands in nobody's past. `time` is that of
    its member, once it has happened; `since` is where a delivered message began to wait, and `cast` where it was cast."""

    kind: Kind
    member: int
    message: Message
    time: Optional[Time]
    place: str
    since: Optional[Point] = None
    cast: Optional[Point] = None
    behind: list[Point] = dataclasses.field(default_factory=list)  # the points to the right of which it stands
    causes: list[Point] = dataclasses.field(default_factory=list)  # the events that are one step before it
    x: int = 0

    @property
    def name(self) -> Name:
        return self.message.name

    @property
    def is_event(self) -> bool:
        return self.kind is not Kind.WAIT


class Line:
    """The points of one member, as its history tells them."""

    def __init__(self, group: Group, history: History) -> None:
        self.group, self.me, self.points = group, history.member, []
        self._clock, self._at_cast = [0] * group.size, [0] * group.size
        self._arrived: dict[Name, tuple[Message, Optional[Point]]] = {}
        self._delivered: set[Name] = set()
        for entry in history.entries:
            {"cast": self._cast, "arrive": self._arrive, "tick": self._tick}[entry.word](entry)

    def _add(self, kind: Kind, message: Message, place: str, since: Optional[Point] = None) -> Point:
        self.points.append(Point(kind, self.me, message, tuple(self._clock), place, since))
        return self.points[-1]

    def _cast(self, entry: Entry) -> None:
        for message in Frame(entry.place, entry.frame).messages(self.group) or [None]:
            grown = tuple((k, n - self._at_cast[k]) for k, n in enumerate(self._clock) if n > self._at_cast[k])
            self._clock[self.me] += 1
            wanted = Name(self.me, self._clock[self.me])
            if message is None or message.name != wanted:
                raise Fault(f"{entry.place}: the next cast of member {self.me} is {wanted}, and this is another frame")
            if message.growth != grown:
                raise Fault(f"{entry.place}: the time of {message.name} in its frame is not what member {self.me} had delivered")
            self._at_cast = list(self._clock)
            self._add(Kind.CAST, message, entry.place)

    def _arrive(self, entry: Entry) -> None:
        for message in Frame(entry.place, entry.frame).messages(self.group):
            if message.name.sender == self.me or message.name in self._arrived:
                raise Fault(f"{entry.place}: {message.name} was cast here, or has arrived before")
            waits = message.name not in entry.names
            self._arrived[message.name] = message, self._add(Kind.WAIT, message, entry.place) if waits else None
        for name in entry.names:
            if name not in self._arrived or name in self._delivered:
                raise Fault(f"{entry.place}: {name} is delivered, and has not arrived or was delivered before")
            self._delivered.add(name)
            self._clock[name.sender] += 1
            message, since = self._arrived[name]
            self._add(Kind.DELIVERY, message, entry.place, since)

    def _tick(self, entry: Entry) -> None:
        if entry.frame[0] != 0x12:
            raise Fault(f"{entry.place}: the frame of a tick is no status")


class Run:
    """The points of all members. Of a member whose history is not given they are those casts of which a frame arrived elsewhere."""

    def __init__(self, group: Group, histories: list[History]) -> None:
        self.group = group
        self.given = {history.member: history.place for history in histories}
        self.lines: list[list[Point]] = [[] for _ in range(group.size)]
        for history in histories:
            self.lines[history.member] = Line(group, history).points
        arrived = [point for line in self.lines for point in line if point.kind is not Kind.CAST]
        for member in range(group.size):
            if member not in self.given:
                self.lines[member] = self._casts_by_frames(member, arrived)
        self.casts = {point.name: point for line in self.lines for point in line if point.kind is Kind.CAST}
        self._numbers = [[point.name.number for point in line if point.kind is Kind.CAST] for line in self.lines]
        for line in self.lines:
            self._link(line)

    @property
    def points(self) -> list[Point]:
        return [point for line in self.lines for point in line]

    def _casts_by_frames(self, sender: int, arrived: list[Point]) -> list[Point]:
        """In the order of their numbers. Behind a number that arrived nowhere no time is known."""
        found = {point.name: point for point in reversed(arrived) if point.name.sender == sender}
        casts, clock = [], [0] * self.group.size
        for name in sorted(found):
            is_next = name.number == clock[sender] + 1
            for member, more in found[name].message.growth if is_next else ():
                clock[member] += more
            clock[sender] += is_next
            time = tuple(clock) if is_next else None
            casts.append(Point(Kind.CAST, sender, found[name].message, time, found[name].place))
        return casts

    def _cast_of(self, point: Point) -> Point:
        cast = self.casts.get(point.name)
        if cast is None:
            file = self._file(point.name.sender)
            raise Fault(f"{point.place}: {point.name} arrives, which member {point.name.sender} does not cast in {file}")
        if cast.message != point.message:
            raise Fault(f"{point.place}: {point.name} arrives with other bytes than at {cast.place}")
        return cast

    def _file(self, member: int) -> str:
        return self.given[member].rpartition(":")[0]

    def _link(self, line: list[Point]) -> None:
        last = event = None
        for point in line:
            step = [event] if event else []
            if point.kind is not Kind.CAST:
                point.cast = self._cast_of(point)
                step.append(point.cast)
            elif point.member not in self.given:
                step += self._known_by_time(point)
            point.behind = step + [last] if last else step
            point.causes = step if point.is_event else []
            last, event = point, point if point.is_event else event

    def _known_by_time(self, cast: Point) -> list[Point]:
        """Of each other sender the last cast that is here of those that had been delivered by this time."""
        known = []
        for member, number in enumerate(cast.time or ()):
            if member in self.given and Name(member, number) not in self.casts and number:
                raise Fault(f"{cast.place}: {cast.name} was cast behind {member}.{number}, which is not cast in {self._file(member)}")
            behind = bisect.bisect_right(self._numbers[member], number)
            if member != cast.member and behind:
                known.append(self.casts[Name(member, self._numbers[member][behind - 1])])
        return known


def known_past(point: Point) -> Point:
    """The point, whose past is what its causes say."""
    if point.time is None:
        raise Fault(f"{point.place}: what happened before {point.name} is not known: give the history of member {point.member}")
    return point


def past_of(point: Point) -> set[Point]:
    """The events that happened before it."""
    past: set[Point] = set()
    ahead = [point]
    while ahead:
        for cause in ahead.pop().causes:
            if cause not in past:
                past.add(cause)
                ahead.append(cause)
    return past


def walk(points: list[Point], key: Callable[[Point], int]) -> Iterator[Point]:
    """Each point after all those that it stands behind. Of several that may come the one of the least key comes, and then the first."""
    waits = {point: len(point.behind) for point in points}
    followers = defaultdict(list)
    for place, point in enumerate(points):
        for other in point.behind:
            followers[other].append((place, point))
    ready = [(key(point), place, point) for place, point in enumerate(points) if not point.behind]
    heapq.heapify(ready)
    while ready:
        point = heapq.heappop(ready)[2]
        yield point
        del waits[point]
        for place, follower in followers[point]:
            waits[follower] -= 1
            if not waits[follower]:
                heapq.heappush(ready, (key(follower), place, follower))
    for point in waits:
        if point.kind is not Kind.CAST:
            raise Fault(f"{point.place}: {point.name} arrives before it is cast, whatever order the members' lines are read in")


# ---- words for events


def shown(payload: bytes, most: int = 40) -> str:
    """As `confer expand` prints it; a long one is cut, and ends in two points."""
    is_text = all(0x20 <= byte < 0x7F and byte not in b'"\\' for byte in payload)
    part = payload[:most]
    return (f'"{part.decode("latin-1")}"' if is_text else f"x{part.hex()}") + (".." if len(payload) > most else "")


def shown_time(time: Optional[Time]) -> str:
    return "[?]" if time is None else f"[{','.join(map(str, time))}]"


def words(point: Point) -> str:
    return f"{point.kind.value} {point.name} {shown(point.message.payload)} {shown_time(point.time) if point.is_event else ''}".rstrip()


# ---- the log for ShiViz

EXPRESSION = r"(?<host>\S*) (?<clock>{.*})\n(?<event>.*)"


def shiviz(run: Run) -> str:
    """The expression that reads the log, an empty line, and two lines for each event. A clock counts, for each member, the casts and
    deliveries that happened before the event, and the event itself."""
    clocks: dict[Point, dict[int, int]] = {}
    told = [EXPRESSION, ""]
    for point in walk(run.points, key=lambda _: 0):
        if point.is_event:
            known_past(point)
            clock: dict[int, int] = defaultdict(int)
            for cause in point.causes:
                for member, count in clocks[cause].items():
                    clock[member] = max(clock[member], count)
            clock[point.member] += 1
            clocks[point] = clock
            told.append(f"member{point.member} {json.dumps({f'member{k}': clock[k] for k in sorted(clock)})}")
            told.append(words(point))
    return "".join(f"{line}\n" for line in told)


# ---- where points stand

RADIUS = {Kind.CAST: 5, Kind.DELIVERY: 3.5, Kind.WAIT: 4}
WIDEST_RADIUS = 5
NAME_SIZE, TIME_SIZE, EM = 10, 7.5, 0.62  # of the letters, and the width of one
UP, TIME_DOWN = 14, 8  # how far a label goes above its line, and each row of a time below it
FIELDS_IN_ROW, NO_BREAK_SPACE = 8, "\u00a0"
BESIDE, BETWEEN = 3, 7  # from a point to its label, and from there to the next
LEFT, TOP, LEAST_FLIGHT, FLIGHT_FOR_ROW = 74, 30, 22, 6
LANE, BEHIND_LANE, ROOM = 4, 9, 16  # how far lanes are apart, how far they end before the point, and steps of their length
STEP, POINT_COST, LEAST_COST, COST_OF_ALL = 4, 1200, 16, 400  # how a place is looked for

Stretch = Optional[Tuple[float, float]]  # from a left to a right x; None is empty


class Stretches:
    """Stretches of a row, found by where they are."""

    CELL = 128

    def __init__(self) -> None:
        self._cells: dict[int, list[tuple[float, float]]] = defaultdict(list)

    def _cells_of(self, stretch: Stretch) -> range:
        return range(int(stretch[0] // self.CELL), int(stretch[1] // self.CELL) + 1) if stretch else range(0)

    def add(self, stretch: Stretch) -> None:
        for cell in self._cells_of(stretch):
            self._cells[cell].append(stretch)

    def meeting(self, stretch: Stretch) -> int:
        """How many meet this one; where two meet in several cells, each counts."""
        near = [other for cell in self._cells_of(stretch) for other in self._cells.get(cell, ())]
        return sum(left < stretch[1] and stretch[0] < right for left, right in near)


class Piece(NamedTuple):
    """A straight piece of an arrow, which is not horizontal."""

    x: float
    y: float
    to_x: float
    to_y: float

    def at(self, y: float, up: float, down: float, clear: float) -> Stretch:
        """Between which x it is less than that above or below this y. On the rows where it begins and ends what is near its own points
        is left out."""
        slope, (top, bottom) = (self.to_x - self.x) / (self.to_y - self.y), sorted((self.y, self.to_y))
        if bottom <= y - up or y + down <= top:
            return None
        ends = [self.x + (min(max(height, top), bottom) - self.y) * slope for height in (y - up, y + down)]
        left = max(min(ends), self.x + clear) if y == self.y else min(ends)
        right = min(max(ends), self.to_x - clear) if y == self.to_y else max(ends)
        return (left, right) if left < right else None

    def over_points(self, y: float) -> Stretch:
        found = self.at(y, WIDEST_RADIUS + 1, WIDEST_RADIUS + 1, 2 * WIDEST_RADIUS)
        near = WIDEST_RADIUS - 1 if y not in (self.y, self.to_y) else 0
        return (found[0] - near, found[1] + near) if found else None

    def over_labels(self, y: float, down: float) -> Stretch:
        return self.at(y, UP, down, 2 * WIDEST_RADIUS)


Route = Tuple[Piece, ...]  # one piece, or one to a lane and one from there


class Row:
    """What stands on a member's line and beside it: points and labels, the stretches over which arrows pass at their height, and the lanes
    above and below it for arrows that come late."""

    def __init__(self) -> None:
        self.points, self.labels, self.arrows_at_points, self.arrows_at_labels = (Stretches() for _ in range(4))
        self.lanes: dict[bool, list[Stretches]] = {True: [], False: []}

    def lane(self, is_above: bool, stretch: Stretch) -> int:
        """The first lane that is free there."""
        lanes = self.lanes[is_above]
        return next((number for number, lane in enumerate(lanes) if not lane.meeting(stretch)), len(lanes))

    def keep_lane(self, is_above: bool, stretch: Stretch) -> None:
        lanes, number = self.lanes[is_above], self.lane(is_above, stretch)
        if number == len(lanes):
            lanes.append(Stretches())
        lanes[number].add(stretch)


def flight_of(point: Point) -> Optional[Point]:
    """The cast from which an arrow comes to it. That of a message that waited comes to where it began to."""
    return point.cast if point.since is None else None


class Layout:
    """Gives each point its x. It is greater than those of all that happened before, and labels do not meet. An arrow is straight, or, where
    it would then pass through points or labels, goes to a lane beside the line of its receiver, and along it."""

    def __init__(self, run: Run, lanes: int) -> None:
        self._rows = [Row() for _ in run.lines]
        self._digits = max([len(str(count)) for point in run.points for count in point.time or ()] or [1])
        most_in_row = FIELDS_IN_ROW if self._digits == 1 else FIELDS_IN_ROW // 2
        rows_of_time = 1 if run.group.size <= 4 else -(-run.group.size // most_in_row)
        self._fields_in_row = -(-run.group.size // rows_of_time)
        self.down = 6 + TIME_DOWN * rows_of_time
        self.pitch = UP + self.down + 2 * LANE * (lanes + 1)
        # few members leave room for straight arrows that pass no label
        self._lane_cost = max(LEAST_COST, COST_OF_ALL // run.group.size)
        self._label_cost = self._lane_cost + LEAST_COST
        self.routes: dict[Point, Route] = {}
        for point in walk(run.points, self._least):
            point.x, route = self._place(point)
            self._keep(point, route)
        self.right = round(max([self._ends(point, point.x)[1] for point in run.points] or [LEFT])) + 12
        self.lanes_used = max(len(lanes) for row in self._rows for lanes in row.lanes.values())

    def y(self, member: int) -> int:
        return TOP + member * self.pitch

    def time_rows(self, point: Point) -> list[str]:
        """A time of up to four members as everywhere else; of more members at most eight in a row, and a middle dot for 0."""
        if point.time is None or not point.is_event:
            return []
        if len(point.time) <= 4:
            return [shown_time(point.time)]
        fields = [(str(count) if count else "·").rjust(self._digits, NO_BREAK_SPACE) for count in point.time]
        between, step = "" if self._digits == 1 else " ", self._fields_in_row
        rows = [between.join(fields[at : at + step]) for at in range(0, len(fields), step)]
        return [row.ljust(len(rows[0]), NO_BREAK_SPACE) for row in rows]

    def _ends(self, point: Point, x: int) -> tuple[float, float]:
        """From where to where the point and its label go. No arrow comes to a cast, and none leaves a delivery: the label stands there."""
        texts = [len(text) * TIME_SIZE for text in self.time_rows(point)]
        width = BESIDE + EM * max([len(str(point.name)) * NAME_SIZE, *texts])
        radius = RADIUS[point.kind]
        return (x - radius - width, x + radius) if point.kind is Kind.CAST else (x - radius, x + radius + width)

    def _least(self, point: Point) -> int:
        least = LEFT + 6 - self._ends(point, 0)[0]
        for other in point.behind:
            rows = abs(other.member - point.member)
            flight = LEAST_FLIGHT + FLIGHT_FOR_ROW * rows
            beside = self._ends(other, other.x)[1] + BETWEEN - self._ends(point, 0)[0]
            least = max(least, other.x + flight if rows else beside)
        return math.ceil(least)

    def _place(self, point: Point) -> tuple[int, Route]:
        """Where it costs least: a way to the right as much as it is long, and what is in the way as much as some way."""
        x = least = self._least(point)
        first_pieces: dict[tuple[int, int], Piece] = {}
        best: tuple[float, int, Route] = (math.inf, x, ())
        while x - least < best[0]:
            cost = x - least + self._cost_of_standing(point, x)
            for route in self._routes(point, x, first_pieces) if cost < best[0] else ():
                best = min(best, (cost + self._cost(route, best[0] - cost), x, route))
            x += STEP
        return best[1:]

    def _routes(self, point: Point, x: int, first_pieces: dict[tuple[int, int], Piece]) -> Iterator[Route]:
        """The straight one, and the one by a lane. `first_pieces` keeps what was found by earlier calls: they hardly differ."""
        cast = flight_of(point)
        if cast is None:
            yield ()
            return
        start, end = self.y(cast.member), self.y(point.member)
        yield (Piece(cast.x, start, x, end),)
        is_above = start < end
        lane = self._rows[point.member].lane(is_above, (cast.x, x))
        y = end - UP - LANE * (lane + 1) if is_above else end + self.down + LANE * (lane + 1)
        room = (x - BEHIND_LANE - cast.x) // ROOM * ROOM
        if (y, room) not in first_pieces:
            first_pieces[y, room] = self._piece_to_lane(cast, y, room)
        yield first_pieces[y, room], Piece(x - BEHIND_LANE, y, x, end)

    def _piece_to_lane(self, cast: Point, y: float, room: int) -> Piece:
        start = self.y(cast.member)
        least = min(room - STEP, 6 + abs(y - start) // 32)
        best: tuple[float, Route] = (math.inf, ())
        for before in range(least, min(room, least + 160), STEP):
            route = (Piece(cast.x, start, cast.x + before, y),)
            best = min(best, (self._cost(route, best[0]), route))
            if not best[0]:
                break
        return best[1][0]

    def _crossings(self, route: Route) -> Iterator[tuple[Row, Stretch, Stretch]]:
        """For each row that a piece of it meets: where it is at the height of points, and where at that of labels."""
        for piece in route:
            top, bottom = sorted((piece.y, piece.to_y))
            first, last = (int((height - TOP) // self.pitch) for height in (top - self.down, bottom + UP))
            for member in range(max(first, 0), min(last, len(self._rows) - 1) + 1):
                y = self.y(member)
                yield self._rows[member], piece.over_points(y), piece.over_labels(y, self.down)

    def _cost_of_standing(self, point: Point, x: int) -> int:
        """The point or its label may be under an arrow."""
        row, radius = self._rows[point.member], RADIUS[point.kind]
        at_points = row.arrows_at_points.meeting((x - radius, x + radius))
        return POINT_COST * at_points + self._label_cost * row.arrows_at_labels.meeting(self._ends(point, x))

    def _cost(self, route: Route, most: float) -> int:
        """An arrow may be over points or labels. Of a route that costs more than the most only that it does."""
        cost = self._lane_cost if len(route) == 2 else 0
        for row, over_points, over_labels in self._crossings(route):
            if cost > most:
                break
            cost += POINT_COST * row.points.meeting(over_points) + self._label_cost * row.labels.meeting(over_labels)
        return cost

    def _keep(self, point: Point, route: Route) -> None:
        row, radius = self._rows[point.member], RADIUS[point.kind]
        row.points.add((point.x - radius, point.x + radius))
        row.labels.add(self._ends(point, point.x))
        for other, over_points, over_labels in self._crossings(route):
            other.arrows_at_points.add(over_points)
            other.arrows_at_labels.add(over_labels)
        if len(route) == 2:
            row.keep_lane(route[0].y < route[1].to_y, (route[0].x, point.x))
        self.routes[point] = route


def laid_out(run: Run) -> Layout:
    """With as much room between the lines as their lanes need."""
    lanes = 4
    while True:
        layout = Layout(run, lanes)
        if layout.lanes_used <= lanes:
            return layout
        lanes = layout.lanes_used


# ---- the picture

LIGHT = {"ground": "#ffffff", "ink": "#24292f", "line": "#c4cad1", "arrow": "#98a1ab", "wait": "#b35900", "past": "#0a5fd1"}
DARK = {"ground": "#0d1117", "ink": "#dfe5ec", "line": "#444c56", "arrow": "#6b7681", "wait": "#e8a03a", "past": "#6cb2ff"}
FONT = "ui-monospace, 'SF Mono', Menlo, Consolas, 'DejaVu Sans Mono', monospace"
SHAPES = f"""
text {{ font-family: {FONT}; font-size: {NAME_SIZE}px; stroke-width: 3px; stroke-linejoin: round; paint-order: stroke; }}
.time {{ font-size: {TIME_SIZE}px; }}
.cast .label {{ text-anchor: end; }}
path {{ fill: none; stroke-linejoin: round; stroke-width: 1.1; }}
.waiting {{ stroke-width: 2.5; }}
.wait circle {{ stroke-width: 1.6; }}
.not-given {{ stroke-dasharray: 3 4; }}
.asked circle {{ stroke-width: 3; }}
.rest {{ opacity: 0.4; }}
"""


def colours(of: dict[str, str]) -> str:
    return f"""
.ground {{ fill: {of["ground"]}; }}
text {{ fill: {of["ink"]}; stroke: {of["ground"]}; }}
.line {{ stroke: {of["line"]}; }}
.arrow {{ stroke: {of["arrow"]}; }}
circle {{ fill: {of["ink"]}; }}
.wait circle {{ fill: {of["ground"]}; stroke: {of["wait"]}; }}
.waiting {{ stroke: {of["wait"]}; }}
.wait text {{ fill: {of["wait"]}; }}
.line.past, .arrow.past {{ stroke: {of["past"]}; stroke-width: 1.6; }}
.past circle, .past text, .asked circle, .asked text {{ fill: {of["past"]}; }}
.asked circle {{ stroke: {of["past"]}; stroke-opacity: 0.35; }}
"""


def decimal(value: float) -> str:
    """To a tenth, the same on every machine."""
    return f"{value:.1f}".removesuffix(".0")


def spot(place: tuple[float, float]) -> str:
    return f"{decimal(place[0])} {decimal(place[1])}"


class Picture:
    """The text of the SVG. Where a message is asked for, the events of its past are in the class `past`, and all others in `rest`."""

    def __init__(self, run: Run, layout: Layout, asked: Optional[Point]) -> None:
        self._run, self._layout, self._asked = run, layout, asked
        self._past = past_of(asked) if asked else set()
        self._deliveries = {point.since: point for point in run.points if point.since}
        self._bottom = self._layout.y(run.group.size - 1) + self._layout.down + 38
        self._right = max(self._layout.right, 660 if asked else 460)

    def text(self) -> str:
        group = self._run.group
        width, height = self._right + 8, self._bottom
        size = f'width="{width}" height="{height}" viewBox="0 0 {width} {height}"'
        dark = "".join(f"  {line}\n" for line in colours(DARK).strip().splitlines())
        style = f"{SHAPES}{colours(LIGHT).lstrip()}@media (prefers-color-scheme: dark) {{\n{dark}}}\n"
        past = f", and the past of {self._asked.name}" if self._asked else ""
        about = f"What {group.size} members of group {group.number} cast and delivered{past}"
        parts = [f'<svg xmlns="http://www.w3.org/2000/svg" {size} role="img">', f"<title>{about}</title>", f"<style>{style}</style>"]
        parts.append(f'<rect class="ground" width="{width}" height="{height}" rx="6"/>')
        for member, points in enumerate(self._run.lines):
            parts += self._line(member, points)
        landings = [point for point in self._run.points if flight_of(point)]
        parts += [self._arrow(point) for point in sorted(landings, key=lambda point: self._delivery_of(point) in self._past)]
        parts += [self._point(point) for point in self._run.points]
        return "\n".join([*parts, self._legend(), "</svg>", ""])

    def _class(self, point: Point) -> str:
        if self._asked is None:
            return ""
        return " asked" if point is self._asked else " past" if point in self._past else " rest"

    def _line(self, member: int, points: list[Point]) -> Iterator[str]:
        """The member's line; over it what is in the past, and where messages wait."""
        y, given = self._layout.y(member), "" if member in self._run.given else " not-given"
        yield f'<text x="12" y="{y + 4}">member {member}</text><path class="line{given}" d="M{LEFT} {y}H{self._right}"/>'
        state = " rest" if self._asked else ""
        for left, right in self._waiting(points):
            yield f'<path class="waiting{state}" d="M{left} {y}H{right}"/>'
        for point in [point for point in points if point is self._asked or point in self._past][-1:]:
            yield f'<path class="line past{given}" d="M{LEFT} {y}H{point.x}"/>'

    def _waiting(self, points: list[Point]) -> list[list[int]]:
        """From where to where messages wait on a line. To its end where they have not been delivered."""
        stretches: list[list[int]] = []
        for point in points:
            end = self._deliveries[point].x if point in self._deliveries else self._right
            if point.kind is Kind.WAIT and stretches and point.x <= stretches[-1][1]:
                stretches[-1][1] = max(stretches[-1][1], end)
            elif point.kind is Kind.WAIT:
                stretches.append([point.x, end])
        return stretches

    def _delivery_of(self, point: Point) -> Point:
        """Where a message that waits is delivered; the point itself where it does not wait, or waits to the end."""
        return self._deliveries.get(point, point)

    def _arrow(self, end: Point) -> str:
        """From the cast to where the message arrived. It is in the past if the delivery is."""
        *lane, last = self._layout.routes[end]
        across, down = last.to_x - last.x, last.to_y - last.y
        across, down = across / math.hypot(across, down), down / math.hypot(across, down)
        back = RADIUS[end.kind] + 1.5
        tip = last.to_x - across * back, last.to_y - down * back
        wings = [(tip[0] - 6 * across + side * down, tip[1] - 6 * down - side * across) for side in (2.6, -2.6)]
        way = "".join(f"M{piece.x} {piece.y}L{piece.to_x} {piece.to_y}H{last.x}" for piece in lane) or f"M{last.x} {last.y}"
        head = f"L{spot(tip)}M{spot(wings[0])}L{spot(tip)}L{spot(wings[1])}"
        state = self._class(self._delivery_of(end))
        return f'<path class="arrow{state}" id="arrow-{end.name}-{end.member}" d="{way}{head}"/>'

    def _point(self, point: Point) -> str:
        x, y, radius = point.x, self._layout.y(point.member), RADIUS[point.kind]
        kind = point.kind.name.lower()
        beside = x - radius - BESIDE if point.kind is Kind.CAST else x + radius + BESIDE
        label = f'<text class="label" x="{decimal(beside)}" y="{y - 5}">{point.name}</text>'
        for row, text in enumerate(self._layout.time_rows(point)):
            label += f'<text class="label time" x="{decimal(beside)}" y="{y + 11 + TIME_DOWN * row}">{text}</text>'
        about = html.escape(f"member {point.member} {words(point)}", quote=False)
        circle = f'<circle cx="{x}" cy="{y}" r="{radius}"/>'
        return f'<g class="{kind}{self._class(point)}" id="{kind}-{point.name}-{point.member}"><title>{about}</title>{circle}{label}</g>'

    def _legend(self) -> str:
        rows = [("cast", Kind.CAST, "cast"), ("delivery", Kind.DELIVERY, "delivery"), ("wait", Kind.WAIT, "has arrived, and waits")]
        if self._asked:
            rows += [("asked", Kind.CAST, str(self._asked.name)), ("past", Kind.DELIVERY, "happened before it")]
        parts, x, y = [], LEFT + 6, self._bottom - 16
        for style, kind, said in rows:
            circle, text = f'<circle cx="{x}" cy="{y}" r="{RADIUS[kind]}"/>', f'<text x="{x + 10}" y="{y + 3.5}">{said}</text>'
            parts.append(f'<g class="{style}">{circle}{text}</g>')
            x += 34 + round(len(said) * NAME_SIZE * EM)
        return f'<g id="legend">{"".join(parts)}</g>'


# ---- the program


def histories_of(paths: list[str]) -> Run:
    """The histories of all files, which are of one group, and no two of one member."""
    group, first, members = None, "", {}
    for path in paths:
        stands_for = "standard input" if path == "-" else path
        found, histories = read(stands_for, bytes_of(path))
        if group not in (None, found):
            raise Fault(f"{stands_for}:1: it is of another group than {first}: {spelled(found)}, and not {spelled(group)}")
        group, first = found, first or stands_for
        for history in histories:
            if history.member in members:
                raise Fault(f"{history.place}: member {history.member} is also in {members[history.member].place}")
            members[history.member] = history
    return Run(group, list(members.values()))


def spelled(group: Group) -> str:
    return f"group {group.number} size {group.size} window {group.window}"


def bytes_of(path: str) -> bytes:
    try:
        if path == "-":
            return sys.stdin.buffer.read()
        with open(path, "rb") as file:
            return file.read()
    except OSError as fault:
        raise Fault(f"{path}: {fault.strerror}") from fault


def asked_for(run: Run, word: str) -> Point:
    name = name_of(word)
    if name is None:
        raise Fault(f"--past {word}: a message is named by its sender and its number, as 1.3")
    if name not in run.casts:
        raise Fault(f"--past {word}: no such message was cast")
    return known_past(run.casts[name])


def arguments() -> argparse.Namespace:
    parser = argparse.ArgumentParser(description="Draws a group's casts and deliveries, by a trace or by journals of its members.")
    parser.add_argument("files", metavar="FILE", nargs="+", help="a trace, a part of one, or a journal; - is standard input")
    either = parser.add_mutually_exclusive_group()
    either.add_argument("--past", metavar="I.S", help="colour what happened before this message")
    either.add_argument("--shiviz", action="store_true", help="write a log for ShiViz in place of a picture")
    return parser.parse_args()


def main() -> int:
    given = arguments()
    try:
        run = histories_of(given.files)
        asked = asked_for(run, given.past) if given.past is not None else None
        made = shiviz(run) if given.shiviz else Picture(run, laid_out(run), asked).text()
        with open(sys.stdout.fileno(), "wb", closefd=False) as out:  # sys.stdout would try once more at the end, and end with 120
            out.write(made.encode())
    except (Fault, OSError) as fault:
        print(f"diagram.py: {fault}", file=sys.stderr)
        return 2
    return 0


if __name__ == "__main__":
    sys.exit(main())
