"""A group of three processes over the pub/sub of a redis server, one of which is killed and comes back by its journal.

    redis_group.py PORT                          runs all of it, and looks at the three screens
    redis_group.py PORT member ME JOURNAL        one member: casts its lines, and prints each line that it casts or is brought

Pub/sub brings a frame to the connections that listen now, and keeps nothing. A member asks the others for what it lost while it was
away. `redis.sh` begins a server on a free port, runs this, and ends the server. It wants the module `redis` (Debian's python3-redis).
"""

from __future__ import annotations

import os
import queue
import re
import subprocess
import sys
import tempfile
import threading
import time
from typing import Callable, Iterable, Iterator, Optional

import redis

from jolunza import Event, Frame, Journal, Output, Refusal, Settings

GROUP, SIZE, WINDOW = 7, 3, 16
LINES_OF_EACH = 40
ALL_LINES = SIZE * LINES_OF_EACH
PAUSE, TICK, PATIENCE = 0.02, 0.05, 60.0  # seconds
KILLED = 1


def channel(to: Optional[int]) -> str:
    return f"jolunza.{GROUP}.{'all' if to is None else to}"


class Link:
    """Frames over the channels of the group. If a connection breaks, another is made, and the frames on their way are lost."""

    def __init__(self, port: int, me: int) -> None:
        self.arrived: queue.Queue[bytes] = queue.Queue()
        self._redis = redis.Redis(port=port)
        threading.Thread(target=self._listen, args=(me,), daemon=True).start()

    def send(self, frame: Frame) -> None:
        try:
            self._redis.publish(channel(frame.to), frame.bytes)
        except redis.RedisError:
            pass  # it is asked for again

    def _listen(self, me: int) -> None:
        while True:
            try:
                with self._redis.pubsub(ignore_subscribe_messages=True) as listening:
                    listening.subscribe(channel(None), channel(me))
                    for message in listening.listen():
                        self.arrived.put(message["data"])
            except redis.RedisError:
                time.sleep(TICK)


class Speaker:
    """A member that casts its lines: every second one answers the last line of another, if there is one."""

    def __init__(self, port: int, me: int, path: str) -> None:
        self._me, self._last = me, ""
        self._journal = Journal(path, Settings(GROUP, SIZE, WINDOW, me))
        self._show(self._journal.events())  # before its first call: all that it did before it was killed
        self._link = Link(port, me)

    def call(self, call: Callable[..., Output], *given: bytes) -> None:
        """A frame at fault is dropped. A line for which the window is full is cast later: the caller tries again."""
        try:
            output = call(*given)
        except Refusal as refusal:
            if not (refusal.is_frame_fault or refusal.is_transient):
                raise
            return
        self._show(output.events)
        for frame in output.frames:
            self._link.send(frame)

    def take(self) -> None:
        try:
            self.call(self._journal.receive, self._link.arrived.get(timeout=PAUSE))
        except queue.Empty:
            pass

    def speak(self) -> None:
        number = self._journal.time()[self._me] + 1
        if number <= LINES_OF_EACH:
            answers = f"re {self._last} " if self._last and number % 2 else ""
            self.call(self._journal.cast, f"{answers}line {number} of {self._me}".encode())

    def tick(self) -> None:
        self.call(self._journal.tick)

    def _show(self, events: Iterable[Event]) -> None:
        for event in events:
            self._last = self._last if event.is_own else str(event.name)
            print(event.name, event.payload.decode(), flush=True)


def run_member(port: int, me: int, path: str) -> None:
    speaker = Speaker(port, me, path)
    next_line = next_tick = time.monotonic()
    while True:
        speaker.take()
        now = time.monotonic()
        if now >= next_line:
            next_line = now + PAUSE
            speaker.speak()
        if now >= next_tick:
            next_tick = now + TICK
            speaker.tick()


class Screen:
    """The process of a member, and what it prints."""

    def __init__(self, port: int, me: int, folder: str, name: str) -> None:
        self._path = os.path.join(folder, name)
        command = [sys.executable, __file__, str(port), "member", str(me), os.path.join(folder, f"{me}.journal")]
        with open(self._path, "wb") as file:
            self.process = subprocess.Popen(command, stdout=file)

    def lines(self) -> list[str]:
        with open(self._path, encoding="utf-8") as file:
            return file.read().split("\n")[:-1]

    def end(self) -> None:
        self.process.kill()
        self.process.wait()


def wait_for(screens: list[Screen], is_there: Callable[[], bool]) -> None:
    end = time.monotonic() + PATIENCE
    while not is_there():
        if time.monotonic() > end:
            raise TimeoutError(f"lines on the screens: {[len(screen.lines()) for screen in screens]}")
        if any(screen.process.poll() is not None for screen in screens):
            raise ChildProcessError("a member has ended")
        time.sleep(PAUSE)


def orphans(lines: list[str]) -> Iterator[str]:
    """The lines that come before the line that they answer, or without it."""
    seen = set()
    for line in lines:
        answered = re.match(r"\S+ re (\S+) ", line)
        if answered and answered[1] not in seen:
            yield line
        seen.add(line.split(" ")[0])


def faults(screens: list[list[str]], before: list[str]) -> Iterator[str]:
    """The faults of the screens, and of the one of the member that came back, which had shown the lines `before`."""
    said = {f"{me}.{number}" for me in range(SIZE) for number in range(1, LINES_OF_EACH + 1)}
    for me, lines in enumerate(screens):
        if sorted(line.split(" ")[0] for line in lines) != sorted(said) or set(lines) != set(screens[0]):
            yield f"screen {me} has not each line once"
        yield from (f"screen {me} has an orphan: {line}" for line in orphans(lines))
    if screens[KILLED][: len(before)] != before:
        yield "the member that came back has another past"


def drop_connections(port: int) -> None:
    """The server closes those of all members, of both kinds."""
    with redis.Redis(port=port) as server:
        for kind in ("pubsub", "normal"):
            server.client_kill_filter(_type=kind)


def run_group(port: int, folder: str, screens: list[Screen]) -> str:
    """Returns a line on the screens."""
    screens += [Screen(port, me, folder, f"{me}.screen") for me in range(SIZE)]
    wait_for(screens, lambda: len(screens[KILLED].lines()) >= ALL_LINES // 3)
    screens[KILLED].end()
    before = screens[KILLED].lines()
    time.sleep(20 * TICK)
    missed = len(set(screens[0].lines()) - set(before))
    drop_connections(port)
    screens[KILLED] = Screen(port, KILLED, folder, "back.screen")
    wait_for(screens, lambda: all(len(screen.lines()) >= ALL_LINES for screen in screens))
    for fault in faults([screen.lines() for screen in screens], before):
        raise ValueError(fault)
    if not missed:
        raise ValueError("nothing was said while the member was away")
    return (
        f"{SIZE} processes, {ALL_LINES} lines on every screen, none before what it answers; "
        f"member {KILLED} was killed at {len(before)} lines, missed {missed}, and came back by its journal"
    )


def main(words: list[str]) -> None:
    if words[2:3] == ["member"]:
        return run_member(int(words[1]), int(words[3]), words[4])
    screens: list[Screen] = []
    with tempfile.TemporaryDirectory() as folder:
        try:
            print(run_group(int(words[1]), folder, screens))
        finally:
            for screen in screens:
                screen.end()


if __name__ == "__main__":
    main(sys.argv)
