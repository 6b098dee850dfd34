"""Three members in one process, and between them a network that is a list of frames for each. Member 0's question is lost on its way
to member 2, which therefore gets the answer first: it shows nothing, asks for the question, and then shows both. Bytes that are no frame
are dropped."""

from __future__ import annotations

from typing import Optional

from jolunza import Event, Member, Output, Refusal

SIZE = 3


class Network:
    """The frames that were sent to each and not received yet."""

    def __init__(self) -> None:
        self._sent: list[list[bytes]] = [[] for _ in range(SIZE)]

    def send(self, me: int, to: Optional[int], frame: bytes) -> None:
        for other in range(SIZE) if to is None else [to]:
            if other != me:
                self._sent[other].append(frame)

    def take(self, me: int) -> list[bytes]:
        taken, self._sent[me] = self._sent[me], []
        return taken


# README: begin
class Speaker:
    """A member, and a network that may lose, repeat and reorder what is sent."""

    def __init__(self, me: int, network: Network) -> None:
        self.me, self.network, self.dropped = me, network, 0
        self.member = Member(group=7, size=3, window=16, me=me)

    def turn(self) -> None:
        for datagram in self.network.take(self.me):
            try:
                self.hand_on(self.member.receive(datagram))
            except Refusal:
                self.dropped += 1  # damaged, of a stranger, or too early: no reason to end
        self.hand_on(self.member.tick())  # says what it has, and asks for what it misses

    def hand_on(self, output: Output) -> None:
        for frame in output.frames:
            self.network.send(self.me, frame.to, frame.bytes)  # `to` is None for all others
        for event in output.events:
            show(self.me, event)
# README: end


def show(me: int, event: Event) -> None:
    print(f"member {me} {'casts' if event.is_own else 'shows'} {event.name} {event.payload.decode(errors='replace')}")


def main() -> None:
    network = Network()
    speakers = [Speaker(me, network) for me in range(SIZE)]
    speakers[0].hand_on(speakers[0].member.cast(b"when?"))
    network.take(2)
    speakers[1].turn()
    speakers[1].hand_on(speakers[1].member.cast(b"noon"))
    network.send(1, 0, b"what is no frame")
    for _round in range(3):
        for speaker in reversed(speakers):
            speaker.turn()
    print(f"member 0 dropped {speakers[0].dropped} datagram")
    print(f"all have {speakers[0].member.stable()} cast of member 0")


if __name__ == "__main__":
    main()
