"""Machines on a wire: docs/KERNEL.md, "Machines on a wire". `python3 wire.py DELAY TICKS (IMAGE SCHEDULE) ..` writes what `wire`
does, and ends with the status.
"""
from __future__ import annotations

import sys
from collections import deque
from dataclasses import dataclass
from itertools import chain
from typing import Deque, Iterator, List, Optional, Tuple

from board import Board
from files import Event, Image, Refusal, read_systems
from run_report import DONE, REFUSED, report_lines
from ticks import happen_now, tick

RECEIVER, ALL_OTHERS = 5, 0xFF  # the byte of a packet that names the machine, and the number for all of them
File = Tuple[str, bytes]  # its name, and what it has


@dataclass
class Packet:
    """A packet on the wire: in which tick it was sent, by which environment of which machine, and its bytes."""

    tick: int
    machine: int
    env: int
    data: bytes


class Wire:
    """Machines, each with the events of its schedule that are still to come, and all packets that were sent so far."""

    def __init__(self, images: List[Image], schedules: List[List[Event]], delay: int):
        self.boards, self.delay = [Board(image) for image in images], delay
        self.packets: List[Packet] = []
        self.schedules, self.coming = schedules, [deque(events) for events in schedules]
        self.arrivals: List[List[Event]] = [[] for _ in images]  # by machine, those that are due before its own end or behind it
        self.due: List[Deque[Event]] = [deque() for _ in images]  # of these, those that are still to come
        self.counts = [[0] * len(board.envs) for board in self.boards]  # of the packets of each environment that are on the wire

    def run(self, ticks: int) -> None:
        """Makes so many ticks of each machine, or those up to where it is idle."""
        for time in range(ticks):
            for machine, board in enumerate(self.boards):
                if not board.is_idle():
                    happen_now(board, self.coming[machine])
                    happen_now(board, self.due[machine])
                    tick(board)
            for packet in self.sent(time):
                self.packets.append(packet)
                for machine in self.receivers(packet):
                    arrival = Event(time + self.delay, packet.data)
                    self.arrivals[machine].append(arrival)
                    self.due[machine].append(arrival)

    def sent(self, time: int) -> Iterator[Packet]:
        """The packets that were sent in a tick which is just over, by sender and by environment."""
        for machine, board in enumerate(self.boards):
            for env in board.envs:
                yield from (Packet(time, machine, env.number, data) for data in env.sent[self.counts[machine][env.number]:])
                self.counts[machine][env.number] = len(env.sent)

    def receivers(self, packet: Packet) -> List[int]:
        """The machines to which a packet comes: never the sender."""
        named = packet.data[RECEIVER]
        return [machine for machine in range(len(self.boards)) if machine != packet.machine and named in (machine, ALL_OTHERS)]

    def events(self, machine: int) -> List[Event]:
        """All events of a machine: in each tick first its schedule's, then the arrivals."""
        return sorted(self.schedules[machine] + self.arrivals[machine], key=lambda event: event.tick)


def event_text(event: Event) -> str:
    """The line of an event in a schedule."""
    if event.packet is not None:
        return f"{event.tick} packet {event.packet.hex()}"
    return f"{event.tick} line {event.line}" if event.revoke is None else " ".join(map(str, (event.tick, "revoke", *event.revoke)))


def schedule_text(events: List[Event]) -> bytes:
    """The schedule that has these events."""
    return "".join(f"{event_text(event)}\n" for event in events).encode()


def wire_lines(wire: Wire, ticks: int) -> Iterator[str]:
    yield f"aegis wire {len(wire.boards)}"
    for machine, board in enumerate(wire.boards):
        yield f"machine {machine}"
        yield from report_lines(board, ticks)
    yield "done"


def answer(pairs: List[Tuple[File, File]], delay: int, ticks: int) -> Tuple[int, str, Optional[Wire]]:
    """The status and the text of `wire DELAY TICKS (IMAGE SCHEDULE) ..`, and the wire if there is one; each pair is of two files."""
    try:
        systems = read_systems(list(chain.from_iterable(pairs)))
    except Refusal as why:
        return REFUSED, str(why), None
    wire = Wire([image for image, _ in systems], [events for _, events in systems], delay)
    wire.run(ticks)
    return DONE, "".join(f"{line}\n" for line in wire_lines(wire, ticks)), wire


def main() -> None:
    delay, ticks, *names = sys.argv[1:]
    files = []
    for name in names:
        with open(name, "rb") as file:
            files.append((name, file.read()))
    status, text, _ = answer(list(zip(files[::2], files[1::2])), int(delay), int(ticks))
    print(text, end="")
    sys.exit(status)


if __name__ == "__main__":
    main()
