"""Machines on a wire: the text that `aegis wire` writes, and in which tick each packet was sent, which no report says.

A packet's tick is found by runs that end earlier: what is sent is only added to. So a file of packets, which tools/try keeps
and tools/ledger and tools/pcap read, has a line `delay N`, and a line `TICK MACHINE ENV BYTES` for each packet.
"""

from __future__ import annotations

import re
from collections import Counter
from dataclasses import dataclass
from typing import Callable, Dict, Iterable, Iterator, List, Tuple

from limits import LEAST_FRAME_SIZE, MOST_DELAY, MOST_PACKET_SIZE, MOST_RUN_TICKS

RECEIVER, ALL_OTHERS = 5, 0xFF  # the byte of a packet that names the machine, and the number for all of them
NO_WIRE = "this program has no command `wire`: build the one of this version, or name it by AEGIS"

LINE = re.compile(r"(\d{1,7}) ([0-7]) (\d\d?) ((?:[0-9a-f]{2}){%d,%d})" % (LEAST_FRAME_SIZE, MOST_PACKET_SIZE), re.ASCII)
Counts = Dict[Tuple[int, int], int]  # by machine and environment, how many packets were sent


@dataclass(frozen=True)
class Packet:
    """A packet: in which tick an environment of a machine sent it, and its bytes."""

    tick: int
    machine: int
    env: int
    data: bytes

    def line(self) -> str:
        """Its line in a file of packets."""
        return f"{self.tick} {self.machine} {self.env} {self.data.hex()}"

    def receivers(self, machines: int) -> List[int]:
        """The machines to which it comes, of so many: never the sender."""
        named = self.data[RECEIVER]
        return [it for it in range(machines) if it != self.machine and named in (it, ALL_OTHERS)]


def reports(text: str) -> List[str]:
    """The reports in the text of a wire, by machine. A text of another form is a ValueError that says so."""
    head = re.match(r"aegis wire ([1-8])\n", text)
    if not head or not text.endswith("done\ndone\n"):
        raise ValueError("this isn't what `aegis wire` writes")
    pieces = re.split(r"(?m)^machine ([0-7])\n", text[head.end():-len("done\n")])
    if pieces[0] or pieces[1::2] != [str(it) for it in range(int(head[1]))]:
        raise ValueError("a machine's report is missing, or stands at another place")
    return pieces[2::2]


def sent(report: str) -> List[Tuple[int, bytes]]:
    """By environment and in the order of sending, the packets of a report."""
    return [(int(env), bytes.fromhex(digits)) for env, digits in re.findall(r"(?m)^sent (\d+) \d+ ([0-9a-f]+)$", report)]


def sending(run: Callable[[int], List[str]], ticks: int) -> List[Packet]:
    """The packets of machines that run for so many ticks, in the order of the wire. `run` gives their reports for other limits."""
    whole = [sent(report) for report in run(ticks)]
    found: List[Packet] = []

    def counts(limit: int) -> Counts:
        return Counter((machine, env) for machine, report in enumerate(run(limit)) for env, _ in sent(report))

    def search(first: int, before: Counts, end: int, after: Counts) -> None:
        """Finds the packets of the ticks from `first` to `end` - 1, of which the counts at both ends are known."""
        if before == after:
            return
        if end - first == 1:
            found.extend(of_tick(whole, first, before, after))
            return
        middle = (first + end) // 2
        between = counts(middle)
        search(first, before, middle, between)
        search(middle, between, end, after)

    if any(whole):
        search(0, Counter(), ticks, counts(ticks))
    return found


def of_tick(whole: List[List[Tuple[int, bytes]]], tick: int, before: Counts, after: Counts) -> Iterator[Packet]:
    """The packets by which the counts grew in a tick."""
    for machine, env in sorted(after):
        own = [data for sender, data in whole[machine] if sender == env]
        yield from (Packet(tick, machine, env, data) for data in own[before[machine, env]:after[machine, env]])


def wired_schedule(schedule: str, packets: Iterable[Packet], machine: int, machines: int, delay: int) -> str:
    """A machine's schedule with what comes to it over the wire, in each tick after the schedule's own events. Under it the
    machine runs alone as it does on the wire."""
    own = [(event_tick(line), line) for line in schedule.splitlines() if line.split("#")[0].split()]
    arrivals = [(it.tick + delay, f"{it.tick + delay} packet {it.data.hex()}") for it in packets if machine in it.receivers(machines)]
    return "".join(f"{line}\n" for tick, line in sorted(own + arrivals, key=lambda it: it[0]) if tick <= MOST_RUN_TICKS)


def event_tick(line: str) -> int:
    """The tick of an event's line."""
    word = line.split()[0]
    return int(word, 16 if word.startswith("0x") else 10)


def packets_of(text: str, name: str) -> Tuple[int, List[Packet]]:
    """The delay and the packets of a file with this name. A line of another form is a ValueError that says so."""
    head, *lines = text.splitlines() or [""]
    delay = re.fullmatch(r"delay (\d{1,5})", head, re.ASCII)
    if not delay or not 1 <= int(delay[1]) <= MOST_DELAY:
        raise ValueError(f"{name} line 1 isn't `delay N`")
    packets: List[Packet] = []
    for count, line in enumerate(lines, 2):
        found = LINE.fullmatch(line)
        if not found or packets and int(found[1]) < packets[-1].tick:
            raise ValueError(f"{name} line {count} isn't `TICK MACHINE ENV BYTES`, or its tick is below the one before")
        packets.append(Packet(int(found[1]), int(found[2]), int(found[3]), bytes.fromhex(found[4])))
    return int(delay[1]), packets


def read_packets(path: str) -> Tuple[int, List[Packet]]:
    """The delay and the packets of a file."""
    with open(path, encoding="latin-1", newline="\n") as file:
        return packets_of(file.read(), f"{path}:")


def packets_text(delay: int, packets: Iterable[Packet]) -> str:
    """The text of a file of packets."""
    return f"delay {delay}\n" + "".join(f"{it.line()}\n" for it in packets)
