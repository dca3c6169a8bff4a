"""The kernel calls of a trace that were answered, and the registers that are looked at of them, from window to window of a run.

A trace has up to 262,144 lines, so they aren't taken apart: calls are found by their word, and a register's value before a call by the last
line that tells it.
"""

from __future__ import annotations

import re
from bisect import bisect_left
from dataclasses import dataclass
from typing import Iterator, List, Match, Optional

from kernel_calls import CODE
from source import BRANCHES, JUMPS

LAST_ARGUMENT = 8
WORD = " syscall"
CALL = re.compile(r"\n(\d+) ([0-9a-f]{8}) [0-9a-f]{8} syscall([^\n]*)")
ANSWER = re.compile(r" \$2 ([0-9a-f]{8})")
TOLD = re.compile(r"([0-9a-f]{8})[ \n]")  # what follows a register's name where a line tells its value
IN_FRONT = re.compile(r"\d+ ([0-9a-f]{8}) \S{8} (\S+)")
ALL_JUMPS = BRANCHES | JUMPS
Values = List[Optional[int]]  # of `$0` to `$8`; None where one isn't known


def tick_at(text: str, place: int) -> int:
    """The tick of a line, which begins after this place."""
    return int(text[place + 1: text.index(" ", place + 1)])


def place_after(text: str, tick: int, low: int, high: int) -> int:
    """The place of the first line after a tick, between those of two lines, the second of which is after it."""
    while low < high:
        middle = text.rfind("\n", low, (low + high) // 2 + 1)
        if tick_at(text, middle) > tick:
            high = middle
        else:
            low = text.index("\n", middle + 1)
    return low


def lines_with_calls(text: str) -> Iterator[Match[str]]:
    """The lines of a trace with a SYSCALL."""
    at = text.find(WORD)
    while at >= 0:
        found = CALL.match(text, text.rfind("\n", 0, at))
        assert found, "what a trace calls so is an instruction"
        yield found
        at = text.find(WORD, found.end())


class Registers:
    """What is known of registers along a trace. Places only rise."""

    def __init__(self, text: str, values: Values):
        self.text, self.values = text, values
        self.seen = [0] * len(values)  # up to where the lines were looked at for each
        self.floor = 0  # where the last transfer entered: what is told before doesn't count

    def value(self, number: int, place: int) -> Optional[int]:
        """A register's value before the line at a place."""
        low = self.seen[number]
        if self.floor > low:
            low, self.values[number] = self.floor, None
        name, at = f" ${number} ", place
        while (at := self.text.rfind(name, low, at)) >= 0:
            told = TOLD.match(self.text, at + len(name))  # `jr $2` has the name too
            if told:
                self.values[number] = int(told[1], 16)
                break
        self.seen[number] = max(place, self.seen[number])
        return self.values[number]


@dataclass
class Call:
    """A kernel call that was answered."""

    tick: int
    address: int
    number: Optional[int]
    code: Optional[int]
    place: int
    registers: Registers

    def asked(self) -> Values:
        """The registers before it."""
        return [None, None, *(self.registers.value(it, self.place) for it in range(CODE, LAST_ARGUMENT + 1))]


class CallReader:
    """Reads the calls of an environment, trace after trace."""

    def __init__(self, entries: List[int]):
        self.entries = entries  # the ticks in which transfers enter it
        self.values: Values = [0] * (LAST_ARGUMENT + 1)
        self.slot = -1  # the delay slot that is next

    def begin(self, tick: int, values: Values) -> None:
        """Goes on with this tick, before which there is no trace, and with these registers."""
        self.values, self.slot = values, -1
        self.entries = self.entries[bisect_left(self.entries, tick):]

    def calls(self, text: str) -> Iterator[Call]:
        """The calls of a trace."""
        registers, before = Registers(text, self.values), text.index("\n")
        for found in lines_with_calls(text):
            place, tick, address = found.start(), int(found[1]), int(found[2], 16)
            self.enter(registers, tick, before, place)
            before = place
            if found[3].endswith(" dead") or self.is_in_slot(text, place, address):
                continue
            number, answer = registers.value(CODE, place), ANSWER.match(found[3])
            yield Call(tick, address, number, int(answer[1], 16) if answer else number, place, registers)
        self.leave(registers, text, before)

    def enter(self, registers: Registers, tick: int, low: int, place: int) -> None:
        """Takes the transfers before a line's tick."""
        at = bisect_left(self.entries, tick)
        if at:
            registers.floor = max(registers.floor, place_after(registers.text, self.entries[at - 1], low, place))
            self.entries = self.entries[at:]

    def is_in_slot(self, text: str, place: int, address: int) -> bool:
        """Whether a line's instruction is in a delay slot, by the line before."""
        line = IN_FRONT.match(text, text.rfind("\n", 0, place) + 1)
        return address == (self.slot if line is None else int(line[1], 16) + 4 if line[2] in ALL_JUMPS else -1)

    def leave(self, registers: Registers, text: str, before: int) -> None:
        """Keeps what is known at the end of a trace."""
        end = text.rindex("\nend ")
        last = text.rfind("\n", 0, end)
        line = IN_FRONT.match(text, last + 1)
        if line:
            self.enter(registers, tick_at(text, last), before, last)
            self.slot = int(line[1], 16) + 4 if line[2] in ALL_JUMPS else -1
        self.values = [None, None, *(registers.value(it, end) for it in range(CODE, LAST_ARGUMENT + 1))]
