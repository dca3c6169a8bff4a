"""Whose the ticks of a run are, by the rows of its report. An environment makes a step in each tick of its slices: so the tick of
a step is known of its number, and how many steps were made up to a tick, before a trace is read.
"""

from __future__ import annotations

import io
from array import array
from bisect import bisect_left, bisect_right
from typing import Iterator, List, NamedTuple, Optional

from programs import Machine, run_text
from report import Head, Ledger, Lines, Listener, Mark, Slice, read_head

TRANSFERS = ("async", "sync")  # by kind
KEPT = ("asked", "take", "give", "end", *TRANSFERS)  # the marks that concern who steps through a run


class Part(NamedTuple):
    """A slice: its environment, its ticks from `start` to `end` - 1, and whether a turn began it, and not a gift."""

    env: int
    start: int
    end: int
    is_turn: bool


class Timeline(Listener):
    """The slices of a run, and the rows of what happens between steps."""

    def __init__(self, head: Head):
        self.head = head
        self.starts, self.ends, self.envs, self.turns = array("L"), array("L"), array("B"), array("B")
        self.marks: List[Mark] = []
        self.times = array("L")  # of the marks

    def add_slice(self, piece: Slice) -> None:
        self.starts.append(piece.start)
        self.ends.append(piece.end)
        self.envs.append(piece.env)
        self.turns.append(piece.rows.startswith("run "))

    def add_mark(self, kind: str, time: int, env: Optional[int], slot: Optional[int], row: str, until: int) -> None:
        if kind in KEPT:
            self.marks.append(Mark(kind, time, env, slot, row, until))
            self.times.append(time)

    def part(self, at: int) -> Part:
        return Part(self.envs[at], self.starts[at], self.ends[at], bool(self.turns[at]))

    def starting(self, first: int, last: int) -> Iterator[Part]:
        """The slices that start in the ticks from `first` to `last` - 1."""
        return (self.part(at) for at in range(bisect_left(self.starts, first), bisect_left(self.starts, last)))

    def ending_after(self, tick: int) -> Iterator[Part]:
        """The slices that end after a tick."""
        return (self.part(at) for at in range(bisect_right(self.ends, tick), len(self.ends)))

    def marked(self, first: int, last: int) -> List[Mark]:
        """The marks of the ticks from `first` to `last` - 1."""
        return self.marks[bisect_left(self.times, first): bisect_left(self.times, last)]


def timeline_of(machine: Machine, ticks: int) -> Timeline:
    """The timeline of a machine's run."""
    lines = Lines(io.StringIO(run_text(machine, ticks), newline="\n"))
    found = Timeline(read_head(lines))
    Ledger(found.head, found).follow(lines)
    return found


class Turns:
    """The slices of one environment. Its steps are counted from 0."""

    def __init__(self, timeline: Timeline, env: int):
        own = [at for at, it in enumerate(timeline.envs) if it == env]
        self.starts = array("L", (timeline.starts[at] for at in own))
        self.ends = array("L", (timeline.ends[at] for at in own))
        self.before = array("L")  # how many steps were made before each slice
        self.steps = 0
        for start, end in zip(self.starts, self.ends):
            self.before.append(self.steps)
            self.steps += end - start

    def tick(self, place: int) -> int:
        """The tick of a step."""
        at = bisect_right(self.before, place) - 1
        return self.starts[at] + place - self.before[at]

    def made(self, tick: int) -> int:
        """How many steps were made up to a tick, with that of the tick."""
        at = bisect_right(self.starts, tick) - 1
        return self.before[at] + min(tick + 1, self.ends[at]) - self.starts[at] if at >= 0 else 0

    def begins(self, place: int) -> bool:
        """Whether a step is the first one of a slice."""
        at = bisect_left(self.before, place)
        return at < len(self.before) and self.before[at] == place

    def first_of_slice(self, done: int, is_backwards: bool) -> Optional[int]:
        """After how many steps it is after the first step of the next slice, or of the one before."""
        at = bisect_left(self.before, done - 1) - 1 if is_backwards else bisect_left(self.before, done)
        if not 0 <= at < len(self.before) or self.before[at] == self.steps:
            return None
        return self.before[at] + 1
