"""What an environment claims at any tick: packets by its filters, and interrupt lines. No core has that, so it is read of the calls in its
traces, up to the last event of the schedule that is asked for.
"""

from __future__ import annotations

from bisect import bisect_left
from typing import FrozenSet, List, NamedTuple, Optional, Tuple

from kernel_calls import CLAIM, FREE, HANDLER, LINE, UNCLAIM
from moments import Memory, Moments
from packet_filters import ATOM_SIZE, matches
from searching import Chunk, chunk_of
from timeline import Timeline

OF_CLAIMS = (FREE, CLAIM, UNCLAIM, HANDLER, LINE)


class Claim(NamedTuple):
    """A claim: its number, the page of its ring, its filter, and whether it has a handler."""

    number: int
    page: int
    atoms: bytes
    is_handled: bool = False


class Held(NamedTuple):
    """The claims and the lines of an environment."""

    claims: Tuple[Claim, ...] = ()
    lines: FrozenSet[int] = frozenset()

    def without_page(self, page: int) -> "Held":
        return self._replace(claims=tuple(it for it in self.claims if it.page != page))

    def claim_of(self, packet: bytes) -> Optional[Claim]:
        """The claim that gets a packet, if one does."""
        return next((it for it in self.claims if matches(it.atoms, packet)), None)


class ClaimHistory:
    """What an environment claims, as far as it was asked for."""

    def __init__(self, moments: Moments, timeline: Timeline, number: int):
        self.moments, self.timeline, self.number = moments, timeline, number
        self.read = 0  # the ticks that were read
        self.ticks: List[int] = []
        self.held: List[Held] = []

    def at(self, tick: int) -> Held:
        """What it has when the events of a tick happen."""
        while self.read < tick:
            first, self.read = chunk_of(self.read, self.timeline.head.time)
            self.extend(first, self.read)
        at = bisect_left(self.ticks, tick)
        return self.held[at - 1] if at else Held()

    def extend(self, first: int, last: int) -> None:
        """Reads some ticks."""
        taken = [(it.time, FREE, int(it.row.split()[3])) for it in self.timeline.marked(first, last) if it.kind == "take" and it.env == self.number]
        called = list(self.calls(first, last))
        now = self.held[-1] if self.held else Held()
        for tick, number, page in sorted([*taken, *called], key=lambda it: it[0]):
            now = now.without_page(page) if number == FREE else self.after_call(now, tick, number)
            self.ticks.append(tick)
            self.held.append(now)

    def calls(self, first: int, last: int) -> List[Tuple[int, int, int]]:
        """The calls of some ticks that were granted and concern claims: tick, number and `$4`."""
        if not any(it.env == self.number and it.start < last for it in self.timeline.ending_after(first)):
            return []
        return [(tick, number, registers[4]) for tick, words, number, registers in Chunk(self.moments, self.timeline, self.number, first, last).passed()
                if words[3] == "syscall" and number in OF_CLAIMS and words[4:6] == ["$2", "00000000"]]

    def after_call(self, held: Held, tick: int, number: int) -> Held:
        """What it has after a call. Its arguments and its answer are those of the state after it."""
        core = self.moments.core(self.number, tick + 1)
        value, (first, second, third) = core.registers[3], core.registers[4:7]
        if number == CLAIM:
            atoms = Memory(core, set()).read(first, second * ATOM_SIZE)
            return held._replace(claims=(*held.claims, Claim(value, third, atoms)))
        if number == UNCLAIM:
            return held._replace(claims=tuple(it for it in held.claims if it.number != first))
        if number == HANDLER:
            claims = tuple(it._replace(is_handled=bool(third)) if it.number == first else it for it in held.claims)
            return held._replace(claims=claims)
        return held._replace(lines=held.lines | {first} if second else held.lines - {first})
