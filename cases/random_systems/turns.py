"""The ledger of a run by the rules of the auditor (cases/audit/auditor.py), and by what is known besides where the image is: whose each
slot is at boot, which environments there are, and that a tick has one step.
"""
from __future__ import annotations

import os
import sys
from typing import Any, List, Optional, Set

sys.path.append(os.path.join(os.path.dirname(os.path.dirname(os.path.realpath(__file__))), "audit"))
from auditor import MOST_EXCESS, Auditor, Fault, Ledger, Row
from systems import System

GIFTS = ("give", "async", "sync")
OF_PAGES = ("asked", "take")  # rows that stand in any tick, before its turn or in its step


class Wrong(Exception):
    """What a report must not be."""


def must(holds: object, why: str) -> None:
    if not holds:
        raise Wrong(why)


class Turns(Auditor):
    """The rows of a run of a system, and what those before a place say: also who was killed, and how many slices were given in which way."""

    def __init__(self, report: bytes, system: System):
        super().__init__(Ledger(report), system.quantum, None)
        self.count = len(system.guaranteed)
        self.boot: List[Row] = [["own", 0, slot, owner, owner] for slot, owner in enumerate(system.slots) if owner != 255]
        self.killed: Set[int] = set()
        self.gifts_by = dict.fromkeys(GIFTS, 0)

    def next_time(self, place: int) -> Optional[int]:
        """The tick of the first row behind a place that isn't of pages, if there is one."""
        return next((row[1] for row in self.rows[place + 1:] if row[0] not in OF_PAGES), None)

    def is_fit(self, place: int, name: str, time: int, *numbers_behind: Any) -> bool:
        if not super().is_fit(place, name, time, *numbers_behind) or name == "drop":
            return False
        if self.is_boot and (place < len(self.boot) or name == "own"):
            return self.boot[place:place + 1] == [self.rows[place]]
        if name in GIFTS:  # the tick counts: what is given in the last one is over in it, and what is given in another isn't
            to, behind = numbers_behind[-1], place + (name == "sync")
            return to < self.count and (self.next_time(behind) == time) == (time == self.limit())
        return name != "over" or numbers_behind[-1] == MOST_EXCESS or self.next_time(place) != time

    def is_end(self) -> bool:
        return len(self.rows) >= len(self.boot) and super().is_end()

    def note(self, name: str, time: int, *numbers_behind: Any) -> None:
        super().note(name, time, *numbers_behind)
        if name in GIFTS:
            self.gifts_by[name] += 1
        elif name == "over" and numbers_behind[-1] == MOST_EXCESS:
            self.killed.add(numbers_behind[1])


def turns_of(report: bytes, system: System) -> Turns:
    """What the rows of a report say, which have to keep the rules."""
    try:
        turns = Turns(report, system)
    except Fault as fault:
        raise Wrong(f"the ledger is refused: {fault}") from None
    line = turns.answer()
    must(line is None, f"line {line} breaks a rule of the ledger: {report.splitlines()[(line or 1) - 1].decode('latin-1')}")
    return turns
