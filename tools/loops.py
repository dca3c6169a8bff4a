"""Loops without an end: where an environment that lives at the limit has gone round without a kernel call, by its traces."""

from __future__ import annotations

import re
from typing import Dict, List, Optional, Set

from places import Line, Places
from trace_calls import WORD, tick_at

LEAST_ROUNDS = 8  # steps at each of a loop's addresses, on average, so that it counts as one
MOST_STRETCHES = 3  # of lines that are named
STEP = re.compile(r"\n\d+ (\w{8}) ")
BLOCK = 1 << 16  # characters of a trace that are looked at together
MOST_ALTERNATIVES = 64  # addresses that a pattern names


def loop(text: str) -> Set[str]:
    """The few addresses, as digits, at which the last steps of a trace are, each many times, without a call; none where it is no loop."""
    steps = STEP.findall(text, max(text.rfind(WORD), 0))
    addresses = set(steps[len(steps) - len(steps) // 2:])
    return addresses if len(steps) // 2 >= LEAST_ROUNDS * len(addresses) else set()


class Start:
    """Since when an environment goes round at some addresses without a call, by its traces one after another."""

    def __init__(self, addresses: Set[str], is_apart: bool = False):
        self.addresses = addresses
        self.since: Optional[int] = None  # none where no step of the loop is known yet
        self.is_older = is_apart  # whether ticks right before that one weren't looked at
        others = f"(?!{'|'.join(sorted(addresses))})" if len(addresses) <= MOST_ALTERNATIVES else ""
        self.other = re.compile(rf"\n\d+ {others}(\w{{8}}) ")

    def last_other(self, text: str, end: int) -> int:
        """The place of the last line before the end that isn't of the loop, or -1."""
        high = end
        while high > 0:
            low = max(text.rfind("\n", 0, max(high - BLOCK, 0)), 0)
            found = [it.start() for it in self.other.finditer(text, low, high) if it[1] not in self.addresses]
            if found:
                return max(found[-1], text.rfind(WORD, 0, end))
            high = low
        return text.rfind(WORD, 0, end)

    def add(self, text: str) -> None:
        """Takes the next trace."""
        end = text.rindex("\nend ")
        last = self.last_other(text, end)
        place = text.find("\n", last + 1, end)
        if last >= 0 or self.since is None:
            self.since = tick_at(text, place) if place >= 0 else None
        if last >= 0:
            self.is_older = False


def lines_of(addresses: Set[int], places: Places) -> str:
    """The lines of some addresses, as stretches: `lines 3 to 5`; nothing where some have none."""
    found: Dict[str, Set[int]] = {}
    for it in addresses:
        line: Optional[Line] = places.lines.get(it)
        if line is None:
            return ""
        found.setdefault(line.file, set()).add(line.number)
    if len(found) > 1:
        return "lines of " + " and ".join(sorted(found))
    numbers = sorted(next(iter(found.values())))
    coded = sorted({it.number for it in places.lines.values()})
    stretches: List[List[int]] = []
    for it in numbers:
        before = stretches[-1][-1] if stretches else None
        if before is not None and coded.index(it) == coded.index(before) + 1:
            stretches[-1].append(it)
        else:
            stretches.append([it])
    shown = [f"{it[0]} to {it[-1]}" if len(it) > 1 else str(it[0]) for it in stretches[:MOST_STRETCHES]]
    more = " and more" if len(stretches) > MOST_STRETCHES else ""
    return f"line{'s' if len(numbers) > 1 else ''} {' and '.join(shown)}{more}"


def loop_line(start: Start, places: Places, pc: int) -> List[str]:
    """What is said of an environment that lives at the limit, where it is at this address."""
    if f"{pc:08x}" not in start.addresses or start.since is None:
        return []
    addresses = {int(it, 16) for it in start.addresses}
    where = lines_of(addresses, places) or f"0x{min(addresses):08x} to 0x{max(addresses):08x}"
    before = " or before" if start.is_older else ""
    return [f"   since tick {start.since:,}{before} it goes round {where} without a call"]
