"""The TLB under the kernel: docs/MACHINE.md. What it does shows in the text of `tlb`, and nowhere else."""
from __future__ import annotations

from typing import Callable, Dict, Iterator, List, Optional, Tuple

EMPTIED = 0x80000000, 0
ROWS, HIGHEST, LOWEST = 64, 63, 8  # the rows that Random names go from the highest down to the lowest
DIRTY, VALID = 1 << 10, 1 << 9
GUARANTEED, STRIPE, FORWARDED = range(3)


def hi_word(vpn: int, pid: int) -> int:
    return vpn << 12 | pid << 6


def lo_word(page: int, is_writable: bool) -> int:
    return page << 12 | (DIRTY if is_writable else 0) | VALID


def pid_of(hi: int) -> int:
    return hi >> 6 & 63


class Refill(Exception):
    """An access that no row fits, though there is a mapping: from where, and the words of the row."""

    def __init__(self, source: int, pid: int, hi: int, lo: int):
        self.source, self.pid, self.row = source, pid, (hi, lo)


class Cache:
    """The rows, Random, and of each environment how often rows were filled from either source, and misses were its own."""

    def __init__(self, envs: int) -> None:
        self.rows: List[Tuple[int, int]] = [EMPTIED] * ROWS
        self.places: Dict[int, int] = {}  # by the first word of a row that isn't emptied, where it stands: no two have one
        self.random = HIGHEST
        self.fills: List[List[int]] = [[0, 0, 0] for _ in range(envs)]

    def fall(self) -> None:
        """Behind an attempt of a step."""
        self.random = HIGHEST if self.random == LOWEST else self.random - 1

    def find(self, vpn: int, pid: int) -> Optional[Tuple[int, bool]]:
        """The page of the row that fits, and whether it may be stored to."""
        place = self.places.get(hi_word(vpn, pid))
        if place is None:
            return None
        lo = self.rows[place][1]
        return lo >> 12, bool(lo & DIRTY)

    def fill(self, missed: Refill) -> Tuple[int, int]:
        """Fills the row that Random names, and answers what it was."""
        before = self.rows[self.random]
        self.places.pop(before[0], None)
        self.places[missed.row[0]] = self.random
        self.rows[self.random] = missed.row
        self.fills[missed.pid][missed.source] += 1
        return before

    def drop_pair(self, vpn: int, pid: int) -> int:
        return self.drop(lambda hi, lo: hi == hi_word(vpn, pid))

    def drop_page(self, page: int) -> int:
        return self.drop(lambda hi, lo: lo >> 12 == page)

    def drop_pid(self, pid: int) -> int:
        return self.drop(lambda hi, lo: pid_of(hi) == pid)

    def pids_of(self, page: int) -> List[int]:
        """By row of a page, whose it is."""
        return [pid_of(hi) for hi in self.places if self.rows[self.places[hi]][1] >> 12 == page]

    def drop(self, goes: Callable[[int, int], bool]) -> int:
        """Empties the rows of which this holds, and answers how many."""
        going = [hi for hi, place in self.places.items() if goes(*self.rows[place])]
        for hi in going:
            self.rows[self.places.pop(hi)] = EMPTIED
        return len(going)

    def lines(self) -> Iterator[str]:
        """The lines of the text behind its `end`."""
        for env, counts in enumerate(self.fills):
            yield f"fill {env} " + " ".join(map(str, counts))
        yield f"random {self.random}"
        for at, (hi, lo) in enumerate(self.rows):
            yield f"row {at} {hi:08x} {lo:08x}"
