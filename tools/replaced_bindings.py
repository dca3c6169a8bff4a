"""The bindings of an environment that a bind of its own replaced, since both have one row of its stripe (docs/KERNEL.md, "Bindings")."""

from __future__ import annotations

from dataclasses import dataclass
from typing import Callable, Dict, List, Optional, Set

from kernel_calls import BIND, FIRST_ARGUMENT, FREE, UNBIND
from places import Places
from trace_calls import Call

MOST_CORES = 4  # by which it is made sure that a binding was there, which others may have broken


@dataclass
class Replaced:
    """A place of a bind that replaced bindings: the first one, and how often."""

    address: int
    tick: int
    vpn: int
    before: int
    times: int = 1

    def line(self, places: Places, rows: int) -> str:
        """What is said of it."""
        times = f", {self.times:,} times in all" if self.times > 1 else ""
        return (f"   {places.where(self.address)}: the bind of VPN 0x{self.vpn:x} in tick {self.tick:,} replaced that of VPN 0x{self.before:x}: "
                f"one row, as they differ by a multiple of {rows}{times}")


class Stripe:
    """What is bound in an environment's rows, by its own calls. `sees` answers whether it sees a page at a VPN after so many ticks."""

    def __init__(self, rows: int, sees: Callable[[int, int], bool]):
        self.rows, self.sees = rows, sees
        self.vpns: Dict[int, int] = {}
        self.pages: Dict[int, int] = {}  # by row, where that is known
        self.found: Dict[int, Replaced] = {}
        self.cores = MOST_CORES

    def begin(self, vpns: Set[int]) -> None:
        """Goes on with these VPNs, at which pages are bound."""
        self.vpns, self.pages = {it % self.rows: it for it in vpns}, {}

    def note(self, call: Call) -> None:
        """Takes a call, which may be another one, or refused."""
        if call.code != 0 or call.number not in (BIND, UNBIND, FREE):
            return
        first = call.registers.value(FIRST_ARGUMENT, call.place)
        if first is None:
            return
        if call.number == FREE:
            for row in [row for row, page in self.pages.items() if page == first]:
                del self.vpns[row], self.pages[row]
        elif call.number == BIND:
            self.bind(call, first, call.registers.value(FIRST_ARGUMENT + 1, call.place))
        elif self.vpns.get(first % self.rows) == first:
            self.vpns.pop(first % self.rows)
            self.pages.pop(first % self.rows, None)

    def bind(self, call: Call, vpn: int, page: Optional[int]) -> None:
        """Takes a bind that was granted."""
        row = vpn % self.rows
        before = self.vpns.get(row, vpn)
        self.vpns[row] = vpn
        self.pages.pop(row, None)
        if page is not None:
            self.pages[row] = page
        if before == vpn:
            return
        if call.address in self.found:
            self.found[call.address].times += 1
        elif self.cores:
            self.cores -= 1
            if self.sees(before, call.tick):
                self.found[call.address] = Replaced(call.address, call.tick, vpn, before)

    def all(self) -> List[Replaced]:
        """All that were found, in the order of their first ones."""
        return list(self.found.values())
