"""The states of environments of a run after any tick, by the command `core`, and the lines of their traces from any tick on. What was
asked last is kept.
"""

from __future__ import annotations

import copy
import functools
import re
from typing import AbstractSet, Callable, Iterator, List, Optional, Tuple

from core_file import Core, read_core
from limits import MOST_RUN_TICKS, PAGE_SIZE
from programs import USAGE, Failed, Machine, aegis
from trace_lines import Cut, lines_of

MOST_CORES, MOST_TRACES = 64, 2  # that are kept
LACKING = "the program has no command `{}`: it is of an earlier release"
WORD = 4


class Moments:
    """What the program says of a machine's run."""

    def __init__(self, machine: Machine):
        self.machine = machine
        self.core: Callable[[int, int], Core] = functools.lru_cache(MOST_CORES)(self.core_of)
        self.trace: Callable[[int, int, int], str] = functools.lru_cache(MOST_TRACES)(self.trace_of)

    def said(self, command: str, *words: int) -> Tuple[int, bytes]:
        """What a command answers."""
        status, said = aegis(command, *self.machine.files(), *map(str, words), cwd=self.machine.room)
        if status == USAGE:
            raise Failed(USAGE, LACKING.format(command))
        return status, said

    def core_of(self, env: int, tick: int) -> Core:
        """The state of an environment, which lives then, after so many ticks."""
        status, said = self.said("core", tick, env)
        if status:
            raise Failed(status, f"`core` ended with {status}: {said.decode(errors='replace').strip()}")
        return read_core(said)

    def trace_of(self, env: int, first: int, last: int) -> str:
        """The trace of an environment in the ticks from `first` to `last` - 1."""
        status, said = self.said("trace", last, env, first)
        text = said.decode("latin-1")
        if text.endswith("\ndone\n"):
            return text
        try:
            lines_of(text)
        except Cut as why:
            raise Failed(status or 1, f"{why}; the program ended with {status}") from None
        return text

    def console(self, env: int, tick: int) -> int:
        """How many bytes of an environment's console were put in so many ticks."""
        if not tick:
            return 0
        _, said = self.said("run" if tick <= MOST_RUN_TICKS else "long", tick)
        found = re.search(rb"(?m)^out %d (\d+) " % env, said)
        return int(found[1]) if found else 0


class Memory:
    """What an environment sees: the bytes of pages by their VPNs, and which of them may be stored to. `kept` are the VPNs of its
    guaranteed pages."""

    def __init__(self, core: Core, kept: AbstractSet[int]):
        self.pages = {vpn: bytearray(page.data) for vpn, page in core.pages.items()}
        self.writable = {vpn for vpn, page in core.pages.items() if page.is_writable}
        self.bound = sorted(set(self.pages) - kept)

    def copy(self) -> "Memory":
        other = copy.copy(self)
        other.pages = {vpn: bytearray(page) for vpn, page in self.pages.items()}
        return other

    def read(self, address: int, size: int) -> bytes:
        """The bytes from an address on, up to the first one that no page has."""
        found = bytearray()
        while len(found) < size:
            vpn, place = divmod(address + len(found) & 0xFFFFFFFF, PAGE_SIZE)
            if vpn not in self.pages:
                break
            found += self.pages[vpn][place: place + size - len(found)]
        return bytes(found)

    def word(self, address: int) -> Optional[int]:
        """The word at an address, or None where no page is."""
        found = self.read(address, WORD)
        return int.from_bytes(found, "little") if len(found) == WORD else None

    def put(self, address: int, data: bytes) -> None:
        """Stores bytes, where a page is that may be stored to."""
        vpn, place = divmod(address, PAGE_SIZE)
        if vpn in self.writable:
            self.pages[vpn][place: place + len(data)] = data

    def may_be_twice(self, vpn: int) -> bool:
        """Whether a bound page may be seen at another VPN too: then that has the same bytes."""
        return vpn in self.bound and any(self.pages[it] == self.pages[vpn] for it in self.bound if it != vpn)

    def differences(self, other: "Memory") -> Iterator[Tuple[int, int, Optional[bytes]]]:
        """What another memory has in place of this one's: a VPN, a place there and the bytes, as long as words differ. Of a page that is gone
        there are none, and a new page is zeros first."""
        for vpn in sorted({*self.pages, *other.pages}):
            old, new = self.pages.get(vpn), other.pages.get(vpn)
            if old is None or new is None:
                yield vpn, 0, None if new is None else b""
            old = bytearray(PAGE_SIZE) if old is None else old
            if new is not None and old != new:
                yield from ((vpn, first, bytes(new[first:end])) for first, end in stretches(old, new))


def stretches(old: bytearray, new: bytearray) -> List[Tuple[int, int]]:
    """Where words of a page differ: from where to where."""
    found: List[Tuple[int, int]] = []
    for at in range(0, PAGE_SIZE, WORD):
        if old[at: at + WORD] != new[at: at + WORD]:
            if found and found[-1][1] == at:
                found[-1] = (found[-1][0], at + WORD)
            else:
                found.append((at, at + WORD))
    return found
