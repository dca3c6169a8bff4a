"""An environment made of its feed alone: docs/MODEL.md, "An environment alone". It has no kernel, no board and no neighbours: what it
is follows from the items that the reference says it was given. What a report shows of it has to be the same, but for its excess.
"""
from __future__ import annotations

import struct
from hashlib import sha256
from typing import Dict, Iterator, List, NamedTuple, Optional, Sequence, Set, Tuple

from board import MOST_SENT, NAMES, Item, word_of
from files import PAGE, VERSIONS
from handlers import Run
from kernel_calls import ACCEPT, ALLOC, BIND, CLAIM, CONTEXT, EXIT, HANDLER, PUT, SEND, UNBIND, UNCLAIM
from kernel_layout import (ASYNCHRONOUS, AT, BUFFER_SIZE, CONTEXT_VPN, END_AREA, ENDS, ENTRY_AREA, EXCEPTION_AREA, EXCEPTIONS, K0, K1, MOST_RECORDS, NO_BACKUP,
                           POST_DEADLINE, POST_LINES, POST_LOST, POST_OUTSTANDING, POST_PACKETS, POST_TAKINGS, RECORDS, START_AREA, STARTS)
from machine import ADEL, ADES, MOD, TLBL, TLBS, WORD, Cpu, KernelCall, Trap, step
from run_report import text_of



class Ring:
    """A claim of its own: the page, how many packets came into its buffers, and the words of its handler."""

    def __init__(self, page: int):
        self.page, self.deliveries = page, 0
        self.handler: Tuple[int, ...] = ()


class Binding(NamedTuple):
    vpn: int
    page: int
    is_writable: bool


class Alone:
    """What an environment makes of the items that it is given."""

    def __init__(self, feed: Sequence[Item]):
        self.life, self.handlers, self.console = "live", [0] * 5, bytearray()
        self.sent: List[bytes] = []
        self.kept: Dict[int, Tuple[bytearray, bool]] = {}
        self.seen: Dict[int, bytearray] = {}  # by number, the pages that it owns or has bound
        self.owned: Set[int] = set()
        self.bindings: Dict[int, Binding] = {}
        self.rings: Dict[int, Ring] = {}
        for kind, *what in feed:
            if self.life == "live":
                getattr(self, str(kind))(*what)

    # Its memory, as its own steps see it

    def reach(self, va: int, is_store: bool) -> bytearray:
        if va >> 31:
            raise Trap(ADES if is_store else ADEL, va)
        data, is_writable = self.mapped(va // PAGE)
        if data is None:
            raise Trap(TLBS if is_store else TLBL, va)
        if is_store and not is_writable:
            raise Trap(MOD, va)
        return data

    def mapped(self, vpn: int) -> Tuple[Optional[bytearray], bool]:
        if vpn in self.kept:
            return self.kept[vpn]
        bound = self.bindings.get(vpn % self.rows)
        return (self.seen[bound.page], bound.is_writable) if bound and bound.vpn == vpn else (None, False)

    def fetch(self, va: int) -> int:
        return word_of(self.reach(va, False), va % PAGE & ~3)

    def load(self, va: int, width: int) -> int:
        return self.fetch(va)

    def store(self, va: int, place: int, data: bytes) -> None:
        self.reach(va, True)[place % PAGE : place % PAGE + len(data)] = data

    def range(self, address: int, length: int) -> bytes:
        """Bytes that a granted call names."""
        data, _ = self.mapped(address // PAGE)
        return bytes(data[address % PAGE : address % PAGE + length]) if data and length else b""

    def set_context(self, place: int, *words: int) -> None:
        struct.pack_into(f"<{len(words)}I", self.kept[CONTEXT_VPN][0], place, *words)

    def post(self, place: int) -> int:
        return word_of(self.kept[CONTEXT_VPN][0], place)

    def count_up(self, place: int) -> None:
        self.set_context(place, self.post(place) + 1 & WORD)

    # The items

    def boot(self, version: int, record: bytes) -> None:
        self.number, name, entry, self.mask = struct.unpack_from("<B8sII", record)
        self.name, self.rows, self.cpu = name.rstrip(b"\0").decode(), VERSIONS[version].stripe_rows, Cpu(entry)
        for place in range(17, len(record), 8 + PAGE):
            vpn, is_writable = struct.unpack_from("<II", record, place)
            self.kept[vpn] = bytearray(record[place + 8 : place + 8 + PAGE]), bool(is_writable)

    def step(self) -> None:
        try:
            step(self.cpu, self)
        except KernelCall:
            if self.cpu.regs[2] == EXIT:
                self.life = f"exit {self.cpu.regs[4]}"
        except Trap as trap:
            self.raise_exception(trap)

    def raise_exception(self, trap: Trap) -> None:
        if not self.handlers[EXCEPTIONS]:
            self.life = f"dead {NAMES[trap.code]}"
            return
        cpu, epc, cause = self.cpu, self.cpu.restart(), self.cpu.cause(trap.code, trap.unit)
        self.set_context(EXCEPTION_AREA, cpu.regs[AT], cpu.regs[K0], cpu.regs[K1], epc, trap.bad, cause)
        for register, value in ((AT, cause), (K0, epc), (K1, trap.bad)):
            cpu.set(register, value)
        cpu.continue_at(self.handlers[EXCEPTIONS])

    def upcall(self, kind: int, area: int, *more: int) -> None:
        self.set_context(area, self.cpu.regs[K0], self.cpu.pc, *more)
        self.cpu.set(K0, self.cpu.pc)
        self.cpu.continue_at(self.handlers[kind])

    def start(self) -> None:
        self.cpu.rest()
        if self.handlers[STARTS]:
            self.upcall(STARTS, START_AREA)

    def end(self) -> None:
        cause = self.cpu.cause()
        self.cpu.rest()
        self.upcall(ENDS, END_AREA, cause)

    def transfer(self, caller: int, kind: int, registers: bytes) -> None:
        cpu = self.cpu
        cpu.rest()
        self.set_context(ENTRY_AREA, *cpu.regs[1:], cpu.hi, cpu.lo, cpu.pc, caller, kind)
        *rest, cpu.hi, cpu.lo = struct.unpack("<33I", registers)
        cpu.regs = [0, *rest]
        cpu.continue_at(self.handlers[ASYNCHRONOUS + kind])
        self.mask = 0

    def killed(self) -> None:
        self.life = "dead excess"

    def answer(self, code: int, value: int) -> None:
        if code == 0:
            self.granted(value, *self.cpu.regs[4:9])
        self.cpu.set(2, code)
        self.cpu.set(3, value)
        self.cpu.continue_at(self.cpu.pc + 4 & WORD)

    def granted(self, value: int, first: int, second: int, third: int, *_: int) -> None:
        """The part of a granted call that is its own."""
        number = self.cpu.regs[2]
        if number == PUT:
            self.console += self.range(first, second)
        elif number == ALLOC:
            self.owned.add(value)
        elif number == BIND:
            self.change_row(first, Binding(first, second, bool(third)))
        elif number == UNBIND and value:
            self.change_row(first, None)
        elif number == CONTEXT:
            self.handlers[first] = second
        elif number == ACCEPT:
            self.mask = first
        elif number == CLAIM:
            self.rings[value] = Ring(third)
        elif number == UNCLAIM:
            del self.rings[first]
        elif number == HANDLER:
            self.rings[first].handler = struct.unpack(f"<{third}I", self.range(second, 4 * third))
        elif number == SEND:
            self.sent.append(self.range(first, second))

    def change_row(self, vpn: int, binding: Optional[Binding]) -> None:
        """A row has another binding, or none. A page that is neither bound nor owned isn't seen any more."""
        self.bindings.pop(vpn % self.rows, None)
        if binding:
            self.bindings[vpn % self.rows] = binding
        there = self.owned | {it.page for it in self.bindings.values()}
        self.seen = {page: data for page, data in self.seen.items() if page in there}

    def gained(self, page: int, is_writable: int, data: bytes) -> None:
        self.seen[page] = bytearray(data)

    def lost(self, page: int) -> None:
        self.owned.discard(page)
        self.seen.pop(page, None)
        self.bindings = {row: it for row, it in self.bindings.items() if it.page != page}
        self.rings = {claim: it for claim, it in self.rings.items() if it.page != page}

    def left(self, page: int, place: int, data: bytes) -> None:
        self.seen[page][place : place + len(data)] = data

    def packet(self, claim: int, packet: bytes) -> None:
        self.count_up(POST_PACKETS)
        ring = self.rings[claim]
        page, buffer = self.seen[ring.page], ring.deliveries % 2 * BUFFER_SIZE
        if ring.handler:
            self.sent += Run(ring.handler, packet, claim, page).replies[: MOST_SENT - len(self.sent)]
        elif word_of(page, buffer):
            self.count_up(POST_LOST)
        else:
            page[buffer : buffer + 4 + len(packet)] = struct.pack("<I", len(packet)) + packet
            ring.deliveries += 1

    def line(self, line: int) -> None:
        self.set_context(POST_LINES, self.post(POST_LINES) | 1 << line)

    def asked(self, outstanding: int, deadline: int) -> None:
        self.set_context(POST_OUTSTANDING, outstanding)
        self.set_context(POST_DEADLINE, deadline)

    def taken(self, page: int, backup: Optional[int]) -> None:
        if backup is not None:
            self.seen[backup][:] = self.seen[page]
        place = self.post(POST_TAKINGS)
        if place < MOST_RECORDS:
            self.set_context(RECORDS + 8 * place, page, NO_BACKUP if backup is None else backup)
        self.count_up(POST_TAKINGS)
        self.lost(page)

    # What a report shows

    def lines(self) -> Iterator[str]:
        """Its lines but that of its excess."""
        number = self.number
        yield f"env {number} {self.name} {self.life}"
        yield f'out {number} {len(self.console)} "{text_of(self.console)}"'
        if self.life == "live":
            yield from self.living_lines(number)
        for packet in self.sent:
            yield f"sent {number} {len(packet)} {packet.hex()}"

    def living_lines(self, number: int) -> Iterator[str]:
        cpu = self.cpu
        cpu.rest()
        yield f"cpu {number} {cpu.pc:08x} {cpu.next:08x} {cpu.slot:d} {cpu.hi:08x} {cpu.lo:08x}"
        yield f"regs {number} " + " ".join(f"{value:08x}" for value in cpu.regs[1:])
        for vpn, (data, _) in sorted(self.kept.items()):
            yield f"keep {number} {vpn:05x} {sha256(data).hexdigest()}"
        for page in sorted(self.owned):
            yield f"page {number} {page} {sha256(self.seen[page]).hexdigest()}"
        for vpn, page, is_writable in sorted(self.bindings.values()):
            yield f"bind {number} {vpn:05x} {page} {'w' if is_writable else 'r'}"


def difference(feed: Sequence[Item], shown: str) -> str:
    """How what a feed makes differs from what a report shows there, but for the excess; or nothing."""
    due = [line for line in shown.splitlines() if not line.startswith("excess ")]
    made: List[str] = list(Alone(feed).lines())
    return "" if made == due else next((f"{left[:120]!r} and not {right[:120]!r}" for left, right in zip(made, due) if left != right),
                                       f"{len(made)} lines and not {len(due)}")
