"""Serves a run to a debugger, as GDB, by its remote protocol on the loopback.

The run is what it is: registers and memory are read and never written, and to read where no page is is an error. It can be walked through
forwards and backwards. `continue` stops at breakpoints, where a watched byte changes, and at the ends of the run; where a search gives up,
it stops there, and says so.
"""

from __future__ import annotations

import socket
import sys
from typing import Callable, Dict, List, Optional, Set, Tuple

import searching
from moments import Memory
from programs import say
from registers import HI, LO
from stepper import Stepper
from steps import Found

COUNTER, COUNT = 37, 38  # GDB's numbers of registers: after $31 stand status, LO, HI, bad address and cause
ABSENT = "xxxxxxxx"
STOPPED = "T05"  # by SIGTRAP
FEATURES = "PacketSize=4000;ReverseStep+;ReverseContinue+;swbreak-;hwbreak-;vContSupported+"
WRITE_WATCH = "2"  # the kind of a watchpoint at stores
READ_ONLY, NO_PAGE, FORM = "E01", "E14", "E16"
MOST_READ = 0x1000


def packet(text: str) -> bytes:
    """A packet with its sum."""
    return f"${text}#{sum(text.encode()) % 256:02x}".encode()


class Session:
    """A debugger's session over a run. Its place is before the step that is made next."""

    breakpoints: Set[int]  # addresses
    watched: Set[Tuple[int, int]]  # addresses, each with how many bytes

    def __init__(self, stepper: Stepper, tick: int = 0):
        self.steps, self.breakpoints, self.watched = stepper.steps, set(), set()
        self.done = self.steps.turns.made(tick - 1) if tick else 0
        self.seen: Optional[Tuple[int, Memory]] = None
        self.told: List[str] = []  # for the debugger's own console

    @property
    def pc(self) -> int:
        """Where the next step is made; after the last one where it would be, or the last one where it died of that."""
        if self.done < len(self.steps):
            place: int = self.steps[self.done].row.pc
        elif self.steps.is_alive:
            place = self.steps.run.moments.core(self.steps.number, self.steps.end).pc
        else:
            place = self.steps[self.done - 1].row.pc
        return place

    def found(self, done: int) -> Memory:
        """The memory that the next step finds."""
        if self.seen is None or self.seen[0] != done:
            self.seen = done, self.steps.memory_found(done)
        return self.seen[1]

    # What a debugger asks

    def answer(self, text: str) -> Optional[str]:
        """The answer to a packet; None where the session ends."""
        if text.startswith("qSupported"):
            return FEATURES
        if text in ("D", "k", "vKill") or text.startswith(("D;", "vKill")):
            return None
        exact: Dict[str, Callable[[], str]] = {
            "?": lambda: STOPPED, "g": self.registers, "qAttached": lambda: "1", "vCont?": lambda: "vCont;c;C;s;S", "qC": lambda: "QC1",
            "qfThreadInfo": lambda: "m1", "qsThreadInfo": lambda: "l", "bs": lambda: self.step(True), "bc": lambda: self.run(True),
            "qOffsets": lambda: "Text=0;Data=0;Bss=0"}
        if text in exact:
            return exact[text]()
        kind, rest = text[:1], text[1:]
        if kind == "H" or kind == "T":
            return "OK"
        if text.startswith("vCont;"):
            kind, rest = text[6:7].lower(), ""
        ways: Dict[str, Callable[[str], str]] = {"m": self.memory, "p": self.register, "Z": self.set_breakpoint, "z": self.clear_breakpoint,
                                                 "s": lambda _: self.step(False), "c": lambda _: self.run(False)}
        if kind in ("M", "G", "P", "X"):
            return READ_ONLY
        try:
            return ways[kind](rest) if kind in ways else ""
        except (ValueError, IndexError):
            return FORM

    def value(self, number: int, registers: List[int]) -> str:
        """A register by GDB's number."""
        place = {33: LO, 34: HI}.get(number, number if number < 32 else None)
        value = self.pc if number == COUNTER else None if place is None else registers[place]
        return ABSENT if value is None else value.to_bytes(4, "little").hex()

    def registers(self) -> str:
        found = self.steps.found(self.done)
        return "".join(self.value(number, found) for number in range(COUNT))

    def register(self, rest: str) -> str:
        number = int(rest, 16)
        return self.value(number, self.steps.found(self.done)) if number < COUNT else ABSENT

    def memory(self, rest: str) -> str:
        address, length = (int(part, 16) for part in rest.split(","))
        return self.found(self.done).read(address, min(length, MOST_READ)).hex() or NO_PAGE

    def set_breakpoint(self, rest: str) -> str:
        kind, address, length = rest.split(";")[0].split(",", 2)
        if kind == WRITE_WATCH:
            self.watched.add((int(address, 16), int(length, 16)))
        elif kind in ("0", "1"):
            self.breakpoints.add(int(address, 16))
        else:
            return ""
        return "OK"

    def clear_breakpoint(self, rest: str) -> str:
        kind, address, length = rest.split(",", 2)
        self.breakpoints.discard(int(address, 16) if kind in ("0", "1") else -1)
        self.watched.discard((int(address, 16), int(length, 16)) if kind == WRITE_WATCH else (-1, 0))
        return "OK"

    def changed(self, done: int) -> Optional[int]:
        """The watched address whose bytes are others after so many steps than a step before, if any."""
        ranges = sorted(self.watched)
        before = [self.found(done - 1).read(*it) for it in ranges]
        after = [self.found(done).read(*it) for it in ranges]
        return next((address for (address, _), one, other in zip(ranges, before, after) if one != other), None)

    def step(self, backwards: bool) -> str:
        done = self.done + (-1 if backwards else 1)
        if not 0 <= done <= len(self.steps):
            return self.at_end(backwards)
        self.done = done
        return STOPPED if done < len(self.steps) else self.at_end(False)

    def run(self, backwards: bool) -> str:
        """Goes on to the next breakpoint or change, or the one before. A step has the breakpoint, or the change before the next one."""
        stop, change, up_to = None, None, None
        if self.breakpoints:
            found = self.steps.search(self.done + 1, searching.at_addresses(self.breakpoints), lambda _: True, backwards)
            stop, up_to = None if found.place is None else found.place - 1, found.up_to
        if self.watched:
            found = self.change(backwards, stop)
            change, up_to = found.place, up_to if found.up_to is None else found.up_to
        places = [it for it in (stop, change) if it is not None]
        if not places and up_to is not None:
            return self.given_up(up_to)
        if not places:
            self.done = 0 if backwards else len(self.steps)
            return self.at_end(backwards)
        nearest = max(places) if backwards else min(places)
        address = self.changed(nearest) if nearest == change else None
        self.done = nearest - 1 if backwards and address is not None else nearest
        return STOPPED if address is None else f"{STOPPED}watch:{address:x};"

    def change(self, backwards: bool, bound: Optional[int]) -> Found:
        """The place after the next step that changes a watched byte, or the one before, up to where a breakpoint is."""
        words = [word for address, length in self.watched for word in range(address & ~3, address + length, 4)]
        start = self.done + 1 if backwards else self.done
        return self.steps.search(start, self.steps.changes_at(words), lambda it: self.changed(it) is not None, backwards, bound or None)

    def given_up(self, tick: int) -> str:
        """Stops where a search gave up."""
        self.done = self.steps.turns.made(tick - 1) if tick else 0
        self.told.append(f"nothing was found up to tick {tick}: continue goes on from there\n")
        return STOPPED

    def at_end(self, backwards: bool) -> str:
        return f"{STOPPED}replaylog:{'begin' if backwards else 'end'};"


def serve(stepper: Stepper, port: int, symbols: str, tick: int = 0) -> None:
    """Waits for one debugger, and answers it until it leaves. `symbols` is the path of the file that it reads symbols of, if any, and the
    session begins before the first step from `tick` on. Port 0 is one that is free."""
    with socket.create_server(("127.0.0.1", port)) as server:
        port = server.getsockname()[1]
        say(f"{len(stepper.steps):,} steps wait at 127.0.0.1:{port}: gdb-multiarch{f' {symbols}' if symbols else ''} -ex 'target remote :{port}'")
        sys.stdout.flush()
        peer, _ = server.accept()
        with peer:
            peer.setsockopt(socket.IPPROTO_TCP, socket.TCP_NODELAY, 1)
            converse(Session(stepper, tick), peer)


def converse(session: Session, peer: socket.socket) -> None:
    """Packets and their answers."""
    waiting = b""
    while True:
        try:
            more = peer.recv(1 << 16)
        except ConnectionError:
            return
        if not more:
            return
        waiting += more
        while True:
            waiting = waiting.lstrip(b"+-\x03")
            end = waiting.find(b"#")
            if not waiting.startswith(b"$") or end < 0 or len(waiting) < end + 3:
                break
            text, waiting = waiting[1:end].decode("latin-1"), waiting[end + 3:]
            peer.sendall(b"+")
            answer = session.answer(text)
            if answer is None:
                peer.sendall(packet("OK"))
                return
            for line in session.told:
                peer.sendall(packet(f"O{line.encode().hex()}"))
            session.told.clear()
            peer.sendall(packet(answer))
