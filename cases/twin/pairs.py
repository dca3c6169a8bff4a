"""Random pairs of systems: one of cases/reference_model, and one that differs from it somewhere; or a quiet environment among neighbours
of two systems.
"""
from __future__ import annotations

import random
import struct
from dataclasses import dataclass, replace
from typing import Callable, List, Optional, Sequence, Tuple

from binary import EMPTY, MAGIC, NOP, addiu, immediate, ori, register
from files import LEAST_QUANTUM, MOST_QUANTUM
from guests import Guest, System
from systems import (ANY, AREA, BASE, CONTEXT, CONTEXTS, ENDS, EXCEPTIONS, EXIT, K0, MISSES, OLD, OPCODES, OWN_NUMBER, PAGE, RESUME, ROUNDS, STARTS, YIELD,
                     ZERO, Program)

HEADER, PROGRAM = "<4sIIHH", "<8s5I"


@dataclass
class Parts:
    """An image and a schedule in their parts: version, pages, quantum, the owners of slots, the programs and the events."""

    version: int
    pages: int
    quantum: int
    slots: List[int]
    programs: List[bytes]
    events: List[str]

    def files(self) -> Tuple[bytes, bytes]:
        head = struct.pack(HEADER, MAGIC[self.version], self.pages, self.quantum, len(self.programs), len(self.slots))
        return head + bytes(self.slots) + b"".join(self.programs), "".join(f"{it}\n" for it in self.events).encode("latin-1")


def parts_of(system: System) -> Parts:
    """The parts of a system whose image may have a fault."""
    magic, pages, quantum, count, slots = struct.unpack_from(HEADER, system.image)
    place, programs = 16 + slots, []
    for _ in range(min(count, 32)):
        length, = struct.unpack_from("<I", system.image.ljust(place + 28, b"\0"), place + 24)
        programs.append(system.image[place : place + 28 + length])
        place += 28 + length
    version = next((number for number, it in MAGIC.items() if it == magic), 1)
    return Parts(version, pages, quantum, list(system.image[16 : 16 + slots]), programs, system.schedule.decode("latin-1").splitlines())


# --- Quiet programs --------------------------------------------------------------------------------------------


class Quiet(Guest):
    """A program that calls nothing but yield to whoever is next, put, exit, unbind, context, self and send."""

    def ask(self) -> None:
        self.call(OWN_NUMBER)

    def delay_slot(self) -> None:
        """A branch with an access in its slot. A call there would be passed to the handler, and then run by any number."""
        self.point()
        opcode, rs = self.chance.choice(((4, 0), (5, 0), (6, 9), (7, 9)))
        self.add(immediate(opcode, rs, ZERO, 1), self.access())

    def hear(self) -> None:
        kind = self.chance.choice((STARTS, ENDS))
        if self.chance.random() < 0.7:
            self.handle(kind)
        else:
            self.call(CONTEXT, kind, 0)

    BLOCKS: Tuple[Tuple[Callable[..., None], float], ...] = (
        (ask, 1), (hear, 1), (delay_slot, 3), (Program.unbind, 2), (Program.give_up, 6), (Program.put, 3), (Program.other_calls, 1),
        (Program.accesses, 6), (Program.fill, 2), (Program.arithmetic, 5), (Program.fault, 2), (Program.wait, 3), (Guest.send, 4), (Guest.flood, 0.3),
        (Guest.look, 4), (Guest.drain, 2), (Guest.count_anew, 1))

    def handler_of_exceptions(self) -> None:
        """Passes over the instruction."""
        self.add(addiu(MISSES, MISSES, 1), addiu(K0, K0, 4), register(8, K0, 0, 0), NOP)

    def handler_of_starts(self) -> None:
        if self.chance.random() < 0.3:
            self.wait()
        self.add(register(8, K0, 0, 0), immediate(OPCODES["lw"], ZERO, K0, AREA + 0x40))

    def handler_of_ends(self) -> None:
        """Yields, at once or later, or goes on in grace, at times until its death."""
        self.add(register(37, K0, ZERO, RESUME), immediate(OPCODES["lw"], ZERO, OLD, AREA + 0x50))
        kind = self.chance.random()
        if kind < 0.4:
            self.wait()
        if kind < 0.9:
            self.call(YIELD, ANY)
        self.add(register(8, RESUME, 0, 0), register(37, OLD, ZERO, K0))

    def code_and_data(self) -> Tuple[bytes, bytes]:
        kinds = [kind for kind in (STARTS, ENDS) if kind in self.hears]
        for kind in [EXCEPTIONS] * self.has_handler + kinds:
            self.handle(kind)
        start = len(self.words)
        blocks, weights = zip(*self.BLOCKS)
        for block in self.chance.choices(blocks, weights, k=self.chance.randrange(5, 40)):
            if len(self.words) < 700:
                block(self)
        if self.chance.random() < 0.1:
            self.call(EXIT, 3)
        self.add(addiu(ROUNDS, ROUNDS, 1))
        self.branch_back(4, ZERO, ZERO, start)
        for kind, handler in zip(CONTEXTS, (self.handler_of_exceptions, self.handler_of_starts, self.handler_of_ends)):
            for place in self.wanted[kind]:
                self.words[place] = ori(5, ZERO, BASE + 4 * len(self.words))
            if self.wanted[kind]:
                handler()
        return struct.pack(f"<{len(self.words)}I", *self.words), bytes(self.data)


def quiet_program(chance: random.Random, system: System, number: int) -> bytes:
    """A part of an image: a quiet program that accepts nobody."""
    code, data = Quiet(chance, system, number).code_and_data()
    content = code.ljust(PAGE, b"\0") + data
    return struct.pack(PROGRAM, f"e{number}".encode(), BASE, 0, 0, 0, len(content)) + content


# --- Pairs -----------------------------------------------------------------------------------------------------


class Pair:
    """Two systems, for how many ticks they are looked at, and the environment that is quiet in both, if one is."""

    def __init__(self, seed: int):
        self.chance = random.Random(seed)
        self.systems = System(2 * seed), System(2 * seed + 1)
        self.ticks = self.chance.choice((200, 600, 1000, 1500))
        self.quiet: Optional[int] = None
        left = parts_of(self.systems[0])
        self.changed = "nothing"
        right = self.quiet_right(left) if self.chance.random() < 0.3 else self.other_right(left)
        self.left, self.right = left.files(), right.files()

    def quiet_right(self, left: Parts) -> Parts:
        """Neighbours, slots, pages and events of another system, and one quiet environment in both."""
        right = parts_of(self.systems[1])
        self.quiet = number = self.chance.randrange(min(len(left.programs), len(right.programs)))
        program = quiet_program(self.chance, self.systems[0], number)
        right = replace(right, quantum=left.quantum, version=left.version)
        for parts in (left, right):
            parts.programs[number] = program
            parts.slots.append(number)
            parts.events = [line for line in parts.events if line.split()[1:3] != ["revoke", str(number)]]
        return right

    def other_right(self, left: Parts) -> Parts:
        """The same but for a change or two."""
        right = replace(left, slots=list(left.slots), programs=list(left.programs), events=list(left.events))
        changes = self.chance.sample(CHANGES, self.chance.choice((0, 1, 1, 1, 1, 2)))
        for change in changes:
            change(self, right)
        self.changed = " ".join(it.__name__ for it in changes) or "nothing"
        return right

    def other_events(self, right: Parts) -> None:
        right.events = parts_of(self.systems[1]).events

    def no_event(self, right: Parts) -> None:
        """An event doesn't come."""
        if right.events:
            del right.events[self.chance.randrange(len(right.events))]

    def other_event(self, right: Parts) -> None:
        """An event is another one in its tick."""
        if right.events:
            place = self.chance.randrange(len(right.events))
            word, _, _ = right.events[place].strip().partition(" ")
            right.events[place] = f"{word} {self.systems[1].event_text(int(word, 0))}" if word[:1].isdigit() else ""

    def another_count(self, right: Parts) -> None:
        """A revocation asks for another count of pages."""
        places = [place for place, line in enumerate(right.events) if line.split()[1:2] == ["revoke"] and "#" not in line and len(line.split()) == 5]
        for place in places[:1]:
            tick, kind, env, count, grace = right.events[place].split()
            right.events[place] = f"{tick} {kind} {env} {int(count, 0) ^ 1} {grace}"

    def other_neighbour(self, right: Parts) -> None:
        programs, place = parts_of(self.systems[1]).programs, self.chance.randrange(len(right.programs))
        right.programs[place] = self.chance.choice(programs)

    def other_slots(self, right: Parts) -> None:
        self.chance.shuffle(right.slots)

    def one_slot_more(self, right: Parts) -> None:
        right.slots.insert(self.chance.randrange(len(right.slots) + 1), self.chance.choice((EMPTY, self.chance.randrange(len(right.programs)))))

    def other_quantum(self, right: Parts) -> None:
        right.quantum = min(MOST_QUANTUM, max(LEAST_QUANTUM, right.quantum + self.chance.choice((-3, -1, 1, 5, 200))))

    def other_version(self, right: Parts) -> None:
        right.version = 3 - right.version

    def more_pages(self, right: Parts) -> None:
        right.pages += self.chance.choice((-1, 1, 7))

    def one_byte(self, right: Parts) -> None:
        place = self.chance.randrange(len(right.programs))
        program = bytearray(right.programs[place])
        program[self.chance.choice((16, 17, 28 + self.chance.randrange(200), self.chance.randrange(len(program))))] ^= 1 << self.chance.randrange(8)
        right.programs[place] = bytes(program)

    def one_fewer(self, right: Parts) -> None:
        """The last environment isn't there."""
        if len(right.programs) > 1:
            right.programs.pop()
            right.slots = [min(owner, EMPTY) if owner < len(right.programs) else EMPTY for owner in right.slots]


CHANGES: Sequence[Callable[[Pair, Parts], None]] = (
    Pair.other_events, Pair.no_event, Pair.no_event, Pair.other_event, Pair.other_event, Pair.another_count, Pair.other_neighbour, Pair.other_neighbour,
    Pair.other_neighbour, Pair.other_slots, Pair.one_slot_more, Pair.other_quantum, Pair.other_version, Pair.more_pages, Pair.one_byte, Pair.one_fewer)
