"""Random systems: images of a few environments that share a few pages, made from a seed.

Each environment runs a loop of random blocks: arithmetic, loads and stores, and kernel calls whose arguments make sense
often enough that most calls are granted. Most have a handler of exceptions, which passes over the instruction or binds a
page where it was missed. The words that pages get and binds present are few, so that environments bind each other's.

Many have handlers of the starts and ends of their slices. One of ends yields at once, or some quanta later, or never: then
the program runs on in grace. Environments give each other slices, mostly in their own time and to who accepts it; some
have no slot, and take one that is empty.

Most have entries for transfers, of one kind or of both, and call each other. Who is called does some of what a program does,
mostly accepts again, and goes on where it stood; at times it calls its caller back, so that slots go there and back.
"""
from __future__ import annotations

import os
import random
import sys
from typing import Callable, Dict, List, Protocol, Tuple, Union

CASES = os.path.dirname(os.path.dirname(os.path.realpath(__file__)))
sys.path[:0] = [CASES, f"{CASES}/../tools"]
import binary
from kernel_calls import (ACCEPT, ALLOC, ANY, BIND, CLOCK, CONTEXT, DROP, EXIT, FREE, OWN_NUMBER, PUT, QUERY, RECAP, TAKE, TRANSFER, UNBIND,
                          YIELD)
from kernel_layout import ASYNCHRONOUS, CONTEXTS, ENDS, EXCEPTIONS, STARTS, SYNCHRONOUS
from binary import BREAK, NOP, SYSCALL, addiu, immediate, ori, register

BASE, PAGE, AREA = 0x2000, 4096, 0x1000
ZERO, AT, V0, V1, A0, A1, A2, A3, A4 = range(9)
SCRATCH, PAGES, POINTER, COUNTER, ROUNDS, MISSES, RESUME, OLD, K0, K1, STACK = range(9, 16), range(16, 20), 20, 21, 22, 23, 24, 25, 26, 27, 29
# the VPNs at which pages are bound: the first three share a row, and so do the next two with guaranteed ones
NUMBERS = (0x500, 0x600, 0x700, 0x101, 0x102, 0x000, 0x501, 0x7FF00)
READ_WORDS, WRITE_WORDS = ((5, 0),) * 6 + ((5, 1), (0, 0)), ((9, 0),) * 6 + ((0, 1), (0, 0))
OPCODES = {"lb": 32, "lh": 33, "lwl": 34, "lw": 35, "lbu": 36, "lhu": 37, "lwr": 38, "sb": 40, "sh": 41, "swl": 42, "sw": 43, "swr": 46}
WIDTHS = {"lh": 2, "lhu": 2, "sh": 2, "lw": 4, "sw": 4}


class Machine(Protocol):
    """What a program has to know of its machine."""

    total: int  # guaranteed pages
    pages: int
    guaranteed: List[List[int]]
    slots: List[int]


Blocks = Tuple[Tuple[Callable[..., None], float], ...]  # methods that add something to a program, and how often each is taken


class Program:
    """The words of one environment's program, as they are made."""

    def __init__(self, chance: random.Random, system: Machine, number: int):
        self.chance, self.guaranteed, self.pages = chance, system.total, system.pages
        self.own, self.count, self.slots = number, len(system.guaranteed), len(system.slots)
        self.words: List[int] = []
        self.has_handler = chance.random() < 0.8
        # by kind of its handler, the places of the words that put its address into a register
        self.wanted: Dict[int, List[int]] = {kind: [] for kind in CONTEXTS}
        shares = ((STARTS, 0.35), (ENDS, 0.5), (ASYNCHRONOUS, 0.8), (SYNCHRONOUS, 0.8))
        self.hears = [kind for kind, share in shares if chance.random() < share]

    def add(self, *words: int) -> None:
        self.words += words

    def load_number(self, rt: int, value: int) -> None:
        """Puts a number of 32 bits into a register."""
        if value >> 16:
            self.add(immediate(15, 0, rt, value >> 16))
            if value & 0xFFFF:
                self.add(ori(rt, rt, value))
        else:
            self.add(ori(rt, ZERO, value))

    def call(self, number: int, *arguments: Union[List[int], int]) -> None:
        """A kernel call; an argument is a number, or a register in a list."""
        for place, argument in enumerate(arguments, A0):
            if isinstance(argument, list):
                self.add(register(37, argument[0], ZERO, place))
            else:
                self.load_number(place, argument)
        self.add(ori(V0, ZERO, number), SYSCALL)

    def handle(self, kind: int) -> None:
        """Has exceptions, starts or ends handled, or transfers enter, where a handler is made last."""
        self.add(ori(A0, ZERO, kind), ori(V0, ZERO, CONTEXT))
        self.wanted[kind].append(len(self.words))
        self.add(NOP, SYSCALL)

    def branch_back(self, opcode: int, rs: int, rt: int, place: int, slot: int = NOP) -> None:
        self.add(immediate(opcode, rs, rt, place - len(self.words) - 1), slot)

    def words_given(self) -> Tuple[int, ...]:
        return (*self.chance.choice(READ_WORDS), *self.chance.choice(WRITE_WORDS))

    def held(self) -> List[int]:
        """A register that has the number of a page, if its program has allocated one."""
        return [self.chance.choice(PAGES)]

    def page_number(self) -> int:
        """The number of a page that somebody may own, and at times one that nobody can."""
        if self.chance.random() < 0.1:
            return self.chance.choice((0, self.pages - 1, self.pages, 9999, 0xFFFFFFFF))
        return self.guaranteed + self.chance.randrange(6)

    def number(self) -> int:
        if self.chance.random() < 0.08:
            return self.chance.choice((1, 2, 0x7FFFF, 0x80000, 0xFFFFFFFF))
        return self.chance.choice(NUMBERS if self.chance.random() < 0.3 else NUMBERS[:4])

    # The blocks, and how often each is taken.

    def allocate(self) -> None:
        """The number of the page is kept where the call was granted, mostly in place of one that was freed before."""
        page = self.chance.choice(PAGES)
        if self.chance.random() < 0.7:
            self.call(FREE, [page])
        self.call(ALLOC, ANY if self.chance.random() < 0.8 else self.page_number(), *self.words_given())
        self.add(immediate(5, V0, ZERO, 2), NOP, register(37, V1, ZERO, page))

    def free(self) -> None:
        self.call(FREE, self.held() if self.chance.random() < 0.9 else self.page_number())

    def recap(self) -> None:
        self.call(RECAP, self.held() if self.chance.random() < 0.9 else self.page_number(), *self.words_given())

    def bind_own(self) -> None:
        self.bind(self.held(), 0, 0)

    def bind_shared(self) -> None:
        writable = self.chance.randrange(2)
        self.bind(self.page_number(), *self.chance.choice(WRITE_WORDS if writable else READ_WORDS), writable)

    def bind(self, page: Union[List[int], int], low: int, high: int, writable: int = 1) -> None:
        """A bind, and mostly accesses through it; where it was refused they are misses."""
        number = self.number()
        self.call(BIND, number, page, writable, low, high)
        if self.has_handler and number < 0x80000 and self.chance.random() < 0.7:
            self.load_number(POINTER, number * PAGE + self.chance.choice((0, 0x10, 0x800)))
            self.add(*(self.access() for _ in range(self.chance.randrange(1, 4))))

    def unbind(self) -> None:
        self.call(UNBIND, self.number())

    def give_up(self) -> None:
        self.call(YIELD, ANY)

    def other(self) -> int:
        """The number of another environment, and at times of none that may be given a slice."""
        if self.count == 1 or self.chance.random() < 0.1:
            return self.chance.choice((self.own, self.count, 31, 0xFFFFFFFE))
        return self.chance.choice([number for number in range(self.count) if number != self.own])

    def give(self) -> None:
        self.call(YIELD, self.other())

    def accept(self) -> None:
        self.call(ACCEPT, self.chance.choice((0xFFFF, 0xFFFF, self.chance.randrange(1 << 16), ANY, 0)))

    def kind(self) -> int:
        """A kind of transfers, and at times none."""
        return self.chance.randrange(2) if self.chance.random() < 0.95 else self.chance.choice((2, ANY))

    def transfer(self) -> None:
        self.call(TRANSFER, self.other(), self.kind())

    def slot(self) -> int:
        """The number of a slot, and at times of none."""
        return self.chance.randrange(self.slots) if self.chance.random() < 0.95 else self.chance.choice((self.slots, 64, ANY))

    def take(self) -> None:
        self.call(TAKE, self.slot())

    def drop(self) -> None:
        self.call(DROP, self.slot())

    def query(self) -> None:
        """A question, whose answer is kept among the registers of arithmetic."""
        what = self.chance.choice((0, 1, 2, 3, 4, 5, 5, 6, 6, 7, 7, 8, 8, 9, ANY))
        which = {5: self.page_number(), 6: self.slot(), 8: self.chance.randrange(self.count + 1)}.get(what, self.chance.choice((0, ANY)))
        self.call(QUERY, what, which)
        self.add(register(37, V1, ZERO, self.chance.choice(SCRATCH)))

    def hear(self) -> None:
        """Has starts or ends handled, or transfers enter, or not any more."""
        kind = self.chance.choice((STARTS, ENDS, ASYNCHRONOUS, SYNCHRONOUS))
        if self.chance.random() < 0.7:
            self.handle(kind)
        else:
            self.call(CONTEXT, kind, 0)

    def put(self) -> None:
        address = self.chance.choice((AREA, BASE, BASE + 0xFF8, *(number * PAGE + 0x10 for number in NUMBERS[:4])))
        self.call(PUT, address + self.chance.randrange(8), self.chance.choice((0, 1, 3, 8, 8)))

    def ask(self) -> None:
        self.call(self.chance.choice((OWN_NUMBER, CLOCK, CLOCK, 14, 19, 0x12345678)))

    def other_calls(self) -> None:
        """Contexts, mostly refused ones, and at times the last call."""
        kind = self.chance.random()
        if kind < 0.8:
            self.call(CONTEXT, *self.chance.choice(((5, BASE), (0, BASE + 2), (1, BASE + 1), (2, 0x80000000), (3, BASE + 3), (4, ANY - 3), (1, BASE + 0x400))))
        elif kind < 0.88:
            self.call(CONTEXT, 0, 0)
            self.has_handler = False
        else:
            self.call(EXIT, self.chance.randrange(100))

    def access(self) -> int:
        """A load or store, at the place to which the pointer points, mostly aligned."""
        name = self.chance.choice(tuple(OPCODES))
        offset = self.chance.randrange(64)
        if self.chance.random() < 0.95:
            offset -= offset % WIDTHS.get(name, 1)
        return immediate(OPCODES[name], POINTER, self.chance.choice(SCRATCH), offset)

    def point(self) -> None:
        """Has the pointer point into a page: one that may be bound, a guaranteed one, or anywhere."""
        kind = self.chance.random()
        if kind < (0.6 if self.has_handler else 0.1):
            address = self.chance.choice(NUMBERS) * PAGE + self.chance.choice((0, 0x10, 0x800, 0xFC0))
        elif kind < 0.97 or not self.has_handler:
            address = self.chance.choice((AREA + 0x100, AREA, AREA + 0xFC0, BASE + 0xF00))
        else:
            address = self.chance.randrange(1 << 32)
        self.load_number(POINTER, address)

    def accesses(self) -> None:
        self.point()
        self.add(*(self.access() for _ in range(self.chance.randrange(1, 5))))

    def fill(self) -> None:
        """A loop that stores through the pointer."""
        self.point()
        self.add(ori(COUNTER, ZERO, self.chance.randrange(1, 8)))
        place = len(self.words)
        self.add(immediate(OPCODES["sw"], POINTER, self.chance.choice(SCRATCH), 0), addiu(COUNTER, COUNTER, -1))
        self.branch_back(5, COUNTER, ZERO, place, addiu(POINTER, POINTER, 4))

    def delay_slot(self) -> None:
        """A branch, taken or not, with an access or a call in its slot."""
        self.point()
        opcode, rs = self.chance.choice(((4, 0), (5, 0), (6, 9), (7, 9)))
        in_slot = SYSCALL if self.has_handler and self.chance.random() < 0.2 else self.access()
        self.add(immediate(opcode, rs, ZERO, 1), in_slot)

    def arithmetic(self) -> None:
        for _ in range(self.chance.randrange(1, 6)):
            rs, rt, rd = (self.chance.choice(SCRATCH) for _ in range(3))
            kind = self.chance.randrange(6)
            if kind < 2:
                self.add(register(self.chance.choice((33, 35, 36, 37, 38, 39, 42, 43, 4, 6, 7)), rs, rt, rd))
            elif kind == 2:
                self.add(register(self.chance.choice((0, 2, 3)), 0, rt, rd, self.chance.randrange(32)))
            elif kind == 3:
                self.add(register(self.chance.choice((24, 25, 26, 27)), rs, rt, 0), register(self.chance.choice((16, 18)), 0, 0, rd))
            else:
                self.add(immediate(self.chance.choice((9, 10, 11, 12, 13, 14)), rs, rt, self.chance.randrange(1 << 16)))

    def fault(self) -> None:
        """What raises an exception, if there is a handler."""
        if self.has_handler:
            overflow = (immediate(15, 0, 9, 0x8000), register(32, 9, 9, 9))
            self.add(*self.chance.choice(((BREAK,), overflow, (0xFFFFFFFF,), (0x40086000,), (0x4C000000,))))

    BLOCKS: Blocks = ((allocate, 4), (free, 1), (recap, 2), (bind_own, 4), (bind_shared, 8), (unbind, 2), (give_up, 2), (put, 3), (ask, 1),
                      (give, 4), (transfer, 9), (accept, 3), (take, 2), (drop, 2), (query, 3), (hear, 1),
                      (other_calls, 1), (accesses, 4), (fill, 2), (delay_slot, 2), (arithmetic, 3), (fault, 1))

    def handler_of_starts(self) -> None:
        """Goes on with the program; at times it gives the slice away, or is long."""
        kind = self.chance.random()
        if kind < 0.3:
            self.add(register(37, K0, ZERO, RESUME), immediate(OPCODES["lw"], ZERO, OLD, AREA + 0x40))
            self.chance.choice((self.give, self.transfer))()
            self.add(register(8, RESUME, 0, 0), register(37, OLD, ZERO, K0))
            return
        if kind < 0.5:
            self.wait()
        self.add(register(8, K0, 0, 0), immediate(OPCODES["lw"], ZERO, K0, AREA + 0x40))

    def handler_of_ends(self) -> None:
        """Yields, at once or later, and goes on with the program at the next start; or goes on in grace."""
        self.add(register(37, K0, ZERO, RESUME), immediate(OPCODES["lw"], ZERO, OLD, AREA + 0x50))
        kind = self.chance.random()
        if kind < 0.4:
            self.wait()
        if self.chance.random() < 0.1:
            self.chance.choice((self.give, self.transfer, self.take, self.drop, self.query))()
        if kind < 0.85:
            self.call(YIELD, ANY)
        self.add(register(8, RESUME, 0, 0), register(37, OLD, ZERO, K0))

    def entry(self) -> None:
        """Goes on where the transfer came between; before that it may accept again, call its caller back, or do something."""
        if self.chance.random() < 0.5:
            self.chance.choice((self.wait, self.arithmetic, self.put, self.query, self.allocate, self.bind_shared, self.drop))()
        if self.chance.random() < 0.4:
            self.accept()
        if self.chance.random() < 0.6:
            self.add(immediate(OPCODES["lw"], ZERO, A0, AREA + 0x108), ori(A1, ZERO, self.kind() & 3), ori(V0, ZERO, TRANSFER), SYSCALL)
        if self.chance.random() < 0.8:
            self.accept()
        for number in range(SCRATCH[0], STACK + 1):
            if number != RESUME:
                self.add(immediate(OPCODES["lw"], ZERO, number, AREA + 0x80 + 4 * (number - 1)))
        self.add(immediate(OPCODES["lw"], ZERO, RESUME, AREA + 0x104), register(8, RESUME, 0, 0))
        self.add(immediate(OPCODES["lw"], ZERO, RESUME, AREA + 0x80 + 4 * (RESUME - 1)))

    def wait(self) -> None:
        """Counts down from a number."""
        self.add(ori(COUNTER, ZERO, self.chance.randrange(1, 80)))
        place = len(self.words)
        self.add(addiu(COUNTER, COUNTER, -1))
        self.branch_back(5, COUNTER, ZERO, place)

    def handler_of_exceptions(self) -> None:
        """Binds a page where it was missed, at every other miss if it does at all; else it passes over the instruction."""
        self.add(addiu(MISSES, MISSES, 1))
        if self.chance.random() < 0.6:
            self.add(immediate(12, MISSES, AT, 1), immediate(5, AT, ZERO, 8), NOP)
            self.add(register(2, 0, K1, A0, 12), register(37, self.chance.choice(PAGES), ZERO, A1), ori(A2, ZERO, self.chance.randrange(2)))
            self.add(ori(V0, ZERO, BIND), SYSCALL, immediate(4, V0, ZERO, 2), immediate(OPCODES["lw"], ZERO, K0, AREA + 12))
        self.add(addiu(K0, K0, 4), register(8, K0, 0, 0), NOP)

    def made(self) -> bytes:
        """All bytes of the program, of at most a page."""
        if self.has_handler:
            self.handle(EXCEPTIONS)
        for kind in self.hears:
            self.handle(kind)
        for page in self.chance.sample(PAGES, self.chance.randrange(1, 4)):
            self.call(ALLOC, ANY, *self.words_given())
            self.add(register(37, V1, ZERO, page))
        start = len(self.words)
        blocks, weights = zip(*self.BLOCKS)
        for block in self.chance.choices(blocks, weights, k=self.chance.randrange(5, 30)):
            block(self)
        self.add(addiu(ROUNDS, ROUNDS, 1))
        self.branch_back(4, ZERO, ZERO, start)
        for kind, handler in zip(CONTEXTS, (self.handler_of_exceptions, self.handler_of_starts, self.handler_of_ends, self.entry, self.entry)):
            for place in self.wanted[kind]:
                self.words[place] = ori(A1, ZERO, BASE + 4 * len(self.words))
            if self.wanted[kind]:
                handler()
        return binary.code(self.words)


class System:
    """An image of random programs, of version 1 for an even seed, and what it says of the pages that are guaranteed."""

    def __init__(self, seed: int):
        self.version = 1 + seed % 2
        chance = random.Random(seed)
        count = chance.randrange(1, 7)
        stacks = [chance.choice((0, 0, 1)) for _ in range(count)]
        # by environment, the VPNs at which pages are guaranteed; the pages themselves are the lowest, in this order
        self.guaranteed = [[1, BASE // PAGE] + [0x7FFF0 - stack + place for place in range(stack)] for stack in stacks]
        self.total = sum(map(len, self.guaranteed))
        self.pages = max(16, self.total + chance.randrange(2, 10))
        # one slot has an owner for sure; 255 is for an empty one
        self.slots = [0] + [chance.choice((environment,) * 6 + (255,)) for environment in range(1, count)]
        self.slots += [chance.choice((*range(count), 255)) for _ in range(chance.randrange(4))]
        chance.shuffle(self.slots)
        self.quantum, self.ticks = chance.randrange(16, 80), chance.randrange(200, 1200)
        programs = []
        for environment, stack in enumerate(stacks):
            mask, body = chance.choice((0xFFFF, 0xFFFF, chance.randrange(1 << 16), 0)), Program(chance, self, environment).made()
            programs.append(binary.Program(f"e{environment}", body, BASE, stack, mask))
        self.image = binary.image(self.pages, self.quantum, self.slots, programs, self.version)

    def pages_of(self, environment: int) -> range:
        """The pages that are guaranteed to an environment."""
        first = sum(map(len, self.guaranteed[:environment]))
        return range(first, first + len(self.guaranteed[environment]))
