"""Random systems that need more pages than the TLB has rows, made from a seed.

They are those of cases/reference_model (guests.py). Beside what their environments do, some have an array of up to 80 pages and
walk over it; they bind one page at many VPNs in turn, and read pages of each other while these are freed or have other words.
Now and then there are as many environments as the version allows.
"""
from __future__ import annotations

import os
import random
import sys
from typing import Any, Tuple

sys.path.append(os.path.join(os.path.dirname(os.path.dirname(os.path.realpath(__file__))), "reference_model"))
import guests  # which finds `binary` and `systems`
from guests import BASE, OTHERS, RINGS

import binary
from systems import (ALLOC, ANY, BIND, COUNTER, EXIT, FREE, OPCODES, OWN_NUMBER, PAGE, PAGES, POINTER, RECAP, SCRATCH, UNBIND, V1, ZERO, addiu, immediate, ori,
                     register)

ARRAY, MANY = 0x00400000, 0x00600000  # where the array stands, and the first address at which pages are bound in turn
VALUE, VPN = SCRATCH[0], SCRATCH[1]


class Walker(guests.Guest):
    """A program of guests.py that walks over pages too."""

    def __init__(self, chance: random.Random, system: System, number: int):
        super().__init__(chance, system, number)
        self.array = system.arrays[number]

    def access_here(self) -> int:
        return immediate(OPCODES[self.chance.choice(("lw", "lw", "sw", "lbu", "sb", "swr"))], POINTER, VALUE, self.chance.choice((0, 4, 0xFFC)))

    def walk(self) -> None:
        """Accesses to some pages of the array, one after the other."""
        if self.array:
            first = self.chance.randrange(self.array)
            self.load_number(POINTER, ARRAY + PAGE * first)
            self.add(ori(COUNTER, ZERO, self.chance.randrange(1, self.array - first + 1)))
            start = len(self.words)
            self.add(self.access_here(), addiu(POINTER, POINTER, PAGE), addiu(COUNTER, COUNTER, -1))
            self.branch_back(5, COUNTER, ZERO, start)

    def bind_in_turn(self) -> None:
        """Binds a page at many VPNs, each with an access through it."""
        if self.has_handler:
            page, stride = self.held(), self.chance.choice((1, 1, 16, 64, 128))
            self.load_number(POINTER, MANY)
            self.add(ori(COUNTER, ZERO, self.chance.randrange(2, 40)))
            start = len(self.words)
            self.add(register(2, 0, POINTER, VPN, 12))
            self.call(BIND, [VPN], page, self.chance.choice((1, 1, 0)), 0, 0)
            self.add(self.access_here(), addiu(COUNTER, COUNTER, -1))
            self.load_number(VALUE, PAGE * stride)
            self.branch_back(5, COUNTER, ZERO, start, register(33, POINTER, VALUE, POINTER))

    def low_page(self) -> int:
        """The number of a page that is among the first to be allocated."""
        return self.guaranteed + self.chance.randrange(2)

    def share(self) -> None:
        """Binds a page that may be another's and reads it, some times over."""
        vpn = self.chance.choice(OTHERS)
        if self.has_handler:
            self.add(ori(COUNTER, ZERO, self.chance.randrange(1, 12)))
            start = len(self.words)
            self.call(BIND, vpn, self.low_page(), 0, 5, 0)
            self.load_number(POINTER, vpn * PAGE)
            self.add(immediate(OPCODES["lw"], POINTER, VALUE, 0), addiu(COUNTER, COUNTER, -1))
            self.branch_back(5, COUNTER, ZERO, start)

    def show(self) -> None:
        """Allocates a page that others may bind, binds it and stores there; later it mostly goes."""
        page, vpn = self.chance.choice(PAGES), self.chance.choice(RINGS)
        number = self.chance.choice((ANY, self.low_page(), self.low_page()))
        self.call(ALLOC, number, 5, 0, 9, 0)
        self.add(register(37, V1, ZERO, page))
        if number != ANY:
            self.load_number(page, number)
        self.call(BIND, vpn, [page], 1, 0, 0)
        if self.has_handler:
            self.load_number(POINTER, vpn * PAGE)
            self.add(immediate(OPCODES["sw"], POINTER, VALUE, 0))
        self.wait()
        free, recap = (FREE, [page]), (RECAP, [page], 5, 0, 9, 0)
        ends: Tuple[Tuple[Any, ...], ...] = (free, free, recap, recap, (UNBIND, vpn), (EXIT, 0), (OWN_NUMBER,))
        self.call(*self.chance.choice(ends))

    BLOCKS = (*guests.Guest.BLOCKS, (walk, 30), (bind_in_turn, 5), (share, 40), (show, 30))


class System(guests.System):
    """An image of such programs, and a schedule."""

    GUEST = Walker

    def environments(self) -> int:
        most = 32 if self.version == 2 else 16
        return most if self.chance.random() < 0.06 else super().environments()

    def machine_pages(self) -> int:
        """By environment, of how many pages its array is, and how many pages there are in all."""
        self.arrays = [self.chance.choice((0, self.chance.randrange(4, 20), self.chance.randrange(40, 81))) for _ in self.guaranteed]
        if len(self.arrays) > 6:
            self.arrays = [min(pages, 12) for pages in self.arrays]
        self.total += sum(self.arrays)
        return super().machine_pages()

    def program(self, environment: int, stack: int) -> binary.Program:
        pages = self.arrays[environment]
        if not pages:
            return super().program(environment, stack)
        code, data = self.GUEST(self.chance, self, environment).code_and_data()
        segments = binary.Segment(BASE, code.ljust(PAGE, b"\0") + data, 7), binary.Segment(ARRAY, b"", self.chance.choice((4, 6, 6)), PAGE * pages)
        return binary.Program(f"e{environment}", binary.elf(BASE, segments), 0, stack, self.mask(), True)
