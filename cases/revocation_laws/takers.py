"""Random systems in which pages are asked for, given back and taken, made from a seed.

They are images of version 2 with few pages beyond the guaranteed ones. Their programs allocate pages by loops, and more than they
know the numbers of; they free some, load some as backups, wait, yield, and some exit or trap. None has a handler, an entry or a
binding, so a trace tells all registers of each. Half of the systems have no revocation in their schedules; in the others
revocations name some of the environments, with a grace from 0 on, but never of two quanta, which is that of pressure.
"""
from __future__ import annotations

import os
import random
import sys
from typing import List, Tuple

CASES = os.path.dirname(os.path.dirname(os.path.realpath(__file__)))
sys.path[:0] = [f"{CASES}/random_systems", CASES, f"{CASES}/../tools"]
import binary
from kernel_calls import BACKUP
from systems import ALLOC, ANY, BASE, COUNTER, EXIT, FREE, NOP, PAGE, PAGES, SYSCALL, V0, V1, YIELD, ZERO, Program, addiu, immediate, ori, register

MOST_WORDS = 900  # of a program, which has a page


class Guest(Program):
    """A program that takes pages, and gives some back."""

    def one_page(self, page: int) -> None:
        """A call for any page, whose number a register has then."""
        self.call(ALLOC, ANY)
        self.add(immediate(5, V0, ZERO, 2), NOP, register(37, V1, ZERO, page))

    def take_page(self) -> None:
        self.one_page(self.chance.choice(PAGES))

    def devour(self) -> None:
        """Allocates several pages, of which it knows the last."""
        self.add(ori(COUNTER, ZERO, self.chance.choice((2, 3, 4, 6))))
        start = len(self.words)
        self.take_page()
        self.branch_back(5, COUNTER, ZERO, start, addiu(COUNTER, COUNTER, -1))

    def shed(self) -> None:
        self.call(FREE, [self.chance.choice(PAGES)])

    def load(self) -> None:
        self.call(BACKUP, [self.chance.choice(PAGES)])

    def die(self) -> None:
        """Exits, or traps."""
        if self.chance.random() < 0.5:
            self.call(EXIT, 7)
        self.add(0xFFFFFFFF)

    GUEST_BLOCKS = ((take_page, 10), (devour, 6), (shed, 7), (load, 2), (Program.wait, 10), (Program.give_up, 6), (die, 0.1))

    def made(self) -> bytes:
        self.add(ori(PAGES[0], ZERO, 0))
        start = len(self.words)
        blocks, weights = zip(*self.GUEST_BLOCKS)
        for block in self.chance.choices(blocks, weights, k=self.chance.randrange(8, 40)):
            if len(self.words) < MOST_WORDS:
                block(self)
        self.branch_back(4, ZERO, ZERO, start)
        return binary.code(self.words)


class System:
    """An image of such programs, and a schedule of revocations."""

    def __init__(self, seed: int):
        self.chance = chance = random.Random(seed)
        count = chance.randrange(2, 6)
        self.guaranteed = [[1, BASE // PAGE] for _ in range(count)]
        self.total = 2 * count
        self.pages = max(16, self.total + chance.randrange(3, 12))
        self.slots = [*range(count), *(chance.randrange(count) for _ in range(chance.randrange(3)))]
        chance.shuffle(self.slots)
        self.quantum, self.ticks = chance.randrange(16, 60), chance.randrange(2000, 4000)
        programs = [binary.Program(f"e{number}", Guest(chance, self, number).made(), BASE) for number in range(count)]
        self.image = binary.image(self.pages, self.quantum, self.slots, programs, 2)
        self.events = self.revocations(count) if chance.random() < 0.5 else []
        self.schedule = "".join(f"{time} revoke {env} {pages} {grace}\n" for time, env, pages, grace in self.events).encode()

    def revocations(self, count: int) -> List[Tuple[int, int, int, int]]:
        """Of each its tick, whom it names, how many pages, and its grace."""
        chance = self.chance
        named = chance.sample(range(count), chance.randrange(1, count + 1))
        times = sorted(chance.randrange(self.ticks) for _ in range(chance.choice((2, 6, 12))))
        return [(time, chance.choice(named), chance.choice((0, 1, 1, 2, 3, 9)), self.grace()) for time in times]

    def grace(self) -> int:
        grace = self.chance.choice((0, 1, self.chance.randrange(4 * self.quantum), self.chance.randrange(12 * self.quantum)))
        return grace + (grace == 2 * self.quantum)
