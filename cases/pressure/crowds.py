"""Random systems in which pages run out, made from a seed: those of cases/reference_model on machines with few pages beyond the
guaranteed ones, and at times with as many environments as their version has.

Their programs have three blocks more: one allocates pages by a loop, one asks for a page and yields as long as it is told to
ask again, and one gives pages back. Some are bound 128 VPNs apart, which share a row in version 2 alone.
"""
from __future__ import annotations

import os
import sys

sys.path.append(os.path.join(os.path.dirname(os.path.dirname(os.path.realpath(__file__))), "reference_model"))
from calls import AGAIN
from guests import CODES, VALUES, Guest, System
from limits import VERSIONS
from systems import A0, ALLOC, ANY, COUNTER, FREE, NOP, NUMBERS, PAGES, SYSCALL, V0, V1, YIELD, ZERO, addiu, immediate, ori, register

AT = 1


class CrowdGuest(Guest):
    """A program that wants more pages than there are."""

    def number(self) -> int:
        return self.chance.choice((0x500, 0x580, 0x600, 0x680)) if self.chance.random() < 0.4 else super().number()

    def page_number(self) -> int:
        return self.guaranteed + self.chance.randrange(max(1, self.pages - self.guaranteed)) if self.chance.random() < 0.8 else super().page_number()

    def one_page(self, page: int) -> None:
        """A call for any page, whose number is kept where it was granted."""
        self.add(addiu(A0, ZERO, -1), ori(V0, ZERO, ALLOC), SYSCALL)
        self.add(register(33, CODES, V0, CODES), register(33, VALUES, V1, VALUES))
        self.add(immediate(5, V0, ZERO, 2), NOP, register(37, V1, ZERO, page))

    def devour(self) -> None:
        """Allocates some pages, or all that are left."""
        self.add(ori(COUNTER, ZERO, self.chance.choice((2, 3, 5, 8, 12, 30))))
        start = len(self.words)
        self.one_page(self.chance.choice(PAGES))
        self.branch_back(5, COUNTER, ZERO, start, addiu(COUNTER, COUNTER, -1))

    def beg(self) -> None:
        """Asks for a page, and yields as long as the answer is to ask again, but not for ever."""
        self.add(ori(COUNTER, ZERO, self.chance.choice((1, 3, 6))))
        start = len(self.words)
        self.one_page(self.chance.choice(PAGES))
        self.add(ori(AT, ZERO, AGAIN))
        leave = len(self.words)
        self.add(NOP, NOP)
        self.call(YIELD, ANY if self.chance.random() < 0.8 else [V1])
        self.branch_back(5, COUNTER, ZERO, start, addiu(COUNTER, COUNTER, -1))
        self.words[leave] = immediate(5, V0, AT, len(self.words) - leave - 1)

    def shed(self) -> None:
        """Frees some pages."""
        for page in self.chance.sample(PAGES, self.chance.randrange(1, 3)):
            self.call(FREE, [page])

    BLOCKS = (*Guest.BLOCKS, (devour, 14), (beg, 16), (shed, 4), (Guest.give_back, 8), (Guest.load, 5))


class Crowd(System):
    """An image of which the pages run out, and a schedule."""

    GUEST = CrowdGuest

    def environments(self) -> int:
        most = VERSIONS[self.version].most_environments
        return self.chance.randrange(1, 7) if self.chance.random() < 0.85 else self.chance.randrange(max(7, most - 4), most + 1)

    def machine_pages(self) -> int:
        return max(16, self.total + self.chance.choice((0, 1, 2, 4, 6, 10, 20)))

    def mask(self) -> int:
        return self.chance.choice((0xFFFFFFFF, 0xFFFFFFFF, self.chance.randrange(1 << 32), 0))
