"""Random systems whose environments make claims, withdraw them and make others for as long as they run, made from a seed.

They are those of cases/reference_model (guests.py) with up to sixteen environments, and with other filters: most begin with
the first atoms of one that was made before, at times with another value in the last of them, and have their environment's
number somewhere among the atoms. So the claims that stand have long beginnings in common, and shapes and values in which they
part. A program knows seven of its claims by registers; others end with a page that is freed, or with their environment.
Packets are short, of few values, and mostly made of a filter.
"""
from __future__ import annotations

import os
import random
import struct
import sys
from typing import List, Tuple

sys.path.append(os.path.join(os.path.dirname(os.path.dirname(os.path.realpath(__file__))), "reference_model"))
import guests  # which finds `binary` and `systems`
from filters import read_filter
from guests import CLAIM, CLAIMED, DATA, HANDLERS, MOST_WORDS, RINGS, UNCLAIM, VALUES, atoms_in_memory

from systems import A1, ALLOC, ANY, BASE, EXCEPTIONS, EXIT, FREE, NOP, PAGES, SCRATCH, V0, V1, ZERO, Program, immediate, ori, register

Atoms = List[Tuple[int, ...]]  # of each its offset, width, mask and value

MOST_ATOMS, FIELDS = 16, 8  # of a filter, and at how many offsets behind the first byte atoms lie
FEW = (0, 0, 1, 1, 2, 3, 0x80, 0xFF)  # what bytes of packets are, and of values


class Traffic(guests.Traffic):
    """Filters that begin alike, and short packets of few values."""

    def atom(self) -> Tuple[int, ...]:
        """An atom, with a mask of all bits, of some, or of none."""
        chance, width = self.chance, self.chance.choice((1, 1, 1, 2, 4))
        full = (1 << 8 * width) - 1
        mask = full & chance.choice((full, full, full, full & ~1, 0x0F, 0xFF00, 0x80, 1, 0))
        return 1 + chance.randrange(FIELDS), width, mask, int.from_bytes(self.few_values(width), "big") & mask

    def few_values(self, count: int) -> bytes:
        return bytes(self.chance.choice(FEW) for _ in range(count))

    def beginning(self) -> Atoms:
        """The first atoms of an earlier filter, or none. The last of them may ask for another value."""
        chance = self.chance
        if not self.filters or chance.random() < 0.2:
            return []
        earlier = chance.choice(self.filters)
        atoms = list(earlier[: chance.randint(1, len(earlier))])
        if chance.random() < 0.3:
            offset, width, mask, value = atoms[-1]
            atoms[-1] = offset, width, mask, (value ^ chance.choice((1, 2, 3, 0x80, 0x100))) & mask
        return atoms

    def filter_of(self, number: int) -> Atoms:
        """A filter of an environment, which seldom lacks its number."""
        chance, own = self.chance, (0, 1, 0xFF, number)
        while True:
            atoms = [own if it[:3] == own[:3] else it for it in self.beginning()]
            if own not in atoms and chance.random() < 0.9:
                atoms.insert(chance.choice((0, len(atoms))), own)
            atoms += [self.atom() for _ in range(chance.choice((0, 0, 1, 1, 2, 3, 12)))]
            del atoms[MOST_ATOMS:]
            if atoms and read_filter(atoms_in_memory(atoms)):
                self.filters.append(atoms)
                return atoms

    def length(self) -> int:
        return self.chance.choice((1, 2, 3, 5, 8, FIELDS + 4, FIELDS + 4, 60))

    def packet(self) -> bytes:
        """Any of few values, or one that a filter matches, or that has another byte somewhere."""
        chance, atoms = self.chance, self.chance.choice(self.filters)
        packet = bytearray(self.few_values(max(self.length(), *(offset + width for offset, width, _, _ in atoms))))
        if chance.random() < 0.1:
            return bytes(packet[: self.length()])
        for offset, width, mask, value in atoms:
            field = int.from_bytes(packet[offset : offset + width], "big")
            packet[offset : offset + width] = (field & ~mask | value).to_bytes(width, "big")
        if chance.random() < 0.2:
            packet[chance.randrange(len(packet))] ^= chance.choice((1, 2, 0x80))
        return bytes(packet)


class Claimer(guests.Guest):
    """A program with as many filters as its data has room for."""

    def __init__(self, chance: random.Random, system: System, number: int):
        super().__init__(chance, system, number)
        place, atoms = DATA, self.traffic.filter_of(number)
        self.filters = []
        while place + 12 * len(atoms) <= HANDLERS:
            self.keep(place, atoms_in_memory(atoms))
            self.filters.append((place, len(atoms)))
            place += 12 * len(atoms)
            atoms = self.traffic.filter_of(number)

    def claim_another(self) -> None:
        """Claims one of its filters, at times in place of a claim that it knows."""
        claim = self.chance.choice(SCRATCH)
        if self.chance.random() < 0.4:
            self.call(UNCLAIM, [claim])
        self.call(CLAIM, *self.chance.choice(self.filters), [self.chance.choice(self.ring_pages)])
        self.add(immediate(5, V0, ZERO, 3), NOP, register(37, V1, ZERO, claim), register(37, V1, ZERO, CLAIMED))

    def unclaim(self) -> None:
        self.call(UNCLAIM, [self.chance.choice(SCRATCH)])

    def change_ring(self) -> None:
        """Frees a page, with which its claims go, and has another."""
        page = self.chance.choice(self.ring_pages)
        self.call(FREE, [page])
        self.have_ring(page)

    def have_ring(self, page: int) -> None:
        """Allocates a page for packets, whose number a register has, and binds it."""
        self.call(ALLOC, ANY, 5, 0, 9, 0)
        self.add(register(37, V1, ZERO, page))
        self.bind_ring([page])

    BLOCKS = ((claim_another, 30), (unclaim, 4), (guests.Guest.empty, 14), (guests.Guest.handle_packets, 1.5), (change_ring, 0.7), (Program.wait, 4),
              (Program.give_up, 3), (guests.Guest.look, 1))

    def code_and_data(self) -> Tuple[bytes, bytes]:
        """The bytes of the code, and those of the data."""
        if self.has_handler:
            self.handle(EXCEPTIONS)
        self.ring_pages = list(PAGES[: len(RINGS)])
        for page in self.ring_pages:
            self.have_ring(page)
        start = len(self.words)
        blocks, weights = zip(*self.BLOCKS)
        for block in self.chance.choices(blocks, weights, k=self.chance.randrange(20, 60)):
            if len(self.words) < MOST_WORDS:
                block(self)
        if self.chance.random() < 0.1:
            self.call(EXIT, [VALUES])
        self.branch_back(4, ZERO, ZERO, start)
        for place in self.wanted[EXCEPTIONS]:
            self.words[place] = ori(A1, ZERO, BASE + 4 * len(self.words))
        self.handler_of_exceptions()
        return struct.pack(f"<{len(self.words)}I", *self.words), bytes(self.data)


class System(guests.System):
    """An image of such programs, and a schedule of many packets."""

    GUEST = Claimer

    def new_traffic(self) -> Traffic:
        return Traffic(self.chance)

    def environments(self) -> int:
        return self.chance.choice((1, 2, 3, 6, 10, 16, 16))

    def machine_pages(self) -> int:
        return max(16, self.total + len(self.guaranteed) * len(RINGS) + self.chance.choice((0, 3, 16)))

    def duration(self) -> int:
        return self.chance.choice((500, 1000, 2000)) + 200 * len(self.guaranteed)

    def events(self) -> List[Tuple[int, str]]:
        times = sorted(int(self.ticks * self.chance.random() ** 0.7) for _ in range(self.chance.choice((50, 100, 200))))
        return [(time, self.event_text(time)) for time in times]

    def event_text(self, time: int) -> str:
        return self.revocation_text(time) if self.chance.random() < self.revokes / 20 else self.packet_text()
