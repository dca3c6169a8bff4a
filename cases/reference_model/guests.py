"""Random systems with schedules, made from a seed: images whose environments claim packets and own pages, and events from
outside.

The programs are those of cases/random_systems with more blocks:

- claims of filters, into a page that was allocated and is mostly bound, and claims that are withdrawn;
- handlers that are given for claims, good and bad ones (handler_words.py), that are replaced and removed;
- reads of a ring, with and without a zero in the length word afterwards, and stores into pages that may be another's ring;
- lines that are taken and dropped, and packets that are sent;
- pages that are allocated by loops, bound, stored to and loaded as backups; that are given back where the context page says
  that some are outstanding; and that are allocated again, or whose backups are bound, where the context page says that they
  were taken.

The filters of an environment mostly begin with a byte of its own, so most claims are granted and some overlap. The packets
are mostly made of a filter, and some of them miss by a bit or a byte. Revocations are of one page to all, and their deadlines
often come in one tick.
"""
from __future__ import annotations

import os
import random
import struct
import sys
from typing import Iterable, List, Sequence, Tuple, Type, Union

CASES = os.path.dirname(os.path.dirname(os.path.abspath(__file__)))
sys.path += [CASES, f"{CASES}/random_systems", f"{CASES}/../tools"]
import binary
import kernel_layout
from kernel_calls import BACKUP, CLAIM, HANDLER, LINE, SEND, UNCLAIM
from limits import MOST_RUN_TICKS
from systems import (A0, A1, ALLOC, ANY, AREA, BASE, BIND, CONTEXTS, COUNTER, EXCEPTIONS, EXIT, FREE, NOP, OPCODES, PAGE, PAGES, POINTER, PUT, ROUNDS,
                     SCRATCH, SYSCALL, V0, V1, ZERO, Blocks, Program, addiu, immediate, ori, register)

from handler_words import Handlers

CLAIMED, CODES, VALUES = 28, 30, 31  # the registers that have the number of a claim, and sums of all answers
DATA, HANDLERS, LOOP_FILTER, PACKETS = BASE + PAGE, BASE + PAGE + 0x3D0, BASE + PAGE + 0x700, BASE + PAGE + 0x800
LONGEST, MOST_WORDS = 1514, 720
RINGS, OTHERS = (0x500, 0x501, 0x502), (0x101, 0x103, 0x104)  # the VPNs at which rings, and pages of others, are bound
POSTS = range(AREA + kernel_layout.POST_PACKETS, AREA + kernel_layout.POST_OUTSTANDING, 4)
OUTSTANDING, DEADLINE, TAKINGS, RECORDS = (AREA + it for it in (
    kernel_layout.POST_OUTSTANDING, kernel_layout.POST_DEADLINE, kernel_layout.POST_TAKINGS, kernel_layout.RECORDS))
UDP = ((12, 2, 0xFFFF, 0x0800), (23, 1, 0xFF, 0x11))


def atoms_in_memory(atoms: Iterable[Sequence[int]]) -> bytes:
    return b"".join(struct.pack("<HHII", *atom) for atom in atoms)


class Traffic:
    """The filters for which the environments of a system may ask, and packets."""

    def __init__(self, chance: random.Random):
        self.chance = chance
        self.filters: List[List[Tuple[int, ...]]] = []

    def filter_of(self, number: int) -> List[Tuple[int, ...]]:
        """A filter of an environment, as a list of atoms (offset, width, mask, value)."""
        kind = self.chance.random()
        if kind < 0.7:
            atoms = [(0, 1, 0xFF, number), *self.more()]
        elif kind < 0.93:
            nibbles = (0, 1, 0xF0, 0), (0, 1, 0x0F, number), (0, 1, 1, number & 1)
            atoms = [self.chance.choice((*nibbles, (0, 2, 0xFF00, number << 8), (1, 1, 0xFF, number)))]
        else:
            atoms = [(self.chance.choice((0, 0, 59, LONGEST - 1)), 1, 0, 0)]
        self.chance.shuffle(atoms)
        self.filters.append(atoms)
        return atoms

    def more(self) -> Tuple[Tuple[int, ...], ...]:
        """Atoms behind the first byte."""
        port, number = self.chance.randrange(4), self.chance.randrange(1 << 32)
        return self.chance.choice((
            (), (), (),
            ((1, 1, 0xFF, port),),
            (*UDP, (36, 2, 0xFFFF, 0x35 + port)),
            UDP,
            ((LONGEST - 1, 1, 0, 0),),
            ((LONGEST - 4, 4, 0xFF, port),),
            ((2, 4, 0xFF00FF00, number & 0xFF00FF00), (2, 2, 0x00FF, port)),
            ((1, 2, 0xFFF0, port << 4), (2, 1, 0xF0, port << 4 & 0xF0)),
            tuple((1 + bit // 8, 1, 1 << bit % 8, number & 1 << bit % 8) for bit in range(15)),
        ))

    def bad_filter_of(self, number: int) -> List[Tuple[int, ...]]:
        """Atoms that are no filter."""
        atoms = [(0, 1, 0xFF, number), *self.more()][:15]
        offset, width, mask, value = atoms[-1]
        ends: Tuple[List[Tuple[int, ...]], ...] = (
            [(offset, 3, mask, value)],
            [(offset, 0, 0, 0)],
            [(LONGEST - 1, 2, 0xFFFF, 1)],
            [(0xFFFF, 4, 0, 0)],
            [(offset, 1, 0x100, 0)],
            [(offset, 2, 0xFFFF, 0x10000)],
            [(offset, width, 0, 1)],
            [atoms[-1], (0, 2, 0x0100, ~number << 8 & 0x100)],
        )
        atoms[-1:] = self.chance.choice(ends)
        return atoms

    def length(self) -> int:
        return self.chance.choice((1, 1, 2, 14, 37, 60, 60, 64, LONGEST, LONGEST, self.chance.randrange(1, LONGEST + 1)))

    def packet(self) -> bytes:
        """A packet: any, or one that a filter matches, or that is a byte too short or has a wrong bit."""
        kind = self.chance.random()
        if kind < 0.15 or not self.filters:
            return self.chance.randbytes(self.length())
        atoms = self.chance.choice(self.filters)
        need = max(offset + width for offset, width, _, _ in atoms)
        packet = bytearray(max(need, self.length() if self.chance.random() < 0.6 else 1))
        if self.chance.random() < 0.5:
            packet[:] = self.chance.randbytes(len(packet))
        for offset, width, mask, value in atoms:
            field = int.from_bytes(packet[offset : offset + width], "big")
            packet[offset : offset + width] = (field & ~mask | value).to_bytes(width, "big")
        if kind < 0.25:
            packet[self.chance.randrange(need)] ^= 1 << self.chance.randrange(8)
        elif kind < 0.3 and need > 1:
            del packet[need - 1 :]
        return bytes(packet)


class Guest(Program):
    """A program with a page of code and a page of data, in which its filters stand."""

    MAKES: Type[Handlers] = Handlers

    def __init__(self, chance: random.Random, system: System, number: int):
        super().__init__(chance, system, number)
        self.traffic = system.traffic
        self.rings: List[int] = []
        self.ring_pages: List[int] = []
        self.data = bytearray(chance.randbytes(PAGE))
        self.filters: List[Tuple[int, int]] = []
        place = DATA
        for _ in range(chance.randrange(2, 6)):
            atoms = self.traffic.filter_of(number) if chance.random() < 0.9 else self.traffic.bad_filter_of(number)
            place += chance.choice((0, 0, 1, 2))
            self.keep(place, atoms_in_memory(atoms))
            self.filters.append((place, len(atoms)))
            place += 12 * len(atoms)
        self.keep(LOOP_FILTER, atoms_in_memory(((0, 1, 0xFF, number), (1, 1, 0xFF, 0))))
        self.handlers: List[Tuple[int, int]] = []
        place = HANDLERS
        makes = self.MAKES(chance)
        while place < LOOP_FILTER - 0x100:
            words = makes.words() if self.handlers else makes.loud()
            place += chance.choice((0, 0, 1, 2))
            self.keep(place, struct.pack(f"<{len(words)}I", *words))
            self.handlers.append((place, len(words)))
            place += 4 * len(words)

    def call(self, number: int, *arguments: Union[List[int], int]) -> None:
        """A kernel call, whose answer is added to the sums, so that it shows in the report."""
        super().call(number, *arguments)
        self.add(register(33, CODES, V0, CODES), register(33, VALUES, V1, VALUES), register(33, VALUES, CODES, VALUES))

    def keep(self, address: int, data: bytes) -> None:
        self.data[address - DATA : address - DATA + len(data)] = data

    def filter(self) -> Tuple[int, int]:
        """The address of a filter and its number of atoms, which at times is another, and at times is in another page."""
        address, atoms = self.chance.choice(self.filters)
        kind = self.chance.random()
        if kind < 0.03:
            return address, self.chance.choice((0, 17, ANY))
        if kind < 0.06:
            return self.chance.choice((DATA + PAGE - 8, 0x10000000, 0x80000000, ANY)), self.chance.choice((1, 2))
        return address, max(1, atoms - 1) if kind < 0.1 else atoms

    def claim(self) -> None:
        """A claim, whose number is kept where it was granted; the page is mostly bound too."""
        page: Union[List[int], int] = self.ring_page() if self.chance.random() < 0.9 else self.page_number()
        self.claim_with(page)
        if isinstance(page, list) and self.chance.random() < 0.5:
            self.bind_ring(page)

    def ring_page(self) -> List[int]:
        """A register that mostly has the number of a page that was allocated."""
        return [self.chance.choice(self.ring_pages or PAGES)] if self.chance.random() < 0.9 else self.held()

    def claim_with(self, page: Union[List[int], int]) -> None:
        self.call(CLAIM, *self.filter(), page)
        self.add(immediate(5, V0, ZERO, 2), NOP, register(37, V1, ZERO, CLAIMED))

    def empty(self) -> None:
        """Empties both buffers of a ring, whatever they have."""
        if self.rings:
            self.load_number(POINTER, self.chance.choice(self.rings) * PAGE)
            self.add(*(immediate(OPCODES["sw"], POINTER, ZERO, place) for place in (0, 0x800)))

    def handle_packets(self) -> None:
        """Gives a claim a handler, mostly one that the program has, and mostly the claim of which it knows; or removes one."""
        address, length = self.chance.choice(self.handlers)
        kind = self.chance.random()
        if kind < 0.12:
            length = 0
        elif kind < 0.17:
            length = self.chance.choice((65, 66, ANY, 0x40000000))
        elif kind < 0.23:
            address, length = self.chance.choice((DATA + PAGE - 8, 0x10000000, 0x80000000, ANY)), self.chance.choice((3, 64))
        elif kind < 0.26:
            length = max(1, length - 1)
        self.call(HANDLER, self.claimed(0.9), address, length)

    def fill_up(self) -> None:
        """Sends as many packets as are held but a few, and has a handler reply more."""
        self.settle()
        self.add(ori(COUNTER, ZERO, self.chance.choice((248, 253, 256))))
        self.load_number(A0, PACKETS)
        self.add(ori(A1, ZERO, 14))
        start = len(self.words)
        self.add(ori(V0, ZERO, SEND), SYSCALL)
        self.branch_back(5, COUNTER, ZERO, start, addiu(COUNTER, COUNTER, -1))
        self.call(HANDLER, [CLAIMED], *self.handlers[0])

    def claim_bound(self) -> None:
        """Claims a filter that stands in a page which is bound, and not in one of its own."""
        if not self.has_handler and not self.rings:
            return
        self.load_number(POINTER, self.ring() + 0x7F0)
        (atom, *_) = self.traffic.filter_of(self.own)
        for place, (word,) in enumerate(struct.iter_unpack("<I", atoms_in_memory((atom,)))):
            self.load_number(V1, word)
            self.add(immediate(OPCODES["sw"], POINTER, V1, 4 * place))
        self.call(CLAIM, [POINTER], 1, self.ring_page())

    def bind_ring(self, page: List[int]) -> None:
        vpn = self.chance.choice(RINGS)
        self.call(BIND, vpn, page, 1, 0, 0)
        self.rings.append(vpn)

    def settle(self) -> None:
        """Allocates a page, binds it, and has packets come into it."""
        register_ = self.chance.choice(PAGES)
        self.call(ALLOC, ANY, *self.words_given())
        self.add(register(37, V1, ZERO, register_))
        self.ring_pages.append(register_)
        self.bind_ring([register_])
        self.claim_with([register_])
        if self.chance.random() < 0.25:
            self.handle_packets()

    def nine(self) -> None:
        """Nine claims that don't overlap each other."""
        page = self.ring_page()
        self.load_number(POINTER, LOOP_FILTER)
        self.add(ori(COUNTER, ZERO, 9))
        start = len(self.words)
        self.add(immediate(OPCODES["sw"], POINTER, COUNTER, 20))
        self.call(CLAIM, [POINTER], 2, page)
        self.add(addiu(COUNTER, COUNTER, -1))
        self.branch_back(5, COUNTER, ZERO, start)

    def unclaim(self) -> None:
        self.call(UNCLAIM, self.claimed(0.7))

    def claimed(self, often: float) -> Union[List[int], int]:
        """The register with the number of a claim that was granted, this often, or any number."""
        if self.chance.random() < often:
            return [CLAIMED]
        return self.chance.choice((*range(10), ANY))

    def ring(self) -> int:
        """The address of a buffer of a ring, or of some page."""
        return self.chance.choice(self.rings or RINGS) * PAGE + self.chance.choice((0, 0x800))

    def drain(self) -> None:
        """Reads a buffer if it has a packet, prints some of it, and mostly frees the buffer."""
        if not self.has_handler and not self.rings:
            return
        length = self.chance.choice(SCRATCH)
        self.load_number(POINTER, self.ring())
        self.add(immediate(OPCODES["lw"], POINTER, length, 0))
        branch = len(self.words)
        self.add(NOP, NOP)
        if self.chance.random() < 0.7:
            self.call(PUT, [POINTER], self.chance.choice((4, 5, 18)))
        if self.chance.random() < 0.8:
            self.add(immediate(OPCODES["sw"], POINTER, ZERO, 0))
        self.words[branch] = immediate(4, length, ZERO, len(self.words) - branch - 1)

    def meddle(self) -> None:
        """Binds a page that may be another's ring, and mostly stores there: an empty buffer, a full one, or bytes."""
        vpn = self.chance.choice(OTHERS)
        self.call(BIND, vpn, self.page_number(), 1, 9, 0)
        if self.has_handler:
            self.load_number(POINTER, vpn * PAGE + self.chance.choice((0, 0x800)))
            accesses = ("sw", ZERO, 0), ("sw", ZERO, 0), ("sw", V0, 0), ("sb", V1, 2), ("sb", V1, 5), ("swl", V1, 9), ("lw", V1, 0)
            name, rt, place = self.chance.choice(accesses)
            self.add(immediate(OPCODES[name], POINTER, rt, place))

    def look(self) -> None:
        """Reads the post words, and at times puts 0, or the number before 0, there."""
        place = self.chance.choice(POSTS)
        self.add(immediate(OPCODES["lw"], ZERO, self.chance.choice(SCRATCH), place))
        kind = self.chance.random()
        if kind < 0.2:
            self.add(immediate(OPCODES["sw"], ZERO, ZERO, place))
        elif kind < 0.6:
            self.add(addiu(V1, ZERO, -1), immediate(OPCODES["sw"], ZERO, V1, place))

    def line(self) -> None:
        number = self.chance.choice((*range(3), *range(3), *range(8)) if self.chance.random() < 0.95 else (8, 32, ANY))
        self.call(LINE, number, self.chance.choice((1, 1, 1, 1, 0, 0)) if self.chance.random() < 0.95 else self.chance.choice((2, ANY)))

    def send(self) -> None:
        kind = self.chance.random()
        length = self.chance.choice((14, 14, 15, 60, 64, LONGEST)) if kind < 0.9 else self.chance.choice((0, 13, LONGEST + 1, ANY))
        address = self.chance.choice((PACKETS + self.chance.randrange(64), PACKETS, AREA + 0x13C, self.ring() + 4))
        if 0.8 < kind < 0.9:
            address = self.chance.choice((DATA + PAGE - 13, 0x10000000, 0x7FFFFFF8, 0xFFFFFFF8))
        self.call(SEND, address, length)

    def flood(self) -> None:
        """Sends many packets, at times more than are held."""
        self.add(ori(COUNTER, ZERO, self.chance.choice((20, 300))))
        self.load_number(A0, PACKETS)
        self.add(ori(A1, ZERO, 14))
        start = len(self.words)
        self.add(ori(V0, ZERO, SEND), SYSCALL, register(33, CODES, V0, CODES))
        self.branch_back(5, COUNTER, ZERO, start, addiu(COUNTER, COUNTER, -1))

    def hoard(self) -> None:
        """Allocates several pages; some are bound, and some are stored to."""
        page = self.chance.choice(PAGES)
        for _ in range(self.chance.randrange(2, 5)):
            self.call(ALLOC, ANY if self.chance.random() < 0.9 else self.page_number(), *self.words_given())
            self.add(register(37, V1, ZERO, page))
            if self.chance.random() < 0.5:
                vpn = self.chance.choice(RINGS)
                self.call(BIND, vpn, [page], 1, 0, 0)
                self.rings.append(vpn)
                self.load_number(POINTER, vpn * PAGE + self.chance.choice((8, 0x808)))
                self.add(immediate(OPCODES["sw"], POINTER, self.chance.choice((CODES, VALUES)), 0))
        if self.chance.random() < 0.4:
            self.call(BACKUP, [page])

    def provide(self) -> None:
        """Allocates some pages, of which the first are backups, and the others stay in registers."""
        self.load_many()
        for page in self.chance.sample(PAGES, self.chance.randrange(4)):
            self.call(ALLOC, ANY, 5, 0, 9, 0)
            self.add(register(37, V1, ZERO, page))
            self.ring_pages.append(page)
            if self.chance.random() < 0.5:
                self.bind_ring([page])

    def load(self) -> None:
        """Loads a page as a backup, mostly one that was allocated."""
        self.call(BACKUP, self.held() if self.chance.random() < 0.85 else self.page_number())

    def load_many(self) -> None:
        """Loads pages that are allocated for it, at times more than there may be."""
        many = self.pages > 100 and self.chance.random() < 0.7
        self.add(ori(COUNTER, ZERO, 66 if many else self.chance.randrange(1, 4)))
        for place, word in enumerate((5, 0, 9, 0), A1):
            self.load_number(place, word)
        start = len(self.words)
        self.add(addiu(A0, ZERO, -1), ori(V0, ZERO, ALLOC), SYSCALL, register(37, V1, ZERO, A0), ori(V0, ZERO, BACKUP), SYSCALL)
        self.branch_back(5, COUNTER, ZERO, start, addiu(COUNTER, COUNTER, -1))

    def give_back(self) -> None:
        """Frees pages where some are outstanding by the context page, and mostly takes note of that there."""
        self.add(immediate(OPCODES["lw"], ZERO, self.chance.choice(SCRATCH), self.chance.choice((OUTSTANDING, DEADLINE))))
        asked = self.words[-1] >> 16 & 31
        branch = len(self.words)
        self.add(NOP, NOP)
        for page in self.chance.sample(PAGES, self.chance.choice((1, 1, 2, 3, 4))):
            self.call(FREE, [page])
        if self.chance.random() < 0.8:
            self.add(*(immediate(OPCODES["sw"], ZERO, ZERO, place) for place in self.chance.sample((OUTSTANDING, DEADLINE), 2)))
        self.words[branch] = immediate(4, asked, ZERO, len(self.words) - branch - 1)

    def recover(self) -> None:
        """Reads the last record, where there is one: allocates the page that was taken again, or binds its backup."""
        record = self.chance.choice(SCRATCH)
        self.add(immediate(OPCODES["lw"], ZERO, COUNTER, TAKINGS), NOP)
        branch = len(self.words)
        self.add(NOP, addiu(COUNTER, COUNTER, -1))
        self.add(immediate(12, COUNTER, COUNTER, 63), register(0, 0, COUNTER, COUNTER, 3))
        again = self.chance.random() < 0.4
        self.add(immediate(OPCODES["lw"], COUNTER, record, RECORDS + (0 if again else 4)))
        if again:
            self.call(ALLOC, [record], *self.words_given())
        else:
            self.call(BIND, self.chance.choice(RINGS), [record], 1, 0, 0)
        self.words[branch] = immediate(4, COUNTER, ZERO, len(self.words) - branch - 1)

    def count_anew(self) -> None:
        """Puts another number where takings are counted, or where the kernel says what is outstanding."""
        place = self.chance.choice((TAKINGS, TAKINGS, TAKINGS, OUTSTANDING, DEADLINE))
        self.add(addiu(V1, ZERO, self.chance.choice((0, 0, 1, 61, 62, 63, 64, -1, -1))), immediate(OPCODES["sw"], ZERO, V1, place))

    def grab(self) -> None:
        """Wants one page again and again, which may be taken from its owner meanwhile."""
        page, most = (self.page_number(), 40) if self.chance.random() < 0.7 else (ANY, 9)
        self.add(ori(COUNTER, ZERO, self.chance.randrange(2, most)))
        self.load_number(A0, page)
        start = len(self.words)
        self.add(ori(V0, ZERO, ALLOC), SYSCALL, addiu(COUNTER, COUNTER, -1))
        self.branch_back(5, COUNTER, ZERO, start)

    def unknown(self) -> None:
        """Calls that there aren't, with arguments that would make sense."""
        self.call(self.chance.choice((22, 23, 0x10010)), [CLAIMED] if self.chance.random() < 0.5 else self.held(), PACKETS, 4)

    BLOCKS: Blocks = (
        *Program.BLOCKS, (claim, 10), (claim_bound, 2), (nine, 0.7), (unclaim, 3), (handle_packets, 6), (drain, 10), (empty, 6), (meddle, 14),
        (look, 3), (line, 9), (send, 5), (flood, 0.5), (hoard, 6), (load, 6), (load_many, 2), (give_back, 7), (recover, 6), (count_anew, 2),
        (grab, 4), (unknown, 1), (Program.wait, 3))

    def code_and_data(self) -> Tuple[bytes, bytes]:
        """The bytes of the code, and those of the data."""
        if self.has_handler:
            self.handle(EXCEPTIONS)
        for kind in self.hears:
            self.handle(kind)
        for _ in range(self.chance.choice((0, 1, 1, 2, 2))):
            self.settle()
        if self.chance.random() < 0.05:
            self.fill_up()
        for page in self.chance.sample(PAGES, self.chance.randrange(2)):
            self.call(ALLOC, ANY, *self.words_given())
            self.add(register(37, V1, ZERO, page))
        if self.chance.random() < 0.4:
            self.provide()
        for _ in range(self.chance.randrange(3)):
            self.line()
        start = len(self.words)
        blocks, weights = zip(*self.BLOCKS)
        for block in self.chance.choices(blocks, weights, k=self.chance.randrange(5, 45)):
            if len(self.words) < MOST_WORDS:
                block(self)
        if self.chance.random() < 0.12:
            self.call(EXIT, [VALUES])
        self.add(addiu(ROUNDS, ROUNDS, 1))
        self.branch_back(4, ZERO, ZERO, start)
        for kind, handler in zip(CONTEXTS, (self.handler_of_exceptions, self.handler_of_starts, self.handler_of_ends, self.entry, self.entry)):
            for place in self.wanted[kind]:
                self.words[place] = ori(A1, ZERO, BASE + 4 * len(self.words))
            if self.wanted[kind]:
                handler()
        return struct.pack(f"<{len(self.words)}I", *self.words), bytes(self.data)


def elf_file(chance: random.Random, code: bytes, data: bytes, is_read_only: bool) -> bytes:
    """The same as an ELF file, the data behind the code, and in memory perhaps more than in the file."""
    in_file = chance.choice((PAGE, 0xA00))
    return binary.elf(BASE, (binary.Segment(BASE, code, 5 if is_read_only else 7), binary.Segment(DATA, data[:in_file], 6, PAGE)))


class System:
    """An image of random programs, whose version is 1 for an even seed, and a schedule."""

    GUEST: Type[Guest] = Guest

    def __init__(self, seed: int):
        self.version = 1 + seed % 2
        chance = self.chance = random.Random(seed)
        count = self.environments()
        stacks = [chance.choice((0, 0, 1)) for _ in range(count)]
        # by environment, the VPNs at which pages are guaranteed
        self.guaranteed = [[1, BASE // PAGE, DATA // PAGE] + [0x7FFEF] * stack for stack in stacks]
        self.total = sum(map(len, self.guaranteed))
        self.pages = self.machine_pages()
        self.slots = [0] + [chance.choice((environment,) * 6 + (255,)) for environment in range(1, count)]
        self.slots += [chance.choice((*range(count), 255)) for _ in range(chance.randrange(4))]
        chance.shuffle(self.slots)
        self.quantum, self.ticks = self.slice_ticks(), self.duration()
        self.traffic, self.revokes = self.new_traffic(), chance.choice((0, 0, 0.1, 0.3, 0.5))
        self.deadlines: List[int] = []
        programs = [self.program(environment, stack) for environment, stack in enumerate(stacks)]
        self.image = binary.image(self.pages, self.quantum, self.slots, programs, self.version)
        self.schedule = self.text_of(self.events())
        if chance.random() < 0.02:
            place = chance.randrange(len(self.image))
            self.image = self.image[:place] + chance.randbytes(1) + self.image[place + 1 :]

    def new_traffic(self) -> Traffic:
        """The filters that are asked for, and the packets."""
        return Traffic(self.chance)

    def environments(self) -> int:
        """How many there are."""
        return self.chance.randrange(1, 7)

    def slice_ticks(self) -> int:
        """How many ticks a slice has."""
        return self.chance.randrange(16, 100)

    def duration(self) -> int:
        """For how many ticks it runs."""
        return self.chance.randrange(*self.chance.choice(((40,), *[(300, 1000)] * 3, *[(1000, 3000)] * 5)))

    def machine_pages(self) -> int:
        """How many pages the machine has."""
        return max(16, self.total + self.chance.randrange(4, 24)) + self.chance.choice((0,) * 7 + (140,))

    def mask(self) -> int:
        """Whose yields and transfers an environment accepts."""
        return self.chance.choice((0xFFFF, 0xFFFF, self.chance.randrange(1 << 16), 0))

    def program(self, environment: int, stack: int) -> binary.Program:
        chance, guest = self.chance, self.GUEST(self.chance, self, environment)
        code, data = guest.code_and_data()
        is_elf = chance.random() < 0.25
        if is_elf:
            body = elf_file(chance, code, data, guest.has_handler and chance.random() < 0.5)
        else:
            body = code.ljust(PAGE, b"\0") + data
        return binary.Program(f"e{environment}", body, 0 if is_elf else BASE, stack, self.mask(), is_elf)

    def events(self) -> List[Tuple[int, str]]:
        """By rising tick, what a line says behind it."""
        chance = self.chance
        times: List[int] = []
        for _ in range(chance.choice((0, 4, 20, 40, 80))):
            kind = chance.random()
            if kind < 0.2 and times:
                times += [chance.choice(times)] * chance.choice((1, 1, 3))
            elif kind < 0.26:
                times.append(chance.choice((0, *(min(it, MOST_RUN_TICKS) for it in (max(0, self.ticks - 1), self.ticks, self.ticks + 7)), MOST_RUN_TICKS)))
            else:
                times.append(int(min(self.ticks, MOST_RUN_TICKS) * chance.random() ** 0.5))
        return [(time, self.event_text(time)) for time in sorted(times)]

    def event_text(self, time: int) -> str:
        if self.chance.random() < self.revokes:
            return self.revocation_text(time)
        return f"line {self.chance.randrange(8)}" if self.chance.random() < 0.3 else self.packet_text()

    def revocation_text(self, time: int) -> str:
        """A revocation, at times of nobody, and at times with the deadline of another."""
        chance, count = self.chance, len(self.guaranteed)
        env = chance.randrange(count) if chance.random() < 0.94 else chance.randrange(min(count, 31), 32)
        pages = chance.choice((0, 1, 1, 1, 1, 1, 1, 2, 2, 3, 3, 5, 4096))
        grace = chance.choice((0, 1, chance.randrange(20), *(chance.randrange(most) for most in (100, 200, 200, 400, 400, 1000)), 4194304))
        later = [deadline for deadline in self.deadlines if deadline >= time]
        if later and chance.random() < 0.4:
            grace = chance.choice(later) - time
        self.deadlines.append(time + grace)
        return f"revoke {env} {pages} {grace}"

    def packet_text(self) -> str:
        digits = self.traffic.packet().hex()
        return f"packet {digits.upper() if self.chance.random() < 0.1 else digits}"

    def text_of(self, events: List[Tuple[int, str]]) -> bytes:
        """The schedule, at times with blanks and comments, and at times with a fault."""
        chance = self.chance
        lines = [f"{time} {what}" for time, what in events]
        if chance.random() < 0.2:
            lines = [chance.choice((f"{time} {what}", f"\t{time} \t {what}  # it comes", f"{time:#x} {what}")) for time, what in events]
            lines.insert(chance.randrange(len(lines) + 1), chance.choice(("", "# nothing", " \t")))
        if chance.random() < 0.05:
            time = events[-1][0] if events else 0
            place = len(lines) if chance.random() < 0.5 else chance.randrange(len(lines) + 1)
            lines.insert(place, chance.choice(FAULTY).replace("T", str(time)))
        return chance.choice(("\n", "\n", "\r\n")).join([*lines, *[""] * chance.randrange(2)]).encode("latin-1")


# Lines that are mostly faults; T is the time of the last event.
FAULTY = (
    "T", "T line", "T line 1 2", "T Packet 00", "T line 8", "T line x", "x line 1", "4194305 line 1", "0 line 0", "T packet 0", "T packet 0g",
    "T packet " + "00" * 1515, "T packet " + "00" * 1514, "T packet", "T packet 00 00", "T revoke 0 1 5", "0 revoke 0 1 5", "T revoke 32 1 5", "T revoke 0 x 5",
    "T revoke 0 4097 5", "T revoke 0 1 4194305", "T revoke 0 1", "T line 1 \x80", "# \x07", "T line 00000000001", "T line 0x000000001", "T line\r 1",
    "T packet 00\r# a", "T line 1\r", "4294967296 packet 0", "5000000 packet 0", "T packet " + "0" * 3031, "packet T 00",
)
