"""Random words of handlers: good ones, whose runs mostly reply or store, and bad ones."""
from __future__ import annotations

from random import Random
from typing import List

from handlers import MOST_WORDS, PAGE_AT
from systems import A0, A1, BREAK, NOP, OPCODES, SYSCALL, V0, V1, ZERO, addiu, immediate, ori, register

LENGTH, NUMBER, COUNT, PLACE = 8, 9, 10, 11  # the registers that keep the length and the claim, count, and point into the page
WORK = range(12, 18)
PACKET_LOADS, STORES = ("lb", "lbu", "lbu", "lh", "lhu", "lw", "lw"), ("sb", "sh", "sw", "sw")
LONGEST = 1514
ENTRY = (register(37, A0, ZERO, LENGTH), register(37, A1, ZERO, NUMBER))  # keeps what is found in $4 and $5

# Words that no handler may have, of each kind: jumps, links, overflow, HI and LO, parts of words, coprocessors, no instruction.
FORBIDDEN = (
    0x03E00008, 0x0060F809, 0x08000000, 0x0C000004, 0x04100002, 0x04110002, 0x01094020, 0x01094022, 0x21080001, 0x00004010, 0x01000011, 0x00004012,
    0x01000013, 0x01090018, 0x01090019, 0x0109001A, 0x0109001B, 0x88081000, 0x98081000, 0xA8081000, 0xB8081000, 0x40086000, 0x42000010, 0x44000000,
    0x4C000000, 0xC0000000, 0xE0000000, 0xFFFFFFFF, 0x00000001, 0x0000003F, 0x04020001, 0x3C280001, 0x00210000,
)


class Handlers:
    """Makes handlers."""

    def __init__(self, chance: Random):
        self.chance = chance

    def words(self) -> List[int]:
        """A handler, which is mostly good."""
        kind = self.chance.random()
        if kind < 0.12:
            return self.bad()
        if kind < 0.16:
            return [NOP] * self.chance.choice((1, 63, 64, 64))
        if kind < 0.24:
            return self.loud()
        return self.good()

    def good(self) -> List[int]:
        words, branches = [*ENTRY], []
        for _ in range(self.chance.randrange(1, 8)):
            piece = self.piece()
            if len(words) + len(piece) + 2 > MOST_WORDS:
                break
            if self.chance.random() < 0.25:
                branches.append(len(words))
                words += (NOP, self.work())
            words += piece
        if self.chance.random() < 0.3 and len(words) < MOST_WORDS:
            words.append(BREAK)
        for place in branches:
            words[place] = self.branch(place, len(words))
        return words

    def bad(self) -> List[int]:
        """A good one, in which a word is bad."""
        words = self.good()
        place, kind = self.chance.randrange(len(words)), self.chance.random()
        if kind < 0.4:
            words[place] = self.chance.choice(FORBIDDEN)
        elif kind < 0.5:
            words[place] = self.chance.randrange(1 << 32)
        elif kind < 0.6:
            words[-1] = immediate(4, ZERO, ZERO, 1)
        elif kind < 0.75:
            words[place] = immediate(4, ZERO, ZERO, self.chance.choice((0, -1, -2, -place - 1, -place - 3, 0x7FFF, -0x8000)))
        elif kind < 0.9 and len(words) > 2:
            place = self.chance.randrange(len(words) - 2)
            words[place : place + 2] = immediate(5, ZERO, ZERO, 1), self.chance.choice((SYSCALL, BREAK, immediate(4, ZERO, ZERO, 1)))
        else:
            words[place] = immediate(7, V1, ZERO, len(words) - place)
        return words

    def loud(self) -> List[int]:
        """Replies with the packet's length, or with another, up to five times: the last one is a fault."""
        length = self.chance.choice((0, 14, 60))
        replies = ori(A0, ZERO, PAGE_AT + self.chance.randrange(64)), ori(A1, ZERO, length) if length else register(37, LENGTH, ZERO, A1)
        return [*ENTRY, *replies, *[SYSCALL] * self.chance.choice((3, 4, 4, 5)), *self.count(), BREAK]

    def branch(self, place: int, end: int) -> int:
        """A branch over two words or more, at times to the end."""
        opcode, rt = self.chance.choice(((4, ZERO), (4, LENGTH), (5, ZERO), (5, COUNT), (6, 0), (7, 0), (1, 0), (1, 1)))
        target = self.chance.choice((end, end, *range(place + 2, end + 1)))
        return immediate(opcode, self.chance.choice((ZERO, LENGTH, COUNT, *WORK)), rt, target - place - 1)

    def piece(self) -> List[int]:
        return self.chance.choice((self.count, self.copy, self.copy, self.reply, self.reply, self.reply, self.arithmetic, self.strange))()

    def work(self) -> int:
        rs, rt, rd = (self.chance.choice((LENGTH, NUMBER, *WORK)) for _ in range(3))
        function = self.chance.choice((33, 35, 36, 37, 38, 39, 42, 43, 4, 6, 7))
        return self.chance.choice((
            register(function, rs, rt, rd),
            register(self.chance.choice((0, 2, 3)), 0, rt, rd, self.chance.randrange(32)),
            immediate(self.chance.choice((9, 10, 11, 12, 13, 14)), rs, rt, self.chance.randrange(1 << 16)),
            immediate(15, 0, rt, self.chance.randrange(1 << 16)),
        ))

    def arithmetic(self) -> List[int]:
        return [self.work() for _ in range(self.chance.randrange(1, 5))]

    def count(self) -> List[int]:
        """Counts in a word of the page."""
        place = PAGE_AT + 4 * self.chance.choice((0, 0x200, 0x3FF))
        return [immediate(OPCODES["lw"], ZERO, COUNT, place), addiu(COUNT, COUNT, 1), immediate(OPCODES["sw"], ZERO, COUNT, place)]

    def copy(self) -> List[int]:
        """Loads from the packet, mostly from its first bytes, and stores into the page."""
        words = []
        for _ in range(self.chance.randrange(1, 4)):
            load, store, value = self.chance.choice(PACKET_LOADS), self.chance.choice(STORES), self.chance.choice(WORK)
            place = self.chance.choice((0, 0, 0, 1, 4, 12, 56)) if load in ("lb", "lbu") else self.chance.choice((0, 0, 0, 4, 12, 56))
            words += [immediate(OPCODES[load], ZERO, value, place)]
            words += [immediate(OPCODES[store], ZERO, value, PAGE_AT + 4 * self.chance.randrange(0x400))]
        return words

    def reply(self) -> List[int]:
        """Replies: so many bytes, as many as the packet has, or a length or a place for which there is none."""
        kind = self.chance.random()
        length = self.chance.choice((14, 14, 60, LONGEST)) if kind < 0.9 else self.chance.choice((0, 13, LONGEST + 1))
        address = PAGE_AT + self.chance.choice((0, 0, 4, 0x804, 0x1000 - length)) if kind < 0.95 else self.chance.choice((0, 0xFFF, 0x1FF8, 0x8000))
        last = register(37, LENGTH, ZERO, A1) if kind < 0.3 else ori(A1, ZERO, length)
        return [ori(A0, ZERO, address), last, SYSCALL]

    def strange(self) -> List[int]:
        """An access that may be a fault: to no place, to the packet, behind it, or misaligned."""
        return [self.chance.choice((
            immediate(OPCODES["sw"], ZERO, V0, 0),
            immediate(OPCODES["sb"], ZERO, V0, 13),
            immediate(OPCODES["lw"], LENGTH, V1, -4),
            immediate(OPCODES["lbu"], LENGTH, V1, -1),
            immediate(OPCODES["lbu"], LENGTH, V1, 0),
            immediate(OPCODES["lw"], ZERO, V1, PAGE_AT + 0xFFC),
            immediate(OPCODES["lh"], ZERO, V1, PAGE_AT + 1),
            immediate(OPCODES["sh"], ZERO, V1, PAGE_AT + 0x7FF),
            immediate(OPCODES["sw"], ZERO, V1, PAGE_AT + 0x1000),
            immediate(OPCODES["lw"], ZERO, V1, -4),
            immediate(OPCODES["lw"], NUMBER, V1, 0),
        ))]
