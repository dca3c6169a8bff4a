"""Random files for the bare board, made from a seed: programs dense in coprocessor 0, with handlers at both vectors.

The handler of refills writes a row by TLBWR, mostly one that helps, or goes on behind the instruction, as that of all other
exceptions does; at times it goes into user mode, or back to where it was. The programs load and store at addresses of each kind, move
words to and from coprocessor 0, read, write and look for rows, and change their mode and whether interrupts come.
"""
from __future__ import annotations

import os
import random
import struct
import sys
from typing import List

sys.path.append(os.path.dirname(os.path.dirname(os.path.realpath(__file__))))
from binary import BREAK, NOP, SYSCALL, addiu, immediate, lui, ori, register

K0, K1, REGISTERS = 26, 27, range(8, 16)
INDEX, RANDOM, ENTRY_LO, CONTEXT, BAD_VADDR, ENTRY_HI, STATUS, CAUSE, EPC, PRID = NAMED = 0, 1, 2, 4, 8, 10, 12, 13, 14, 15
TLBR, TLBWI, TLBWR, TLBP, RFE = (0x42000000 | it for it in (1, 2, 6, 8, 16))
LOADS, STORES = (32, 33, 34, 35, 36, 37, 38), (40, 41, 42, 43, 46)
# Addresses of each kind: mapped, physical in both ranges, behind the memory, at each border.
EDGES = (0x1000, 0x2000, 0x3000, 0x7FFFFFFC, 0x80000000, 0x8003FFFC, 0x80040000, 0x9FFFFFFC, 0xA0000000, 0xA0001000, 0xBFFFFFFC, 0xC0000000, 0xC0001000,
         0xFFFFFFFC)
END, TEXT, VECTOR = 0x2C0, 0x100, 0x80  # places in the file


def mfc0(to: int, number: int) -> int:
    return 0x40000000 | to << 16 | number << 11


def mtc0(source: int, number: int) -> int:
    return 0x40800000 | source << 16 | number << 11


class Board:
    """A file, and how long it runs, with which period of interrupts."""

    def __init__(self, seed: int):
        chance = self.chance = random.Random(seed)
        self.ticks, self.period = chance.randrange(50, 600), chance.choice((0, 0, 1, 7, 30, 100, 1000))
        refill = self.refill() if chance.random() < 0.8 else self.onward()
        parts = (0, refill), (VECTOR, self.onward()), (TEXT, self.words())
        file = bytearray(chance.choice((END, 0x1000, 0x4000, 0x40000)))
        for place, words in parts:
            code = struct.pack(f"<{len(words)}I", *words)
            file[place : place + len(code)] = code
        self.file = bytes(file[: len(file) - chance.choice((0, 0, 0, 1, 2, 3))])

    def load(self, to: int, value: int) -> List[int]:
        return [lui(to, value >> 16), ori(to, to, value)]

    def low_word(self) -> int:
        """An EntryLo, mostly of a page that is there."""
        page = self.chance.randrange(64) if self.chance.random() < 0.9 else self.chance.choice((64, 0xFFFFF))
        return page << 12 | self.chance.choice((0x600, 0x600, 0x700, 0x200, 0x400, 0xE00, 0))

    def refill(self) -> List[int]:
        """Writes a row, and tries again."""
        return [*self.load(K0, self.low_word()), mtc0(K0, ENTRY_LO), TLBWR, mfc0(K1, EPC), NOP, register(8, K1), RFE]

    def onward(self) -> List[int]:
        """Goes on behind the instruction, at times in the other mode."""
        words = [mfc0(K1, EPC), addiu(K1, K1, self.chance.choice((4, 4, 4, 8)))]
        if self.chance.random() < 0.3:
            words += [mfc0(K0, STATUS), immediate(14, K0, K0, self.chance.choice((4, 8, 12))), mtc0(K0, STATUS)]
        return [*words, register(8, K1), self.chance.choice((RFE, RFE, RFE, NOP))]

    def some(self) -> int:
        return self.chance.choice(REGISTERS)

    def value(self) -> int:
        """A number that means something to a register of coprocessor 0."""
        chance = self.chance
        return chance.choice((chance.choice(EDGES) | chance.randrange(64) << 6, self.low_word(), 0x8001 | chance.randrange(64), chance.randrange(64) << 8,
                              chance.randrange(1 << 32)))

    def words(self) -> List[int]:
        words: List[int] = []
        while len(words) < (END - TEXT) // 4 - 12:
            words += self.chance.choices((self.access, self.move, self.row, self.plain, self.leave), (10, 10, 9, 5, 1))[0]()
        again = [*self.load(8, 0x80000100), register(8, 8), NOP] if self.chance.random() < 0.6 else []
        return [*words, *again, BREAK]

    def access(self) -> List[int]:
        base = self.some()
        words = self.load(base, self.chance.choice(EDGES) + self.chance.choice((0, 0, 4, 64, 1)) & 0xFFFFFFFF)
        return [*words, *(immediate(self.chance.choice((*LOADS, *STORES)), base, self.some(), self.chance.choice((0, 0, 4, -4, 1, 2))) for _ in range(2))]

    def move(self) -> List[int]:
        number = self.chance.choice(NAMED) if self.chance.random() < 0.9 else self.chance.randrange(32)
        if self.chance.random() < 0.3:
            return [mfc0(self.some(), number)]
        return [*self.load(8, self.value()), mtc0(8, number)]

    def row(self) -> List[int]:
        """A word of the TLB, mostly behind those that it goes by."""
        chance, words = self.chance, []
        if chance.random() < 0.7:
            words += [*self.load(8, chance.choice(EDGES) & 0xFFFFF000 | chance.randrange(3) << 6), mtc0(8, ENTRY_HI)]
        if chance.random() < 0.7:
            words += [*self.load(9, self.low_word()), mtc0(9, ENTRY_LO)]
        if chance.random() < 0.5:
            words += [ori(9, 0, chance.randrange(64) << 8), mtc0(9, INDEX)]
        return [*words, chance.choice((TLBWI, TLBWI, TLBWR, TLBP, TLBP, TLBR))]

    def plain(self) -> List[int]:
        chance = self.chance
        return chance.choice(([SYSCALL], [RFE], [addiu(self.some(), self.some(), 1)],
                              [immediate(4, 0, 0, 1), chance.choice((NOP, SYSCALL, RFE, mfc0(9, RANDOM)))],
                              [0x42000000 | chance.randrange(1 << 11)], [0x44000000], [chance.randrange(1 << 32)]))

    def leave(self) -> List[int]:
        """Goes on in user mode, at a page that is mapped to the one where the text is."""
        return [*self.load(8, 0x1000), mtc0(8, ENTRY_HI), *self.load(9, 0x700), mtc0(9, ENTRY_LO), TLBWR, *self.load(8, 0x8000 | self.chance.choice((8, 12))),
                mtc0(8, STATUS), *self.load(9, 0x1000 + TEXT), register(8, 9), RFE]
