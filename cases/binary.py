"""Bytes that cases and benches make: images, ELF files and the words of instructions. docs/FORMATS.md describes the first
two, and docs/MACHINE.md the third.
"""

from __future__ import annotations

import struct
from dataclasses import dataclass
from typing import Iterable, Sequence

# --- Images ---------------------------------------------------------------------------------------------------

MAGIC = {1: b"AEG1", 2: b"AEG2"}  # by the version of the format
EMPTY = 255  # a slot without an owner


@dataclass
class Program:
    """A program of an image: flat from `base` on, or an ELF file, whose base is 0."""

    name: str
    body: bytes
    base: int = 0
    stack: int = 0  # pages
    accept: int = 0  # a bit for each environment
    is_elf: bool = False

    def packed(self) -> bytes:
        """Its part of an image."""
        return struct.pack("<8s5I", self.name.encode(), self.base, self.stack, self.accept, self.is_elf, len(self.body)) + self.body


def image(pages: int, quantum: int, slots: Iterable[int], programs: Sequence[Program], version: int = 1) -> bytes:
    """An image of this version: a machine with so many pages, slices of `quantum` ticks, and these owners of its slots."""
    owners = bytes(slots)
    head = MAGIC[version] + struct.pack("<IIHH", pages, quantum, len(programs), len(owners))
    return head + owners + b"".join(it.packed() for it in programs)


# --- ELF files ------------------------------------------------------------------------------------------------

READ, WRITE, RUN = 4, 2, 1
HEADER, SEGMENT_HEADER = 52, 32  # bytes


@dataclass
class Segment:
    """A part of an ELF file: where it stands in memory, what it holds, and which of READ, WRITE and RUN it allows."""

    address: int
    content: bytes
    flags: int = READ | RUN
    size: int = -1  # bytes in memory, with the zeros behind the content; its length where nothing is said

    def header(self, offset: int, alignment: int) -> bytes:
        size = len(self.content) if self.size < 0 else self.size
        return struct.pack("<8I", 1, offset, self.address, self.address, len(self.content), size, self.flags, alignment)


def elf(entry: int, segments: Sequence[Segment], first: int = 0, alignment: int = 1) -> bytes:
    """An ELF file for MIPS with these segments, one behind the other from byte `first` on, or right behind the headers."""
    file = b"\x7fELF\1\1\1" + bytes(9) + struct.pack("<HHIIIIIHHHHHH", 2, 8, 1, entry, HEADER, 0, 0, HEADER, SEGMENT_HEADER, len(segments), 0, 0, 0)
    offset = first or HEADER + SEGMENT_HEADER * len(segments)
    for it in segments:
        file += it.header(offset, alignment)
        offset += len(it.content)
    return file.ljust(first, b"\0") + b"".join(it.content for it in segments)


# --- Instructions ---------------------------------------------------------------------------------------------

NOP, SYSCALL, BREAK = 0, 12, 13
BEQ, BNE = 4, 5
ZERO, AT, V0, V1, A0, A1, A2, A3, T0, T1, S0 = 0, 1, 2, 3, 4, 5, 6, 7, 8, 9, 16


def immediate(opcode: int, source: int, target: int, value: int) -> int:
    """An instruction with a half word."""
    return opcode << 26 | source << 21 | target << 16 | value & 0xFFFF


def register(function: int, source: int = 0, target: int = 0, to: int = 0, shift: int = 0) -> int:
    """An instruction of registers alone."""
    return source << 21 | target << 16 | to << 11 | shift << 6 | function


def addi(target: int, source: int, value: int) -> int:
    return immediate(8, source, target, value)


def addiu(target: int, source: int, value: int) -> int:
    return immediate(9, source, target, value)


def ori(target: int, source: int, value: int) -> int:
    return immediate(13, source, target, value)


def xori(target: int, source: int, value: int) -> int:
    return immediate(14, source, target, value)


def lui(target: int, value: int) -> int:
    return immediate(15, 0, target, value)


def lw(target: int, base: int, offset: int) -> int:
    return immediate(35, base, target, offset)


def sw(target: int, base: int, offset: int) -> int:
    return immediate(43, base, target, offset)


def number(target: int, value: int) -> int:
    """`ori` of a number of 16 bits."""
    return ori(target, ZERO, value)


def move(to: int, source: int) -> int:
    return register(37, source, ZERO, to)


def branch(opcode: int, source: int, distance: int, target: int = ZERO) -> int:
    """A branch by so many instructions from the one behind it on."""
    return immediate(opcode, source, target, distance)


def code(words: Sequence[int]) -> bytes:
    """The bytes of these words."""
    return struct.pack(f"<{len(words)}I", *words)


