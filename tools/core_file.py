"""Core files as `aegis core` writes them: docs/REPORT.md, "The core"."""

from __future__ import annotations

import struct
from dataclasses import dataclass
from typing import Dict, List, NamedTuple, Tuple

from limits import PAGE_SIZE

LOADED, NOTES = 1, 4  # types of program headers
REGISTERS, LO, HI, PC = 6, 38, 39, 40  # places among the numbers of Linux' prstatus
STATUS_OF_NUMBERS, NUMBERS = 72, 45
OUT, IN_SLICE, IN_GRACE = range(3)  # whether it runs


class CorePage(NamedTuple):
    """The bytes of a page, and whether it may be stored to."""

    data: bytes
    is_writable: bool


@dataclass
class Core:
    """The state of an environment: registers by their numbers, pages by their VPNs, and what the kernel keeps of it."""

    env: int
    registers: List[int]
    hi: int
    lo: int
    pc: int
    time: int
    version: int
    next: int
    is_in_slot: bool
    excess: int
    mask: int
    handlers: List[int]
    runs: int  # OUT, IN_SLICE or IN_GRACE
    left: int
    slot: int
    pages: Dict[int, CorePage]

    def word(self, address: int) -> int:
        """The aligned word at an address that the environment sees."""
        return int.from_bytes(self.pages[address // PAGE_SIZE].data[address % PAGE_SIZE & ~3 : (address % PAGE_SIZE & ~3) + 4], "little")


def notes_of(content: bytes) -> Dict[bytes, bytes]:
    """The notes by their names."""
    found, at = {}, 0
    while at < len(content):
        name, size = struct.unpack_from("<II", content, at)
        start = at + 12 + (name + 3 & ~3)
        found[content[at + 12 : at + 12 + name].rstrip(b"\0")] = content[start : start + size]
        at = start + (size + 3 & ~3)
    return found


def read_core(file: bytes) -> Core:
    """What a core file says."""
    first, = struct.unpack_from("<I", file, 28)
    count, = struct.unpack_from("<H", file, 44)
    notes: Dict[bytes, bytes] = {}
    pages: Dict[int, CorePage] = {}
    for header in range(first, first + 32 * count, 32):
        kind, place, address, _, size, _, flags = struct.unpack_from("<7I", file, header)
        if kind == NOTES:
            notes.update(notes_of(file[place : place + size]))
        elif kind == LOADED:
            for at in range(0, size, PAGE_SIZE):
                pages[(address + at) // PAGE_SIZE] = CorePage(file[place + at : place + at + PAGE_SIZE], bool(flags & 2))
    numbers: Tuple[int, ...] = struct.unpack_from(f"<{NUMBERS}I", notes[b"CORE"], STATUS_OF_NUMBERS)
    env, = struct.unpack_from("<I", notes[b"CORE"], 24)
    time, version, after, in_slot, excess, mask, *handlers, runs, left, slot = struct.unpack("<14I", notes[b"AEGIS"])
    return Core(env, list(numbers[REGISTERS : REGISTERS + 32]), numbers[HI], numbers[LO], numbers[PC], time, version, after, bool(in_slot), excess,
                mask, handlers, runs, left, slot, pages)
