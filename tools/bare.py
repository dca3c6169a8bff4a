"""Bare boards, for tools/try and the checkers of labs/: a source becomes a flat file, which runs without the kernel (docs/BARE.md)."""

from __future__ import annotations

import hashlib
import re
import struct
from dataclasses import dataclass
from typing import Dict, List, Tuple

from matching import matched
from shown import decoded
from source import Source, TEXT

ENTRY = 0x80000100  # where the text stands, and the board begins
HEAD = ENTRY - 0x80000000
REFILLS, OTHERS = 0x80000000, 0x80000080  # the vectors
MEMORY = 64 * 4096
HEADER, SEGMENT_HEADER = 52, 32
CAUSES = {0: "an interrupt", 1: "a store through a row with D clear", 2: "a load or fetch without a row", 3: "a store without a row",
          4: "a load or fetch at a bad address", 5: "a store at a bad address", 6: "a fetch from a page that isn't there",
          7: "a load or store to a page that isn't there", 8: "a system call", 9: "a `break`", 10: "a word that is no instruction",
          11: "a coprocessor that may not be used", 12: "an overflow"}


@dataclass
class Ended:
    """What is told of how a board ended."""

    how: str
    time: int
    console: bytes
    pc: int
    hi: int
    lo: int
    registers: List[int]  # $0 first
    bad: int
    process: int  # the PID of EntryHi
    status: int
    cause: int  # the code
    epc: int
    memory: str  # its fingerprint
    rows: List[Tuple[int, int]]


def flat(elf: bytes) -> Tuple[bytes, bool]:
    """The file of a board whose text is that of an ELF file, and whether that has data too."""
    count, = struct.unpack_from("<H", elf, 44)
    heads = [struct.unpack_from("<8I", elf, HEADER + SEGMENT_HEADER * at) for at in range(count)]
    _, offset, _, _, size, *_ = next(head for head in heads if head[2] == TEXT)
    return bytes(HEAD) + elf[offset : offset + size], len(heads) > 1


def unescaped(text: str) -> bytes:
    """The bytes that a console's text shows."""
    names = {"n": b"\n", '"': b'"', "\\": b"\\"}
    parts = re.findall(r"\\x([0-9a-f]{2})|\\(.)|(.)", text)
    return b"".join(bytes.fromhex(digits) if digits else names[name] if name else plain.encode("latin-1") for digits, name, plain in parts)


def words(line: str) -> List[int]:
    """The numbers of a line, which are hexadecimal."""
    return [int(word, 16) for word in line.split()]


def read(said: str) -> Ended:
    """What `bare` wrote."""
    texts = said.splitlines()
    lines = dict(line.partition(" ")[::2] for line in texts if not line.startswith("row "))
    how, time = lines["end"].split()
    _, _, _, _, bad, entry_hi, status, cause, epc = words(lines["cp0"])
    pc, _, _, hi, lo = words(lines["cpu"])
    text = matched(r'^\d+ "(.*)"$', lines["out"])
    rows = [(row[1], row[2]) for row in (words(line[4:]) for line in texts if line.startswith("row "))]
    return Ended(how, int(time), unescaped(text[1]), pc, hi, lo, [0, *words(lines["regs"])], bad, entry_hi >> 6 & 63, status, cause >> 2 & 31, epc,
                 lines["ram"], rows)


def place(path: str, source: Source, listing: Dict[int, str], address: int) -> List[str]:
    """The instruction at an address of the board, and its line."""
    line = listing.get(address - ENTRY + TEXT)
    if line is None:
        return [f"   at 0x{address:08x}, where none of the source's instructions stands"]
    found = source.at(address - ENTRY + TEXT)
    return [f"   {address:08x} {line[9:]}", *([f"   {path}:{found.line}: {decoded(found.text).strip()}"] if found else [])]


def empty_vector(file: bytes, ended: Ended) -> List[str]:
    """What is said where the board stands behind a vector, and nothing was ever stored, so that no code is there."""
    if not REFILLS <= ended.pc < ENTRY or hashlib.sha256(file.ljust(MEMORY, b"\0")).hexdigest() != ended.memory:
        return []
    at = REFILLS if ended.cause in (2, 3) and ended.bad < REFILLS else OTHERS
    return [f"   its vector at 0x{at:08x} has no code: {CAUSES[ended.cause]}, at 0x{ended.epc:08x}, came there"]
