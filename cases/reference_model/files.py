"""What is read: boot images, the ELF files in them, manifests and schedules, each with its faults: docs/FORMATS.md."""
from __future__ import annotations

import os
import struct
import sys
from dataclasses import dataclass
from typing import Dict, Iterator, List, Optional, Sequence, Tuple

ROOT = os.path.join(os.path.dirname(os.path.realpath(__file__)), "..", "..")
sys.path += [f"{ROOT}/tools", f"{ROOT}/cases"]
import binary
from binary import EMPTY, MAGIC
from kernel_layout import CONTEXT_VPN
from limits import (LEAST_PAGES, LEAST_QUANTUM, MOST_ASKED, MOST_EVENTS, MOST_LINE, MOST_MAPPINGS, MOST_PACKET_SIZE as MOST_PACKET, MOST_QUANTUM,
                    MOST_SLOTS, MOST_STACK_PAGES as MOST_STACK, MOST_TARGET, MOST_RUN_TICKS, PAGE_SIZE as PAGE, VERSIONS)

LEAST_ADDRESS, END_OF_ADDRESSES, END_OF_STACK = 0x2000, 0x7FF00000, 0x7FFF0000
WORD = 0xFFFFFFFF
NAME = b"abcdefghijklmnopqrstuvwxyz0123456789_"


class Fault(Exception):
    """Why a file is refused, and the place or line."""

    def __init__(self, why: str, place: int):
        super().__init__(f"{why} {place}")
        self.why, self.place = why, place


@dataclass
class Segment:
    """Bytes from an address on, of which the file gives the first ones."""

    address: int
    data: bytes
    size: int
    is_writable: bool


@dataclass
class Program:
    """A program of an image: its segments, and where it is entered."""

    name: str
    stack: int
    accept: int
    entry: int
    segments: List[Segment]

    def mappings(self) -> Dict[int, bool]:
        """The VPNs of its guaranteed pages, rising, and whether each may be stored to."""
        found = {CONTEXT_VPN: True}
        for segment in self.segments:
            for vpn in range(segment.address // PAGE, (segment.address + segment.size - 1) // PAGE + 1):
                found[vpn] = found.get(vpn, False) or segment.is_writable
        end = END_OF_STACK // PAGE
        found.update({vpn: True for vpn in range(end - self.stack, end)})
        return dict(sorted(found.items()))


@dataclass
class Image:
    """A boot image: its version, the numbers of the machine, the owner of each slot or None, and the programs."""

    version: int
    pages: int
    quantum: int
    slots: List[Optional[int]]
    programs: List[Program]


@dataclass
class Event:
    """What happens at the beginning of a tick: a packet, a signal on a line, or a revocation, which is (environment, count, grace)."""

    tick: int
    packet: Optional[bytes] = None
    line: int = 0
    revoke: Optional[Tuple[int, int, int]] = None


def number_at(file: bytes, place: int, size: int) -> int:
    return int.from_bytes(file[place : place + size], "little")


def read_image(file: bytes) -> Image:
    if len(file) < 16:
        raise Fault("Short", len(file))
    version = next((number for number, magic in MAGIC.items() if file[:4] == magic), None)
    if version is None:
        raise Fault("Magic", 0)
    limit = VERSIONS[version]
    limits = (("Pages", 4, 4, LEAST_PAGES, limit.most_pages), ("Quantum", 8, 4, LEAST_QUANTUM, MOST_QUANTUM),
              ("Envs", 12, 2, 1, limit.most_environments), ("Slots", 14, 2, 1, MOST_SLOTS))
    for why, place, size, least, most in limits:
        if not least <= number_at(file, place, size) <= most:
            raise Fault(why, place)
    pages, quantum, count, slots = struct.unpack_from("<IIHH", file, 4)
    place = 16 + slots
    if len(file) < place:
        raise Fault("Short", len(file))
    for slot, owner in enumerate(file[16:place], 16):
        if count <= owner < EMPTY:
            raise Fault("SlotOwner", slot)
    programs, headers, first = [], [], 16
    for _ in range(count):
        headers.append(place)
        program, place = read_program(file, place)
        programs.append(program)
    if place < len(file):
        raise Fault("Trailing", place)
    needs = [len(program.mappings()) for program in programs]
    for header, need in zip(headers, needs):
        if need > MOST_MAPPINGS:
            raise Fault("TooMany", header)
    if sum(needs) > pages:
        raise Fault("TooBig", 4)
    return Image(version, pages, quantum, [None if owner == EMPTY else owner for owner in file[first : first + slots]], programs)


def read_program(file: bytes, header: int) -> Tuple[Program, int]:
    """The program whose header is at this place, and the end of its body."""
    body = header + 28
    if len(file) < body:
        raise Fault("Short", len(file))
    name = file[header : header + 8].rstrip(b"\0")
    base, stack, accept, kind, length = struct.unpack_from("<5I", file, header + 8)
    if not name or any(letter not in NAME for letter in name):
        raise Fault("Name", header)
    if kind > 1:
        raise Fault("Kind", header)
    if stack > MOST_STACK:
        raise Fault("Stack", header)
    if kind == 0:
        is_good = base % PAGE == 0 and base >= LEAST_ADDRESS and base + length <= END_OF_ADDRESSES
    else:
        is_good = base == 0
    if not is_good:
        raise Fault("Base", header)
    if kind == 0 and length == 0:
        raise Fault("Empty", header)
    if len(file) < body + length:
        raise Fault("Short", len(file))
    data = file[body : body + length]
    if kind == 0:
        entry, segments = base, [Segment(base, data, length, True)]
    else:
        try:
            entry, segments = read_elf(data)
        except Fault as fault:
            raise Fault(fault.why, body + fault.place) from None
    return Program(name.decode(), stack, accept, entry, segments), body + length


def read_elf(file: bytes) -> Tuple[int, List[Segment]]:
    """The entry and the segments that are kept."""
    if len(file) < 52:
        raise Fault("Short", len(file))
    fields = (("NotElf", 0, 4, 0x464C457F), ("WrongClass", 4, 1, 1), ("WrongOrder", 5, 1, 1), ("WrongKind", 16, 2, 2), ("WrongMachine", 18, 2, 8))
    for why, place, size, value in fields:
        if number_at(file, place, size) != value:
            raise Fault(why, place)
    if number_at(file, 36, 4) >> 28:
        raise Fault("WrongArch", 36)
    first, count = number_at(file, 28, 4), number_at(file, 44, 2)
    if number_at(file, 42, 2) != 32:
        raise Fault("BadHeaders", 42)
    if not 1 <= count <= 64:
        raise Fault("BadHeaders", 44)
    if first + 32 * count > len(file):
        raise Fault("BadHeaders", 28)
    segments: List[Segment] = []
    for header in range(first, first + 32 * count, 32):
        kind, offset, address, _, in_file, size, flags = struct.unpack_from("<7I", file, header)
        if kind in (2, 3):
            raise Fault("Dynamic", header)
        if kind != 1:
            continue
        if in_file > size or offset + in_file > len(file):
            raise Fault("BadRange", header)
        if size == 0:
            continue
        if address < LEAST_ADDRESS or address + size > END_OF_ADDRESSES:
            raise Fault("BadRange", header)
        if any(address < other.address + other.size and other.address < address + size for other in segments):
            raise Fault("Overlap", header)
        segments.append(Segment(address, file[offset : offset + in_file], size, bool(flags & 2)))
    entry = number_at(file, 24, 4)
    if entry % 4 or not any(it.address <= entry < it.address + it.size for it in segments):
        raise Fault("BadEntry", 24)
    return entry, segments


CHARACTERS = frozenset((9, 10, 13, *range(32, 127)))
WORDS_OF = {b"packet": 3, b"line": 3, b"revoke": 5}  # by kind of event, the words of its line


def lines_of(text: bytes) -> Iterator[Tuple[int, bytes]]:
    """The lines of a text, numbered from 1."""
    lines = text.split(b"\n")
    last = lines.pop()
    lines = [line[:-1] if line.endswith(b"\r") else line for line in lines] + ([last] if last else [])
    return enumerate(lines, 1)


def words_of(line: int, content: bytes) -> List[bytes]:
    """The words of a line, apart from its comment."""
    if not CHARACTERS.issuperset(content):
        raise Fault("Syntax", line)
    return [word for word in content.partition(b"#")[0].replace(b"\t", b" ").split(b" ") if word]


def number_of(word: bytes) -> Optional[int]:
    """The number that a word is, or None."""
    digits, base, most, alphabet = (word[2:], 16, 8, b"0123456789abcdefABCDEF") if word.startswith(b"0x") else (word, 10, 10, b"0123456789")
    if not 1 <= len(digits) <= most or any(digit not in alphabet for digit in digits):
        return None
    value = int(digits, base)
    return value if value <= WORD else None


def read_schedule(text: bytes) -> List[Event]:
    """The events of a schedule, in order."""
    events: List[Event] = []
    for line, content in lines_of(text):
        if words := words_of(line, content):
            event = read_event(line, words)
            if events and event.tick < events[-1].tick:
                raise Fault("Order", line)
            if len(events) == MOST_EVENTS:
                raise Fault("Many", line)
            events.append(event)
    return events


AWAITED = (b"version", b"pages", b"quantum", b"slots", b"env")  # the first words of a manifest's lines, in order


@dataclass
class Manifest:
    """What a manifest says: its version, the numbers of the machine, the owner of each slot or None, and by environment the
    name, the base or None for an ELF file, the stack pages, the mask and the file."""

    version: int
    pages: int
    quantum: int
    slots: List[Optional[int]]
    entries: List[Tuple[str, Optional[int], int, int, bytes]]


def read_manifest(text: bytes) -> Manifest:
    """What a manifest says, and its first line with a fault."""
    said, awaited, last = Manifest(1, 0, 0, [], []), 0, 0
    for line, content in lines_of(text):
        last = line
        words = words_of(line, content)
        if not words:
            continue
        if awaited == 0 and words[0] != AWAITED[0]:
            awaited = 1
        if words[0] != AWAITED[awaited]:
            raise Fault("Syntax", line)
        read_manifest_line(said, line, words)
        awaited = min(awaited + 1, len(AWAITED) - 1)
    if not said.entries:
        raise Fault("Syntax", last + 1)
    return said


def read_manifest_line(said: Manifest, line: int, words: List[bytes]) -> None:
    """Adds what a line says that has the kind which is awaited."""
    kind, *rest = words
    most = VERSIONS[said.version]
    forms = {b"slots": 1 <= len(rest) <= MOST_SLOTS, b"env": (len(rest), *rest[1:2]) in ((6, b"flat"), (5, b"elf"))}
    if not forms.get(kind, len(rest) == 1):
        raise Fault("Syntax", line)

    def ranged(word: bytes, greatest: int, least: int = 0) -> int:
        value = number_of(word)
        if value is None or not least <= value <= greatest:
            raise Fault("Range", line)
        return value

    if kind == b"version":
        said.version = ranged(rest[0], max(VERSIONS), min(VERSIONS))
    elif kind == b"pages":
        said.pages = ranged(rest[0], most.most_pages, LEAST_PAGES)
    elif kind == b"quantum":
        said.quantum = ranged(rest[0], MOST_QUANTUM, LEAST_QUANTUM)
    elif kind == b"slots":
        said.slots = [None if word == b"-" else ranged(word, most.most_environments - 1) for word in rest]
    else:
        name, form, *numbers, file = rest
        if len(name) > 8 or any(letter not in NAME for letter in name):
            raise Fault("Range", line)
        base = ranged(numbers.pop(0), WORD) if form == b"flat" else None
        entry = name.decode(), base, ranged(numbers[0], MOST_STACK), ranged(numbers[1], WORD), file
        if len(said.entries) == most.most_environments:
            raise Fault("Many", line)
        said.entries.append(entry)


def image_of(said: Manifest, files: Dict[bytes, bytes]) -> bytes:
    """The bytes of the image that a manifest means, whose files have these contents."""
    programs = [binary.Program(name, files[file], base or 0, stack, accept, base is None) for name, base, stack, accept, file in said.entries]
    return binary.image(said.pages, said.quantum, [EMPTY if owner is None else owner for owner in said.slots], programs, said.version)


def read_event(line: int, words: List[bytes]) -> Event:
    """The event of a line's words, apart from what the lines before have to do with it."""

    def ranged(word: bytes, most: int) -> int:
        value = number_of(word)
        if value is None or value > most:
            raise Fault("Range", line)
        return value

    if len(words) < 2 or WORDS_OF.get(words[1]) != len(words):
        raise Fault("Syntax", line)
    tick = ranged(words[0], MOST_RUN_TICKS)
    if words[1] == b"line":
        return Event(tick, line=ranged(words[2], MOST_LINE))
    if words[1] == b"revoke":
        target, count, grace = (ranged(word, most) for word, most in zip(words[2:], (MOST_TARGET, MOST_ASKED, MOST_RUN_TICKS)))
        return Event(tick, revoke=(target, count, grace))
    if len(words[2]) % 2 or any(digit not in b"0123456789abcdefABCDEF" for digit in words[2]):
        raise Fault("Hex", line)
    packet = bytes.fromhex(words[2].decode())
    if len(packet) > MOST_PACKET:
        raise Fault("Range", line)
    return Event(tick, packet=packet)


class Refusal(Exception):
    """What a command says of the first of its files that has a fault."""


def read_systems(files: Sequence[Tuple[str, bytes]]) -> List[Tuple[Image, List[Event]]]:
    """The images with their schedules, of files (name, bytes) in the order of a command's words."""
    images, schedules = [], []
    for place, (name, content) in enumerate(files):
        try:
            if place % 2:
                schedules.append(read_schedule(content))
            else:
                images.append(read_image(content))
        except Fault as fault:
            raise Refusal(f"aegis: {name}: {fault}\n") from None
    return list(zip(images, schedules))
