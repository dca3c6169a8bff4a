"""The guaranteed pages of each environment of an image, as they are at boot (docs/FORMATS.md, "Image"; docs/KERNEL.md, "Boot")."""

from __future__ import annotations

import struct
from dataclasses import dataclass, field
from typing import Dict, List, Tuple

from kernel_layout import CONTEXT_VPN
from limits import PAGE_SIZE

END_OF_STACK = 0x7FFF0
MAGIC = {b"AEG1": 1, b"AEG2": 2}


@dataclass
class Boot:
    """An environment at boot: where it is entered, the bytes of its pages by VPN, and which may be stored to."""

    entry: int
    pages: Dict[int, bytes] = field(default_factory=dict)
    writable: Dict[int, bool] = field(default_factory=dict)

    def add(self, address: int, data: bytes, size: int, is_writable: bool) -> None:
        """A segment: bytes from an address on, of which the file gives the first ones."""
        for vpn in range(address // PAGE_SIZE, (address + size - 1) // PAGE_SIZE + 1):
            first = max(address, vpn * PAGE_SIZE)
            piece = data[first - address: (vpn + 1) * PAGE_SIZE - address]
            page, at = self.pages.get(vpn, bytes(PAGE_SIZE)), first % PAGE_SIZE
            self.pages[vpn] = page[:at] + piece + page[at + len(piece):]
            self.writable[vpn] = self.writable.get(vpn, False) or is_writable


@dataclass
class Image:
    """What the tools need of an image that was accepted."""

    version: int
    quantum: int
    environments: List[Boot]


def read_image(file: bytes) -> Image:
    """Reads an image in which there is no fault."""
    quantum, count, slots = struct.unpack_from("<IHH", file, 8)
    image, place = Image(MAGIC[file[:4]], quantum, []), 16 + slots
    for _ in range(count):
        base, stack, _, kind, length = struct.unpack_from("<5I", file, place + 8)
        body = file[place + 28: place + 28 + length]
        entry, segments = (base, [(base, body, length, True)]) if kind == 0 else segments_of(body)
        boot = Boot(entry)
        for segment in segments:
            boot.add(*segment)
        for vpn in (CONTEXT_VPN, *range(END_OF_STACK - stack, END_OF_STACK)):
            boot.pages[vpn], boot.writable[vpn] = bytes(PAGE_SIZE), True
        image.environments.append(boot)
        place += 28 + length
    return image


def segments_of(file: bytes) -> Tuple[int, List[Tuple[int, bytes, int, bool]]]:
    """Where an ELF file is entered, and its segments that have bytes in memory."""
    entry, first = struct.unpack_from("<II", file, 24)
    segments = []
    for header in range(first, first + 32 * struct.unpack_from("<H", file, 44)[0], 32):
        kind, offset, address, _, in_file, size, flags = struct.unpack_from("<7I", file, header)
        if kind == 1 and size:
            segments.append((address, file[offset: offset + in_file], size, bool(flags & 2)))
    return entry, segments
