"""Captures of packets: files of libpcap, in both orders of bytes, and of its successor pcapng, as Wireshark and tcpdump write them.

What is written is a file of libpcap with times in microseconds. https://www.ietf.org/archive/id/draft-ietf-opsawg-pcap-04.html and
https://www.ietf.org/archive/id/draft-ietf-opsawg-pcapng-02.html describe both.
"""

from __future__ import annotations

import struct
from dataclasses import dataclass
from typing import Iterable, Iterator, List, Tuple

ETHERNET = 1
LONGEST = 65_535  # bytes of a packet that a capture says it may have
PLAIN = {b"\xd4\xc3\xb2\xa1": ("<", 1_000), b"\xa1\xb2\xc3\xd4": (">", 1_000), b"\x4d\x3c\xb2\xa1": ("<", 1), b"\xa1\xb2\x3c\x4d": (">", 1)}
SECTION, INTERFACE, SIMPLE, ENHANCED = 0x0A0D0D0A, 1, 3, 6  # kinds of blocks of pcapng
ORDERS = {b"\x4d\x3c\x2b\x1a": "<", b"\x1a\x2b\x3c\x4d": ">"}
RESOLUTION = 9  # the option of an interface that says in which parts of a second its times are


class Bad(Exception):
    """The file is no capture, or is cut."""


@dataclass(frozen=True)
class Captured:
    """A packet of a capture: its time in nanoseconds, its bytes, and how many it had."""

    time: int
    data: bytes
    length: int


def read_capture(file: bytes) -> List[Captured]:
    """The packets of a capture of Ethernet, in their order."""
    try:
        if file[:4] in PLAIN:
            return list(plain(file))
        if file[:4] == struct.pack("<I", SECTION):
            return list(blocks(file))
    except struct.error:
        raise Bad("it is cut within a packet, or has another form") from None
    raise Bad("it doesn't begin as a capture of libpcap or pcapng does")


def demand_ethernet(link: int) -> None:
    if link != ETHERNET:
        raise Bad(f"its packets aren't of Ethernet: its link type is {link}")


def part(file: bytes, place: int, size: int) -> bytes:
    """So many bytes from a place on, which have to be there."""
    if place + size > len(file):
        raise Bad("it is cut within a packet")
    return file[place : place + size]


def plain(file: bytes) -> Iterator[Captured]:
    """Those of a file of libpcap."""
    order, unit = PLAIN[file[:4]]
    demand_ethernet(struct.unpack_from(f"{order}I", file, 20)[0] & 0x0FFFFFFF)
    place = 24
    while place < len(file):
        seconds, fraction, kept, length = struct.unpack_from(f"{order}4I", file, place)
        yield Captured(seconds * 10**9 + fraction * unit, part(file, place + 16, kept), length)
        place += 16 + kept


def blocks(file: bytes) -> Iterator[Captured]:
    """Those of a file of pcapng."""
    place, order = 0, "<"
    units: List[int] = []  # by interface, how many parts a second has
    while place < len(file):
        kind, size = struct.unpack_from(f"{order}2I", file, place)
        if kind == SECTION:
            order, units = ORDERS.get(part(file, place + 8, 4), ""), []
            if not order:
                raise Bad("a section doesn't say in which order its bytes are")
            size, = struct.unpack_from(f"{order}I", file, place + 4)
        if size < 12 or size % 4:
            raise Bad("a block has another size than it says")
        body = part(file, place, size)[8:-4]
        if kind == INTERFACE:
            demand_ethernet(struct.unpack_from(f"{order}H", body)[0])
            units.append(resolution(body[8:], order))
        elif kind == ENHANCED:
            interface, high, low, kept, length = struct.unpack_from(f"{order}5I", body)
            if interface >= len(units):
                raise Bad("a packet is of an interface that isn't described")
            yield Captured((high << 32 | low) * 10**9 // units[interface], part(body, 20, kept), length)
        elif kind == SIMPLE:
            length, = struct.unpack_from(f"{order}I", body)
            yield Captured(0, body[4 : 4 + length], length)
        place += size


def resolution(options: bytes, order: str) -> int:
    """How many parts a second has in an interface's times."""
    place = 0
    while place + 4 <= len(options):
        code, size = struct.unpack_from(f"{order}2H", options, place)
        if code == RESOLUTION and size == 1:
            value = part(options, place + 4, 1)[0]
            return 1 << (value & 0x7F) if value & 0x80 else int(10**value)
        if code == 0:
            break
        place += 4 + size + -size % 4
    return 10**6


def capture(packets: Iterable[Tuple[int, bytes]]) -> bytes:
    """A capture of Ethernet with these packets, each with its time in microseconds."""
    head = struct.pack("<4s2H4I", b"\xd4\xc3\xb2\xa1", 2, 4, 0, 0, LONGEST, ETHERNET)
    return head + b"".join(struct.pack("<4I", *divmod(time, 10**6), len(data), len(data)) + data for time, data in packets)
