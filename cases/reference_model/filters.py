"""Packet filters: docs/FORMATS.md, "Packet filters".

What a filter asks for is also held as two numbers of 1,514 bytes, the mask and the value of a packet's bits, the packet's
first byte highest.
"""
from __future__ import annotations

import struct
from collections import namedtuple
from typing import List, Optional

from files import MOST_PACKET

BYTES_OF_ATOM = 12

Atom = namedtuple("Atom", "offset width mask value")


class Filter:
    """Atoms that don't contradict each other."""

    def __init__(self, atoms: List[Atom]):
        self.atoms, self.mask, self.value = atoms, 0, 0
        for atom in atoms:
            by = 8 * (MOST_PACKET - atom.offset - atom.width)
            self.mask |= atom.mask << by
            self.value |= atom.value << by

    def matches(self, packet: bytes) -> bool:
        return all(matches(atom, packet) for atom in self.atoms)

    def overlaps(self, other: Filter) -> bool:
        """Whether some packet is matched by both: no bit is asked to be 0 by one and 1 by the other."""
        return not (self.value ^ other.value) & self.mask & other.mask


def matches(atom: Atom, packet: bytes) -> bool:
    end = atom.offset + atom.width
    return end <= len(packet) and int.from_bytes(packet[atom.offset : end], "big") & atom.mask == atom.value


def is_good(atom: Atom) -> bool:
    return (
        atom.width in (1, 2, 4)
        and atom.offset + atom.width <= MOST_PACKET
        and not (atom.mask | atom.value) >> 8 * atom.width
        and not atom.value & ~atom.mask
    )


def read_filter(data: bytes) -> Optional[Filter]:
    """The filter that stands in memory as these bytes, or None."""
    atoms: List[Atom] = []
    for place in range(0, len(data), BYTES_OF_ATOM):
        offset, width, mask, value = struct.unpack_from("<HHII", data, place)
        atom = Atom(offset, width, mask, value)
        if not is_good(atom) or not all(Filter([atom]).overlaps(Filter([other])) for other in atoms):
            return None
        atoms.append(atom)
    return Filter(atoms)
