"""Whether a filter matches a packet (docs/FORMATS.md, "Packet filters")."""

from __future__ import annotations

import struct

ATOM_SIZE = 12


def matches(atoms: bytes, packet: bytes) -> bool:
    """Whether a filter, as the bytes of its atoms, matches a packet."""
    return all(atom_matches(packet, *atom) for atom in struct.iter_unpack("<HHII", atoms))


def atom_matches(packet: bytes, offset: int, width: int, mask: int, value: int) -> bool:
    """Whether a field is within a packet, and has the value under the mask. It has its highest byte first."""
    return offset + width <= len(packet) and int.from_bytes(packet[offset: offset + width], "big") & mask == value
