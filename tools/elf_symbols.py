"""The sections and symbols of an ELF file (docs/FORMATS.md has what the program itself reads of one)."""

from __future__ import annotations

import re
import struct
from typing import Iterator, List, NamedTuple, Tuple

FUNCTION, OBJECT = 2, 1  # kinds of symbols
SYMBOLS = 2  # the kind of a section


class Section(NamedTuple):
    """A section of an ELF file."""

    name: str
    kind: int
    address: int
    content: bytes
    link: int


def sections(file: bytes) -> List[Section]:
    """The sections of an ELF file, where it has some."""
    if len(file) < 52 or not file.startswith(b"\x7fELF\1\1"):
        return []
    first, (size, count, names) = struct.unpack_from("<I", file, 32)[0], struct.unpack_from("<3H", file, 46)
    if not first or size != 40 or first + 40 * count > len(file):
        return []
    heads = [struct.unpack_from("<10I", file, first + 40 * at) for at in range(count)]
    parts = [b"" if head[1] == 8 else file[head[4]: head[4] + head[5]] for head in heads]
    table = parts[names] if names < count else b""
    return [Section(text_at(table, head[0]), head[1], head[3], part, head[6]) for head, part in zip(heads, parts)]


def text_at(table: bytes, place: int) -> str:
    """The text of a table that begins at a place."""
    return table[place: table.find(b"\0", place)].decode(errors="replace")


def symbols(file: bytes) -> Iterator[Tuple[str, int, int, int]]:
    """The functions and objects of an ELF file: name, address, size, kind."""
    parts = sections(file)
    for it in parts:
        if it.kind == SYMBOLS and it.link < len(parts):
            for place in range(0, len(it.content) - 15, 16):
                name, address, size, info, _, part = struct.unpack_from("<3IBBH", it.content, place)
                named = text_at(parts[it.link].content, name)
                if part and part < 0xFF00 and (info & 15 in (FUNCTION, OBJECT) or info & 15 == 0 and re.match(r"[A-Za-z_]\w*$", named)):
                    yield named, address, size, info & 15
