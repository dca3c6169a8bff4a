"""Changes of files: each beginning and each byte, and changes that are drawn."""
from __future__ import annotations

import random
import re
from typing import Iterator, List, Sequence

MOST_SIZE = 1 << 16  # bytes that a drawn file may grow to
IN_BYTES = bytes((0, 1, 2, 3, 4, 7, 8, 15, 16, 17, 31, 32, 63, 64, 0x7F, 0x80, 0x81, 0xF0, 0xFE, 0xFF))
IN_TEXT = b"\0\t\n\r #-+,.:;0179axf$\"\\()_\x7f\x80\xff"
EDGES = (0, 1, 2, 3, 7, 8, 9, 12, 13, 15, 16, 17, 31, 32, 33, 63, 64, 65, 255, 256, 257, 1023, 1024, 1025, 4095, 4096, 4097, 65535, 65536, 65537,
         262144, 1048576, 4194304, 4194305, 2**31 - 1, 2**31, 2**32 - 4096, 2**32 - 1, 2**32, 2**64)
ODD_WORDS = (b"-", b"", b"0x", b"0x10", b"00000000016", b"0x000000001", b"+1", b"-1", b"-2147483648", b"-2147483649", b"hi(", b"lo(hi(", b"$31", b"$32",
             b"end", b"start", b"flat", b"elf", b"packet", b"revoke", b"version", b"done", b"own", b"sum", b"dead", b"...", b"\x80", b'"', b"#")


def is_text(file: bytes) -> bool:
    return b"\0" not in file


def others(old: int, place: int, values: bytes) -> List[int]:
    """Eight other values of a byte: its neighbours, a bit more or less, and of these values others at each place."""
    first = [old ^ 1, (old + 1) % 256, old ^ 0x80]
    rest = [values[(5 * place + step) % len(values)] for step in range(len(values))]
    return [it for it in dict.fromkeys([*first, *rest]) if it != old][:8]


def whole(file: bytes, first: int = 0) -> Iterator[bytes]:
    """Each beginning of a file, itself the last of them, and the file with each byte changed to eight other values, from a place on."""
    yield from (file[:size] for size in range(first, len(file) + 1))
    values = IN_TEXT if is_text(file) else IN_BYTES
    for place in range(first, len(file)):
        for new in others(file[place], place, values):
            yield file[:place] + bytes([new]) + file[place + 1 :]


def span(chance: random.Random, file: bytes) -> slice:
    """A place and some bytes behind it."""
    first = chance.randrange(len(file) + 1)
    return slice(first, first + chance.choice((1, 1, 2, 4, 8, chance.randrange(64), chance.randrange(len(file) + 1))))


def change_bytes(chance: random.Random, file: bytes, pool: Sequence[bytes]) -> bytes:
    """A change that any file may have."""
    kind, at = chance.randrange(7), span(chance, file)
    if kind == 0:
        return file[: at.start]
    if kind == 1:
        return file[: at.start] + file[at.stop :]
    if kind == 2:
        return file[: at.stop] + file[at.start :]
    if kind == 3:
        other = chance.choice(pool)
        return file[: at.start] + other[span(chance, other)] + file[at.start :]
    if kind == 4:
        other = chance.choice(pool)
        return file[: at.start] + other[at.start :]
    values = IN_TEXT if is_text(file) else IN_BYTES
    if kind == 5:
        return file[: at.start] + bytes(chance.choice(values) for _ in range(chance.randrange(1, 5))) + file[at.start :]
    place = chance.randrange(len(file)) if file else 0
    new = chance.choice((chance.randrange(256), chance.choice(values), (file[place] ^ 1 << chance.randrange(8)) if file else 0))
    return file[:place] + bytes([new]) + file[place + 1 :]


def change_field(chance: random.Random, file: bytes) -> bytes:
    """A number of one, two or four bytes, put at a multiple of its size or anywhere, mostly near the beginning."""
    size = chance.choice((1, 2, 4, 4))
    reach = min(len(file), chance.choice((64, 128, 128, len(file) + 1)))
    place = chance.randrange(reach + 1)
    place -= place % size if chance.random() < 0.7 else 0
    value = chance.choice(EDGES)
    if chance.random() < 0.3:
        value = int.from_bytes(file[place : place + size], "little") + chance.choice((-4096, -4, -1, 1, 4, 4096))
    return file[:place] + (value % 256**size).to_bytes(size, "little") + file[place + size :]


def change_line(chance: random.Random, file: bytes, pool: Sequence[bytes]) -> bytes:
    """A line that is dropped, doubled, moved, another file's, or has another word."""
    lines, kind = file.split(b"\n"), chance.randrange(6)
    at = chance.randrange(len(lines))
    if kind == 0:
        del lines[at]
    elif kind == 1:
        lines[at:at] = [lines[at]] * chance.choice((1, 1, 1, 40))
    elif kind == 2:
        lines.insert(chance.randrange(len(lines)), lines.pop(at))
    elif kind == 3:
        lines.insert(at, chance.choice(chance.choice(pool).split(b"\n")))
    elif words := list(re.finditer(rb"[^\s,()]+", lines[at])):
        word = chance.choice(words)
        new = chance.choice((*ODD_WORDS, *(b"%d" % it for it in EDGES))) if kind == 4 else chance.choice(words)[0]
        lines[at] = lines[at][: word.start()] + new + lines[at][word.end() :]
    return b"\n".join(lines)


def drawn(chance: random.Random, file: bytes, pool: Sequence[bytes]) -> bytes:
    """A file with some changes; the pool has other files of its format."""
    for _ in range(chance.choice((0, 1, 1, 1, 1, 2, 2, 3, 8))):
        kind = chance.random()
        if kind < 0.5 and is_text(file):
            file = change_line(chance, file, pool)
        elif kind < 0.5:
            file = change_field(chance, file)
        else:
            file = change_bytes(chance, file, pool)
        file = file[:MOST_SIZE]
    return file
