"""The ELF file of a source in assembly with its symbols and lines, for a debugger: what DWARF 2 says of a program without types."""

from __future__ import annotations

import os
import struct
from typing import List, NamedTuple, Tuple

from source import DATA, JUMPS, Source

HEADER, SECTION_HEADER, SYMBOL = 52, 40, 16  # bytes
PROGBITS, SYMTAB, STRTAB = 1, 2, 3
WRITE, ALLOC, RUN = 1, 2, 4
NO_TYPE, OBJECT, FUNCTION, GLOBAL = 0, 1, 2, 16
O32 = 0x1000  # the flag of the calling convention
# What the one entry of .debug_info has, as DWARF's numbers of attributes and forms: name, directory, producer, language, lines, first
# address, end.
COMPILE_UNIT, ATTRIBUTES = 0x11, ((0x03, 0x08), (0x1B, 0x08), (0x25, 0x08), (0x13, 0x05), (0x10, 0x06), (0x11, 0x01), (0x12, 0x01))
MIPS_ASSEMBLER = 0x8001
LINE_BASE, LINE_RANGE, OPERANDS = -5, 14, bytes((0, 1, 1, 1, 1, 0, 0, 0, 1))  # of the line table's special and standard opcodes
COPY, ADVANCE_PC, ADVANCE_LINE, END_SEQUENCE, SET_ADDRESS = 1, 2, 3, 1, 2


class Part(NamedTuple):
    """A section: name, kind, flags, address, bytes, the section it is linked to, where its local symbols end, and an entry's size."""

    name: str
    kind: int
    content: bytes
    flags: int = 0
    address: int = 0
    link: int = 0
    info: int = 0
    entry: int = 0


def unsigned(value: int) -> bytes:
    """A number in DWARF's form, seven bits a byte."""
    out = bytearray()
    while value >= 0x80:
        out.append(value & 0x7F | 0x80)
        value >>= 7
    return bytes(out) + bytes((value,))


def signed(value: int) -> bytes:
    out = bytearray()
    while not -0x40 <= value < 0x40:
        out.append(value & 0x7F | 0x80)
        value >>= 7
    return bytes(out) + bytes((value & 0x7F,))


def counted(content: bytes) -> bytes:
    """Bytes after their length."""
    return struct.pack("<I", len(content)) + content


def line_table(source: Source, name: str) -> bytes:
    """The lines of the instructions."""
    order = source.instructions()
    program, at, line = b"\0\5" + struct.pack("<BI", SET_ADDRESS, order[0].address), order[0].address, 1
    for it in order:
        program += bytes((ADVANCE_PC,)) + unsigned(it.address - at) + bytes((ADVANCE_LINE,)) + signed(it.line - line) + bytes((COPY,))
        at, line = it.address, it.line
    program += bytes((ADVANCE_PC,)) + unsigned(order[-1].size) + bytes((0, 1, END_SEQUENCE))
    head = struct.pack("<BBbBB", 1, 1, LINE_BASE, LINE_RANGE, len(OPERANDS) + 1) + OPERANDS + b"\0" + name.encode() + b"\0\0\0\0\0"
    return counted(struct.pack("<H", 2) + counted(head) + program)


def unit(source: Source, name: str, folder: str) -> Tuple[bytes, bytes]:
    """.debug_info and .debug_abbrev: one program."""
    order = source.instructions()
    entry = b"\1" + b"".join(it.encode() + b"\0" for it in (name, folder, "aegis asm"))
    entry += struct.pack("<HIII", MIPS_ASSEMBLER, 0, order[0].address, order[-1].address + order[-1].size)
    abbreviations = bytes((1, COMPILE_UNIT, 0)) + b"".join(map(bytes, ATTRIBUTES)) + b"\0\0\0"
    return counted(struct.pack("<HIB", 2, 0, 4) + entry), abbreviations


def functions(source: Source) -> List[str]:
    """The labels at which functions begin: where the program is entered, what is called, and what has its address taken."""
    taken = {it.operands[-1] for it in source.instructions() if it.operands and (it.operation == "la" or it.operation in JUMPS and it.operation != "j")}
    return [name for name, it in source.labels.items() if it.in_text and (name in taken or name == "start" or it is source.statements[0])]


def symbol_tables(source: Source) -> Tuple[bytes, bytes]:
    """The symbols of labels, and their names. A function has its size, and a label within it has none: so an address within a function is
    the function's for a debugger, after a label too, and a breakpoint at the label is found by its name."""
    names, table = b"\0", bytes(SYMBOL)
    code, last = functions(source), source.instructions()[-1]
    starts = sorted(source.labels[name].address for name in code)
    ends = dict(zip(starts, [*starts[1:], last.address + last.size]))
    for name, it in source.labels.items():
        kind, part = (OBJECT, 2) if it.address >= DATA else (FUNCTION if name in code else NO_TYPE, 1)
        size = ends[it.address] - it.address if kind == FUNCTION else 0
        table += struct.pack("<IIIBBH", len(names), it.address, size, GLOBAL | kind, 0, part)
        names += name.encode() + b"\0"
    return table, names


def debug_file(elf: bytes, source: Source, path: str) -> bytes:
    """The same program with symbols and lines of this source, which stands at `path`."""
    first, count = struct.unpack_from("<I", elf, 28)[0], struct.unpack_from("<H", elf, 44)[0]
    heads = [struct.unpack_from("<8I", elf, first + 32 * at) for at in range(count)]
    folder, name = os.path.split(os.path.abspath(path))
    info, abbreviations = unit(source, name, folder)
    table, names = symbol_tables(source)
    parts = [Part("", 0, b"")]
    for head in heads:
        flags = ALLOC | (WRITE if head[6] & 2 else RUN)
        parts.append(Part(".data" if head[6] & 2 else ".text", PROGBITS, elf[head[1]: head[1] + head[4]], flags, head[2]))
    parts += [Part(".data", PROGBITS, b"", ALLOC | WRITE, DATA)] * (3 - len(parts))
    parts += [Part(".debug_line", PROGBITS, line_table(source, name)), Part(".debug_info", PROGBITS, info), Part(".debug_abbrev", PROGBITS, abbreviations)]
    parts += [Part(".symtab", SYMTAB, table, link=len(parts) + 1, info=1, entry=SYMBOL), Part(".strtab", STRTAB, names)]
    parts.append(Part(".shstrtab", STRTAB, b"".join(it.name.encode() + b"\0" for it in parts) + b".shstrtab\0"))
    place, body, table_of = HEADER + 32 * count, b"", b""
    label = 0
    offsets = []
    for it in parts:
        offsets.append(place + len(body))
        table_of += struct.pack("<10I", label, it.kind, it.flags, it.address, place + len(body), len(it.content), it.link, it.info, 1, it.entry)
        label += len(it.name) + 1
        body += it.content
    header = b"\x7fELF\1\1\1" + bytes(9) + struct.pack("<HHIIIIIHHHHHH", 2, 8, 1, struct.unpack_from("<I", elf, 24)[0], HEADER, place + len(body), O32,
                                                       HEADER, 32, count, SECTION_HEADER, len(parts), len(parts) - 1)
    segments = b"".join(struct.pack("<8I", 1, offsets[at], *head_of[2:]) for at, head_of in enumerate(heads, 1))
    return header + segments + body + table_of
