"""What stands at a program's addresses: labels of a source in assembly; functions and lines of one in C, by the same program with
its symbols; the symbols of an ELF file that has them.
"""

from __future__ import annotations

import functools
import os
import re
import shutil
import struct
import subprocess
from bisect import bisect_right
from dataclasses import dataclass, field
from typing import Dict, List, NamedTuple, Tuple

from elf_symbols import FUNCTION, sections, symbols
from programs import ROOT, Program, content, made
from shown import decoded
from source import DATA

LINES = "mipsel-linux-gnu-addr2line"


class Line(NamedTuple):
    """A line of a source, and what it says."""

    file: str
    number: int
    text: str

    def shown(self) -> str:
        return f"{self.file}:{self.number}: {self.text}"


def fits(program: Program) -> bool:
    """Whether the source's instructions stand where the listing has them."""
    names = {"li": "lui", "la": "lui", "move": "addu", "b": "beq", "nop": "sll"}
    order = program.source.instructions() if program.source else []
    return bool(order) and all(
        program.listing.get(it.address, "")[18:].split(" ")[0] == names.get(it.operation, it.operation) for it in order)


def twin(program: Program) -> str:
    """The path of the same program with its symbols, where there is one: its text is the same."""
    if not program.directory:
        return ""
    name = os.path.splitext(os.path.basename(program.elf))[0]
    if made(program.shown, program.directory, f"{name}.debug").returncode:
        return ""
    path = f"{program.directory}/{name}.debug"
    text = next((it for it in sections(content(path)) if it.name == ".text"), None)
    listed = [program.listing.get(text.address + at, "")[9:17] for at in range(0, len(text.content), 4)] if text else [""]
    words = [f"{word:08x}" for word, in struct.iter_unpack("<I", text.content[: len(text.content) // 4 * 4])] if text else []
    return path if listed == words else ""


@dataclass
class Places:
    """The labels and lines of a program, by address."""

    labels: Dict[str, int] = field(default_factory=dict)
    functions: Dict[str, int] = field(default_factory=dict)  # labels at which a function of C begins
    lines: Dict[int, Line] = field(default_factory=dict)  # by the address of an instruction
    symbols: str = ""  # the path of the file with symbols of a program in C
    sources: Dict[str, List[str]] = field(default_factory=dict)  # the lines of each file

    def __post_init__(self) -> None:
        self.order = sorted((address, name) for name, address in self.labels.items())

    def name(self, address: int) -> str:
        """An address by the label before it and how far it is after that, or nothing."""
        at = bisect_right(self.order, (address, "\x7f")) - 1
        if at < 0 or (self.order[at][0] >= DATA) != (address >= DATA) or address - self.order[at][0] >= 1 << 16:
            return ""
        begin = self.order[at][0]
        label = next(name for place, name in self.order if place == begin)
        return label if address == begin else f"{label}+{address - begin}"

    def where(self, address: int) -> str:
        """The file and the line of an instruction, or where it is."""
        line = self.lines.get(address)
        return f"{line.file}:{line.number}" if line else f"at 0x{address:08x}"

    def of_line(self, file: str, number: int) -> Tuple[int, List[int]]:
        """The addresses of the instructions of a line, or of the next one that has some, and its number; of the first file where
        none is named."""
        own = file or next(iter(self.sources), "")
        found = {address: it.number for address, it in self.lines.items() if it.number >= number and own in (it.file, os.path.basename(it.file))}
        nearest = min(found.values(), default=0)
        return nearest, sorted(address for address, it in found.items() if it == nearest)


@functools.lru_cache(maxsize=None)
def places_of(program: Program) -> Places:
    """What is known of a program's addresses."""
    if program.source and fits(program):
        lines = {address: Line(program.shown, it.line, decoded(it.text).strip())
                 for it in program.source.instructions() for address in range(it.address, it.address + it.size, 4)}
        text = [decoded(it.text) for it in program.source.statements]
        return Places({name: it.address for name, it in program.source.labels.items()}, {}, lines, "", {program.shown: text})
    path = twin(program)
    if not path and not program.source and not program.directory and os.path.isfile(program.shown) and any(symbols(content(program.shown))):
        path = program.shown  # an ELF file that has them itself
    file = content(path) if path else b""
    found = {name.split(".")[0]: (address, kind) for name, address, _, kind in symbols(file) if not name.startswith("_")}
    places = Places({name: address for name, (address, _) in found.items()}, {name: it for name, (it, kind) in found.items() if kind == FUNCTION},
                    symbols=path)
    if path:
        if program.directory:
            places.sources[program.shown] = lines_of(os.path.splitext(path)[0] + ".c")
        add_lines_of_c(program, path, places)
    return places


def add_lines_of_c(program: Program, path: str, places: Places) -> None:
    """The lines of each instruction, by the compiler's own tool where that is there."""
    if not shutil.which(LINES):
        return
    addresses = sorted(program.listing)
    ran = subprocess.run([LINES, "-e", path], input="".join(f"0x{it:x}\n" for it in addresses), stdout=subprocess.PIPE, text=True, errors="replace")
    own = os.path.realpath(os.path.splitext(path)[0] + ".c")
    for address, said in zip(addresses, ran.stdout.splitlines()):
        found = re.match(r"(.*):(\d+)", said)
        if found and os.path.isfile(found[1]):
            name = program.shown if program.directory and os.path.realpath(found[1]) == own else shown_path(found[1])
            text = lines_of(found[1])
            if int(found[2]) <= len(text):
                places.sources.setdefault(name, text)
                places.lines[address] = Line(name, int(found[2]), text[int(found[2]) - 1].strip())


def shown_path(path: str) -> str:
    """A file of this repository by its path there, and another as it is reached from here."""
    inside = os.path.relpath(os.path.realpath(path), ROOT)
    return os.path.relpath(path) if inside.startswith("..") else inside


@functools.lru_cache(maxsize=None)
def lines_of(path: str) -> List[str]:
    """The lines of a file."""
    with open(path, encoding="utf-8", errors="backslashreplace") as file:
        return file.read().split("\n")
