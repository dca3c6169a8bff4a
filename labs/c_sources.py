"""Sources in C for the checkers of exercises, beside what labs/checking.py has: one is compiled with other numbers, and an address has a line
in it. It is made as tools/try makes it."""

from __future__ import annotations

import os
import re
import shutil
from typing import Dict, List

from places import Places, places_of
from programs import COMPILER, Program, listed, made
from shown import decoded

STACK = 1  # pages that the environment of a program in C has, where its manifest says none
SHOWN_LINES = 8  # of what the compiler says


class Refused(Exception):
    """Why a source can't be compiled, in one sentence; and lines that show where."""

    def __init__(self, sentence: str, *lines: str):
        super().__init__(sentence)
        self.lines = lines


def is_c(path: str) -> bool:
    """Whether a source is in C, by its name."""
    return os.path.splitext(path)[1].lower() == ".c"


def with_values(text: str, values: Dict[str, int]) -> str:
    """A source in which these values stand in place of those that its lines `#define` give."""
    for word, value in values.items():
        text, found = re.subn(rf"(?m)^([ \t]*#[ \t]*define[ \t]+{word})(?:[ \t][^\n]*)?$", rf"\g<1> {value}", text)
        if found != 1:
            raise Refused(f"The source has {found} lines `#define {word} ..`, and it needs one, in which the checker puts other numbers.")
    return text


def put(source: str, room: str, name: str, values: Dict[str, int]) -> None:
    """Writes a source with these values into a folder, as NAME.c."""
    with open(source, encoding="latin-1", newline="\n") as file:
        text = with_values(file.read(), values)
    with open(f"{room}/{name}.c", "w", encoding="latin-1", newline="\n") as file:
        file.write(text)


def compiled(source: str, shown: str, room: str, name: str) -> bytes:
    """The ELF file of NAME.c in a folder. Headers are found beside the source."""
    if not shutil.which(COMPILER):
        raise Refused(f"A source in C wants GNU's compiler for MIPS, {COMPILER}: on Debian `apt-get install gcc-mipsel-linux-gnu make`.")
    ran = made(source, room, f"{name}.elf")
    if ran.returncode:
        lines = ran.stdout.decode(errors="replace").replace(f"{name}.c:", f"{shown}:").splitlines()
        raise Refused("The source can't be compiled or linked.", *(f"   {line}" for line in lines[:SHOWN_LINES]))
    with open(f"{room}/{name}.elf", "rb") as file:
        return file.read()


def places(shown: str, room: str, name: str) -> Places:
    """The lines of a program in a folder in which it was put, by address."""
    program = Program(name, shown, f"{name}.elf", directory=room)
    listed(program, room)
    return places_of(program)


def place(shown: str, room: str, name: str, address: int) -> List[str]:
    """The line of a program's source that an address has."""
    line = places(shown, room, name).lines.get(address)
    return [f"   {line.file}:{line.number}: {decoded(line.text).strip()}"] if line else [f"   at 0x{address:08x}, where no line of the source is"]
