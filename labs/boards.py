"""Bare boards (docs/BARE.md) for the checkers of exercises, beside what labs/checking.py has: a student's source runs on one, and
what is read are its registers, rows and console at any time."""

from __future__ import annotations

from typing import Callable, Dict, List, Tuple

from checking import Lab, Missing, aegis
import bare
from shown import decoded
from source import TEXT, read_source

FILE = "board.bin"
Copies = Tuple[Tuple[int, str], ...]  # an address, and the label of the code that is copied to it


class Board:
    """A board with the text of the exercise's source, in which these values stand in place of its own, and with a period of
    interrupts. It runs as long as one likes."""

    def __init__(self, lab: Lab, values: Dict[str, int], period: int):
        if lab.is_c:
            raise Missing("A board without the kernel runs a source in assembly, and no program in C.")
        self.lab, self.period = lab, period
        self.room = lab.folder_of({f"{lab.name}.s": values})
        with open(f"{self.room}/{lab.name}.s", encoding="latin-1", newline="\n") as file:
            self.source = read_source(file.read())
        with open(f"{self.room}/{lab.name}.elf", "rb") as file:
            text, has_data = bare.flat(file.read())
        if has_data:
            raise Missing("The source has data, and the board has the text alone: put what follows `.data` after the instructions, without that line.")
        with open(f"{self.room}/{FILE}", "wb") as file:
            file.write(text)
        self.boards: Dict[int, bare.Ended] = {}

    def run(self, ticks: int) -> bare.Ended:
        """The board after so many ticks, or where it halted."""
        if ticks not in self.boards:
            self.boards[ticks] = bare.read(aegis("bare", FILE, str(ticks), str(self.period), cwd=self.room).decode("latin-1"))
        return self.boards[ticks]

    def first(self, holds: Callable[[bare.Ended], bool], ticks: int) -> int:
        """The first time at which this holds, which holds after so many ticks and, once it does, from there on."""
        low, high = 0, ticks
        while low < high:
            middle = (low + high) // 2
            low, high = (low, middle) if holds(self.run(middle)) else (middle + 1, high)
        return low

    def place(self, address: int, copies: Copies) -> List[str]:
        """The line of the source that stands at an address of the board, in the text or in a copy of a part of it."""
        placed = [(bare.ENTRY, TEXT), *((at, self.source.names[label]) for at, label in copies if label in self.source.names)]
        start, begins = max((it for it in placed if it[0] <= address), default=placed[0])
        statement = self.source.at(address - start + begins)
        return [f"   {self.lab.shown}:{statement.line}: {decoded(statement.text).strip()}"] if statement else []
