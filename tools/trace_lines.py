"""The lines of a trace (docs/REPORT.md, "The trace"). A trace that is cut is refused."""

from __future__ import annotations

import re
from typing import Dict, List, NamedTuple, Optional

from registers import HI, LO

LINE = re.compile(r"(\d+) ([0-9a-f]{8}) ([0-9a-f]{8}|-{8}) (.+?)((?: (?:\$\d+|hi|lo) [0-9a-f]{8})*)( dead)?")
PLACES = {**{f"${number}": number for number in range(32)}, "hi": HI, "lo": LO}


class Cut(Exception):
    """A trace that ends before its end."""


class Row(NamedTuple):
    """A line of a trace."""

    tick: int
    pc: int
    word: Optional[int]  # none where the fetch is refused
    text: str
    told: Dict[int, int]  # registers that differ, and their values
    is_dead: bool


def lines_of(text: str) -> List[str]:
    """The lines of the steps of a whole trace."""
    lines = text.split("\n")
    if len(lines) < 4 or lines[-1] or lines[-2] != "done" or not lines[-3].startswith("end "):
        whole = len(lines) - 1
        raise Cut(f"the trace is cut after its line {whole}: it isn't the end of the run" if whole else "there is no trace")
    return lines[1:-3]


def read_trace(text: str) -> List[Row]:
    """The rows of a whole trace."""
    texts: Dict[str, str] = {}
    return [read_row(line, texts) for line in lines_of(text)]


def read_row(line: str, texts: Dict[str, str]) -> Row:
    """A line. `texts` has the instructions that were read before, by their addresses and words."""
    tick, pc, word, rest = line.split(" ", 3)
    text = texts.get(pc + word)
    if text is None or not rest.startswith(text):
        found = LINE.fullmatch(line)
        if found is None:
            raise Cut(f"a line of the trace has another form: {line[:60]!r}")
        text = texts[pc + word] = found[4]
    more = rest[len(text):].split()
    is_dead = more[-1:] == ["dead"]
    told = {PLACES[name]: int(value, 16) for name, value in zip(more[::2], more[1::2])} if more and not is_dead else {}
    return Row(int(tick), int(pc, 16), None if word[0] == "-" else int(word, 16), text, told, is_dead)
