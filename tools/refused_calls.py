"""The kernel calls of a run that were refused: which, at which line, with what answer, and how often."""

from __future__ import annotations

from dataclasses import dataclass
from typing import Dict, Iterable, Iterator, Optional, Tuple

from kernel_calls import CONSOLE_FULL, PUT, answer_name, asked
from limits import CONSOLE_SIZE
from places import Places
from report import Environment
from trace_calls import Call

MOST_LINES = 10  # of a run that tell refused calls and replaced bindings
ALL_BUT_FULL = CONSOLE_SIZE * 15 // 16  # bytes of a console from which it is said how many there are


@dataclass
class Refusals:
    """How often a call was refused with an answer, and what it asked the first time, in this tick."""

    address: int
    asked: str
    number: Optional[int]
    code: int
    tick: int
    times: int = 1

    def line(self, places: Places) -> str:
        """What is said of it."""
        times = f", {self.times:,} times" if self.times > 1 else ""
        return f"   {places.where(self.address)}: {self.asked} was refused: {self.code}, {answer_name(self.code)}{times}"


class Refused:
    """The refused calls of an environment, in the order of their first ones."""

    def __init__(self) -> None:
        self.found: Dict[Tuple[int, Optional[int], int], Refusals] = {}

    def note(self, call: Call) -> None:
        """Takes a call, which may have been granted."""
        if not call.code:
            return
        key = (call.address, call.number, call.code)
        if key in self.found:
            self.found[key].times += 1
        else:
            self.found[key] = Refusals(call.address, asked(call.asked()), call.number, call.code, call.tick)


def console_lines(env: Environment, refused: Iterable[Refusals]) -> Iterator[str]:
    """That a console has no room, or little."""
    size, cut = len(env.text()), [it for it in refused if (it.number, it.code) == (PUT, CONSOLE_FULL)]
    first = min((it.tick for it in cut), default=None)
    has = f"   it has {size:,} of the {CONSOLE_SIZE:,} bytes that a console holds"
    if first is not None:
        yield f"{has}: the put of tick {first:,} had no room, and was refused"
    elif size >= ALL_BUT_FULL:
        yield f"{has}: a put that has no room is refused"
