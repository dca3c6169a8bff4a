"""How an environment came where it died: from which calls, by its core, and by which lines, by its trace."""

from __future__ import annotations

import re
from bisect import bisect_right
from itertools import groupby
from typing import Iterator, List, Optional, Tuple

from core_file import Core
from limits import PAGE_SIZE
from places import Line, Places
from programs import Program
from report import Report
from trace_calls import TOLD

SP, RA = 29, 31
RETURN = "jr $31"
CALLS = ("jal", "jalr", "bal", "bgezal", "bltzal")
CALLED = re.compile(r"(?:jal|bal|bgezal \$\d+,|bltzal \$\d+,) ?0x([0-9a-f]+)")
ADJUSTED, SAVED = re.compile(r"addiu \$29,\$29,(-?\d+)"), re.compile(r"sw \$31,(-?\d+)\(\$29\)")
STEP = re.compile(r"\n\d+ ([0-9a-f]{8}) ")
MOST_FRAMES, MOST_SHOWN = 4_096, 6  # calls that are followed, and that are named
MOST_LINES = 8  # of the source, before the one at which it died
LEAST_STEPS = 100  # before a death: the lines of fewer are seen in the source
BLOCK = 1 << 16  # characters of a trace in which those lines are sought


class Unwinder:
    """Finds the calls of an environment that haven't returned, by the code that saves return addresses on the stack."""

    def __init__(self, core: Core, program: Program, places: Places, trace: str):
        self.core, self.trace = core, trace
        self.texts = {address: line[18:] for address, line in program.listing.items()}
        targets = {int(found[1], 16) for found in map(CALLED.match, self.texts.values()) if found}
        self.functions = sorted({*targets, *places.functions.values(), *sorted(self.texts)[:1]})

    def calls(self) -> List[int]:
        """The addresses of the calls, the last one first."""
        found: List[int] = []
        pc, sp, rises = self.core.pc, self.core.registers[SP], True
        while rises and len(found) < MOST_FRAMES:
            size, saved = self.frame(pc)
            if saved is None and (found or not self.is_active()):
                break
            back = self.core.registers[RA] if saved is None else self.word(sp + size + saved)
            if back is None or self.texts.get(back - 8, "").split(" ")[0] not in CALLS:
                break
            found.append(back - 8)
            rises = saved is None or size > 0
            pc, sp = back - 8, sp + size
        return found

    def frame(self, pc: int) -> Tuple[int, Optional[int]]:
        """How far a function's stack pointer is below its caller's at an instruction, and where the return address was saved, from
        the caller's on."""
        if pc not in self.texts:
            return 0, None
        size, saved, address = 0, None, self.functions[bisect_right(self.functions, pc) - 1]
        whole: Tuple[int, Optional[int]] = (0, None)  # before the stack pointer was set back
        while address < pc:
            text = self.texts.get(address, "")
            adjusted, stored = ADJUSTED.fullmatch(text), SAVED.fullmatch(text)
            if text == RETURN:  # what follows its delay slot comes from elsewhere
                size, saved = max(size, whole[0]), saved if whole[1] is None else whole[1]
                address += 4
            elif adjusted and int(adjusted[1]) > 0:
                whole, size, saved = (size, saved), 0, None
            elif adjusted:
                size -= int(adjusted[1])
            elif stored and saved is None:
                saved = int(stored[1]) - size
            address += 4
        return size, saved

    def word(self, address: int) -> Optional[int]:
        """The word at an address, if a page is there."""
        return self.core.word(address) if address % 4 == 0 and address // PAGE_SIZE in self.core.pages else None

    def is_active(self) -> bool:
        """Whether the call that set $31 hasn't returned, as far as the trace tells."""
        at, back = len(self.trace), self.core.registers[RA]
        while (at := self.trace.rfind(f" ${RA} ", 0, at)) >= 0 and not TOLD.match(self.trace, at + len(f" ${RA} ")):
            pass
        return back != 0 and not re.compile(rf"\n\d+ {back:08x} ").search(self.trace, max(at, 0))


def call_line(calls: List[int], places: Places) -> Iterator[str]:
    """What is said of the calls."""
    def named(call: int) -> str:
        name = places.name(call)
        if call not in places.lines:
            return name or f"0x{call:08x}"
        return places.where(call) + (f" in {name.split('+')[0]}" if places.functions and name else "")
    groups = [(name, len(list(same))) for name, same in groupby(map(named, calls))]
    shown = [f"from {name}{f', {many:,} times' if many > 1 else ''}" for name, many in groups[:MOST_SHOWN]]
    more = [f"and {len(groups) - MOST_SHOWN:,} more"] if len(groups) > MOST_SHOWN else []
    if shown:
        yield f"   called {', '.join(shown + more)}"


def lines_before(trace: str, places: Places) -> Iterator[str]:
    """What is said of the lines that were run before the last one."""
    steps = STEP.findall(trace, max(len(trace) - BLOCK, 0), trace.rindex("\nend "))
    lines = [places.lines.get(int(it, 16)) for it in steps]
    found: List[Line] = [line for line, _ in groupby(line for line in lines if line)]
    before = (found[:-1] if lines and lines[-1] else found)[-MOST_LINES:]
    is_one_file = len({it.file for it in before}) == 1
    names = [str(it.number) if is_one_file else f"{it.file}:{it.number}" for it in before]
    if names:
        yield f"   after line{'s' if len(names) > 1 else ''} {' and '.join([', '.join(names[:-1]), names[-1]] if len(names) > 1 else names)}"


def how_it_came(report: Report, env: int, core: Optional[Core], program: Program, places: Places, trace: str) -> Iterator[str]:
    """All that is said of the way to a death. The trace is that of the environment's last ticks, or nothing."""
    if core and trace:
        yield from call_line(Unwinder(core, program, places, trace).calls(), places)
    if trace and sum(it.end - it.start for it in report.slices if it.env == env) > LEAST_STEPS:
        yield from lines_before(trace, places)
