"""Two runs of an environment compared by `aegis twin` (docs/REPORT.md, "Two runs compared"): how far it comes in each, the first item
that differs, and in which tick it is given that.
"""

from __future__ import annotations

from typing import List, NamedTuple, Optional

from limits import MOST_RUN_TICKS, MOST_TRACED_TICKS
from packets import event_tick
from programs import USAGE, Failed, Machine, aegis, content, write
from report import Report
from moments import Moments
from trace_lines import Row, read_trace

SAME, FOUND = 0, 1
NO_TWIN = "the program has no command `twin`: it is of an earlier release"
NONE = "none"  # the item after the last
AFTER_STEP = ("answer", "gained", "end", "killed")  # what is given after the step of its tick, if the environment makes one
PROBE = "probe.sch"


class Difference(NamedTuple):
    """The first place in which two feeds differ, and the items there."""

    place: int
    left: str
    right: str


class Side(NamedTuple):
    """One of the runs: its machine, the folder of its files, and where the environment is, in words."""

    machine: Machine
    folder: str
    where: str

    def image(self) -> str:
        return f"{self.folder}/try.img"

    def schedule(self) -> str:
        return f"{self.folder}/try.sch"

    def files(self) -> List[str]:
        return [self.image(), self.schedule()]


class Comparison:
    """Two runs, and the environment that is looked at."""

    def __init__(self, left: Side, right: Side, env: int, room: str):
        self.left, self.right, self.env, self.room = left, right, env, room
        for side in (left, right):
            if not side.machine.schedule:
                write(f"{room}/{side.schedule()}", b"")

    def said(self, left: List[str], right: List[str], slices: int) -> List[str]:
        """The lines of `twin` on two images with their schedules."""
        status, said = aegis("twin", *left, *right, str(self.env), str(slices), cwd=self.room)
        if status == USAGE:
            raise Failed(USAGE, NO_TWIN)
        if status not in (SAME, FOUND):
            raise Failed(status, f"`twin` ended with {status}: {said.decode(errors='replace').strip()}")
        return said.decode("latin-1").splitlines()

    def reached(self, side: Side, slices: int) -> int:
        """To how many slices the environment comes in a run, of so many."""
        words = self.said(side.files(), side.files(), slices)[0].split()
        return int(words[2]) if words[0] == "short" else slices

    def difference(self, slices: int) -> Optional[Difference]:
        """The first difference up to the end of a slice to which both come, if there is one."""
        first, *items = self.said(self.left.files(), self.right.files(), slices)
        return Difference(int(first.split()[1]), *items) if first.startswith("differ") else None

    def items_before(self, side: Side, tick: int, slices: int) -> Optional[int]:
        """How many items the environment is given before a tick; none after its end or the end of the slice. In a run in which it
        is asked for a page in that tick, before all else, the first item that differs is this."""
        own = content(f"{self.room}/{side.schedule()}").decode("latin-1").splitlines()
        events = [(event_tick(line), line) for line in own if line.split("#")[0].split()]
        asked = f"{tick} revoke {self.env} 1 {MOST_RUN_TICKS}"
        lines = [line for at, line in events if at < tick] + [asked] + [line for at, line in events if at >= tick]
        write(f"{self.room}/{PROBE}", "".join(f"{line}\n" for line in lines).encode("latin-1"))
        asking = [side.image(), PROBE]
        words = self.said(side.files(), asking, slices)[0].split()
        if words[0] == "short":  # it comes to fewer slices once it is asked, and is asked in one of these
            words = self.said(side.files(), asking, int(words[2]))[0].split()
        return int(words[1]) if words[0] == "differ" else None

    def tick_of(self, side: Side, index: int, slices: int) -> int:
        """The tick in which the item at a place is given: the last one before which there aren't more items than stand before it."""
        def is_reached(tick: int) -> bool:
            """Whether the tick is this one, or one before it."""
            count = self.items_before(side, tick, slices)
            return count is not None and count <= index
        beyond = 1
        while beyond < MOST_RUN_TICKS and is_reached(beyond):
            beyond = min(2 * beyond, MOST_RUN_TICKS)
        tick = beyond // 2
        while beyond - tick > 1:
            middle = (tick + beyond) // 2
            tick, beyond = (middle, beyond) if is_reached(middle) else (tick, middle)
        return tick

    def step_before(self, side: Side, item: str, tick: int, report: Report) -> Optional[Row]:
        """The line of the trace of the step before an item that is given in a tick, if there is one."""
        kind, *words = item.split()
        taken = any(it.kind == "take" and it.time == tick and it.row.split()[3:4] == words[:1] for it in report.marks)
        is_after = kind in (*AFTER_STEP, NONE) or kind == "lost" and not taken
        first = max(0, tick + 1 - MOST_TRACED_TICKS)
        rows = [row for row in read_trace(Moments(side.machine).trace(self.env, first, tick + 1)) if row.tick < tick + is_after]
        return rows[-1] if rows else None
