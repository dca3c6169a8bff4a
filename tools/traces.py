"""The traces of a run in windows, each of as many ticks as one trace has, and the cores of its environments."""

from __future__ import annotations

from bisect import bisect_right
from typing import Iterator, List, NamedTuple, Optional

from core_file import Core, read_core
from limits import MOST_TRACED_TICKS
from programs import USAGE, Failed, Machine, aegis, content
from report import Report
from timeline import TRANSFERS

MOST_WINDOWS = 16  # of an environment that are looked at
MOST_LOOKED_TICKS = MOST_WINDOWS * MOST_TRACED_TICKS


class Window(NamedTuple):
    """Ticks that are looked at: from the first one up to the end, which isn't among them."""

    first: int
    end: int
    is_apart: bool = False  # whether the ticks right before it aren't looked at


def windows(ticks: int) -> List[Window]:
    """What is looked at of the first ticks of a run: all of them, or both ends. The last window is as long as a trace can be."""
    last = max(0, ticks - MOST_TRACED_TICKS)
    firsts = range(0, last, MOST_TRACED_TICKS)[:MOST_WINDOWS - 1]
    return [*(Window(it, min(it + MOST_TRACED_TICKS, last)) for it in firsts), Window(last, ticks, ticks > MOST_LOOKED_TICKS)]


def lifetime(report: Report, env: int) -> int:
    """How many ticks the run has up to an environment's death, with that of its last step, or up to its end."""
    return next((it.time + 1 for it in report.marks if it.kind in ("dead", "exit") and it.env == env), report.head.time)


def busy_windows(report: Report, env: int) -> List[Window]:
    """The windows in which an environment runs, and the last one of its life."""
    own = [it for it in report.slices if it.env == env and it.start < it.end]
    starts, found = [it.start for it in own], windows(lifetime(report, env))

    def is_busy(window: Window) -> bool:
        at = bisect_right(starts, window.end - 1) - 1  # the last slice that starts in it or before
        return at >= 0 and own[at].end > window.first
    return [*filter(is_busy, found[:-1]), found[-1]]


def how_far(report: Report) -> Iterator[str]:
    """Which ticks weren't looked at, where some weren't."""
    if any(lifetime(report, it.number) > MOST_LOOKED_TICKS for it in report.head.environments):
        first = MOST_LOOKED_TICKS - MOST_TRACED_TICKS
        yield (f"-- refused calls and replaced bindings: of {report.head.time:,} ticks the first {first:,} were looked at, and of each environment "
               f"its last {MOST_TRACED_TICKS:,}")


def entries(report: Report, env: int) -> List[int]:
    """The ticks in which transfers enter an environment."""
    return [it.time for it in report.marks if it.kind in TRANSFERS and it.env == env]


def trace_text(machine: Machine, env: int, window: Window) -> str:
    """The trace of an environment in a window."""
    words = [str(window.end), str(env), *([str(window.first)] if window.first else [])]
    status, said = aegis("trace", *machine.files(), *words, cwd=machine.room)
    if status:
        raise Failed(status, "the program has no command `trace`, so calls that were refused aren't told" if status == USAGE
                     else f"`trace` ended with {status}")
    text = said.decode("latin-1")
    if not text.endswith("done\n"):
        raise Failed(1, "the trace is cut, so calls that were refused aren't told")
    return text


def version_of(machine: Machine) -> int:
    """The version of a machine's image, which its magic has: `AEG1` or `AEG2`."""
    return int(content(f"{machine.room}/try.img")[3:4])


def core_at(machine: Machine, env: int, ticks: int) -> Optional[Core]:
    """The state of an environment after some ticks, if it lives then."""
    status, said = aegis("core", *machine.files(), str(ticks), str(env), cwd=machine.room)
    return None if status else read_core(said)
