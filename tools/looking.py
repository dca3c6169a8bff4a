"""What the traces of a run tell of its environments, window by window: the loop in which one is at the limit, the calls that were refused, the
bindings that were replaced, and the last steps before a death.
"""

from __future__ import annotations

from dataclasses import dataclass, field
from typing import List, Set

from kernel_calls import CODE
from limits import VERSIONS
from loops import Start, loop
from places import places_of
from programs import Machine, Program
from refused_calls import MOST_LINES, Refusals, Refused
from replaced_bindings import Replaced, Stripe
from report import Environment, Report
from trace_calls import LAST_ARGUMENT, CallReader
from traces import busy_windows, core_at, entries, trace_text, version_of


@dataclass
class Looked:
    """What was found of an environment."""

    loop: Start = field(default_factory=lambda: Start(set()))
    refused: List[Refusals] = field(default_factory=list)
    replaced: List[Replaced] = field(default_factory=list)
    rows: int = 0  # of its stripe
    last: str = ""  # the trace of its last window


class Looker:
    """Looks at an environment's traces, in the order of the run."""

    def __init__(self, machine: Machine, report: Report, env: Environment):
        self.machine, self.env = machine, env.number
        self.reader, self.refused = CallReader(entries(report, env.number)), Refused()
        self.stripe = Stripe(VERSIONS[version_of(machine)].stripe_rows, self.sees)
        self.is_cut = env.life == "live" and report.head.ending == "limit"
        self.windows = busy_windows(report, env.number)

    def sees(self, vpn: int, ticks: int) -> bool:
        """Whether it sees a page at a VPN after some ticks."""
        return vpn in self.pages(ticks)

    def pages(self, ticks: int) -> Set[int]:
        """The VPNs at which it sees pages after some ticks."""
        core = core_at(self.machine, self.env, ticks)
        return set(core.pages) if core else set()

    def looked(self) -> Looked:
        """All that is found."""
        end = self.windows[-1]
        last = trace_text(self.machine, self.env, end)
        start = Start(loop(last) if self.is_cut else set(), end.is_apart)
        for window in self.windows:
            if window.is_apart:
                self.go_on(window.first)
            text = last if window is end else trace_text(self.machine, self.env, window)
            for call in self.reader.calls(text):
                self.refused.note(call)
                self.stripe.note(call)
            if start.addresses and end.is_apart in (False, window.is_apart):
                start.add(text)
        return Looked(start, list(self.refused.found.values()), self.stripe.all(), self.stripe.rows, last)

    def go_on(self, ticks: int) -> None:
        """Takes the state after ticks that aren't looked at."""
        core = core_at(self.machine, self.env, ticks)
        self.reader.begin(ticks, [None] * (LAST_ARGUMENT + 1) if core is None else [None, None, *core.registers[CODE:LAST_ARGUMENT + 1]])
        self.stripe.begin(self.pages(ticks) - self.pages(0))  # at boot it sees its guaranteed pages, which no bind replaces


def looked(machine: Machine, report: Report) -> List[Looked]:
    """What is found of each environment."""
    return [Looker(machine, report, env).looked() for env in report.head.environments]


def call_lines(found: List[Looked], programs: List[Program]) -> List[List[str]]:
    """What is said of refused calls and of bindings that were replaced, by environment: at most ten lines of the run."""
    told: List[List[str]] = []
    left = MOST_LINES
    for it, program in zip(found, programs):
        lines: List[str] = []
        if it.refused or it.replaced:
            places = places_of(program)
            lines = [*(one.line(places) for one in it.refused), *(one.line(places, it.rows) for one in it.replaced)]
        if len(lines) > left:
            kept = max(left - 1, 0)
            what = "were refused or replaced bindings" if it.replaced else "were refused"
            lines = lines[:kept] + ([f"   and {len(lines) - kept:,} more calls {what}"] if left else [])
        left -= len(lines)
        told.append(lines)
    return told
