"""The packets that full rings lost. No row of a report tells them: each environment has a count in its context page (docs/KERNEL.md)."""

from __future__ import annotations

from typing import Iterator

from kernel_layout import CONTEXT_VPN, POST_LOST, POST_PACKETS
from limits import PAGE_SIZE
from programs import Machine, content
from report import Report
from traces import core_at, lifetime


def lost_lines(machine: Machine, report: Report) -> Iterator[str]:
    """What is said of them, of each environment that lost some by its count, which it may have stored to."""
    if not machine.schedule or b"packet" not in content(f"{machine.room}/{machine.events}"):
        return
    for env in report.head.environments:
        ticks = lifetime(report, env.number)
        core = core_at(machine, env.number, ticks if env.life == "live" else ticks - 1)
        if core is None:
            continue
        lost, arrived = (core.word(CONTEXT_VPN * PAGE_SIZE + it) for it in (POST_LOST, POST_PACKETS))
        if lost:
            yield (f"-- {env.number} {env.name}: {lost:,} of {arrived:,} packets {'was' if lost == 1 else 'were'} lost, since the next buffer of the ring "
                   "was full: store 0 to a buffer's length as soon as its packet is read (counts at 0x1144 and 0x1140)")
