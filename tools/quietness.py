"""Whether an environment of a run was quiet (docs/MODEL.md, "Alone, licensed, quiet"), as its record, the schedule and its trace say."""

from __future__ import annotations

import io
from typing import List, NamedTuple, Optional

import kernel_calls
from instructions import is_call, is_jump
from kernel_calls import (ACCEPT, ANY, CALLS, CODE, CONTEXT, EXIT, FIRST_ARGUMENT, HANDLER, OWN_NUMBER, PUT, QUERY, SEND, UNBIND, UNCLAIM,
                          YIELD)
from limits import MOST_RUN_TICKS, MOST_TRACED_TICKS
from packets import event_tick
from programs import Failed, Machine, aegis, content
from report import read
from source import number
from trace_lines import PLACES, Row, read_trace
from traces import Window, trace_text

QUANTUM, EXCESS, LAST_QUESTION = 4, 7, 8
FIRST_TICKS = 4096


class Loud(NamedTuple):
    """By what an environment isn't quiet: from which tick on, and in words."""

    tick: int
    why: str


def is_quiet(call: int, first: int) -> bool:
    """Whether a call is quiet, by its number and its first argument."""
    if call == YIELD:
        return first == ANY
    if call == ACCEPT:
        return first == 0
    if call == QUERY:
        return first in (QUANTUM, EXCESS) or first > LAST_QUESTION
    return call in (PUT, EXIT, UNBIND, CONTEXT, UNCLAIM, HANDLER, SEND, OWN_NUMBER) or call not in CALLS


def mask_at_boot(image: bytes, env: int) -> int:
    """Whom an environment of an image accepts at boot."""
    place = 16 + int.from_bytes(image[14:16], "little")
    for _ in range(env):
        place += 28 + int.from_bytes(image[place + 24 : place + 28], "little")
    return int.from_bytes(image[place + 16 : place + 20], "little")


def asked_for_pages(schedule: bytes, env: int) -> Optional[Loud]:
    """The first revocation that names an environment, if there is one."""
    for line in schedule.decode("latin-1").splitlines():
        words = line.split("#")[0].split()
        if len(words) == 5 and words[1] == "revoke" and number(words[2]) == env:
            tick = event_tick(line)
            return Loud(tick, f"in tick {tick:,} it is asked for pages")
    return None


def first_call(machine: Machine, env: int, ticks: int) -> Optional[Loud]:
    """The first call in so many ticks that isn't quiet, if there is one."""
    registers: List[int] = [0] * (1 + max(PLACES.values()))
    before: Optional[Row] = None
    for row in read_trace(trace_text(machine, env, Window(0, ticks))):
        in_slot = before is not None and before.word is not None and is_jump(before.word) and row.pc == before.pc + 4
        if row.word is not None and is_call(row.word) and not in_slot and not is_quiet(registers[CODE], registers[FIRST_ARGUMENT]):
            return Loud(row.tick, f"in tick {row.tick:,} it calls {kernel_calls.asked(registers)}")
        for place, value in row.told.items():
            registers[place] = value
        before = row
    return None


def loud(machine: Machine, env: int, ticks: int) -> Optional[Loud]:
    """By what an environment isn't quiet first in so many ticks, if it isn't. Of a long run the trace has the first ticks alone."""
    mask = mask_at_boot(content(f"{machine.room}/try.img"), env)
    if mask:
        return Loud(0, f"it accepts others, by the mask 0x{mask:x}")
    schedule = content(f"{machine.room}/try.sch") if machine.schedule else b""
    found = [it for it in (asked_for_pages(schedule, env), first_call(machine, env, min(ticks, MOST_TRACED_TICKS))) if it]
    return min((it for it in found if it.tick < ticks), default=None)


def ticks_to_end(machine: Machine, env: int, count: int) -> int:
    """In how many ticks so many slices of an environment end, or all that there are."""
    ticks = FIRST_TICKS
    while True:
        status, said = aegis("run", *machine.files(), str(ticks), cwd=machine.room)
        if status:
            raise Failed(status, f"`run` ended with {status}")
        report = read(io.StringIO(said.decode("latin-1"), newline="\n"))
        is_whole = report.head.ending == "idle" or ticks == MOST_RUN_TICKS
        ends = sorted(it.end for it in report.slices if it.env == env and (is_whole or it.end < report.head.time))
        if len(ends) >= count:
            return ends[count - 1]
        if is_whole:
            return report.head.time
        ticks = min(4 * ticks, MOST_RUN_TICKS)
