"""Steps, registers and memory of a recording as lines of text."""

from __future__ import annotations

import re
from itertools import islice
from typing import Callable, Dict, Iterable, Iterator, List, Optional

from claim_history import Claim
from follower import Change, Step
from kernel_layout import K1
from moments import Memory
from places import Places
from registers import NAMES
from report import CAUSES, Environment, Head
from shown import shown
from source import without_comment
from steps import ENTERED, Note, Steps
from timeline import TRANSFERS, Timeline

LARGEST_DECIMAL = 9_999
# The exceptions by their codes (docs/MACHINE.md), and those with a bad address.
EXCEPTIONS = {1: "Mod", 2: "TLBL", 3: "TLBS", 4: "AdEL", 5: "AdES", 8: "Sys", 9: "Bp", 10: "RI", 11: "CpU", 12: "Ov"}
OF_ADDRESSES = range(1, 6)
PARTS = (42, 46)  # opcodes of stores that put a part of a word
MOST_OTHERS = 3  # slices of others that are told between two steps


def number_shown(value: int) -> str:
    """A register's value: small ones in decimal, with a sign where it has one."""
    if value <= LARGEST_DECIMAL:
        return str(value)
    return str(value - (1 << 32)) if value >= (1 << 32) - LARGEST_DECIMAL else f"0x{value:08x}"


def registers_changed(changes: Iterable[Change]) -> List[str]:
    """The registers that differ after some changes, by their names."""
    return [f"{NAMES[it.register]} = {number_shown(it.new)}" for it in sorted(changes)]


def bytes_stored(steps: Steps, place: int, places: Places) -> List[str]:
    """What a step put into memory, as the word or the bytes at its address; of part of a word, all of that."""
    step: Step = steps[place]
    if step.stored is None:
        return []
    address, data = step.stored
    if step.row.word is not None and step.row.word >> 26 in PARTS:
        address -= address % 4
        data = steps.memory(place + 1).read(address, 4)
    return [f"[{places.name(address) or f'0x{address:08x}'}] = {number_shown(int.from_bytes(data, 'little'))}"]


def statement(step: Step, places: Places) -> str:
    """The line of the source with the instruction where that is another, or the instruction alone."""
    line = places.lines.get(step.row.pc)
    if line is None or step.row.word is None:
        return step.row.text
    text = without_comment(line.text).strip() if not places.symbols else line.text
    operation = re.sub(r"^[A-Za-z_.][\w.]*:\s*", "", text).split(maxsplit=1)
    is_one_of_several = places.symbols or operation and operation[0] in ("li", "la")
    more = f"  ({step.row.text})" if is_one_of_several else ""
    return f"{line.file}:{line.number}: {' '.join(text.split())}{more}"


def step_line(steps: Steps, place: int, places: Places) -> str:
    """A step: tick, address, label, source, what a call asked and was answered, and what changed."""
    step: Step = steps[place]
    row = step.row
    effects = [step.asked + (f" = {step.answered}" if step.answered else "")] if step.asked else []
    effects += [exception_shown(step.cause, steps.registers(place + 1)[K1])] if step.cause else []
    effects += [", ".join(registers_changed(step.own))] + bytes_stored(steps, place, places) + (["dead"] if row.is_dead else [])
    told = "; ".join(it for it in effects if it)
    head = f"{row.tick:>6} {row.pc:08x} {places.name(row.pc):<10} {statement(step, places)}"
    return f"{head} -> {told}" if told else head


def exception_shown(cause: int, bad: int) -> str:
    """The exception that a step raised: its name, its code, and the bad address if it has one."""
    where = f" at 0x{bad:08x}" if cause in OF_ADDRESSES else ""
    return f"exception {EXCEPTIONS.get(cause, '?')} ({cause}){where}, to handler"


def meanwhile(timeline: Timeline, env: int, before: Optional[int], tick: int) -> List[str]:
    """Who ran between two steps of an environment, the first of which was in tick `before`. Before the first step there is no tick."""
    first = 0 if before is None else before + 1
    if first == tick:
        return []
    slices = (it for it in timeline.ending_after(first) if it.env != env and it.start < it.end)
    others = [it for it in islice(slices, MOST_OTHERS + 1) if it.start < tick]
    ran = [f"environment {it.env} ran {max(it.start, first)} to {min(it.end, tick) - 1}" for it in others[:MOST_OTHERS]]
    more = [f"and others until {tick - 1}"] if len(others) > MOST_OTHERS else []
    stopped = [] if before is None else [f"stopped in tick {before}"]
    return [f"-- {'; '.join([*stopped, ', '.join(ran + more)])} --" if ran else f"-- {stopped[0] if stopped else 'nobody ran'} --"]


def pages_asked_for(outstanding: int, deadline: int) -> str:
    return f"{outstanding} page{'' if outstanding == 1 else 's'} asked for until tick {deadline}"


def packet_arrives(length: int, claim: Claim) -> str:
    return f"a packet of {length:,} bytes arrives for claim {claim.number}{', whose handler runs' if claim.is_handled else ''}"


# What happens to an environment between two steps, by kind.
GIFTS = {"give": "directed yield", "async": "asynchronous transfer", "sync": "synchronous transfer"}
NOTES: Dict[str, Callable[..., str]] = {
    "packet": packet_arrives,
    "line": lambda line: f"a signal on interrupt line {line}",
    "asked": pages_asked_for,
    "take": lambda page: f"page {page} was taken",
    "gives": lambda kind, target: f"{GIFTS[kind]} to environment {target}",
    "given": lambda giver: f"directed yield from environment {giver}",
    "start": lambda handler: f"start of its slice, upcall to {handler}",
    "end": lambda handler: f"end of its slice, upcall to {handler}",
    "enter": lambda caller, kind, handler: f"{GIFTS[TRANSFERS[kind]]} from environment {caller} to {handler}",
}


def note_lines(notes: Iterable[Note], places: Places) -> List[str]:
    """What happened to an environment between two steps, a line each."""
    found = []
    for kind, tick, words in notes:
        if kind in ENTERED:
            words = (*words[:-1], places.name(words[-1]) or f"0x{words[-1]:08x}")
        found.append(f"-- tick {tick}: {NOTES[kind](*words)} --")
    return found


def kernel_line(changes: Iterable[Change], tick: Optional[int] = None) -> List[str]:
    """What the kernel set after the step before."""
    told = registers_changed(list(changes))
    when = "" if tick is None else f" before tick {tick}"
    return [f"       set by the kernel{when}: {', '.join(told)}"] if told else []


def register_table(registers: List[int]) -> Iterator[str]:
    """All registers in hexadecimal and in decimal, three in a line."""
    cells = [f"{name:<7} {value:08x} {signed(value):>11}" for name, value in zip(NAMES, registers)]
    for first in range(0, len(cells), 3):
        yield "  " + "  ".join(cells[first: first + 3])


def signed(value: int) -> int:
    """A word as a number with a sign."""
    return value - (1 << 32) if value >= 1 << 31 else value


def memory_lines(memory: Memory, address: int, words: int, places: Places) -> Iterator[str]:
    """Words of memory, four in a line, with their bytes as characters; once where no page is."""
    address -= address % 4
    is_gone = False
    for first in range(address, address + 4 * words, 16):
        at = first & 0xFFFFFFFF
        data = memory.read(at, min(16, address + 4 * words - first))
        digits = " ".join(f"{int.from_bytes(data[it: it + 4], 'little'):08x}" for it in range(0, len(data), 4))
        letters = "".join(chr(it) if 32 <= it < 127 else "." for it in data)
        if data or not is_gone:
            yield f"  {at:08x} {places.name(at):<10} {f'{digits:<35}  {letters}' if data else 'no page is here'}"
        is_gone = not data


def console_at(env: Environment, length: int) -> str:
    """The first bytes of a console as text."""
    return shown(env.text()[:length].decode("utf-8", errors="backslashreplace"))


def ending(env: Environment, head: Head, last: Optional[int]) -> str:
    """How the environment ended, whose last step was in this tick, if there was one."""
    who = f"-- {env.number} {env.name}:"
    if last is None:
        return f"{who} no step in {head.time:,} ticks"
    if env.life == "live":
        return f"{who} {'alive at the limit' if head.ending == 'limit' else 'alive, without a slot'}, after {head.time:,} ticks"
    how = f"exit {env.why}" if env.life == "exit" else f"dead {env.why}"
    return f"{who} {how} in tick {last:,}" + (f": {CAUSES[env.why]}" if env.life == "dead" else "")
