"""Where a word of the stepper may find in a trace what it looks for: ticks of steps among which all are that fit, by the text of the
lines and the registers that they tell. So of a long run few steps are looked at.
"""

from __future__ import annotations

import functools
import re
from bisect import bisect_left
from typing import Callable, Iterable, Iterator, List, Set, Tuple

from kernel_calls import CONTEXT
from kernel_layout import AT, CONTEXT_VPN, K0, STARTS
from limits import MOST_TRACED_TICKS, PAGE_SIZE
from moments import Moments
from timeline import TRANSFERS, Timeline, Turns
from trace_lines import PLACES, lines_of

CHUNK = MOST_TRACED_TICKS  # ticks that are looked through together
MOST_CHUNKS = 16  # that are looked through for one word
STORES = ("sb", "sh", "sw", "swl", "swr")
NO_CAUSE, CODE = 0x4FFFFF83, 0x7C  # the bits that no Cause has, and those of its code


class Chunk:
    """The lines of an environment's trace in the ticks from `first` to `last` - 1."""

    def __init__(self, moments: Moments, timeline: Timeline, env: int, first: int, last: int):
        self.moments, self.timeline, self.env, self.first, self.last = moments, timeline, env, first, last

    @property
    def text(self) -> str:
        return self.moments.trace(self.env, self.first, self.last)

    def entries(self) -> List[int]:
        """The ticks in which a transfer enters it."""
        return [it.time for it in self.timeline.marked(self.first, self.last) if it.kind in TRANSFERS and int(it.row.split()[4]) == self.env]

    def passed(self) -> Iterator[Tuple[int, List[str], int, List[int]]]:
        """Of each line the tick, the words, `$2` before it, and the registers after it, but for what starts of slices set `$26` to."""
        core = self.moments.core(self.env, self.first)
        registers, entered = [*core.registers, core.hi, core.lo], self.entries()
        entered.reverse()
        for line in lines_of(self.text):
            words = line.split(" ")
            tick = int(words[0])
            while entered and entered[-1] < tick:
                core = self.moments.core(self.env, entered.pop() + 1)
                registers = [*core.registers, core.hi, core.lo]
            number, at = registers[2], len(words) - 2
            while at > 3 and len(words[at + 1]) == 8 and words[at] in PLACES:
                registers[PLACES[words[at]]] = int(words[at + 1], 16)
                at -= 2
            yield tick, words, number, registers


Hint = Callable[[Chunk], Iterable[int]]  # ticks of steps that may fit


def ticks_of(pattern: str) -> Hint:
    """The ticks of lines with this text after the tick."""
    form = re.compile(rf"\n(\d+) {pattern}")
    return lambda chunk: (int(found[1]) for found in form.finditer(chunk.text))


calls = ticks_of(r"\S{8} \S{8} syscall")


def at_addresses(addresses: Set[int]) -> Hint:
    """The steps at some addresses."""
    return ticks_of(f"(?:{'|'.join(f'{it:08x}' for it in sorted(addresses))}) ")


def changes_of(register: int, turns: Turns) -> Hint:
    """The steps that change a register, or before which the kernel may have changed it."""
    name = next(name for name, place in PLACES.items() if place == register)
    form = re.compile(rf" {re.escape(name)} [0-9a-f]{{8}}(?![0-9a-f])")

    def found(chunk: Chunk) -> Iterator[int]:
        text = chunk.text
        for it in form.finditer(text):
            begin = text.rfind("\n", 0, it.start()) + 1
            yield int(text[begin: text.index(" ", begin)])
        ticks = [it.start for it in chunk.timeline.starting(chunk.first, chunk.last) if it.env == chunk.env] if register == K0 else chunk.entries()
        yield from next_steps(ticks, turns)
    return found


def next_steps(ticks: Iterable[int], turns: Turns) -> Iterator[int]:
    """The ticks of the first steps from these ticks on."""
    for tick in ticks:
        place = turns.made(tick - 1) if tick else 0
        if place < turns.steps:
            yield turns.tick(place)


def misses(chunk: Chunk) -> Iterator[int]:
    """The steps whose exceptions a handler may have taken: they leave a Cause in `$1`, and where to go on in `$26`. That isn't known any
    more where the start of a slice may have set it, or its end without a step."""
    is_known = not chunk.moments.core(chunk.env, chunk.first).handlers[STARTS]
    ends = [it.time for it in chunk.timeline.marked(chunk.first, chunk.last) if it.kind == "end" and it.env == chunk.env]
    ends.reverse()
    for tick, words, number, registers in chunk.passed():
        while ends and ends[-1] < tick:
            ends.pop()
            is_known = False
        is_end = ends[-1:] == [tick]
        if is_end:
            ends.pop()
        is_known = is_known and not (words[3] == "syscall" and number == CONTEXT and registers[4] == STARTS)
        if registers[AT] & NO_CAUSE or not registers[AT] & CODE:
            continue
        if is_end or not is_known or registers[K0] - int(words[1], 16) in (0, -4):
            yield tick


@functools.lru_cache(maxsize=4096)
def operands(text: str) -> Tuple[int, int]:
    """The offset and the base of a load or store."""
    offset, _, base = text.partition(",")[2].partition("($")
    return int(offset), int(base[:-1])


def changes_at(addresses: List[int], turns: Turns, kept: Set[int], disturbed: List[int]) -> Hint:
    """The steps after which words may be others: those that store there, be it at another VPN; and, of a page that isn't guaranteed, those
    before which others ran, and calls; of the context page those before which the kernel writes there."""
    words_at = {(it & PAGE_SIZE - 4, it // PAGE_SIZE if it // PAGE_SIZE in kept else -1) for it in addresses}
    vpns = {it // PAGE_SIZE for it in addresses}

    def found(chunk: Chunk) -> Iterator[int]:
        for tick, words, _, registers in chunk.passed():
            if words[3] in STORES:
                offset, base = operands(words[4])
                address = registers[base] + offset & 0xFFFFFFFF
                vpn = address // PAGE_SIZE
                if base == K0 or (address & PAGE_SIZE - 4, vpn if vpn in kept else -1) in words_at:
                    yield tick
        if vpns <= kept - {CONTEXT_VPN}:
            return
        yield from next_steps(disturbed[bisect_left(disturbed, chunk.first): bisect_left(disturbed, chunk.last)], turns)
        yield from next_steps((it.start for it in chunk.timeline.starting(chunk.first, chunk.last) if it.env == chunk.env), turns)
        yield from calls(chunk)
        if CONTEXT_VPN in vpns:
            yield from misses(chunk)
            yield from (it.time for it in chunk.timeline.marked(chunk.first, chunk.last) if it.kind == "end" and it.env == chunk.env)
    return found


def chunk_of(tick: int, end: int) -> Tuple[int, int]:
    """The ticks that are searched together with one."""
    first = tick // CHUNK * CHUNK
    return first, min(first + CHUNK, end)
