"""The steps of an environment of a run, each read when it is asked for: in windows of ticks, from the state at their begin on. Its memory
at a step is the program's (`core`), or that of a step before it with what the steps between have stored, where nothing else can change it.
"""

from __future__ import annotations

import functools
from bisect import bisect_left, bisect_right
from typing import Any, Callable, Iterator, List, NamedTuple, Optional, Sequence, Tuple, Union

from boot_memory import Image, read_image
from claim_history import ClaimHistory
from follower import Change, Follower, Handlers, Kept, Step, Window, apply, differences
from kernel_calls import BIND, FREE, UNBIND
from kernel_layout import ASYNCHRONOUS, CONTEXT_VPN, ENDS, K0, START_AREA, STARTS
from limits import MOST_RUN_TICKS, PAGE_SIZE
from moments import Memory, Moments
from programs import Failed, Machine, content
from report import Environment
import searching
from searching import MOST_CHUNKS, Chunk, Hint, chunk_of
from source import number as number_of
from timeline import TRANSFERS, Timeline, Turns, timeline_of
from trace_lines import Cut

TICKS, LATE_TICKS = 16_384, 65_536  # of a window; where the run to its begin takes longer than its lines, it has more
MOST_WINDOWS = 4  # that are kept
MOST_APPLIED = 1_024  # steps whose stores are applied before a core is asked for
MOST_LOOKED = 4_096  # steps that are looked at for one word
REMAPPING = (FREE, BIND, UNBIND)  # calls that change which pages are seen
Event = Tuple[int, str, Union[bytes, int]]  # of the schedule: tick, kind, and a packet's bytes or the line


class Note(NamedTuple):
    """Something that happened to an environment between two of its steps: its kind, its tick, and what more there is to say."""

    kind: str
    tick: int
    words: Tuple[Any, ...] = ()


ENTERED = ("start", "end", "enter")  # notes of handlers that were entered: their last word is the handler
BEFORE, TURN, GIVEN, END = range(4)  # the order of what happens in a tick; a step is between a turn and a gift


class Run(NamedTuple):
    """A run of a machine: what the program says of it, whose its ticks are, its image, and the packets and signals of its schedule."""

    moments: Moments
    timeline: Timeline
    image: Image
    events: List[Event]

    def kept(self) -> List[Kept]:
        """The guaranteed pages of each environment."""
        return [it.writable for it in self.image.environments]


def events_of(schedule: bytes) -> List[Event]:
    """The packets and signals of a schedule without a fault."""
    found: List[Event] = []
    for line in schedule.decode("latin-1").split("\n"):
        words = line.split("#")[0].split()
        if len(words) == 3:
            found.append((number_of(words[0]), words[1], bytes.fromhex(words[2]) if words[1] == "packet" else number_of(words[2])))
    return found


def run_of(machine: Machine, ticks: int) -> Run:
    """A run of a machine for so many ticks."""
    timeline = timeline_of(machine, ticks)
    events = events_of(content(f"{machine.room}/try.sch")) if machine.schedule else []
    return Run(Moments(machine), timeline, read_image(content(f"{machine.room}/try.img")), [it for it in events if it[0] < timeline.head.time])


def size_of(tick: int) -> int:
    """How many ticks the window with a tick has."""
    return TICKS if tick < MOST_RUN_TICKS else LATE_TICKS


def begin_of(tick: int) -> int:
    """The first tick of the window with a tick."""
    return tick // size_of(tick) * size_of(tick)


class Steps(Sequence[Step]):
    """The steps of an environment, counted from 0."""

    def __init__(self, run: Run, number: int):
        self.run, self.number, self.end = run, number, run.timeline.head.time
        self.turns = Turns(run.timeline, number)
        self.kept = set(run.image.environments[number].pages)
        self.claims = ClaimHistory(run.moments, run.timeline, number)
        self.event_ticks = [it[0] for it in run.events]
        marks = [it.time for it in run.timeline.marks if it.kind in ("asked", "take")]
        self.disturbed = sorted({*self.event_ticks, *marks})  # ticks in which something happens from outside
        self.window: Callable[[int], Window] = functools.lru_cache(MOST_WINDOWS)(self.followed)
        self.put_before: Callable[[int], int] = functools.lru_cache(MOST_WINDOWS)(functools.partial(run.moments.console, number))
        self.known: Optional[Tuple[int, Memory]] = None  # after so many steps

    @property
    def environment(self) -> Environment:
        return self.run.timeline.head.environments[self.number]

    @property
    def is_alive(self) -> bool:
        """Whether it lives at the end of the run."""
        return self.environment.life == "live"

    def __len__(self) -> int:
        return self.turns.steps

    def __getitem__(self, place: Any) -> Any:
        if not 0 <= place < len(self):
            raise IndexError(place)
        window = self.window_of(place)
        return window.steps[place - window.first]

    # Windows

    def window_of(self, place: int) -> Window:
        """The window with a step."""
        return self.window(begin_of(self.turns.tick(place)))

    def followed(self, first: int) -> Window:
        """The window whose ticks begin here."""
        last = min(first + size_of(first), self.end)
        place = self.turns.made(first - 1) if first else 0
        before = self.turns.tick(place - 1) + 1 if place else 0
        core = self.run.moments.core(self.number, before)  # after the step before it, or at boot
        try:
            follower = Follower(self.run.moments, self.run.timeline, self.run.kept(), self.number, first, last)
            return follower.window(place, [*core.registers, core.hi, core.lo])
        except Cut as why:
            raise Failed(1, str(why)) from None

    # What is known at a step

    def registers(self, done: int) -> List[int]:
        """The registers after so many steps."""
        if done:
            return self.window_of(done - 1).registers(done - 1)
        core = self.run.moments.core(self.number, 0)
        return [*core.registers, core.hi, core.lo]

    def kernel_changes(self, done: int) -> List[Change]:
        """The registers that the kernel sets after so many steps, before the next one or the end of the run."""
        if done < len(self):
            step: Step = self[done]
            return step.kernel
        if not self.is_alive:
            return []
        core = self.run.moments.core(self.number, self.end)
        return differences(self.registers(done), [*core.registers, core.hi, core.lo])

    def found(self, done: int) -> List[int]:
        """The registers that the next step finds."""
        registers = self.registers(done)
        apply(self.kernel_changes(done), registers)
        return registers

    def handlers(self, done: int) -> Handlers:
        """The handlers after so many steps."""
        if done < len(self):
            following: Step = self[done]
            return following.handlers
        if not done:
            return (0, 0, 0, 0, 0)
        last: Step = self[done - 1]
        return last.handlers_after(self.found(done - 1))

    def console(self, done: int) -> int:
        """The bytes of the console that so many steps have put."""
        if not done:
            return 0
        step: Step = self[done - 1]
        return step.put + self.put_before(begin_of(step.row.tick))

    # Memory

    def memory(self, done: int) -> Memory:
        """What it sees after so many steps; after its last one, if it died of that, what the step left."""
        at, memory = self.known or (0, None)
        if memory is None or not 0 <= done - at <= MOST_APPLIED:
            memory = None
        while memory is not None and at < done:
            memory = self.stored(memory, at)
            at += 1
        self.known = done, memory or self.core_memory(done)
        return self.known[1]

    def core_memory(self, done: int) -> Memory:
        """The same by `core`."""
        row = self[done - 1].row if done else None
        is_dead = row is not None and row.is_dead
        memory = Memory(self.run.moments.core(self.number, 0 if row is None else row.tick + (not is_dead)), self.kept)
        if is_dead and self[done - 1].stored:
            memory.put(*self[done - 1].stored)
        return memory

    def stored(self, memory: Memory, place: int) -> Optional[Memory]:
        """The memory before a step with what the step stores, if it can't change in another way."""
        step: Step = self[place]
        before = self.turns.tick(place - 1) if place else -1
        if step.row.is_dead or step.cause or step.is_end or step.number in REMAPPING and step.code == 0:
            return None
        if bisect_right(self.disturbed, step.row.tick) > bisect_right(self.disturbed, before):
            return None
        if step.row.tick > before + 1 and memory.bound or self.turns.begins(place) and any(it.kind in ENTERED for it in self.notes(place)):
            return None
        if step.stored:
            if memory.may_be_twice(step.stored.address // PAGE_SIZE):
                return None
            memory.put(*step.stored)
        return memory

    def memory_changes(self, place: int) -> List[Tuple[int, int, Optional[bytes]]]:
        """What is another in memory after a step than before it (`Memory.differences`)."""
        memory, step = self.memory(place), self[place]
        at = step.stored.address & ~3 if step.stored else 0
        old = memory.read(at, 4) if step.stored else b""
        after = self.stored(memory, place)
        if after is None:
            after = self.core_memory(place + 1)
            changes = list(memory.differences(after))
        else:
            new = after.read(at, 4) if step.stored else b""
            changes = [(at // PAGE_SIZE, at % PAGE_SIZE, new)] if old != new else []
        self.known = place + 1, after
        return changes

    def memory_found(self, done: int) -> Memory:
        """What the next step finds, but for what happens from outside in its tick."""
        if done == len(self):
            return Memory(self.run.moments.core(self.number, self.end), self.kept) if self.is_alive else self.memory(done)
        tick = self.turns.tick(done)
        core = self.run.moments.core
        memory = self.memory(done) if done and self.turns.tick(done - 1) == tick - 1 else Memory(core(self.number, tick), self.kept)
        if self.handlers(done)[STARTS] and any(it.env == self.number and it.is_turn for it in self.run.timeline.starting(tick, tick + 1)):
            memory = memory.copy()
            words = core(self.number, tick).registers[K0], self.found(done)[K0]  # of the start, which is of this tick
            memory.put(CONTEXT_VPN * PAGE_SIZE + START_AREA, b"".join(it.to_bytes(4, "little") for it in words))
        return memory

    # What happened between steps

    def notes(self, place: int) -> List[Note]:
        """What happened to the environment before a step, after the one before it; after the last one where there is no such step."""
        first, last = self.turns.tick(place - 1) if place else -1, self.turns.tick(place) if place < len(self) else self.end
        found = [*self.notes_outside(first + 1, last + 1), *self.notes_inside(max(first, 0), last + 1, place)]
        found = [it for it in found if (first, TURN) < it[:2] <= (last, TURN)]
        return [note for _, _, note in sorted(found, key=lambda it: it[:2])]

    def notes_outside(self, first: int, last: int) -> Iterator[Tuple[int, int, Note]]:
        """What happens to it from outside in the ticks from `first` to `last` - 1: each by its tick and the order in it."""
        for tick, kind, what in self.run.events[bisect_left(self.event_ticks, first): bisect_left(self.event_ticks, last)]:
            held = self.claims.at(tick)
            claim = held.claim_of(what) if isinstance(what, bytes) else None
            if claim and isinstance(what, bytes):
                yield tick, BEFORE, Note(kind, tick, (len(what), claim))
            elif what in held.lines:
                yield tick, BEFORE, Note(kind, tick, (what,))
        for it in self.run.timeline.marked(first, last):
            if it.env == self.number and it.kind in ("asked", "take"):
                words = it.row.split()[3:]
                yield it.time, BEFORE, Note(it.kind, it.time, (int(words[0]), it.until) if it.kind == "asked" else (int(words[0]),))

    def notes_inside(self, first: int, last: int, place: int) -> Iterator[Tuple[int, int, Note]]:
        """Slices and transfers of these ticks."""
        starts = self.run.timeline.starting(first, last)
        turns = [it.start for it in starts if it.is_turn and it.env == self.number]
        marks = self.run.timeline.marked(first, last)
        handlers = self.handlers(place) if turns or marks else ()
        for tick in turns:
            if handlers[STARTS]:
                yield tick, TURN, Note("start", tick, (handlers[STARTS],))
        for it in marks:
            words = it.row.split()
            if it.kind == "end" and it.env == self.number:
                yield it.time, END, Note("end", it.time, (handlers[ENDS],))
            elif it.kind == "give" or it.kind in TRANSFERS:
                yield from ((it.time, GIVEN, note) for note in self.of_gift(it.kind, it.time, int(words[3]), int(words[4]), handlers))

    def of_gift(self, kind: str, tick: int, giver: int, to: int, handlers: Handlers) -> Iterator[Note]:
        """A directed yield or a transfer, by the environment or to it."""
        if giver == self.number:
            yield Note("gives", tick, (kind, to))
        elif to == self.number and kind == "give":
            yield Note("given", tick, (giver,))
            if handlers[STARTS]:
                yield Note("start", tick + 1, (handlers[STARTS],))
        elif to == self.number:
            number = TRANSFERS.index(kind)
            yield Note("enter", tick, (giver, number, handlers[ASYNCHRONOUS + number]))

    # Searches

    def chunk(self, tick: int) -> Chunk:
        """The part of its trace that is searched with a tick."""
        return Chunk(self.run.moments, self.run.timeline, self.number, *chunk_of(tick, self.end))

    def search(self, done: int, hint: Hint, fits: Callable[[int], bool], is_backwards: bool, bound: Optional[int] = None) -> "Found":
        """The next place after `done` steps, or the one before, up to `bound`, that fits among those that a hint has. A place is how many
        steps were made with its step."""
        looked, chunks, step = 0, 0, -1 if is_backwards else 1
        last = (1 if is_backwards else len(self)) if bound is None else bound
        place = done + step
        while place * step <= last * step:
            chunk = self.chunk(self.turns.tick(place - 1))
            if chunks == MOST_CHUNKS:
                return Found(None, self.turns.tick(place - 1 - step))
            places = sorted({self.turns.made(it) for it in hint(chunk)}, reverse=is_backwards)
            for it in places:
                if place * step <= it * step <= last * step:
                    if fits(it):
                        return Found(it, None)
                    looked += 1
                    if looked == MOST_LOOKED:
                        return Found(None, self.turns.tick(it - 1))
            chunks += 1
            place = self.turns.made(chunk.first - 1) if is_backwards and chunk.first else 0 if is_backwards else self.turns.made(chunk.last - 1) + 1
        return Found(None, None)

    def changes_at(self, addresses: List[int]) -> Hint:
        """The steps after which one of these words may be another."""
        return searching.changes_at(addresses, self.turns, self.kept, self.disturbed)

    def differs(self, place: int, ranges: List[Tuple[int, int]]) -> bool:
        """Whether bytes, by their addresses and how many, are others after a step than before it. A place is how many steps were made."""
        memory = self.memory(place - 1)
        before = [memory.read(*it) for it in ranges]
        memory = self.memory(place)
        return before != [memory.read(*it) for it in ranges]

    def next_packet(self, done: int, is_backwards: bool) -> Optional[int]:
        """The place before whose step the next packet arrives for it, or the one before."""
        for tick, kind, what in reversed(self.run.events) if is_backwards else self.run.events:
            place = (self.turns.made(tick - 1) if tick else 0) + 1
            is_there = place < done if is_backwards else done < place <= len(self)
            if is_there and isinstance(what, bytes) and self.claims.at(tick).claim_of(what):
                return place
        return None


class Found(NamedTuple):
    """What a search found: a place, or, where it gave up, the tick of the last step that it looked at."""

    place: Optional[int]
    up_to: Optional[int]
