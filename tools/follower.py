"""Follows an environment through some ticks of a run, from the state at their begin on, by the lines of its trace.

A line says which registers its step changed. What the kernel changes between two lines is known of the report's rows: at the start and
at the end of a slice, and at a transfer, which hands on the registers of its caller. So those are followed too who enter it by
transfers in these ticks, and who enter these.
"""

from __future__ import annotations

from dataclasses import dataclass, field
from typing import Any, Callable, Dict, Iterator, List, Mapping, NamedTuple, Optional, Sequence, Tuple

from instructions import COPROCESSORS, WORD, Store, access, cause, is_call, is_jump, is_store, stored, target
from kernel_calls import CODE, CONTEXT, PUT, VALUE, answered, asked
from kernel_layout import ASYNCHRONOUS, AT, ENDS, EXCEPTIONS, K0, K1, STARTS
from limits import PAGE_SIZE
from moments import Moments
from registers import REGISTERS
from report import Mark
from timeline import TRANSFERS, Timeline
from trace_lines import Cut, Row, lines_of, read_row

EVERY = 64  # steps between two kept sets of registers
Kept = Mapping[int, bool]  # the guaranteed pages by their VPNs: whether they may be stored to
TURN, STEP, GIVEN, END = range(4)  # what happens, in the order within a tick
Handlers = Tuple[int, ...]  # by kind


class Change(NamedTuple):
    """A register that became another."""

    register: int
    old: int
    new: int


@dataclass
class Step:
    """A step of an environment."""

    row: Row
    handlers: Handlers  # before it
    kernel: List[Change]  # what the kernel did after the step before
    own: List[Change]  # what is done in its tick
    put: int = 0  # bytes that were put in these ticks, with this step's
    asked: str = ""  # what a kernel call asks
    answered: str = ""
    number: Optional[int] = None  # of the call
    code: Optional[int] = None  # of the answer
    cause: int = 0  # the code of the exception that it raised, where a handler took it
    stored: Optional[Store] = None  # what it put into memory
    is_end: bool = False  # whether its slice ends with it, and a handler is told

    def handlers_after(self, before: Sequence[int]) -> Handlers:
        """The handlers after it. `before` are its registers before it."""
        if (self.number, self.code) != (CONTEXT, 0):
            return self.handlers
        return tuple(before[5] if kind == before[4] else it for kind, it in enumerate(self.handlers))


class Window(NamedTuple):
    """Steps one after another, and the registers that every 64th finds."""

    first: int  # its number, counted from 0
    steps: List[Step]
    found: List[List[int]]

    def registers(self, place: int) -> List[int]:
        """The registers after a step."""
        at = place - self.first
        registers = list(self.found[at // EVERY])
        for step in self.steps[at // EVERY * EVERY: at + 1]:
            apply(step.kernel, registers)
            apply(step.own, registers)
        return registers


def apply(changes: List[Change], registers: List[int]) -> None:
    for it in changes:
        registers[it.register] = it.new


def differences(old: List[int], new: List[int]) -> List[Change]:
    """The registers that differ."""
    return [Change(register, one, other) for register, (one, other) in enumerate(zip(old, new)) if one != other]


@dataclass
class Cpu:
    """The registers of an environment, where it goes on, and its handlers."""

    env: int
    registers: List[int]
    pc: int
    next: int
    in_slot: bool
    handlers: Handlers
    after: Optional[List[int]] = None  # the registers after its last step, where the kernel may have changed some
    handed: List[int] = field(default_factory=lambda: [0] * REGISTERS)  # those with which it last called

    def restart(self) -> int:
        """Where it goes on at its next start: at the branch, if its delay slot was due."""
        return self.pc - 4 if self.in_slot else self.pc

    def continue_at(self, address: int) -> None:
        self.pc, self.next, self.in_slot = address, address + 4 & WORD, False

    def enter(self, kind: int, changes: Mapping[int, int]) -> None:
        """The kernel enters a handler, with other registers."""
        self.after = self.after or list(self.registers)
        for register, value in changes.items():
            self.registers[register] = value
        self.continue_at(self.handlers[kind])


def callers(marks: List[Mark], number: int) -> List[int]:
    """The environment and those that call it by transfers, or call these."""
    found, rows = [number], [it.row.split() for it in marks if it.kind in TRANSFERS]
    for env in found:
        found += {int(words[3]) for words in rows if int(words[4]) == env} - set(found)
    return found


Happening = Tuple[int, int, int, Callable[..., None], Tuple[Any, ...]]  # tick, phase, order, what is done, and with what


class Follower:
    """Follows environments through the ticks from `first` to `last` - 1. `kept` has the guaranteed pages of each."""

    def __init__(self, moments: Moments, timeline: Timeline, kept: Sequence[Kept], number: int, first: int, last: int):
        self.moments, self.kept, self.number, self.first, self.last = moments, kept, number, first, last
        self.marks, self.slices = timeline.marked(first, last), list(timeline.starting(first, last + 1))
        self.cpus = {env: self.cpu(env) for env in callers(self.marks, number)}
        self.whys = [it.why for it in timeline.head.environments]
        self.ends = {(it.env, it.time) for it in self.marks if it.kind == "end"}
        self.turns = {(it.env, it.start) for it in self.slices}
        self.steps: List[Step] = []
        self.found: List[List[int]] = []
        self.put = 0
        self.stepped = (-1, -1)  # the environment and the tick of the last step

    def cpu(self, env: int) -> Cpu:
        core = self.moments.core(env, self.first)
        return Cpu(env, [*core.registers, core.hi, core.lo], core.pc, core.next, core.is_in_slot, tuple(core.handlers))

    def window(self, place: int, after: Optional[List[int]]) -> Window:
        """The steps of the environment, the first of which has this number, and the step before it left these registers."""
        cpu = self.cpus[self.number]
        cpu.after = after if after != cpu.registers else None
        for _, _, _, act, words in sorted(self.happenings(), key=lambda it: it[:3]):
            act(*words)
        return Window(place, self.steps, self.found)

    def happenings(self) -> Iterator[Happening]:
        """All that concerns those who are followed."""
        order = 0
        for tick, phase, act, words in (*self.of_marks(), *self.of_slices(), *self.of_traces()):
            order += 1
            yield tick, phase, order, act, words

    def of_marks(self) -> Iterator[Tuple[int, int, Callable[..., None], Tuple[Any, ...]]]:
        for it in self.marks:
            words = it.row.split()
            to = self.cpus.get(int(words[4])) if it.kind == "give" or it.kind in TRANSFERS else None
            if to and it.kind == "give":
                yield it.time, GIVEN, self.start, (to,)
            elif to:
                yield it.time, GIVEN, self.transfer, (to, int(words[3]), TRANSFERS.index(it.kind))
            elif it.kind == "end" and it.env in self.cpus:
                yield it.time, END, self.end, (self.cpus[it.env], it.time)

    def of_slices(self) -> Iterator[Tuple[int, int, Callable[..., None], Tuple[Any, ...]]]:
        for it in self.slices:
            if it.is_turn and it.env in self.cpus and it.start < self.last:
                yield it.start, TURN, self.start, (self.cpus[it.env],)

    def of_traces(self) -> Iterator[Tuple[int, int, Callable[..., None], Tuple[Any, ...]]]:
        for env, cpu in self.cpus.items():
            texts: Dict[str, str] = {}
            rows = [read_row(line, texts) for line in lines_of(self.moments.trace(env, self.first, self.last))]
            for row, following in zip(rows, [*rows[1:], None]):
                yield row.tick, STEP, self.step, (cpu, row, following)

    # What the kernel does between steps

    def start(self, cpu: Cpu) -> None:
        """A slice starts."""
        resume = cpu.restart()
        if cpu.handlers[STARTS]:
            cpu.enter(STARTS, {K0: resume})
        else:
            cpu.continue_at(resume)

    def transfer(self, cpu: Cpu, caller: int, kind: int) -> None:
        """A transfer enters it, with the caller's registers."""
        cpu.enter(ASYNCHRONOUS + kind, dict(enumerate(self.cpus[caller].handed)))

    def end(self, cpu: Cpu, tick: int) -> None:
        """It is told of the end of its slice, in the tick in which another gave it that: its own step has told it already."""
        if self.stepped != (cpu.env, tick):
            cpu.enter(ENDS, {K0: cpu.restart()})

    # Its steps

    def step(self, cpu: Cpu, row: Row, following: Optional[Row]) -> None:
        if cpu.pc != row.pc:
            raise Cut(f"tick {row.tick}: the step is at {row.pc:08x}, and the state before it at {cpu.pc:08x}")
        before = list(cpu.registers)
        kernel, cpu.after = differences(cpu.after, before) if cpu.after else [], None
        step = Step(row, cpu.handlers, kernel, [Change(it, before[it], value) for it, value in row.told.items()])
        apply(step.own, cpu.registers)
        self.stepped = (cpu.env, row.tick)
        step.is_end = self.stepped in self.ends and not row.is_dead
        if row.word is not None and is_call(row.word) and not cpu.in_slot:
            self.call(cpu, step, before)
        elif not row.is_dead:
            self.machine_step(cpu, step, before, following)
        elif row.word is not None and is_store(row.word) and self.whys[cpu.env] == "excess":  # it died after the store
            step.stored = stored(row.word, access(row.word, before) or 0, before)
        if step.is_end:
            cpu.continue_at(cpu.handlers[ENDS])
        if cpu.env == self.number:
            self.keep(step, before)

    def keep(self, step: Step, before: List[int]) -> None:
        """Keeps a step of the environment that is asked for."""
        if len(self.steps) % EVERY == 0:
            self.found.append(before)
        if (step.number, step.code) == (PUT, 0):
            self.put += int(step.answered)
        step.put = self.put
        self.steps.append(step)

    def call(self, cpu: Cpu, step: Step, before: List[int]) -> None:
        """A kernel call."""
        step.number, step.asked, cpu.handed = before[CODE], asked(before), before
        if not step.row.is_dead:
            step.code, step.answered = cpu.registers[CODE], answered(cpu.registers)
            cpu.handlers = step.handlers_after(before)
        cpu.continue_at(step.row.pc + 4)

    def machine_step(self, cpu: Cpu, step: Step, before: List[int], following: Optional[Row]) -> None:
        """A step that isn't a kernel call: it retires, or its exception goes to the handler."""
        row = step.row
        step.cause = self.code(cpu, step, before, following)
        if step.cause or row.word is None:
            cpu.continue_at(cpu.handlers[EXCEPTIONS])
            return
        if is_store(row.word):
            step.stored = stored(row.word, access(row.word, before) or 0, before)
        jumps = is_jump(row.word)
        cpu.pc, cpu.next, cpu.in_slot = cpu.next, target(row.word, row.pc, cpu.next, before) if jumps else cpu.next + 4 & WORD, jumps

    def code(self, cpu: Cpu, step: Step, before: List[int], following: Optional[Row]) -> int:
        """The code of the exception that a step raises, 0 where it retires."""
        row = step.row
        if row.text.startswith(".word") and row.word is not None:
            return 11 if row.word >> 26 in COPROCESSORS else 10
        address = access(row.word, before) if row.word is not None else None
        vpn = None if address is None else address // PAGE_SIZE
        kept = self.kept[cpu.env]
        code = cause(row.word, row.pc, cpu.in_slot, before, (True, kept[vpn]) if vpn is not None and vpn in kept else None)
        return self.code_by_registers(cpu, step, address or 0, following) if code is None else code

    def code_by_registers(self, cpu: Cpu, step: Step, address: int, following: Optional[Row]) -> int:
        """The code of an access to a page that isn't guaranteed: an exception leaves its code, its address and the bad address in registers.
        Where a step that retires may have left the same, it is looked where the next step is."""
        row, handler = step.row, cpu.handlers[EXCEPTIONS]
        code, word = cpu.registers[AT] >> 2 & 31, row.word or 0
        resume = handler if step.is_end else cpu.restart()
        if not handler or code not in ((1, 3) if is_store(word) else (2,)) or cpu.registers[K0] != resume:
            return 0
        if (cpu.registers[AT], cpu.registers[K1]) != (code << 2 | cpu.in_slot << 31, address):
            return 0
        loaded = {} if is_store(word) else {word >> 16 & 31}
        if step.is_end or set(row.told).difference(loaded):
            return code
        goes_on = following is not None and following.tick == row.tick + 1 and (cpu.env, row.tick + 1) not in self.turns
        went = following.pc if following is not None and goes_on else self.moments.core(cpu.env, row.tick + 1).pc
        return code if went == handler else 0
