"""Walks through the steps of an environment, forwards and backwards, by words."""

from __future__ import annotations

import re
from typing import Callable, Iterator, List, Optional

import searching
from follower import Step
from limits import PAGE_SIZE
from places import Places
from registers import NAMES
from report import Environment
from searching import Hint
from source import number, register
from step_lines import console_at, ending, kernel_line, meanwhile, memory_lines, note_lines, register_table, step_line
from steps import Steps

HELP = """next [N], back [N]         a step, or N of them
tick T                     to the last step that was made in tick T or before
call, reg NAME, line N     to the next kernel call; the next change of a register, as $8, $t0 or hi; the next step at a
                           line, N or FILE:N
miss, slice, packet        to the next exception that a handler took; the next start of a slice; the next packet that arrives
watch ADDRESS              to the next change of the word at an address or a label. After `back` each of these words goes backwards
env N                      to the same tick of another environment
start, end                 before the first step, and to the last one
regs, console              all registers, in hexadecimal and in decimal; the console at this step
x ADDRESS [N]              N words of memory from an address or a label on
help, quit                 n, b, t, c, r, l, q and an empty line, which says the last word again, are short"""
SHORT = {"n": "next", "b": "back", "t": "tick", "c": "call", "r": "reg", "l": "line", "s": "start", "e": "end", "q": "quit", "h": "help"}


class Stepper:
    """A place in the steps of an environment: after a number of them."""

    def __init__(self, steps: Steps, places: Places, other: Optional[Callable[[int], "Stepper"]] = None):
        self.steps, self.places, self.other = steps, places, other
        self.done = 0

    @property
    def environment(self) -> Environment:
        return self.steps.environment

    @property
    def last(self) -> Optional[Step]:
        """The step that was made last."""
        return self.steps[self.done - 1] if self.done else None

    def lines(self) -> List[str]:
        """The step that was made last."""
        step = self.last
        if step is None:
            return ["before the first step"]
        return self.between() + kernel_line(step.kernel) + [step_line(self.steps, self.done - 1, self.places)]

    def between(self) -> List[str]:
        """What happened between the step that was made last and the one before it."""
        turns, place = self.steps.turns, self.done - 1
        before = turns.tick(place - 1) if place else None
        ran = meanwhile(self.steps.run.timeline, self.steps.number, before, turns.tick(place))
        return ran + note_lines(self.steps.notes(place), self.places)

    def listed(self, first: int, last: int) -> Iterator[str]:
        """The steps of some ticks, and how the environment ended where its end is among them."""
        turns = self.steps.turns
        for self.done in range((turns.made(first - 1) if first else 0) + 1, turns.made(last) + 1):
            yield from self.lines()
        if last >= self.steps.end - 1:
            self.done = len(self.steps)
            yield from kernel_line(self.steps.kernel_changes(self.done))
            yield from self.end_lines()

    # Words

    def do(self, words: str) -> List[str]:
        """Does what some words say: the lines that are shown of it."""
        name, *rest = words.split() or ["next"]
        name = SHORT.get(name, name)
        backwards = name == "back"
        if backwards and rest and not rest[0].isdigit():
            name, *rest = rest
            name = SHORT.get(name, name)
        action = getattr(self, f"do_{name}", None)
        try:
            return list(action(rest, backwards)) if action else [f"there is no word {name!r}: `help` has them"]
        except (ValueError, IndexError):
            return [f"{words!r} has another form: `help` has the words"]

    def do_next(self, rest: List[str], backwards: bool) -> Iterator[str]:
        many = int(rest[0]) if rest else 1
        if not backwards and self.done == len(self.steps):
            yield from self.end_lines()
            return
        self.done = max(self.done - many, 0) if backwards else min(self.done + many, len(self.steps))
        yield from self.lines()

    do_back = do_next

    def do_tick(self, rest: List[str], _backwards: bool) -> Iterator[str]:
        self.done = self.steps.turns.made(int(rest[0]))
        yield from self.lines()

    def do_start(self, _rest: List[str], _backwards: bool) -> Iterator[str]:
        self.done = 0
        yield from self.lines()

    def do_end(self, _rest: List[str], _backwards: bool) -> Iterator[str]:
        self.done = len(self.steps)
        yield from self.lines()
        yield from self.end_lines()

    def end_lines(self) -> List[str]:
        """What happened after the last step, and how the environment ended."""
        last = self.steps.turns.tick(len(self.steps) - 1) if self.steps else None
        return [*note_lines(self.steps.notes(len(self.steps)), self.places), ending(self.environment, self.steps.run.timeline.head, last)]

    def went(self, place: Optional[int], backwards: bool, what: str, up_to: Optional[int] = None) -> Iterator[str]:
        """Goes to a place that was found, or says that there is none, or how far it was looked for."""
        if place is not None:
            self.done = place
            yield from self.lines()
        elif up_to is not None:
            yield f"no {what} from here to tick {up_to}: `tick {up_to}`, and then the word again, looks on"
        else:
            yield f"no {what} {'before this' if backwards else 'after this'}"

    def sought(self, hint: Hint, fits: Callable[[Step], bool], backwards: bool, what: str) -> Iterator[str]:
        found = self.steps.search(self.done, hint, lambda place: fits(self.steps[place - 1]), backwards)
        return self.went(found.place, backwards, what, found.up_to)

    def do_call(self, _rest: List[str], backwards: bool) -> Iterator[str]:
        return self.sought(searching.calls, lambda it: bool(it.asked), backwards, "kernel call")

    def do_miss(self, _rest: List[str], backwards: bool) -> Iterator[str]:
        return self.sought(searching.misses, lambda it: bool(it.cause), backwards, "exception that a handler took")

    def do_slice(self, _rest: List[str], backwards: bool) -> Iterator[str]:
        return self.went(self.steps.turns.first_of_slice(self.done, backwards), backwards, "start of a slice")

    def do_packet(self, _rest: List[str], backwards: bool) -> Iterator[str]:
        return self.went(self.steps.next_packet(self.done, backwards), backwards, "packet that arrives")

    def do_watch(self, rest: List[str], backwards: bool) -> Iterator[str]:
        address = self.address_of(rest[0])
        if address is None or address // PAGE_SIZE not in self.steps.memory(self.done).pages:
            return iter([f"no page is at {rest[0]} here"])
        aligned = address & ~3
        found = self.steps.search(self.done, self.steps.changes_at([aligned]), lambda place: self.steps.differs(place, [(aligned, 4)]), backwards)
        return self.went(found.place, backwards, f"change of the word at {rest[0]}", found.up_to)

    def do_env(self, rest: List[str], _backwards: bool) -> Iterator[str]:
        """Goes to the same tick of another environment."""
        number, environments = int(rest[0]), self.steps.run.timeline.head.environments
        if self.other is None or number >= len(environments):
            yield f"there is no environment {number}: the last one is {len(environments) - 1}"
            return
        tick = self.steps.turns.tick(self.done - 1) if self.done else -1
        self.__dict__.update(self.other(number).__dict__)
        yield f"-- {number} {self.environment.name} --"
        self.done = self.steps.turns.made(tick) if tick >= 0 else 0
        yield from self.lines()

    def do_reg(self, rest: List[str], backwards: bool) -> Iterator[str]:
        place = register_of(rest[0])
        return self.sought(searching.changes_of(place, self.steps.turns), lambda it: any(change.register == place for change in it.kernel + it.own),
                           backwards, f"change of {NAMES[place]}")

    def do_line(self, rest: List[str], backwards: bool) -> Iterator[str]:
        file, _, count = rest[0].rpartition(":")
        line, found = self.places.of_line(file, int(count))
        if not found:
            return iter([f"no instruction is at line {rest[0]} or after it"])
        return self.sought(searching.at_addresses(set(found)), lambda it: it.row.pc in found, backwards, f"step at line {line}")

    def do_regs(self, _rest: List[str], _backwards: bool) -> Iterator[str]:
        return register_table(self.steps.registers(self.done))

    def do_console(self, _rest: List[str], _backwards: bool) -> Iterator[str]:
        text = console_at(self.environment, self.steps.console(self.done))
        yield from text.rstrip("\n").split("\n") if text else ["the console is empty"]

    def do_x(self, rest: List[str], _backwards: bool) -> Iterator[str]:
        address = self.address_of(rest[0])
        if address is None:
            return iter([f"there is no label {rest[0]}, nor is it an address"])
        return memory_lines(self.steps.memory(self.done), address, min(int(rest[1]) if len(rest) > 1 else 4, 1024), self.places)

    def address_of(self, word: str) -> Optional[int]:
        """The address that a word says: a number, a label, a register."""
        if re.fullmatch(r"[0-9]+|0x[0-9a-fA-F]{1,8}", word):
            return number(word) & 0xFFFFFFFF
        if word.startswith("$"):
            return self.steps.registers(self.done)[register_of(word)]
        return self.places.labels.get(word)

    def do_help(self, _rest: List[str], _backwards: bool) -> Iterator[str]:
        yield from HELP.split("\n")


def register_of(word: str) -> int:
    """The place of a register, of its name with or without `$`."""
    name = word.lstrip("$")
    place = {"hi": 32, "lo": 33}.get(name, register(name))
    if place is None:
        raise ValueError(word)
    return place
