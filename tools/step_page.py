"""Steps of a run as one page of HTML, which needs no network: source, registers, memory, calls and console at each step, with a slider and
keys. Script, style and markup are those of web/, which the page for browsers has too (docs/WEB.md)."""

from __future__ import annotations

import functools
import html
import json
import re
from typing import Any, Dict, List, Optional, Tuple

from follower import Change, Step
from places import Places
from programs import ROOT, Program
from registers import NAMES
from shown import shown
from source import read_statement
from step_lines import console_at, ending, note_lines, step_line
from stepper import Stepper
from steps import Steps

WEB = f"{ROOT}/web"  # with the script, style and markup
PAGE_TICKS = 32_768  # of which a page has the steps, at most


def registers_of(changes: List[Change]) -> List[int]:
    """Register and value by turns, of those that change."""
    return [part for it in changes for part in (it.register, it.new)]


def first_tick(steps: Steps, first: Optional[int], middle: Optional[int]) -> int:
    """The first tick of a page: this one, or so that another is in its middle."""
    if first is not None or middle is None:
        return first or 0
    return max(min(middle - PAGE_TICKS // 2, steps.end - PAGE_TICKS), 0)


class Data:
    """What the page's script is given, as one value in JSON:

    title, names, files, labels  the heading; the names of 34 registers; each file of the source with its lines; addresses by label
    first           the registers at the start
    spots           instructions: address, label, file, line, text; of `li` and `la` also the statement and 1 or 2
    steps           tick, spot, registers that the step changed, those that the kernel set before it, characters of the console, what
                    is told, whether it is a call or the end, whether it was refused; where memory changed, a list of that
    between, marks  lines before a step, counted from 1, of what happened there; the steps that `slice`, `packet` and `miss` go to
    memory          the bytes of the pages at the start by their VPNs, without the zeros at their ends
    console, end    all of the console, and how the environment ended, or that the run goes on

    A change of memory is a VPN with a place and the bytes there. No bytes make a new page of zeros, and a VPN alone means that its
    page is gone.
    """

    def __init__(self, steps: Steps, places: Places, program: Program, title: str, tick: int = 0):
        self.steps, self.places, self.title = steps, places, title
        self.first = steps.turns.made(tick - 1) if tick else 0  # how many steps are before the page's
        self.last = steps.turns.made(tick + PAGE_TICKS - 1)
        self.files: Dict[str, int] = {}
        self.spots: Dict[Tuple[int, str], int] = {}
        self.rows: List[List[Any]] = []
        self.listing = [program.listing[it] for it in sorted(program.listing)] if not places.lines else []
        self.at_listing = {address: place for place, address in enumerate(sorted(program.listing), 1)}
        self.lengths: Dict[int, int] = {}

    def spot(self, step: Step) -> int:
        """An instruction, by its address: its label, its file, its line and its text; of `li` and `la` the statement, and which of its
        two instructions this is."""
        key = (step.row.pc, step.row.text)
        if key not in self.spots:
            self.spots[key] = len(self.rows)
            line = self.places.lines.get(step.row.pc)
            file, number = (self.files.setdefault(line.file, len(self.files)), line.number) if line else (0, self.at_listing.get(step.row.pc, 0))
            self.rows.append([f"{step.row.pc:08x}", self.places.name(step.row.pc), file, number if line or self.listing else 0, shown(step.row.text),
                              *self.of_two(step.row.pc)])
        return self.spots[key]

    def of_two(self, address: int) -> List[Any]:
        """The statement of an instruction, and which of its two this is, where it has two."""
        lines = self.places.lines
        line = None if self.places.symbols else lines.get(address)
        said = read_statement(0, line.text) if line else None
        if said is None or said.operation not in ("li", "la"):
            return []
        return [shown(" ".join([said.operation, ", ".join(said.operands)])), 2 if lines.get(address - 4) == line else 1]

    def console(self, length: int) -> int:
        """The characters of so many bytes of the console."""
        if length not in self.lengths:
            self.lengths[length] = len(console_at(self.steps.environment, length))
        return self.lengths[length]

    def memory(self, place: int) -> List[List[Any]]:
        """What is another in memory after a step than before it: a VPN with a place and the bytes there as digits, or alone where its page is
        gone. A new page is zeros first."""
        return [[vpn] if data is None else [vpn, at, data.hex()] for vpn, at, data in self.steps.memory_changes(place)]

    def step(self, place: int) -> List[Any]:
        """A step: tick, instruction, registers that it changed, those that the kernel set, characters of the console, what it tells, whether
        it is a call or the end, whether that is bad, and what changed of memory, where something did."""
        step: Step = self.steps[place]
        is_told = step.row.is_dead or step.stored or step.cause or step.is_end
        memory = self.memory(place)
        told = step_line(self.steps, place, self.places).partition(" -> ")[2] if is_told else ""
        if step.answered:
            told = f"{step.asked} = {step.answered}"
        return [step.row.tick, self.spot(step), registers_of(step.own), registers_of(step.kernel), self.console(self.steps.console(place + 1)),
                shown(told), int(bool(step.asked or step.row.is_dead)), int(bool(step.code)), *([memory] if memory else [])]

    def marks(self) -> Dict[str, List[int]]:
        """The steps with which slices begin, before which packets arrive, and that raise exceptions which a handler takes."""
        places = range(self.first, self.last)
        return {"slice": [at - self.first + 1 for at in places if self.steps.turns.begins(at)],
                "packet": [at - self.first + 1 for at in places if any(note.kind == "packet" for note in self.steps.notes(at))],
                "miss": [at - self.first + 1 for at in places if self.steps[at].cause]}

    def between(self) -> List[List[Any]]:
        """What happened before each step, and after the last one of the run."""
        stepper, found = Stepper(self.steps, self.places), []
        for stepper.done in range(self.first + 1, self.last + 1):
            found.append([stepper.done - self.first, stepper.between()])
        if self.last == len(self.steps):
            found.append([self.last - self.first + 1, note_lines(self.steps.notes(self.last), self.places)])
        return [it for it in found if it[1]]

    def ending(self) -> str:
        """How the environment ended, or that the page does."""
        if self.last < len(self.steps):
            return f"of these steps: a page has at most {PAGE_TICKS:,} ticks of the run"
        last = self.steps.turns.tick(self.last - 1) if self.last else None
        return ending(self.steps.environment, self.steps.run.timeline.head, last)[3:]

    def all(self) -> Dict[str, Any]:
        pages = {vpn: bytes(page).rstrip(b"\0").hex() for vpn, page in sorted(self.steps.memory(self.first).pages.items())}
        steps = [self.step(place) for place in range(self.first, self.last)]
        sources = {name: [shown(line) for line in self.places.sources.get(name, [])] for name in self.files}
        if self.listing:
            sources = {"instructions": self.listing}
        environment = self.steps.environment
        return {"title": self.title, "labels": self.places.labels, "memory": pages, "names": NAMES, "first": self.steps.registers(self.first),
                "spots": self.rows, "steps": steps, "marks": self.marks(), "between": self.between(),
                "files": [[name, lines] for name, lines in sources.items()], "console": console_at(environment, environment.console_bytes),
                "end": self.ending()}


def page(steps: Steps, places: Places, program: Program, title: str, tick: int) -> str:
    """The page of the steps from a tick on."""
    shown_title = f"{title}, step by step"
    data = json.dumps(Data(steps, places, program, shown_title, tick).all(), separators=(",", ":")).replace("</", "<\\/")
    parts = {"STYLE": part("step.css"), "BODY": part("step.html"), "SCRIPT": script(),
             "TITLE": html.escape(shown_title), "DATA": data}
    return functools.reduce(lambda text, it: text.replace(f"@{it[0]}@", it[1]), parts.items(), PAGE)


def part(name: str) -> str:
    """A part of the page that it shares with the page for browsers (docs/WEB.md)."""
    with open(f"{WEB}/{name}", encoding="utf-8") as file:
        return file.read()


def script() -> str:
    """The stepper's modules as one script, which shows the page's data."""
    modules = re.sub(r"(?m)^import .*;\n|^export ", "", part("memory.js") + part("step.js"))
    return f'"use strict";\n{modules}{START}'


START = """
const go = showSteps(JSON.parse(document.getElementById("data").textContent)), wanted = /^#(\\d+)$/.exec(location.hash);
if (wanted) go(Number(wanted[1]));
"""
PAGE = """<!DOCTYPE html>
<html lang="en">
<head>
<meta charset="utf-8">
<meta name="viewport" content="width=device-width, initial-scale=1">
<meta http-equiv="Content-Security-Policy" content="default-src 'none'; style-src 'unsafe-inline'; script-src 'unsafe-inline'">
<title>@TITLE@</title>
<style>
@STYLE@</style>
</head>
<body>
@BODY@<script type="application/json" id="data">@DATA@</script>
<script>
@SCRIPT@</script>
</body>
</html>
"""
