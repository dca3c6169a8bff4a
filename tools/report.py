"""Reads reports of `aegis run`: their lines as records, and their rows as slices, marks and holdings.

    with open(path, encoding="latin-1", newline="\\n") as source:
        report = read(source)

A file that is no report is refused, with the line and why. A row that no run can have after those before it is refused
too: times that fall, a start while somebody runs, an end of somebody who doesn't, ticks that nobody has. Whether the
kernel's other rules are kept isn't tested here.

`read` keeps everything. Where a report is long, a `Listener` takes what its rows say one by one: `read_head`, and then
`Ledger(head, listener).follow(lines)`. docs/REPORT.md describes the lines.
"""

from __future__ import annotations

import python_version  # first: ends the tool where Python is too old
import re
from dataclasses import dataclass, field
from typing import Any, Callable, Dict, Iterable, List, Match, Optional, Pattern, Protocol, Tuple

from limits import MOST_ENVIRONMENTS, MOST_SLOTS, MOST_TICKS

LONGEST_LINE = 4 * 65_536 + 64  # a full console, each byte as `\x` and two digits


class Refused(Exception):
    """The file is no report: what is wrong, and in which line."""

    def __init__(self, line: int, why: str):
        super().__init__(f"line {line}: {why}")
        self.line = line
        self.why = why


# --- The lines of a report ------------------------------------------------------------------------------------

HEX8 = "[0-9a-f]{8}"
SHA = "[0-9a-f]{64}"
CAUSES = {
    "mod": "a store to a page that may only be read",
    "tlbl": "a load or fetch from a page that isn't there",
    "tlbs": "a store to a page that isn't there",
    "adel": "a load or fetch at a bad address",
    "ades": "a store at a bad address",
    "sys": "a kernel call in a delay slot",
    "bp": "a breakpoint",
    "ri": "a word that is no instruction",
    "cpu": "an instruction of a coprocessor",
    "ov": "an overflow",
    "excess": "too many overrun slices",
}


def form(text: str) -> Pattern[str]:
    """The form of a line: `N` stands for a decimal number."""
    return re.compile(text.replace("N", r"(\d{1,10})"), re.ASCII)


HEAD = {
    "aegis": form("aegis run"),
    "end": form("end (limit|idle) N"),
    "env": form("env N ([a-z0-9_]{1,8}) (?:(live)|(exit) N|(dead) (%s))" % "|".join(CAUSES)),
    "out": form(r'out N N "((?:[ !#-\[\]-~]|\\["\\n]|\\x[0-9a-f]{2})*)"'),
    "cpu": form(f"cpu N ({HEX8}) ({HEX8}) ([01]) ({HEX8}) ({HEX8})"),
    "regs": form(f"regs N((?: {HEX8}){{31}})"),
    "excess": form("excess N N"),
    "keep": form(f"keep N ([0-9a-f]{{5}}) ({SHA})"),
    "page": form(f"page N N ({SHA})"),
    "bind": form("bind N ([0-9a-f]{5}) N ([rw])"),
    "sent": form("sent N N ((?:[0-9a-f]{2})*)"),
}
ROWS = {
    "own": form("own N N (?:N N|- -)"),
    **{word: form(f"{word} N N N") for word in ("run", "pay", "end", "stop", "dead")},
    **{word: form(f"{word} N N N N") for word in ("give", "async", "sync", "over", "asked")},
    "take": form("take N N N (?:N|-)"),
    "drop": form("drop N N"),
}
DASHED = {"own", "take"}  # rows that may have dashes
PLAIN = form(r"(run N N N\nstop N \3 \4)\n|((?:give|async|sync) N N N N)\n")  # a slice that nothing disturbs; a gift
TAIL = {"sum": form("sum N N N N"), "done": form("done")}
TLB = {"aegis": form("aegis tlb"), "fill": form("fill N N N N"), "random": form("random N"), "row": form(f"row N ({HEX8}) ({HEX8})")}
WORDS = {*HEAD, *ROWS, *TAIL, *TLB}
TLB_ROWS = 64


class Text(Protocol):
    """What can be read piece by piece."""

    def read(self, size: int = -1, /) -> str:
        """At most so many characters, or all; none where nothing is left."""


class Lines:
    """The lines of a file in order. `text` is the line that `number` counts, from 1; it is read block by block."""

    BLOCK = 1 << 18

    def __init__(self, source: Text):
        self.source = source
        self.block = ""
        self.start = self.next = 0  # where the line begins in the block, and where the one behind it does
        self.number = 0
        self.text = ""
        self.advance()

    def advance(self) -> None:
        """Goes on to the next line, which has to be there and to be whole."""
        self.number += 1
        self.start = self.next
        end = self.block.find("\n", self.start)
        if end < 0:
            end = self.fill()
        self.text = self.block[self.start:end]
        self.next = end + 1
        if self.text[-1:] == "\r":
            self.text = self.text[:-1]

    def fill(self) -> int:
        """Reads on until the line has an end, which is answered."""
        self.block = self.block[self.start:]
        self.start = 0
        while True:
            seen = len(self.block)
            if seen > LONGEST_LINE:
                raise Refused(self.number, "a line too long")
            self.block += self.source.read(self.BLOCK)
            if len(self.block) == seen:
                raise Refused(self.number, "the report is cut here")
            end = self.block.find("\n", seen)
            if end >= 0:
                return end

    def leap(self, lines: int, to: int) -> None:
        """Goes on by so many lines of this block, to where a line begins."""
        self.number += lines - 1
        self.next = to
        self.advance()

    def word(self) -> str:
        """The line's first word."""
        return self.text.split(" ", 1)[0]

    def fields(self, pattern: Pattern[str]) -> Tuple[str, ...]:
        """What the form's groups say in this line, which is refused where it has another form. A group that isn't there says nothing."""
        match = pattern.fullmatch(self.text)
        if match is None:
            raise self.misplaced()
        return match.groups("")

    def take(self, pattern: Pattern[str]) -> Tuple[str, ...]:
        """The fields of this line; then goes on."""
        fields = self.fields(pattern)
        self.advance()
        return fields

    def misplaced(self) -> Refused:
        """Why a line that isn't the one that is due is refused."""
        shown = self.text if len(self.text) <= 60 else self.text[:60] + ".."
        if self.word() not in WORDS:
            return Refused(self.number, f"no row of a report: {ascii(shown)}")
        return Refused(self.number, f"another row is due here, or this one has another form: {ascii(shown)}")

    def goes_on(self) -> bool:
        """Whether anything comes after this line."""
        if self.next == len(self.block):
            self.block, self.start, self.next = self.block[self.start:] + self.source.read(self.BLOCK), 0, self.next - self.start
        return self.next < len(self.block)

    def finish(self) -> None:
        """Nothing comes after the last line."""
        if self.goes_on():
            raise Refused(self.number + 1, "a line after `done`")


@dataclass
class Cpu:
    """The registers of an environment that lives."""

    pc: int
    next: int
    slot: bool  # whether `pc` is the delay slot of a branch or jump
    hi: int
    lo: int
    registers: List[int] = field(default_factory=list)  # $0 to $31


@dataclass
class Environment:
    """What a report says of an environment before the rows."""

    number: int
    name: str
    life: str  # live, exit or dead
    why: str  # the exit code or the cause of death
    console: str = ""  # as the report escapes it
    console_bytes: int = 0
    cpu: Optional[Cpu] = None  # where it lives
    excess: int = 0
    holds: Dict[str, List[Tuple[str, ...]]] = field(default_factory=dict)  # the fields of its lines `keep`, `page`, `bind`
    sent: List[Tuple[int, str]] = field(default_factory=list)  # length and hexadecimal digits

    def text(self) -> bytes:
        """The bytes of its console."""
        return b"".join(map(byte_of, unescaped(self.console)))


@dataclass
class Head:
    """What a report says before its rows."""

    ending: str  # limit or idle
    time: int
    environments: List[Environment]


def read_head(lines: Lines) -> Head:
    """Reads a report up to its first row."""
    lines.take(HEAD["aegis"])
    ending, time = lines.fields(HEAD["end"])
    if int(time) > MOST_TICKS:
        raise Refused(lines.number, f"more than {MOST_TICKS:,} ticks")
    lines.advance()
    environments: List[Environment] = []
    while not environments or lines.word() == "env":
        if len(environments) == MOST_ENVIRONMENTS:
            raise Refused(lines.number, f"more than {MOST_ENVIRONMENTS} environments")
        environments.append(read_environment(lines, len(environments)))
    return Head(ending, int(time), environments)


def read_environment(lines: Lines, number: int) -> Environment:
    """Reads the lines of environment `number`."""

    def own_line(word: str) -> Tuple[str, ...]:
        fields = lines.fields(HEAD[word])
        if int(fields[0]) != number:
            raise Refused(lines.number, f"environment {number} is due here")
        return fields

    _, name, live, exited, code, dead, cause = own_line("env")
    env = Environment(number, name, live or exited or dead, code or cause)
    lines.advance()
    _, length, env.console = own_line("out")
    env.console_bytes = int(length)
    if len(unescaped(env.console)) != env.console_bytes:
        raise Refused(lines.number, "the console has another length")
    lines.advance()
    if live:
        pc, behind, slot, high, low = (int(text, 16) for text in own_line("cpu")[1:])
        lines.advance()
        env.cpu = Cpu(pc, behind, bool(slot), high, low, [0, *(int(text, 16) for text in own_line("regs")[1].split())])
        lines.advance()
        env.excess = int(own_line("excess")[1])
        lines.advance()
        for word in ("keep", "page", "bind"):
            env.holds[word] = []
            while lines.word() == word:
                env.holds[word].append(own_line(word)[1:])
                lines.advance()
    while lines.word() == "sent":
        _, length, digits = own_line("sent")
        if len(digits) != 2 * int(length):
            raise Refused(lines.number, "the packet has another length")
        env.sent.append((int(length), digits))
        lines.advance()
    return env


def unescaped(text: str) -> List[str]:
    """The bytes of a console, each as it is escaped."""
    return re.findall(r"\\x..|\\.|[^\\]", text)


def byte_of(piece: str) -> bytes:
    """A byte of a console, of how it is escaped."""
    if piece.startswith("\\x"):
        return bytes([int(piece[2:], 16)])
    return b"\n" if piece == "\\n" else piece[-1].encode("ascii")


# --- The rows -------------------------------------------------------------------------------------------------


@dataclass
class Slice:
    """A bar: `env` had the ticks from `start` to `end` - 1 in this slot."""

    slot: int
    env: int
    start: int
    rows: str  # that began and ended it
    end: int = 0
    grace: Optional[int] = None  # its first tick in grace


class Listener:
    """Who takes what the rows say, in their order."""

    def end_boot(self) -> None:
        """The owners of slots at boot were told, and no other row yet."""

    def add_slice(self, piece: Slice) -> None:
        """A slice that is over."""

    def add_mark(self, kind: str, time: int, env: Optional[int], slot: Optional[int], row: str, until: int) -> None:
        """A row that is no slice: of a kind, in a tick, of an environment, in a slot. `until` is a deadline. A row
        `dead` is of the kind `exit` where the environment exited."""

    def add_holder(self, slot: int, start: int, owner: Optional[int], holder: Optional[int], row: str) -> None:
        """A slot's owner and holder from tick `start` on."""


class Misfit(Exception):
    """Why a row can't follow those before it."""


def numbers(fields: Iterable[str]) -> Iterable[int]:
    """The numbers of a row."""
    return map(int, fields)


def dashed(fields: Iterable[Optional[str]]) -> List[Optional[int]]:
    """The numbers of a row that may have dashes in place of some."""
    return [None if text is None else int(text) for text in fields]


# A row's form, what makes numbers of its fields, and the method that takes these.
Way = Tuple[Callable[[str], Optional[Match[str]]], Callable[[Iterable[Any]], Iterable[Optional[int]]], Callable[..., None]]


class Ledger:
    """Follows the rows of a report, and hands a listener its slices, its marks and the holders of its slots."""

    def __init__(self, head: Head, listener: Listener):
        self.head = head
        self.ended = head.time
        self.count = count = len(head.environments)
        self.listener = listener
        self.time = 0  # of the last row
        self.turn = 0  # the tick of the next turn, where nobody runs
        self.runner: Optional[Slice] = None
        self.booted = False
        self.boot_slot = -1  # of the last row at boot
        self.rows = 0
        self.ticks = [0] * count
        self.died: Dict[int, int] = {}
        self.runs, self.pays, self.overs = [0] * count, [0] * count, [0] * count
        self.fills: List[List[int]] = []  # of each environment, refills from both sources and misses, where `aegis tlb` tells them
        self.text = ""  # the row that is followed

    def follow(self, lines: Lines) -> None:
        """Reads the rows and the sums up to the end of the file."""
        handlers: Dict[str, Way] = {word: (pattern.fullmatch, dashed if word in DASHED else numbers, getattr(self, "row_" + word))
                                    for word, pattern in ROWS.items()}
        first = lines.number
        try:
            while True:
                self.skim(lines)
                text = lines.text
                way = handlers.get(text.split(" ", 1)[0])
                if way is None:
                    break
                fits, values, handler = way
                match = fits(text)
                if match is None:
                    raise lines.misplaced()
                self.text = text
                handler(*values(match.groups()))
                lines.advance()
        except Misfit as misfit:
            raise Refused(lines.number, f"{misfit}: {lines.text}") from None
        self.rows = lines.number - first
        self.end_boot()
        if lines.word() != "sum":
            raise lines.misplaced()
        self.finish()
        self.read_sums(lines)

    def skim(self, lines: Lines) -> None:
        """Takes the rows that a long report has most of, as many as stand here and fit. What doesn't fit is left to
        the row's own method, which says why."""
        rows, to = 0, lines.start
        while True:
            plain = PLAIN.match(lines.block, to)
            if plain is None:
                break
            alone = plain[6] is None
            if not (self.plain_slice(*plain.group(1, 2, 3, 4, 5)) if alone else self.plain_gift(plain.group(6))):
                break
            rows += 2 if alone else 1
            to = plain.end()
        if rows > 0:
            lines.leap(rows, to)

    def plain_slice(self, rows: str, *fields: str) -> bool:
        """Takes a `run` and the `stop` right after it together, and says whether they fit."""
        start, slot, env, stop = map(int, fields)
        fits = self.runner is None and self.time <= start == self.turn <= stop < self.ended
        if not fits or slot >= MOST_SLOTS or env >= self.count:
            return False
        self.end_boot()
        self.time = stop
        self.turn = stop + 1
        self.runs[env] += 1
        self.ticks[env] += stop + 1 - start
        self.listener.add_slice(Slice(slot, env, start, rows, stop + 1))
        return True

    def plain_gift(self, row: str) -> bool:
        """Takes a row by which the runner gives its slot away, and says whether it fits."""
        kind, *fields = row.split(" ")
        time, slot, giver, to = map(int, fields)
        runner = self.runner
        if runner is None or runner.env != giver or runner.slot != slot or runner.grace is not None:
            return False
        if not self.time <= time < self.ended or time < runner.start or to == giver or to >= self.count:
            return False
        self.time = time
        after = time + 1
        self.ticks[giver] += after - runner.start
        runner.end = after
        runner.rows += "\n" + row
        self.listener.add_slice(runner)
        self.runner = Slice(slot, to, after, row)
        self.listener.add_mark(kind, time, to, slot, row, 0)
        return True

    def read_sums(self, lines: Lines) -> None:
        """Reads the sums, which have to be those of the rows, and `done`."""
        for env in range(self.count):
            sums = [int(number) for number in lines.fields(TAIL["sum"])]
            if sums != [env, self.runs[env], self.pays[env], self.overs[env]]:
                raise Refused(lines.number, f"the rows give {self.runs[env]} {self.pays[env]} {self.overs[env]}, "
                                            f"and environment {env} is due here")
            lines.advance()
        lines.fields(TAIL["done"])
        if lines.goes_on():
            lines.advance()
            self.read_fills(lines)
        lines.finish()

    def read_fills(self, lines: Lines) -> None:
        """Reads what `aegis tlb` writes after a report, of which the fills are kept."""
        if not TLB["aegis"].fullmatch(lines.text):
            raise Refused(lines.number, "a line after `done`")
        lines.advance()
        if lines.fields(HEAD["end"]) != (self.head.ending, str(self.head.time)):
            raise lines.misplaced()
        lines.advance()
        for env in range(self.count):
            number, *counts = map(int, lines.take(TLB["fill"]))
            if number != env:
                raise Refused(lines.number - 1, f"environment {env} is due here")
            self.fills.append(counts)
        lines.take(TLB["random"])
        for row in range(TLB_ROWS):
            if int(lines.take(TLB["row"])[0]) != row:
                raise Refused(lines.number - 1, f"row {row} is due here")
        lines.fields(TAIL["done"])

    def finish(self) -> None:
        """A slice still runs at the end of a run that reached its limit; else the next turn's time is the end."""
        end = f"end {self.head.ending} {self.ended}"
        if self.runner is not None:
            if self.head.ending == "idle":
                raise Refused(2, f"`{end}`, but environment {self.runner.env} still runs")
            self.text = end
            self.close(self.runner, self.ended)
        elif self.turn != self.ended:
            raise Refused(2, f"`{end}`, but nobody has tick {self.turn}")

    # What rows have in common

    def end_boot(self) -> None:
        """The rows of boot are over."""
        if not self.booted:
            self.booted = True
            self.listener.end_boot()

    def at(self, time: int, env: int = 0) -> None:
        """A row's tick and environment."""
        if not self.time <= time < self.ended:
            raise Misfit("the time falls" if time < self.time else "the run ended before")
        if env >= self.count:
            raise Misfit("no such environment")
        self.time = time
        self.end_boot()

    def at_turn(self, time: int, slot: int, env: int) -> None:
        """A row of a turn: nobody runs, and no tick was left out."""
        self.at(time, env)
        if self.runner is not None:
            raise Misfit(f"environment {self.runner.env} runs")
        if time != self.turn:
            raise Misfit(f"nobody has tick {self.turn}")
        if slot >= MOST_SLOTS:
            raise Misfit("no such slot")

    def running(self, time: int, slot: int, env: int, first: int) -> Slice:
        """The slice of the runner, whom the row has to name. `first` is its first tick, or the one before where
        the timer may end a slice in the tick in which it was given."""
        self.at(time, env)
        runner = self.runner
        if runner is None or runner.env != env or runner.slot != slot:
            raise Misfit(f"environment {env} doesn't run in slot {slot}")
        if time < runner.start + first:
            raise Misfit(f"its slice begins with tick {runner.start}")
        return runner

    def close(self, runner: Slice, end: int) -> None:
        """The runner's slice has the ticks below `end`."""
        runner.end = end
        runner.rows += "\n" + self.text
        self.ticks[runner.env] += end - runner.start
        self.listener.add_slice(runner)
        self.runner = None

    def mark(self, kind: str, time: int, env: Optional[int], slot: Optional[int] = None, until: int = 0) -> None:
        self.listener.add_mark(kind, time, env, slot, self.text, until)

    # The rows

    def row_own(self, time: int, slot: int, owner: Optional[int], holder: Optional[int]) -> None:
        boot = not self.booted and time == 0
        if not boot:
            self.at(time)
        elif slot <= self.boot_slot:
            raise Misfit("the slots rise at boot")
        else:
            self.boot_slot = slot
        if slot >= MOST_SLOTS:
            raise Misfit("no such slot")
        if max(owner or 0, holder or 0) >= self.count:
            raise Misfit("no such environment")
        self.listener.add_holder(slot, 0 if boot else time + 1, owner, holder, self.text)

    def row_run(self, time: int, slot: int, env: int) -> None:
        self.at_turn(time, slot, env)
        self.runs[env] += 1
        self.runner = Slice(slot, env, time, self.text)

    def row_pay(self, time: int, slot: int, env: int) -> None:
        self.at_turn(time, slot, env)
        self.pays[env] += 1
        self.mark("pay", time, env, slot)

    def row_give(self, time: int, slot: int, giver: int, to: int) -> None:
        self.donate("give", time, slot, giver, to)

    def row_async(self, time: int, slot: int, giver: int, to: int) -> None:
        self.donate("async", time, slot, giver, to)

    def row_sync(self, time: int, slot: int, giver: int, to: int) -> None:
        self.donate("sync", time, slot, giver, to)

    def donate(self, kind: str, time: int, slot: int, giver: int, to: int) -> None:
        """The giver had this tick; the other goes on with the next."""
        self.at(time, to)
        runner = self.running(time, slot, giver, 0)
        if to == giver:
            raise Misfit("it gives to itself")
        if runner.grace is not None:
            raise Misfit("it gives in grace")
        self.close(runner, time + 1)
        self.runner = Slice(slot, to, time + 1, self.text)
        self.mark(kind, time, to, slot)

    def row_end(self, time: int, slot: int, env: int) -> None:
        runner = self.running(time, slot, env, -1)
        if runner.grace is not None:
            raise Misfit("it is in grace already")
        runner.grace = time + 1
        self.mark("end", time, env, slot)

    def row_over(self, time: int, slot: int, env: int, _excess: int) -> None:
        if self.running(time, slot, env, 0).grace is None:
            raise Misfit("it isn't in grace")
        self.overs[env] += 1
        self.mark("over", time, env, slot)

    def row_stop(self, time: int, slot: int, env: int) -> None:
        self.close(self.running(time, slot, env, -1), time + 1)
        self.turn = time + 1

    def row_dead(self, time: int, slot: int, env: int) -> None:
        self.close(self.running(time, slot, env, 0), time + 1)
        self.turn = time + 1
        self.died[env] = time
        self.mark("exit" if self.head.environments[env].life == "exit" else "dead", time, env, slot)

    def row_asked(self, time: int, env: int, _outstanding: int, deadline: int) -> None:
        self.at(time, env)
        if deadline < time:
            raise Misfit("the deadline has passed")
        self.mark("asked", time, env, until=deadline)

    def row_take(self, time: int, env: int, _page: int, _backup: Optional[int]) -> None:
        self.at(time, env)
        self.mark("take", time, env)

    def row_drop(self, time: int, _length: int) -> None:
        self.at(time)
        self.mark("drop", time, None)


# --- A report as a whole --------------------------------------------------------------------------------------


@dataclass
class Mark:
    """A row that is no slice, as `Listener.add_mark` has it."""

    kind: str
    time: int
    env: Optional[int]
    slot: Optional[int]
    row: str
    until: int


@dataclass
class Holder:
    """A slot's owner and holder from a tick on."""

    slot: int
    start: int
    owner: Optional[int]
    holder: Optional[int]
    row: str


@dataclass
class Report(Listener):
    """All that a report says."""

    head: Head
    slices: List[Slice] = field(default_factory=list)
    marks: List[Mark] = field(default_factory=list)
    holders: List[Holder] = field(default_factory=list)

    def add_slice(self, piece: Slice) -> None:
        self.slices.append(piece)

    def add_mark(self, kind: str, time: int, env: Optional[int], slot: Optional[int], row: str, until: int) -> None:
        self.marks.append(Mark(kind, time, env, slot, row, until))

    def add_holder(self, slot: int, start: int, owner: Optional[int], holder: Optional[int], row: str) -> None:
        self.holders.append(Holder(slot, start, owner, holder, row))


def read(source: Text) -> Report:
    """A whole report. Refused where it is none."""
    lines = Lines(source)
    report = Report(read_head(lines))
    Ledger(report.head, report).follow(lines)
    return report
