"""What the checkers of the exercises have in common: a student's source, in assembly or in C, is run as the exercise's manifests
say, and what is read of the runs are their reports (tools/report.py).

A checker has a list of demands, the numbered ones of the exercise's README, and makes its checks on a `Sheet`. A check
raises `Missing` with a sentence. Raised on the sheet, it is what is missing of a demand; raised elsewhere, nothing more
can be looked at. What is printed are the warnings of tools/lint, a line for each demand, and how many are met. The
status is 0 where all are, and 1 otherwise. Words that are no source, and a source that can't be read, are status 2.
"""

from __future__ import annotations

import importlib.machinery
import importlib.util
import io
import os
import re
import shutil
import subprocess
import sys
import tempfile
from dataclasses import dataclass, field
from typing import Callable, Dict, Iterable, Iterator, List, Optional, Sequence, Set, Tuple

LABS = os.path.dirname(os.path.realpath(__file__))
TOOLS = f"{os.path.dirname(LABS)}/tools"
sys.path.insert(0, TOOLS)
import c_sources
import kernel_calls
from built import program
from instructions import access, is_jump, is_store
from loading import loaded
from packets import NO_WIRE, reports
from registers import FIRST_STACK, HI, LO, SP
from report import CAUSES, Cpu, Environment, Lines, Mark, Report, read, read_head
from shown import decoded, open_output, shown
from source import read_source
from trace_lines import Row, lines_of, read_trace

ANSWERS = dict(enumerate(kernel_calls.ANSWERS))  # the names of codes
CALLS = [it.name for _, it in sorted(kernel_calls.CALLS.items())]
LAST_TICKS = 300  # of an environment that doesn't end, in which its calls are looked at
FIRST_TICKS = 2_000  # in which the first of them is sought
MOST_TRACED = 262_144  # ticks of a trace

Values = Dict[str, Dict[str, int]]  # for files, the numbers of their `.equ` lines


class Missing(Exception):
    """What is missing, in one sentence; and lines that show where."""

    def __init__(self, sentence: str, *lines: str):
        super().__init__(sentence)
        self.lines = lines


@dataclass
class Sheet:
    """The demands of an exercise, and the first thing that is missing of each."""

    demands: Sequence[str]
    given: Set[int] = field(default_factory=set)  # demands that the unchanged source meets: they count only with another one
    missing: Dict[int, Missing] = field(default_factory=dict)
    looked_at: Set[int] = field(default_factory=set)

    def look(self, number: int, check: Callable[..., None], *arguments: object) -> None:
        """Makes a check of a demand, unless something of it is missing already."""
        self.looked_at.add(number)
        if number in self.missing:
            return
        try:
            check(*arguments)
        except Missing as why:
            self.missing[number] = why

    def met(self) -> Set[int]:
        """The demands that are met and count."""
        held = self.looked_at - set(self.missing)
        return held if held - self.given else set()

    def lines(self) -> Iterator[str]:
        """A line for each demand."""
        met = self.met()
        for number, demand_of in enumerate(self.demands, 1):
            why = self.missing.get(number)
            how = "ok" if number in met else "not counted" if number in self.looked_at else "not looked at"
            yield f"{number} missing: {why}" if why else f"{number} {how}: {demand_of}"
            yield from why.lines if why else ()


@dataclass
class Step:
    """A step of an environment, and its registers before it: `$0` to `$31`, HI and LO by their places in tools/registers.py."""

    row: Row
    registers: List[int]

    def access(self) -> Optional[int]:
        """The address to which a load or store goes, if this is one."""
        return None if self.row.word is None else access(self.row.word, self.registers)

    def stores_to(self) -> Optional[int]:
        """The address to which it stores, if it does."""
        return self.access() if self.row.word is not None and is_store(self.row.word) else None


def register_name(place: int) -> str:
    """The name of a register of a step."""
    return {HI: "HI", LO: "LO"}.get(place, f"${place}")


@dataclass
class Call:
    """A kernel call: its tick, the caller's registers, and the answer."""

    time: int
    number: int
    arguments: List[int]  # $4 to $8
    code: int
    value: int

    def answer(self) -> str:
        return f"{self.code} ({ANSWERS[self.code]})" if self.code in ANSWERS else str(self.code)

    def name(self) -> str:
        return f"call {self.number}" + (f" ({CALLS[self.number]})" if self.number < len(CALLS) else "")


def call_of(time: int, registers: Dict[str, str], told: Dict[str, str]) -> Call:
    """A call by the registers before it and those that it changed, as a trace has them."""
    number, *arguments, value = (int(registers.get(f"${place}", "0"), 16) for place in (2, 4, 5, 6, 7, 8, 3))
    return Call(time, number, arguments, int(told.get("$2", f"{number:x}"), 16), int(told.get("$3", f"{value:x}"), 16))


def aegis(*words: str, cwd: str) -> bytes:
    """What the program writes."""
    ran = subprocess.run([program(), *words], stdout=subprocess.PIPE, cwd=cwd)
    if ran.returncode == 2 and words[0] == "wire":
        raise Missing(f"Nothing can be looked at: {NO_WIRE}.")
    if ran.returncode:
        raise Missing(f"`aegis {' '.join(words)}` ended with {ran.returncode}: {ran.stdout.decode(errors='replace').strip()}")
    return ran.stdout


class Machine:
    """An image, which runs as long as one likes, and the folder with its files."""

    def __init__(self, lab: Optional[Lab], room: str, image: str, files: List[str]):
        self.lab, self.room, self.image = lab, room, image
        self.files = files  # the ELF file of each environment
        self.schedule = "/dev/null"
        self.reports: Dict[int, Report] = {}
        self.cpus: Dict[int, List[Environment]] = {}
        self.stepped: Dict[Tuple[int, int], List[Step]] = {}
        self.called: Dict[Tuple[int, int], List[Call]] = {}

    def run(self, ticks: int) -> Report:
        """The report of a run with this limit."""
        if ticks not in self.reports:
            self.reports[ticks] = read(self.written(ticks))
        return self.reports[ticks]

    def written(self, ticks: int) -> io.StringIO:
        """The text of the report."""
        said = aegis("run", self.image, self.schedule, str(ticks), cwd=self.room)
        return io.StringIO(said.decode("latin-1"), newline="\n")

    def steps(self, env: int, ticks: int) -> List[Step]:
        """The steps of an environment in a run with this limit. What a start of its slice puts into $26 isn't among its registers."""
        if (env, ticks) not in self.stepped:
            self.stepped[env, ticks] = list(self.replayed(env, ticks))
        return self.stepped[env, ticks]

    def replayed(self, env: int, ticks: int) -> Iterator[Step]:
        """The steps that an environment's trace tells. Where another enters it, all registers are the caller's."""
        text = aegis("trace", self.image, self.schedule, str(ticks), str(env), cwd=self.room).decode("latin-1")
        entered = [it.time for it in self.run(ticks).marks if it.kind in ("async", "sync") and it.env == env]
        registers = [0] * (LO + 1)
        registers[SP] = FIRST_STACK
        for row in read_trace(text):
            if entered and entered[0] < row.tick:
                registers = self.known(env, row.tick, registers)
                entered = [it for it in entered if it >= row.tick]
            yield Step(row, registers)
            if row.told:
                registers = registers.copy()
            for place, value in row.told.items():
                registers[place] = value

    def known(self, env: int, time: int, registers: List[int]) -> List[int]:
        """The registers of an environment after so many ticks, in the places of a step's; or these, where it doesn't live."""
        cpu = self.registers(env, time)
        if not cpu:
            return registers
        return [*cpu.registers, cpu.hi, cpu.lo]

    def environment(self, env: int, ticks: int) -> Environment:
        """What there is of an environment after so many ticks."""
        if ticks not in self.cpus:
            self.cpus[ticks] = read_head(Lines(self.written(ticks))).environments
        return self.cpus[ticks][env]

    def registers(self, env: int, ticks: int) -> Optional[Cpu]:
        """The registers of an environment after so many ticks, where it lives."""
        return self.environment(env, ticks).cpu

    def own_ticks(self, env: int, since: int, ticks: int) -> Iterator[int]:
        """The ticks from `since` on in which an environment runs, in a run with this limit."""
        for piece in self.run(ticks).slices:
            if piece.env == env:
                yield from range(max(piece.start, since), piece.end)

    def calls(self, env: int, ticks: int, since: int = 0, until: Optional[int] = None) -> Iterator[Call]:
        """The calls of an environment that goes on after each of them, from one time on up to another, in a run with this limit."""
        if ticks > MOST_TRACED:
            yield from self.untraced_calls(env, ticks, since, until)
            return
        if (env, ticks) not in self.called:
            self.called[env, ticks] = list(self.traced_calls(env, ticks))
        for call in self.called[env, ticks]:
            if until is not None and call.time >= until:
                return
            if call.time >= since:
                yield call

    def traced_calls(self, env: int, ticks: int) -> Iterator[Call]:
        """The calls that an environment's trace tells. Its other lines are many, and only change registers."""
        text = aegis("trace", self.image, self.schedule, str(ticks), str(env), cwd=self.room).decode("latin-1")
        entered = [it.time for it in self.run(ticks).marks if it.kind in ("async", "sync") and it.env == env]
        registers: Dict[str, str] = {}  # by their names in the trace, in its digits
        slot = ""  # the address of the delay slot that is next, if one is
        for line in lines_of(text):
            tick, pc, word, name, *rest = line.split(" ")
            if entered and entered[0] < int(tick):
                known = self.known(env, int(tick), [])
                registers = {f"${place}": f"{value:x}" for place, value in enumerate(known)} or registers
                entered = [it for it in entered if it >= int(tick)]
            is_dead = rest[-1:] == ["dead"]
            told = {} if is_dead else dict(zip(rest[len(rest) % 2::2], rest[len(rest) % 2 + 1::2]))  # operands are one word or none
            if name == "syscall" and pc != slot and not is_dead:
                yield call_of(int(tick), registers, told)
            registers.update(told)
            slot = f"{int(pc, 16) + 4:08x}" if name[0] in "bj" and is_jump(int(word, 16)) else ""

    def untraced_calls(self, env: int, ticks: int, since: int, until: Optional[int]) -> Iterator[Call]:
        """The same where there is no trace: the registers are looked at before and after each tick in which it runs."""
        listing = aegis("list", self.files[env], cwd=self.room).decode().splitlines()
        places = {int(line[:8], 16) for line in listing if re.match("syscall", line[18:])}
        for time in self.own_ticks(env, since, ticks):
            if until is not None and time >= until:
                return
            before = self.registers(env, time)
            if not before or before.pc not in places or before.slot:
                continue
            after = self.registers(env, time + 1)
            if after:
                yield Call(time, before.registers[2], before.registers[4:9], *after.registers[2:4])

    def place(self, env: int, time: int) -> List[str]:
        """The line of the source at which an environment stands after so many ticks."""
        cpu = self.registers(env, time)
        if not cpu:
            return []
        name = f"{os.path.splitext(self.files[env])[0]}.s"
        if self.lab is not None and self.lab.is_c and name == f"{self.lab.name}.s":
            return c_sources.place(self.lab.shown, self.room, self.lab.name, cpu.pc)
        with open(f"{self.room}/{name}", encoding="latin-1", newline="\n") as file:
            statement = read_source(file.read()).at(cpu.pc)
        if not statement:
            return [f"   at 0x{cpu.pc:08x}, where no instruction of the program's text is"]
        assert self.lab is not None, "places are named by the checker of a lab"
        path = self.lab.shown if name == f"{self.lab.name}.s" else os.path.relpath(f"{self.lab.folder}/{name}")
        return [f"   {path}:{statement.line}: {decoded(statement.text).strip()}"]

    def refused_again(self, env: int, ticks: int) -> str:
        """Which call of an environment is refused again and again at the end of a run, as the end of a sentence."""
        own = list(self.own_ticks(env, 0, ticks))[-LAST_TICKS:]
        refused = [it for it in self.calls(env, ticks, own[0]) if it.code] if own else []
        last = next((it for it in refused[::-1] if sum(it.number == one.number for one in refused) > 1), None)
        if not last:
            return ""
        said = f": its {last.name()} is refused again and again, with {last.answer()}"
        first = next((it for it in self.calls(env, ticks, 0, FIRST_TICKS) if it.number == last.number), last)
        spoilt = [f"${at} is 0x{new:x} and was 0x{old:x} at the first try" for at, (old, new) in
                  enumerate(zip(first.arguments, last.arguments), 4) if old != new]
        return said + (f"; {', '.join(spoilt)}: what another call takes stands in it" if spoilt else "")


class Net:
    """Machines on a wire, with a delay, which run as long as one likes."""

    def __init__(self, machines: Sequence[Machine], delay: int):
        self.files = [word for it in machines for word in (f"{it.room}/{it.image}", "/dev/null")]
        self.delay = delay
        self.texts: Dict[int, List[str]] = {}
        self.machines = [WiredMachine(self, at, it) for at, it in enumerate(machines)]

    def written(self, at: int, ticks: int) -> str:
        """The text of a machine's report."""
        if ticks not in self.texts:
            said = aegis("wire", str(self.delay), str(ticks), *self.files, cwd=self.machines[at].room)
            self.texts[ticks] = reports(said.decode("latin-1"))
        return self.texts[ticks][at]


class WiredMachine(Machine):
    """A machine on a wire."""

    def __init__(self, net: Net, at: int, alone: Machine):
        super().__init__(alone.lab, alone.room, alone.image, alone.files)
        self.net, self.at = net, at

    def written(self, ticks: int) -> io.StringIO:
        return io.StringIO(self.net.written(self.at, ticks), newline="\n")

    def calls(self, env: int, ticks: int, since: int = 0, until: Optional[int] = None) -> Iterator[Call]:
        return self.untraced_calls(env, ticks, since, until)


class Lab:
    """An exercise with a student's source, in a folder of its own."""

    def __init__(self, source: str, folder: str, room: str):
        self.source, self.folder, self.room = os.path.abspath(source), folder, room
        self.shown = shown(source)
        self.name = os.path.basename(folder)
        self.is_c = c_sources.is_c(source)
        self.folders = 0
        self.compiled: Dict[Tuple[Tuple[str, int], ...], bytes] = {}  # ELF files of a source in C, by the values in it

    def folder_of(self, values: Values) -> str:
        """A folder with the exercise's files and the source, all assembled or compiled with these values in place of the sources' own."""
        self.folders += 1
        room, own = f"{self.room}/{self.folders}", f"{self.name}.s"
        os.mkdir(room)
        for name in os.listdir(self.folder):
            if name.endswith((".s", ".txt")) and name != own:
                # the contents alone: an installation may be read-only
                shutil.copyfile(f"{self.folder}/{name}", f"{room}/{name}")
        if self.is_c:
            self.compile(room, values.get(own, {}))
        else:
            shutil.copyfile(self.source, f"{room}/{own}")
        for name in sorted(os.listdir(room)):
            if name.endswith(".s"):
                self.assemble(room, name, values.get(name, {}))
        return room

    def compile(self, room: str, values: Dict[str, int]) -> None:
        """Makes the ELF file of the source, which is in C, with these values."""
        key = tuple(sorted(values.items()))
        try:
            c_sources.put(self.source, room, self.name, values)
            if key not in self.compiled:
                self.compiled[key] = c_sources.compiled(self.source, self.shown, room, self.name)
        except c_sources.Refused as why:
            raise Missing(str(why), *why.lines) from None
        with open(f"{room}/{self.name}.elf", "wb") as file:
            file.write(self.compiled[key])

    def machine(self, manifest: str, values: Optional[Values] = None, quantum: Optional[int] = None) -> Machine:
        """The machine of a manifest, in which these values stand in place of the sources' own, and slices are as long
        as its own or as this quantum."""
        room = self.folder_of(values or {})
        with open(f"{room}/{manifest}", encoding="ascii") as file:
            text = file.read()
        if quantum is not None:
            text = re.sub(r"(?m)^quantum \d+", f"quantum {quantum}", text)
        if self.is_c:
            text = re.sub(rf"(?m)^(env \w+ elf) 0 (.* {self.name}\.elf)$", rf"\1 {c_sources.STACK} \2", text)
        with open(f"{room}/{manifest}", "w", encoding="ascii") as file:
            file.write(text)
        with open(f"{room}/image", "wb") as image:
            image.write(aegis("image", manifest, cwd=room))
        return Machine(self, room, "image", re.findall(r"(?m)^env .* (\S+)$", text))

    def assemble(self, room: str, name: str, values: Dict[str, int]) -> None:
        """Makes the ELF file of a source in which these values stand."""
        with open(f"{room}/{name}", encoding="latin-1", newline="\n") as file:
            text = file.read()
        for word, value in values.items():
            text, found = re.subn(rf"(?m)^([ \t]*\.equ[ \t]+{word}[ \t]*,)[^#\n]*", rf"\g<1> {value}\t", text)
            if found != 1:
                raise Missing(f"The source has {found} lines `.equ {word}, ..`, and it needs one, in which the checker puts other numbers.")
        with open(f"{room}/{name}", "w", encoding="latin-1", newline="\n") as file:
            file.write(text)
        ran = subprocess.run([program(), "asm", name], stdout=subprocess.PIPE, cwd=room)
        if ran.returncode:
            why = f"The assembler refuses the source: {ran.stdout.decode(errors='replace').strip()}."
            raise Missing(why, *(self.refused() if name == f"{self.name}.s" else ()))
        with open(f"{room}/{os.path.splitext(name)[0]}.elf", "wb") as file:
            file.write(ran.stdout)

    def refused(self) -> List[str]:
        """What tools/try says of a source that is refused."""
        words = [sys.executable, f"{TOOLS}/try", self.source]
        ran = subprocess.run(words, env={**os.environ, "AEGIS": program()}, stdout=subprocess.PIPE)
        return [f"   {line}" for line in ran.stdout.decode(errors="replace").replace(self.source, self.shown).splitlines()]

    def warnings(self) -> List[str]:
        """What tools/lint warns of in the source, which has no words for one in C."""
        if self.is_c:
            return []
        with open(self.source, encoding="latin-1", newline="\n") as file:
            found: List[str] = loaded(f"{TOOLS}/lint").shown_warnings(self.shown, read_source(file.read()))
        return found


def demand(holds: bool, sentence: str) -> None:
    """Says what is missing, where it is."""
    if not holds:
        raise Missing(sentence)


def marks(report: Report, kind: str) -> List[Mark]:
    """The rows of a kind that are no slices."""
    return [mark for mark in report.marks if mark.kind == kind]


def ended(report: Report, env: int) -> Optional[int]:
    """The tick in which an environment ended, if it did."""
    return next((mark.time for mark in report.marks if mark.kind in ("dead", "exit") and mark.env == env), None)


def printed(env: Environment) -> str:
    """What an environment printed, in a sentence."""
    return repr(env.text().decode("utf-8", errors="backslashreplace"))


def fate(report: Report, env: Environment) -> str:
    """How an environment ended, as the end of a sentence."""
    if env.life == "live":
        return f"still lives after {report.head.time:,} ticks"
    when = f"in tick {ended(report, env.number):,}"
    return f"died of {env.why} {when}, {CAUSES[env.why]}" if env.life == "dead" else f"exited with {env.why} {when}"


def where(machine: Machine, report: Report, env: int) -> List[str]:
    """The line of the source at which an environment died, or stands."""
    time = ended(report, env)
    return machine.place(env, report.head.time if time is None else time)


def demand_alive(machine: Machine, ticks: int, who: str, env: int = 0, why: str = "") -> None:
    """It neither died nor exited in a run with this limit. `why` is what usually is the reason of a death."""
    report = machine.run(ticks)
    it = report.head.environments[env]
    if it.life != "live":
        reason = f": {why}" if why and it.life == "dead" else ""
        raise Missing(f"{who} is to live on, and it {fate(report, it)}{reason}.", *where(machine, report, env))


def demand_exit(machine: Machine, ticks: int, who: str, env: int) -> None:
    """It exited with 0 in a run with this limit."""
    report = machine.run(ticks)
    it = report.head.environments[env]
    if (it.life, it.why) != ("exit", "0"):
        again = machine.refused_again(env, ticks) if it.life == "live" else ""
        raise Missing(f"{who} is to exit with 0, and it {fate(report, it)}{again}.", *where(machine, report, env))


def result(lab: Lab, sheet: Sheet, check: Callable[[Lab, Sheet], str]) -> int:
    """Makes the checks and prints what they say; the status."""
    lines = lab.warnings()
    try:
        done = check(lab, sheet)
    except Missing as why:
        lines += [str(why), *why.lines]
        lines += [f"{number} not looked at: {text}" for number, text in enumerate(sheet.demands, 1)]
        met = 0
    else:
        lines += sheet.lines()
        met = len(sheet.met())
    of_all = f"{met} of {len(sheet.demands)} demands are met."
    lines.append(f"{lab.name}: done. {done}" if met == len(sheet.demands) else f"{lab.name}: {of_all}")
    print("\n".join(map(shown, lines)))
    return 0 if met == len(sheet.demands) else 1


def main(check: Callable[[Lab, Sheet], str], demands: Sequence[str], script: str, given: Iterable[int] = ()) -> int:
    """Runs a checker on the source that the words name, and prints what is met. The demands of these numbers are met by the
    unchanged source too."""
    folder = os.path.dirname(os.path.realpath(script))
    if len(sys.argv) != 2 or not os.path.isfile(sys.argv[1]) or not os.access(sys.argv[1], os.R_OK):
        print(f"{script} SOURCE: a source in assembly or in C", file=sys.stderr)
        return 2
    open_output()
    with tempfile.TemporaryDirectory(prefix="aegis-lab-") as room:
        return result(Lab(sys.argv[1], folder, room), Sheet(demands, set(given)), check)
