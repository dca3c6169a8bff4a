"""What the laws of `revocation_law` say of a run, tested on its report and its traces.

The rows `asked`, `take` and `dead` of a report are in the order in which that happened. The traces tell which calls were
granted, and which were answered 22. From both this computes again whose each page is, which are backups, and what is pending;
docs/KERNEL.md, "Revocation", has the rules. It shares nothing with the program or with the definitions.
"""
from __future__ import annotations

import re
from typing import Dict, Iterable, List, NamedTuple, Optional, Set, Tuple

ALLOC, FREE, BACKUP, GRANTED, AGAIN, ANY = 3, 4, 18, 0, 22, 0xFFFFFFFF
SYSCALL, STACK_POINTER, FIRST_STACK = "0000000c", 29, 0x7FFEFFF0
TAKEN, PRESSURE, HELPS = "law_taken", "law_pressure", "law_again_helps"
CHANGE = re.compile(r" \$(\d+) ([0-9a-f]{8})(?= |$)")


class Row(NamedTuple):
    """A row `asked`, `take` or `dead`: its tick, whom it names, and its other numbers."""

    name: str
    tick: int
    env: int
    rest: Tuple[int, ...]


class Call(NamedTuple):
    """A call for a page, of a free or of a backup, with its argument and its answer."""

    env: int
    number: int
    argument: int
    code: int
    value: int


class Request(NamedTuple):
    """How many pages an environment has to give, and until when."""

    pages: int
    deadline: int


class Broken(Exception):
    """A law that a run breaks, and where."""

    def __init__(self, law: str, why: str):
        super().__init__(f"{law}: {why}")
        self.law = law


def rows_of(report: str) -> List[Row]:
    """A row `dead` has its slot before the environment."""
    rows = []
    for line in report.splitlines():
        name, *numbers = line.split()
        if name in ("asked", "take"):
            tick, env, *rest = numbers
            rows.append(Row(name, int(tick), int(env), tuple(int(it) for it in rest if it != "-")))
        elif name == "dead":
            rows.append(Row(name, int(numbers[0]), int(numbers[2]), ()))
    return rows


def end_of(report: str) -> int:
    """How many ticks were made."""
    found = re.search(r"^end (?:limit|idle) (\d+)$", report, re.M)
    assert found
    return int(found[1])


def calls_of(env: int, trace: str) -> Dict[int, Call]:
    """By tick the calls of a trace, of an environment that nobody enters and that has no handler."""
    registers = [0] * 32
    registers[STACK_POINTER] = FIRST_STACK
    calls = {}
    for line in trace.splitlines()[1:]:
        words = line.split()
        if not words[0].isdigit():
            break
        number, argument = registers[2], registers[4]
        for register, value in CHANGE.findall(line):
            registers[int(register)] = int(value, 16)
        if words[2] == SYSCALL and number in (ALLOC, FREE, BACKUP):
            calls[int(words[0])] = Call(env, number, argument, registers[2], registers[3])
    return calls


class Run:
    """A run, which is told again tick by tick, and is tested by one law, or by all."""

    def __init__(self, quantum: int, events: Iterable[Tuple[int, int, int, int]], rows: List[Row], calls: Dict[int, Call], end: int, law: str = ""):
        self.quantum, self.calls, self.law = quantum, calls, law
        self.events = [(tick, env, tick + grace) for tick, env, _, grace in events]
        self.rows: Dict[int, List[Row]] = {}
        for row in rows:
            self.rows.setdefault(row.tick, []).append(row)
        # in other ticks nothing happens, no deadline comes, and two quanta after no answer are over
        ticks = {*self.rows, *calls, *(tick for tick, _, _ in self.events)}
        ticks |= {row.rest[1] for row in rows if row.name == "asked"}
        ticks |= {tick + 2 * quantum for tick, call in calls.items() if call.code == AGAIN}
        self.ticks = sorted(tick for tick in ticks if tick < end)
        self.owned: Dict[int, int] = {}  # by page, whose it is
        self.backups: Set[int] = set()
        self.dead: Set[int] = set()
        self.requests: Dict[int, Request] = {}  # what each environment was told last
        self.pending: Dict[int, Request] = {}
        self.last_taken: Dict[int, int] = {}
        self.open: List[Tuple[int, int]] = []  # answers 22 that nothing relieved yet: the tick, and whom it names
        self.relieved: Set[int] = set()  # who gave a page in this tick, or couldn't
        self.answers = 0

    def must(self, law: str, holds: object, why: str) -> None:
        if not holds and self.law in ("", law):
            raise Broken(law, why)

    def is_unnamed(self, env: int, last: int) -> bool:
        return all(env != named or tick > last for tick, named, _ in self.events)

    def revocable(self, env: int) -> int:
        return sum(owner == env and page not in self.backups for page, owner in self.owned.items())

    def test(self) -> int:
        """How many answers 22 were followed; Broken if a law is."""
        for tick in self.ticks:
            self.relieved = set()
            rows = self.rows.get(tick, [])
            named = [(env, deadline) for at, env, deadline in self.events if at == tick]
            outside = [row for row in rows if row.name == "asked" and (row.env, row.rest[1]) in named]
            for row in outside:
                self.ask(row)
            self.serve(tick, [row for row in rows if row.name == "take"])
            self.step(self.calls.get(tick))
            for row in rows:
                if row.name == "asked" and row not in outside:
                    self.ask(row)
                elif row.name == "dead":
                    self.die(row.env)
            self.follow(tick)
        return self.answers

    def ask(self, row: Row) -> None:
        self.requests[row.env] = self.pending[row.env] = Request(*row.rest)

    def serve(self, tick: int, rows: List[Row]) -> None:
        """The deadlines of a tick: whoever has none to give; then what is taken."""
        due = [env for env, request in self.pending.items() if request.deadline <= tick]
        self.relieved |= {env for env in due if not self.revocable(env)}
        for row in rows:
            self.take(row)
        for env in due:
            del self.pending[env]

    def take(self, row: Row) -> None:
        request = self.requests.get(row.env, Request(0, row.tick))
        self.must(TAKEN, request.pages, f"{row} wasn't asked for")
        self.must(TAKEN, request.deadline == row.tick, f"{row} isn't at the deadline {request.deadline}")
        self.requests[row.env] = Request(max(request.pages - 1, 0), request.deadline)
        before = self.last_taken.get(row.env)
        if before is not None and self.is_unnamed(row.env, row.tick):
            self.must(PRESSURE, before + 2 * self.quantum <= row.tick, f"{row} comes {row.tick - before} ticks after the one before it")
        self.last_taken[row.env] = row.tick
        self.owned.pop(row.rest[0], None)
        self.backups -= set(row.rest)
        self.relieved.add(row.env)

    def step(self, call: Optional[Call]) -> None:
        if call is None:
            return
        if call.number == ALLOC and call.code == AGAIN:
            self.open.append((-1, call.value))
        if call.code != GRANTED:
            return
        if call.number == ALLOC:
            self.owned[call.value] = call.env
        elif call.number == BACKUP:
            self.backups.add(call.argument)
        else:
            self.free(call.env, call.argument)

    def free(self, env: int, page: int) -> None:
        self.owned.pop(page, None)
        self.backups.discard(page)
        self.relieved.add(env)
        if env in self.pending:
            left = Request(self.pending[env].pages - 1, self.pending[env].deadline)
            if left.pages:
                self.pending[env] = left
            else:
                del self.pending[env]

    def die(self, env: int) -> None:
        gone = {page for page, owner in self.owned.items() if owner == env}
        self.owned = {page: owner for page, owner in self.owned.items() if owner != env}
        self.backups -= gone
        self.pending.pop(env, None)
        self.dead.add(env)

    def follow(self, tick: int) -> None:
        """Each answer 22 of an earlier tick is relieved in this one, or its deadline is still to come."""
        still = []
        for answered, env in self.open:
            if answered == -1:
                still.append((tick, env))
                self.answers += 1
            elif env not in self.relieved and env not in self.dead:
                request, last = self.pending.get(env), answered + 2 * self.quantum
                after = f"after the answer in tick {answered}"
                self.must(HELPS, request and request.deadline > tick, f"{env} has given nothing by tick {tick}, {after}, and has no time left")
                self.must(HELPS, tick < last or not self.is_unnamed(env, last), f"{env} has given nothing by tick {tick}, two quanta {after}")
                still.append((answered, env))
        self.open = still
