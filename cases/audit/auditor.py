"""A second auditor, written from docs/LEDGER_AUDIT.md alone: a report and a plan are read, and each row, each sum and the
end are tested by what the rows before them say."""
from __future__ import annotations

import re
from typing import Any, Dict, List, Optional, Sequence, Set, Tuple

Kind = Tuple[str, int]  # of a number: its name and its limit
Row = List[Any]  # a name and numbers, of which a dash is none

MOST_TIME, LAST_SLOT, LAST_ENV, MOST_EXCESS, MOST_NUMBER = 4_194_304, 63, 31, 9, 2**32 - 1
MOST_PACKET = 1_514
LEAST_CLIENTS, MOST_CLIENTS, MOST_SHARE, STRIDE_UNIT = 2, 8, 12, 27_720
TIME, SLOT, ENV, EXCESS, NUMBER = (("time", MOST_TIME), ("slot", LAST_SLOT), ("env", LAST_ENV), ("excess", MOST_EXCESS), ("number", MOST_NUMBER))
ROWS = {
    "own": (TIME, SLOT, ENV, ENV), "run": (TIME, SLOT, ENV), "pay": (TIME, SLOT, ENV), "stop": (TIME, SLOT, ENV),
    "end": (TIME, SLOT, ENV), "dead": (TIME, SLOT, ENV), "give": (TIME, SLOT, ENV, ENV), "async": (TIME, SLOT, ENV, ENV),
    "sync": (TIME, SLOT, ENV, ENV), "over": (TIME, SLOT, ENV, EXCESS), "asked": (TIME, ENV, NUMBER, NUMBER),
    "take": (TIME, ENV, NUMBER, NUMBER), "drop": (TIME, NUMBER)}
# The first words of an environment's lines, and those behind which each may stand.
BEHIND = {
    "env": ("end line", "out", "excess", "keep", "page", "bind", "sent"), "out": ("env",), "cpu": ("out",), "regs": ("cpu",),
    "excess": ("regs",), "keep": ("excess", "keep"), "page": ("excess", "keep", "page"), "bind": ("excess", "keep", "page", "bind"),
    "sent": ("out", "excess", "keep", "page", "bind", "sent")}
ENV_ENDS = ("out", "excess", "keep", "page", "bind", "sent")


class Fault(Exception):
    """A text that is refused: why, and in which line."""

    def __init__(self, why: str, line: int):
        super().__init__(f"{why} {line}")


def lines_of(text: bytes) -> List[bytes]:
    """The lines of a text, and the number behind the last of them."""
    pieces = text.split(b"\n")
    last = pieces.pop()
    lines = [piece[:-1] if piece.endswith(b"\r") else piece for piece in pieces]
    return lines + ([last] if last else [])


def is_number(word: bytes) -> bool:
    return re.fullmatch(rb"[0-9]+", word) is not None


def numbers(words: Sequence[bytes], kinds: Sequence[Kind], line: int, dashed: Sequence[int] = ()) -> List[Any]:
    """The numbers of words, where dashes may stand at some places. Forms are tested before limits."""
    if len(words) != len(kinds) or not all(is_number(word) or at in dashed and word == b"-" for at, word in enumerate(words)):
        raise Fault("Syntax", line)
    values = [None if word == b"-" else int(word) for word in words]
    if any(value is not None and value > most for value, (_, most) in zip(values, kinds)):
        raise Fault("Range", line)
    return values


def read_row(name: str, words: List[bytes], line: int) -> Row:
    if name == "own" and (words[2:3] == [b"-"]) != (words[3:4] == [b"-"]):
        raise Fault("Syntax", line)
    return [name, *numbers(words, ROWS[name], line, {"own": (2, 3), "take": (3,)}.get(name, ()))]


class Ledger:
    """What a report says: how the run ended and when, how many environments it has, its rows and its sums, each with its
    line, and the line of `done`."""

    def __init__(self, text: bytes):
        self.rows: List[Tuple[int, Row]] = []
        self.sums: List[Tuple[int, List[int]]] = []
        self.environments = 0
        last = "nothing"
        lines = lines_of(text)
        self.done = len(lines)
        for line, content in enumerate(lines, 1):
            last = self.read(line, content, last)
        if last != "done":
            raise Fault("Syntax", len(lines) + 1)

    def read(self, line: int, content: bytes, last: str) -> str:
        """Reads a line behind one of this kind; its own kind."""
        first, *words = content.split(b" ")
        name = first.decode("latin-1")
        if last == "nothing" or name == "aegis":
            if last != "nothing" or content != b"aegis run":
                raise Fault("Syntax", line)
            return "title"
        if last == "title":
            if name != "end" or len(words) != 2 or words[0] not in (b"limit", b"idle"):
                raise Fault("Syntax", line)
            self.idle = words[0] == b"idle"
            self.time, = numbers(words[1:], (TIME,), line)
            return "end line"
        if name in BEHIND:
            if last not in BEHIND[name]:
                raise Fault("Syntax", line)
            self.environments += name == "env"
            return name
        if name in ROWS:
            if last not in ("row", *ENV_ENDS):
                raise Fault("Syntax", line)
            self.rows.append((line, read_row(name, words, line)))
            return "row"
        if last not in ("row", "sum", *ENV_ENDS):
            raise Fault("Syntax", line)
        if name == "sum":
            self.sums.append((line, numbers(words, (ENV, NUMBER, NUMBER, NUMBER), line)))
            return "sum"
        if content != b"done":
            raise Fault("Syntax", line)
        return "done"


class Plan:
    """Who hands slices on, and the share of each client."""

    def __init__(self, text: bytes):
        self.shares: Dict[int, int] = {}
        lines = lines_of(text)
        for line, content in enumerate(lines, 1):
            name, *words = content.split(b" ")
            if line == 1:
                if name != b"from":
                    raise Fault("Syntax", line)
                self.scheduler, = numbers(words, (ENV,), line)
                continue
            if name != b"client" or len(self.shares) == MOST_CLIENTS:
                raise Fault("Syntax", line)
            client, share = numbers(words, (ENV, ("share", MOST_SHARE)), line)
            if share == 0 or client == self.scheduler or any(client <= other for other in self.shares):
                raise Fault("Range", line)
            self.shares[client] = share
        if len(self.shares) < LEAST_CLIENTS:
            raise Fault("Syntax", len(lines) + 1)


class Auditor:
    """The rows of a ledger, and what those before a place say."""

    def __init__(self, ledger: Ledger, quantum: int, plan: Optional[Plan]):
        self.ledger, self.quantum, self.plan = ledger, quantum, plan
        self.rows = [row for _, row in ledger.rows]
        self.counts = {name: [0] * (LAST_ENV + 1) for name in ("run", "pay", "over")}
        self.gifts = [0] * (LAST_ENV + 1)
        self.slots: Dict[int, Tuple[int, int]] = {}
        self.cursor = LAST_SLOT
        self.dead: Set[int] = set()
        self.runner: Optional[int] = None
        self.asked_by: Optional[int] = None
        self.boot_slot: Optional[int] = None
        self.grace, self.slice_start, self.grace_start, self.next_turn, self.time = False, 0, 0, 0, 0
        self.is_boot = True
        self.due: List[Row] = []

    def excess(self, env: int) -> int:
        return 0 if env in self.dead else max(0, self.counts["over"][env] - self.counts["pay"][env])

    def limit(self) -> int:
        return self.grace_start + self.quantum if self.grace else self.slice_start + self.quantum - 1

    def answer(self) -> Optional[int]:
        """The line of the first fault, or none."""
        for place, (line, row) in enumerate(self.ledger.rows):
            if not self.is_fit(place, *row):
                return line
            self.note(*row)
        for env, (line, (number, *sums)) in enumerate(self.ledger.sums):
            if number != env or sums != [self.counts[name][env] for name in ("run", "pay", "over")]:
                return line
        return None if self.is_end() else 2

    def is_end(self) -> bool:
        if self.runner is not None:
            return not self.ledger.idle and self.ledger.time <= self.limit()
        return self.ledger.time == self.next_turn and not (self.ledger.idle and self.slots)

    def is_fit(self, place: int, name: str, time: int, *numbers_behind: Any) -> bool:
        if name == "own" and self.is_boot:
            slot, owner, holder = numbers_behind
            return time == 0 and owner == holder and (self.boot_slot is None or self.boot_slot < slot)
        if time < self.time or time >= self.ledger.time or self.runner is not None and time > self.limit():
            return False
        return getattr(self, "fits_" + name, lambda *_: True)(place, time, *numbers_behind)

    def fits_own(self, place: int, time: int, slot: int, owner: Optional[int], holder: Optional[int]) -> bool:
        if self.due:
            return self.due[0] == ["own", time, slot, owner, holder]
        if self.runner is None:
            return False
        if slot not in self.slots:
            return owner == holder == self.runner
        of, held = self.slots[slot]
        return held == self.runner and (owner, holder) == ((None, None) if of == self.runner else (of, of))

    def is_turn(self, time: int, slot: int, env: int) -> bool:
        order = [(self.cursor + step) % (LAST_SLOT + 1) for step in range(1, LAST_SLOT + 2)]
        held = [at for at in order if at in self.slots]
        return self.runner is None and time == self.next_turn and env not in self.dead and held[:1] == [slot] and self.slots[slot][1] == env

    def fits_run(self, _: int, time: int, slot: int, env: int) -> bool:
        return self.is_turn(time, slot, env) and self.excess(env) == 0

    def fits_pay(self, _: int, time: int, slot: int, env: int) -> bool:
        return self.is_turn(time, slot, env) and self.excess(env) > 0

    def is_runners(self, slot: int, env: int) -> bool:
        return self.runner == env and slot == self.cursor

    def is_gift(self, slot: int, giver: int, to: int) -> bool:
        return self.is_runners(slot, giver) and giver != to and to not in self.dead and not self.grace

    def fits_give(self, _: int, time: int, slot: int, giver: int, to: int) -> bool:
        return self.is_gift(slot, giver, to) and (self.plan is None or giver != self.plan.scheduler or to == self.next_client(self.plan))

    def next_client(self, plan: Plan) -> int:
        return min(plan.shares, key=lambda client: (self.gifts[client] * STRIDE_UNIT // plan.shares[client], client))

    def fits_async(self, _: int, time: int, slot: int, giver: int, to: int) -> bool:
        return self.is_gift(slot, giver, to)

    def fits_sync(self, place: int, time: int, slot: int, giver: int, to: int) -> bool:
        if not self.is_gift(slot, giver, to) or slot not in self.slots or self.slots[slot][1] != giver:
            return False
        return self.rows[place + 1:place + 2] == [["own", time, slot, self.slots[slot][0], to]]

    def fits_end(self, _: int, time: int, slot: int, env: int) -> bool:
        return self.is_runners(slot, env) and not self.grace and time == self.limit()

    def fits_over(self, place: int, time: int, slot: int, env: int, excess: int) -> bool:
        dies = [row[:2] + row[3:] for row in self.rows[place + 1:place + 2]] == [["dead", time, env]]
        return self.is_runners(slot, env) and self.grace and time == self.limit() and excess == self.excess(env) + 1 and dies == (excess == MOST_EXCESS)

    def fits_stop(self, _: int, time: int, slot: int, env: int) -> bool:
        return self.is_runners(slot, env)

    def rows_of_death(self, time: int, env: int) -> List[Row]:
        changed = {slot: (None, None) if owner == env else (owner, owner) for slot, (owner, holder) in self.slots.items() if env in (owner, holder)}
        return [["own", time, slot, *changed[slot]] for slot in sorted(changed)]

    def fits_dead(self, place: int, time: int, slot: int, env: int) -> bool:
        due = self.rows_of_death(time, env)
        return self.is_runners(slot, env) and self.rows[place + 1:place + 1 + len(due)] == due

    def note(self, name: str, time: int, *numbers_behind: Any) -> None:
        """What holds behind a row."""
        self.time, was_boot = time, self.is_boot
        self.is_boot = was_boot and name == "own"
        if name == "own":
            slot, owner, holder = numbers_behind
            self.boot_slot, self.due = slot, self.due[1:]
            self.slots.pop(slot, None)
            if owner is not None:
                self.slots[slot] = (owner, holder)
            return
        self.due = []
        if name in ("asked", "take", "drop"):
            return
        slot, env, *rest = numbers_behind
        if name in self.counts:
            self.counts[name][env] += 1
        if name in ("run", "pay"):
            self.cursor = slot
        if name == "run":
            self.runner, self.grace, self.slice_start = env, False, time
        elif name in ("give", "async", "sync"):
            self.runner = rest[0]
            if name == "give" and self.plan is not None and env == self.plan.scheduler:
                self.gifts[rest[0]] += 1
            if name == "sync":
                self.due = [["own", time, slot, self.slots[slot][0], rest[0]]]
        elif name in ("end", "over"):
            self.grace, self.grace_start = name == "end" or self.grace, time
        elif name in ("stop", "dead"):
            self.runner, self.next_turn = None, time + 1
            if name == "dead":
                self.due = self.rows_of_death(time, env)
                self.dead.add(env)


class StrictAuditor:
    """The second table: who has pages to give still, and until when, by the rows before a place."""

    def __init__(self, ledger: Ledger):
        self.ledger = ledger
        self.requests: Dict[int, Tuple[int, int]] = {}  # of an environment: how many pages, and the deadline
        self.dead: Set[int] = set()

    def answer(self) -> Optional[int]:
        """The line of the first fault, or none."""
        for line, (name, time, *numbers_behind) in self.ledger.rows:
            if not self.are_there(name, numbers_behind) or not getattr(self, "fits_" + name, lambda *_: True)(time, *numbers_behind):
                return line
            getattr(self, "note_" + name, lambda *_: None)(*numbers_behind)
        sums, count = self.ledger.sums, self.ledger.environments
        if len(sums) < count:
            return self.ledger.done
        return sums[count][0] if len(sums) > count else None

    def are_there(self, name: str, numbers_behind: List[Any]) -> bool:
        """Whether each environment that a row names has its lines."""
        kinds = ROWS[name][1:]
        return all(value is None or value < self.ledger.environments for kind, value in zip(kinds, numbers_behind) if kind == ENV)

    def fits_asked(self, time: int, env: int, pages: int, deadline: int) -> bool:
        return env not in self.dead and pages > 0 and deadline >= time

    def fits_take(self, time: int, env: int, *_: Any) -> bool:
        pages, deadline = self.requests.get(env, (0, 0))
        return pages > 0 and deadline == time

    def fits_drop(self, _: int, size: int) -> bool:
        return 1 <= size <= MOST_PACKET

    def note_asked(self, env: int, pages: int, deadline: int) -> None:
        self.requests[env] = pages, deadline

    def note_take(self, env: int, *_: Any) -> None:
        pages, deadline = self.requests[env]
        self.requests[env] = pages - 1, deadline

    def note_dead(self, _: int, env: int) -> None:
        self.requests.pop(env, None)
        self.dead.add(env)


def answer_to(report: bytes, quantum: int, plan: Optional[bytes] = None, names: Tuple[str, str] = ("report", "plan"),
              strict: bool = False) -> Tuple[int, str]:
    """The status and the output of `audit`, for these texts, by the first table or by both."""
    try:
        name = names[0]
        ledger = Ledger(report)
        name = names[1]
        rules = Plan(plan) if plan is not None else None
    except Fault as fault:
        return 3, f"aegis: {name}: {fault}\n"
    line = Auditor(ledger, quantum, rules).answer()
    if line is None and strict:
        line = StrictAuditor(ledger).answer()
    return (0, f"audit ok {len(ledger.rows)}\n") if line is None else (1, f"audit line {line}\n")
