"""Lies that a kernel could tell: a report with rows that no run has, and the line in which the strict audit has to find them.

Each lie is made of a true report. It changes rows or sums so that the first table of docs/LEDGER_AUDIT.md still holds, and
knows the line that breaks the second one by what it changed. A report in which it can't be told has no such lie.
"""
from __future__ import annotations

import random
from typing import Callable, Dict, List, Optional, Tuple

Row = List[str]
Lie = Tuple[List[Row], int]  # the words of each line, and the number of the wrong one
NOBODY = "31"  # an environment that the systems don't have
GIFTS, CALM = ("give", "async", "sync"), ("asked", "take", "drop")


class Report:
    """The words of a true report's lines, and what its rows say."""

    def __init__(self, text: bytes, chance: random.Random):
        self.lines = [line.split(" ") for line in text.decode("latin-1").splitlines()]
        self.chance = chance
        self.count = sum(line[0] == "env" for line in self.lines)
        self.first = next((at for at, line in enumerate(self.lines) if line[0] == "run" and at > 0), len(self.lines))

    def places(self, *names: str) -> List[int]:
        """Where rows of these names are, none before the first turn."""
        return [at for at, line in enumerate(self.lines) if at >= self.first and line[0] in names]

    def chosen(self, places: List[int]) -> Optional[int]:
        return self.chance.choice(places) if places else None

    def dead_at(self, at: int) -> Dict[str, int]:
        """Who died before a place, and where."""
        return {self.lines[place][3]: place for place in self.places("dead") if place < at}

    def request_at(self, at: int) -> Dict[str, Tuple[int, int]]:
        """Of each environment, how many pages it has to give still before a place, and its deadline."""
        found: Dict[str, Tuple[int, int]] = {}
        for place in self.places("asked", "take", "dead"):
            if place >= at:
                break
            name, env = self.lines[place][0], self.lines[place][3 if self.lines[place][0] == "dead" else 2]
            if name == "asked":
                found[env] = int(self.lines[place][3]), int(self.lines[place][4])
            elif name == "take":
                found[env] = found[env][0] - 1, found[env][1]
            else:
                found.pop(env, None)
        return found

    def gaps(self) -> List[int]:
        """Places before which a row may be put that says nothing of slices: no row there is required by the one before."""
        return [at for at in self.places("run", "pay", "end", "stop", "dead", *GIFTS, *CALM) if self.is_gap(at)]

    def is_gap(self, at: int) -> bool:
        before = self.lines[at - 1]
        return at > self.first and before[0] not in ("sync", "over") and not (self.lines[at][0] == "dead" and before[0] == "over")

    def with_row(self, at: int, *row: str) -> Lie:
        """With a row put before a place, at the time of the row before it."""
        return [*self.lines[:at], [row[0], self.lines[at - 1][1], *row[1:]], *self.lines[at:]], at + 1

    def with_word(self, at: int, word: int, value: str) -> List[Row]:
        lines = [list(line) for line in self.lines]
        lines[at][word] = value
        return lines

    def living(self, at: int) -> List[str]:
        return [str(env) for env in range(self.count) if str(env) not in self.dead_at(at)]

    def takes_of(self, asked: int) -> List[int]:
        """The pages that are taken by a request, before the environment is asked again."""
        env, found = self.lines[asked][2], []
        for at in self.places("asked", "take"):
            if at > asked and self.lines[at][2] == env:
                if self.lines[at][0] == "asked":
                    break
                found.append(at)
        return found


def taken_unasked(report: Report) -> Optional[Lie]:
    """A page is taken from an environment of which nobody wants one."""
    at = report.chosen(report.gaps())
    envs = [] if at is None else [env for env in report.living(at) if report.request_at(at).get(env, (0, 0))[0] == 0]
    return report.with_row(at, "take", report.chance.choice(envs), "3", "-") if at is not None and envs else None


def taken_from_the_dead(report: Report) -> Optional[Lie]:
    at = report.chosen([at for at in report.gaps() if report.dead_at(at)])
    return None if at is None else report.with_row(at, "take", report.chance.choice(list(report.dead_at(at))), "3", "-")


def asked_of_the_dead(report: Report) -> Optional[Lie]:
    at = report.chosen([at for at in report.gaps() if report.dead_at(at)])
    return None if at is None else report.with_row(at, "asked", report.chance.choice(list(report.dead_at(at))), "1", "4000000")


def asked_for_nothing(report: Report) -> Optional[Lie]:
    at = report.chosen([at for at in report.gaps() if report.living(at)])
    return None if at is None else report.with_row(at, "asked", report.chance.choice(report.living(at)), "0", "4000000")


def asked_too_late(report: Report) -> Optional[Lie]:
    at = report.chosen([at for at in report.gaps() if report.living(at) and int(report.lines[at - 1][1]) > 0])
    return None if at is None else report.with_row(at, "asked", report.chance.choice(report.living(at)), "1", str(int(report.lines[at - 1][1]) - 1))


def taken_once_more(report: Report) -> Optional[Lie]:
    """One page more is taken than the environment had to give."""
    requests = [(at, report.takes_of(at)) for at in report.places("asked")]
    spent = [takes[-1] for at, takes in requests if takes and len(takes) == int(report.lines[at][3])]
    at = report.chosen([at for at in spent if report.is_gap(at + 1)])
    return None if at is None else report.with_row(at + 1, "take", report.lines[at][2], "3", "-")


def fewer_asked(report: Report) -> Optional[Lie]:
    """The ledger says that one page fewer was asked for than were taken."""
    requests = [(at, report.takes_of(at)) for at in report.places("asked")]
    at = report.chosen([at for at, takes in requests if len(takes) > 1])
    if at is None:
        return None
    takes = report.takes_of(at)
    return report.with_word(at, 3, str(len(takes) - 1)), takes[-1] + 1


def another_deadline(report: Report) -> Optional[Lie]:
    """The environment was told a later deadline than that at which its page was taken."""
    at = report.chosen([at for at in report.places("asked") if report.takes_of(at)])
    return None if at is None else (report.with_word(at, 4, str(int(report.lines[at][4]) + 1)), report.takes_of(at)[0] + 1)


def never_told(report: Report) -> Optional[Lie]:
    """The row of a request is left out, and before it the environment had no page to give."""
    at = report.chosen([at for at in report.places("asked") if report.takes_of(at) and report.request_at(at).get(report.lines[at][2], (0, 0))[0] == 0])
    return None if at is None else (report.lines[:at] + report.lines[at + 1:], report.takes_of(at)[0])


def taken_from_another(report: Report) -> Optional[Lie]:
    """A row names another environment than that from which the page was taken."""
    for at in report.chance.sample(report.places("take"), len(report.places("take"))):
        time, requests = report.lines[at][1], report.request_at(at)
        others = [env for env in report.living(at) if requests.get(env, (0, 0))[0] == 0 or str(requests[env][1]) != time]
        if others:
            return report.with_word(at, 2, report.chance.choice(others)), at + 1
    return None


def no_packet(report: Report) -> Optional[Lie]:
    at = report.chosen(report.gaps())
    return None if at is None else report.with_row(at, "drop", report.chance.choice(("0", "1515", "4294967295")))


def longer_packet(report: Report) -> Optional[Lie]:
    at = report.chosen(report.places("drop"))
    return None if at is None else (report.with_word(at, 2, "1515"), at + 1)


def given_to_nobody(report: Report) -> Optional[Lie]:
    """A slice goes to an environment that isn't there, which gives up the rest of it."""
    at = report.chosen([at for at in report.places("give", "async") if report.lines[at + 1][0] == "stop"])
    if at is None:
        return None
    lines = report.with_word(at, 4, NOBODY)
    lines[at + 1][3] = NOBODY
    return lines, at + 1


def asked_of_nobody(report: Report) -> Optional[Lie]:
    at = report.chosen(report.gaps())
    return None if at is None else report.with_row(at, "asked", NOBODY, "1", "4000000")


def another_number(report: Report) -> Optional[Lie]:
    """An environment's rows are another's, which isn't there."""
    old = str(report.chance.randrange(report.count))
    lines = [list(line) for line in report.lines]
    changed = []
    for at, line in enumerate(lines):
        numbers = (2,) if line[0] in ("asked", "take") else (3, 4) if line[0] in ("own", *GIFTS) else (3,)
        if line[0] in ("own", "run", "pay", "end", "stop", "dead", "over", *GIFTS, "asked", "take") and at > 1:
            for number in numbers:
                if line[number] == old:
                    line[number] = NOBODY
                    changed.append(at)
        elif line[:2] == ["sum", old]:
            lines[at] = ["sum", old, "0", "0", "0"]
    return (lines, changed[0] + 1) if changed else None


def missing_sum(report: Report) -> Optional[Lie]:
    """The last sum is left out, so `done` stands in its place."""
    return report.lines[:-2] + report.lines[-1:], len(report.lines) - 1


def one_sum_more(report: Report) -> Optional[Lie]:
    return [*report.lines[:-1], ["sum", str(report.count), "0", "0", "0"], report.lines[-1]], len(report.lines)


LIES: List[Callable[[Report], Optional[Lie]]] = [
    taken_unasked, taken_from_the_dead, asked_of_the_dead, asked_for_nothing, asked_too_late, taken_once_more, fewer_asked, another_deadline, never_told,
    taken_from_another, no_packet, longer_packet, given_to_nobody, asked_of_nobody, another_number, missing_sum, one_sum_more]


def told(text: bytes, lie: Callable[[Report], Optional[Lie]], chance: random.Random) -> Optional[Tuple[bytes, int]]:
    """A report with a lie, and its line, if it can be told in this one."""
    found = lie(Report(text, chance))
    return None if found is None else ("".join(" ".join(line) + "\n" for line in found[0]).encode("latin-1"), found[1])
