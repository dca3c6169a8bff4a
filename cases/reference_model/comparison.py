"""Compares the program with the reference on systems that are made of seeds.

    test [--seeds N] [--from FIRST] [--keep FOLDER] [--traces]

runs N seeds from FIRST on; without these words those of the gate. The image and the schedule of a seed at which the two differ
are kept in FOLDER. With --traces the trace of each environment is compared too, and that of one that the image lacks; and
whether the registers of a trace's last line are those of the report. How often each thing happened in all runs together is
printed, and is a failure where it is too seldom to be a test; of fewer than half the seeds of the gate that isn't asked.
Prints a line for each failure, and last 'NAME: N passed, M failed', a seed being one, and each thing that happened another.
"""
from __future__ import annotations

import argparse
import os
import re
import subprocess
import sys
import tempfile
from collections import Counter
from typing import Any, Callable, Dict, List, Optional, Protocol, Tuple

from board import Board
from calls import CALLS
from files import Event, read_schedule
from matching import matched
from run_report import answer
from trace import NAMES, Traces

AEGIS = os.environ["AEGIS"]

# What happened: by its name, a packet of a length, or a call's answer, which are pairs.
Thing = Any


class RandomSystem(Protocol):
    """An image and a schedule, and how long they run."""

    image: bytes
    schedule: bytes
    ticks: int


def name_of(thing: Thing) -> str:
    if isinstance(thing, str):
        return thing
    if thing[0] == "delivered":
        return f"packets of {thing[1]} bytes delivered"
    return f"calls {CALLS[thing[0]].__name__} answered {thing[1]}"


def count_events(seen: Counter[Thing], events: List[Event], board: Board, ticks: int) -> None:
    """Counts how the events lie in the time of a run."""
    times = [event.tick for event in events]
    seen["events in the tick of another"] += len(times) - len(set(times))
    if board.time == ticks:
        seen["events in the last tick"] += times.count(ticks - 1)
    behind = sum(time >= board.time for time in times)
    seen["events behind the end"] += behind
    seen["events behind an idle end"] += behind if board.is_idle() else 0
    seen["several environments run"] += len({row.split()[3] for row in board.rows if row.startswith("run")}) > 1


def difference(wanted: str, found: str) -> str:
    """The first line at which two texts differ."""
    for number, (left, right) in enumerate(zip(wanted.splitlines(), found.splitlines()), 1):
        if left != right:
            return f"line {number} is {right[:120]!r} and not {left[:120]!r}"
    return f"{found.count(chr(10))} lines and not {wanted.count(chr(10))}"


def output(*words: object) -> Optional[Tuple[int, str]]:
    """The status and the text of a command, or None where it doesn't end."""
    try:
        ran = subprocess.run([AEGIS, *map(str, words)], stdout=subprocess.PIPE, timeout=60)
    except subprocess.TimeoutExpired:
        return None
    return ran.returncode, ran.stdout.decode("latin-1")


def differs(wanted: Tuple[int, str], found: Optional[Tuple[int, str]]) -> str:
    """How what was found of a command differs from what is wanted, or nothing."""
    if found is None:
        return "it doesn't end"
    return "" if found == wanted else f"status {found[0]}: {difference(wanted[1], found[1])}"


def core_differs(wanted: Tuple[int, bytes], found: Optional[Tuple[int, str]]) -> str:
    """How a core differs from the one that is wanted, or nothing."""
    text = wanted[1].decode("latin-1")
    if found is None or found == (wanted[0], text):
        return "" if found else "it doesn't end"
    place = next((at for at, (left, right) in enumerate(zip(text, found[1])) if left != right), min(len(text), len(found[1])))
    here, there = (it[place & ~3 : (place & ~3) + 16].encode("latin-1").hex(" ", 4) for it in (found[1], text))
    return f"status {found[0]} and not {wanted[0]}, {len(found[1])} bytes and not {len(text)}, at {place & ~3} {here} and not {there}"


def failure(folder: str, system_of: Callable[[int], RandomSystem], seed: int, seen: Counter[Thing], with_traces: bool) -> Optional[str]:
    """Why the program differs at this seed, or nothing."""
    system, files = system_of(seed), []
    for name, content in ((f"{folder}/{seed}.img", system.image), (f"{folder}/{seed}.sch", system.schedule)):
        files.append((name, content))
        with open(name, "wb") as out:
            out.write(content)
    words, traces = [name for name, _ in files], Traces()
    status, text, board = answer(files, system.ticks, traces.finish if with_traces else None)
    if board:
        seen.update(board.seen)
        count_events(seen, read_schedule(system.schedule), board, system.ticks)
    else:
        seen["files that are refused"] += 1
    found = output("run", *words, system.ticks)
    why = differs((status, text), found)
    if with_traces and not why:
        why = trace_failure(words, system.ticks, (status, text), board, traces, seen)
    if not why:
        for name in words:
            os.remove(name)
        return None
    return f"seed {seed}, {system.ticks} ticks, {why}"


def trace_failure(
    words: List[str], ticks: int, answered: Tuple[int, str], board: Optional[Board], traces: Traces, seen: Counter[Thing]
) -> str:
    """Why a trace of a run differs, of an environment or of one that there isn't; or nothing. `answered` is what `run` answers."""
    for number in range(min(len(board.envs), 31) + 1 if board else 1):
        wanted = (0, traces.text(board, ticks, number)) if board else answered
        found = output("trace", *words, ticks, number)
        why = differs(wanted, found)
        if not why and board and number < len(board.envs):
            why = last_line_failure(wanted[1], answered[1], number, seen)
        if why:
            return f"trace of {number}, {why}"
        seen["lines of traces"] += wanted[1].count("\n") - 3
        seen["lines whose fetch is refused"] += wanted[1].count(" -------- fetch")
    return ""


def last_line_failure(trace: str, report: str, number: int, seen: Counter[Thing]) -> str:
    """How registers of a trace's last line differ from the report's; or nothing. A slice that the environment was given behind
    that line may have changed them."""
    lines, regs = trace.splitlines(), re.search(rf"^regs {number} (.*)$", report, re.M)
    if len(lines) == 3 or not regs:
        seen["last lines of the dead"] += lines[-3].endswith(" dead")
        return "" if len(lines) == 3 or lines[-3].endswith(" dead") else "its last line isn't its death"
    last = lines[-3]
    given = [int(row[1]) for row in re.finditer(rf"^(?:give|async|sync) (\d+) \d+ \d+ {number}$", report, re.M)]
    if any(tick > int(last.split()[0]) for tick in given):
        return ""
    shown = dict(zip(NAMES, regs[1].split()))
    shown["hi"], shown["lo"] = matched(rf"^cpu {number} (?:\S+ ){{3}}(\S+) (\S+)$", report, re.M).groups()
    told = re.findall(r" (\$\d+|hi|lo) ([0-9a-f]{8})(?= |$)", last)
    seen["registers of last lines"] += len(told)
    return next((f"{name} is {value} in the last line and {shown[name]} in the report" for name, value in told if shown[name] != value), "")


def main(
    name: str,
    system_of: Callable[[int], Any],
    least: Dict[Thing, int],
    seeds: int,
    failure: Callable[..., Optional[str]] = failure,
    traces: bool = False,
    first: int = 0,
) -> None:
    """Runs so many seeds of the systems that `system_of` makes of a number, each by `failure`. `least` has how often each thing is to
    happen in as many seeds as these. `traces` says whether traces are compared, and `first` the first seed, where the words don't."""
    reader = argparse.ArgumentParser()
    reader.add_argument("--seeds", type=int, default=seeds)
    reader.add_argument("--from", type=int, default=first, dest="first")
    reader.add_argument("--keep")
    reader.add_argument("--traces", action="store_true", default=traces)
    chosen = reader.parse_args()
    seen: Counter[Thing] = Counter()
    passed = failed = 0
    with tempfile.TemporaryDirectory() as folder:
        for seed in range(chosen.first, chosen.first + chosen.seeds):
            why = failure(chosen.keep or folder, system_of, seed, seen, chosen.traces)
            passed, failed = passed + (not why), failed + bool(why)
            if why:
                print(f"FAILED {name}: {why}")
    for thing, count in least.items():
        is_enough = chosen.seeds < seeds // 2 or seen[thing] * seeds >= count * chosen.seeds
        passed, failed = passed + is_enough, failed + (not is_enough)
        print(f"{'' if is_enough else f'FAILED {name}: too few '}{name_of(thing)}: {seen[thing]}")
    print(f"{name}: {passed} passed, {failed} failed")
    sys.exit(1 if failed else 0)
