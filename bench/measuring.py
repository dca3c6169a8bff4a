"""What the benches have in common: the program, files of a run, and times, memory and host instructions of a command."""

from __future__ import annotations

import os
import resource
import shutil
import subprocess
import sys
import time
from typing import Callable, List, Sequence, Tuple

ROOT = os.path.dirname(os.path.dirname(os.path.realpath(__file__)))
sys.path[:0] = [f"{ROOT}/cases", f"{ROOT}/tools"]
sys.dont_write_bytecode = True
from built import program
from matching import matched

Command = Sequence[str]


def measured(doc: str) -> str:
    """The path of the program that is measured (tools/built.py); with a word for help a measurement's text is printed."""
    if {"-h", "--help"} & set(sys.argv[1:]):
        print(doc, end="")
        sys.exit(0)
    return program()


def written(folder: str, name: str, content: bytes, mode: int = 0o600) -> str:
    """The path of a file with this content."""
    path = os.path.join(folder, name)
    with open(path, "wb") as out:
        out.write(content)
    os.chmod(path, mode)
    return path


def run(command: Command, ends: Sequence[int] = (0,)) -> subprocess.CompletedProcess[str]:
    """Runs a command, whose output goes nowhere; it has to end with one of these statuses."""
    ran = subprocess.run(command, stdout=subprocess.DEVNULL, stderr=subprocess.PIPE, text=True)
    if ran.returncode not in ends:
        ran.check_returncode()
    return ran


def seconds(command: Command, ends: Sequence[int] = (0,)) -> float:
    """From its start to its end."""
    begin = time.perf_counter()
    run(command, ends)
    return time.perf_counter() - begin


def processor_seconds(command: Command) -> float:
    """Of a processor, with the system's: what other work on the machine changes less."""
    usage = resource.getrusage(resource.RUSAGE_CHILDREN)
    before = usage.ru_utime + usage.ru_stime
    run(command)
    usage = resource.getrusage(resource.RUSAGE_CHILDREN)
    return usage.ru_utime + usage.ru_stime - before


def best(commands: Sequence[Command], rounds: int, measure: Callable[[Command], float] = seconds) -> List[float]:
    """The best of so many times of each command, which take turns, so that other work meets them alike."""
    return [min(times) for times in zip(*([measure(it) for it in commands] for _ in range(rounds)))]


def peak(command: Command, ends: Sequence[int] = (0,)) -> str:
    """The most memory, in KiB: by GNU time, since a child of Python counts Python's own."""
    return run(("/usr/bin/time", "-q", "-f", "%M", *command), ends).stderr.strip()


def instructions(command: Command, ends: Sequence[int] = (0,)) -> int:
    """The host's instructions, by valgrind, which no load changes."""
    ran = run(("valgrind", "--tool=callgrind", "--callgrind-out-file=/dev/null", *command), ends)
    return int(matched(r"Collected : (\d+)", ran.stderr)[1])


def has(tool: str, package: str, what: str) -> bool:
    """Whether there is a tool; where it is missing, says so."""
    if shutil.which(tool):
        return True
    print(f"no {what}: there is no {tool}: on Debian apt-get install {package}")
    return False


def difference(command_of: Callable[[int], Command], lengths: Tuple[int, int], rounds: int,
               measure: Callable[[Command], float] = seconds) -> float:
    """Seconds that the longer of two runs of these lengths takes more than the shorter one, so that no start is counted."""
    short, long = best([command_of(it) for it in lengths], rounds, measure)
    return long - short
