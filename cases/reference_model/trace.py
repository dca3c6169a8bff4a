"""What a trace writes: docs/REPORT.md, "The trace". `python3 trace.py IMAGE SCHEDULE TICKS ENV [FROM]` writes it."""
from __future__ import annotations

import sys
from typing import Dict, List, Tuple

from board import Board, Env, word_of
from files import PAGE
from listing import text_of_word
from run_report import answer, end_line
from ticks import finish_tick

NAMES = [f"${number}" for number in range(1, 32)] + ["hi", "lo"]


def values(env: Env) -> List[int]:
    """What a line tells of an environment's registers: $1 to $31, HI and LO."""
    return [*env.cpu.regs[1:], env.cpu.hi, env.cpu.lo]


def instruction(board: Board, env: Env) -> str:
    """The word at which an environment stands, and its text; or that the fetch is refused."""
    pc = env.cpu.pc
    seen = None if pc % 4 or pc >> 31 else env.sees(pc // PAGE)
    if seen is None:
        return "-------- fetch"
    word = word_of(board.pages[seen[0]].data, pc % PAGE)
    return f"{word:08x} {text_of_word(word, pc)}"


class Traces:
    """The lines of each environment with their ticks, as they come tick by tick."""

    def __init__(self) -> None:
        self.lines: Dict[int, List[Tuple[int, str]]] = {}

    def finish(self, board: Board) -> None:
        """The step of a tick, and what stands in a line after it."""
        env, tick = board.running(), board.time
        before = values(env)
        line = f"{tick} {env.cpu.pc:08x} {instruction(board, env)}"
        finish_tick(board)
        if not env.is_alive:
            line += " dead"
        else:
            line += "".join(f" {name} {new:08x}" for name, old, new in zip(NAMES, before, values(env)) if old != new)
        self.lines.setdefault(env.number, []).append((tick, line))

    def text(self, board: Board, ticks: int, number: int, first: int = 0) -> str:
        """The trace of an environment from a tick on; it may be none of the image."""
        lines = [f"aegis trace {number}", *(line for tick, line in self.lines.get(number, ()) if tick >= first), end_line(board, ticks), "done"]
        return "".join(f"{line}\n" for line in lines)


def main() -> None:
    files, traces = [], Traces()
    for name in sys.argv[1:3]:
        with open(name, "rb") as file:
            files.append((name, file.read()))
    ticks, number, *first = map(int, sys.argv[3:])
    status, text, board = answer(files, ticks, traces.finish)
    print(traces.text(board, ticks, number, *first) if board else text, end="")
    sys.exit(status)


if __name__ == "__main__":
    main()
