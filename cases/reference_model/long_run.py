"""What `long` writes: docs/REPORT.md. `python3 long_run.py IMAGE SCHEDULE TICKS` writes it, and ends with the status.

A program that counts down in a loop of its own is leaped over: a round of the loop `addiu $N,$N,-1`, `bne $N,$0` back to it, `nop`
takes three ticks, and all that is other after it is the register and the time. No leap passes the end of a slice, a
deadline, an event or the end of the run, so whatever else happens is done tick by tick. Only the TLB isn't what it would be.
"""
from __future__ import annotations

import sys
from collections import deque
from typing import Callable, Deque, List, Optional, Sequence, Tuple

from board import Board, word_of
from files import PAGE, Event, Image, Refusal, read_systems
from run_report import DONE, REFUSED, report_lines
from ticks import begin_tick, finish_tick, happen_now

OUT_OF_MEMORY = 6
MOST_ROWS = 1 << 24
ROUND = 3  # ticks of a round
IS_DOWN, IS_BACK = 9 << 26 | 0xFFFF, 5 << 26 | 0xFFFE  # apart from their registers


def counter(board: Board) -> int:
    """The register that who runs counts down at this place, or 0."""
    env = board.runner
    if env is None or env.cpu.slot or env.cpu.pc % 4 or env.cpu.pc % PAGE > PAGE - 4 * ROUND:
        return 0
    seen = env.sees(env.cpu.pc // PAGE)
    if seen is None:
        return 0
    down, back, last = (word_of(board.pages[seen[0]].data, env.cpu.pc % PAGE + place) for place in (0, 4, 8))
    number = down >> 16 & 31
    return number if (down, back, last) == (IS_DOWN | number << 21 | number << 16, IS_BACK | number << 21, 0) else 0


def leap(board: Board, coming: Deque[Event], end: int) -> None:
    """Leaps over as many rounds as there are up to a time, if a loop of this form begins here."""
    number = counter(board)
    if not number:
        return
    env = board.running()
    times = [end, *([coming[0].tick] if coming else []), *(it.deadline for it in board.envs if it.outstanding)]
    rounds = min(env.cpu.regs[number] - 1, (board.left - 1) // ROUND, *((time - board.time) // ROUND for time in times))
    if rounds > 0:
        env.cpu.set(number, env.cpu.regs[number] - rounds)
        board.left -= ROUND * rounds
        board.time += ROUND * rounds
        board.seen["ticks that are leaped over"] += ROUND * rounds


class LongRun:
    """A run that goes on from time to time."""

    def __init__(self, image: Image, events: List[Event]) -> None:
        self.board, self.coming, self.steps = Board(image), deque(events), 0

    def reach(self, time: int, most: Optional[int] = None, finish: Optional[Callable[[Board], None]] = None) -> Board:
        """The board at a time, or once it is idle, or has made so many ticks one by one. With `finish`, which is what is done of a tick
        after its turn, there is no leap."""
        board = self.board
        while board.time < time and not board.is_idle() and (most is None or self.steps < most):
            happen_now(board, self.coming)
            if not finish:
                leap(board, self.coming, time)
                if board.time == time:
                    break
                happen_now(board, self.coming)
            begin_tick(board)
            (finish or finish_tick)(board)
            self.steps += 1
        return board


def long_text(board: Board, ticks: int) -> Tuple[int, str]:
    """The status and the text of a run that has ended."""
    if len(board.rows) > MOST_ROWS:
        return OUT_OF_MEMORY, ""
    return DONE, "".join(f"{line}\n" for line in report_lines(board, ticks))


def long_answer(files: Sequence[Tuple[str, bytes]], ticks: int) -> Tuple[int, str]:
    """The status and the text of `long IMAGE SCHEDULE TICKS`; files are (name, bytes), image first."""
    try:
        (image, events), = read_systems(files)
    except Refusal as why:
        return REFUSED, str(why)
    return long_text(LongRun(image, events).reach(ticks), ticks)


def main() -> None:
    files = []
    for name in sys.argv[1:3]:
        with open(name, "rb") as file:
            files.append((name, file.read()))
    status, text = long_answer(files, int(sys.argv[3]))
    print(text, end="")
    sys.exit(status)


if __name__ == "__main__":
    main()
