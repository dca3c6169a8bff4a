"""Ticks and whole runs: docs/KERNEL.md, "A tick"."""
from __future__ import annotations

from collections import deque
from typing import Callable, Deque, List, Optional

from board import ENDS, Board, Env, Memory
from cache import EMPTIED, Refill
from calls import make_call
from files import Event, Image
from machine import MOD, KernelCall, Trap, step

MOST_EXCESS = 8


def run(image: Image, events: List[Event], ticks: int, finish: Optional[Callable[[Board], None]] = None) -> Board:
    """The board after so many ticks, or once it is idle. `finish` is what is done of a tick behind its turn."""
    board, coming = Board(image), deque(events)
    while board.time < ticks and not board.is_idle():
        happen_now(board, coming)
        begin_tick(board)
        (finish or finish_tick)(board)
    return board


def happen_now(board: Board, coming: Deque[Event]) -> None:
    """The events of this tick happen, which come no more."""
    while coming and coming[0].tick == board.time:
        happen(board, coming.popleft())


def happen(board: Board, event: Event) -> None:
    if event.packet is not None:
        board.receive(event.packet)
    elif event.revoke is not None:
        board.revoke(*event.revoke)
    else:
        board.signal(event.line)


def begin_tick(board: Board) -> None:
    """Deadlines and the turn: then somebody runs."""
    board.serve()
    if board.runner is None:
        take_turn(board)


def finish_tick(board: Board) -> None:
    """The step, the timer and the time."""
    make_step(board, board.running())
    if board.runner:
        count(board)
    board.time += 1


def tick(board: Board) -> None:
    """A whole tick."""
    begin_tick(board)
    finish_tick(board)


def take_turn(board: Board) -> None:
    """The next held slot whose holder owes nothing has its turn, and each before it is forfeited."""
    while True:
        board.slot = (board.slot + 1) % len(board.slots)
        hold = board.slots[board.slot]
        if hold is None:
            continue
        env = board.envs[hold[1]]
        if env.excess == 0:
            break
        env.excess -= 1
        board.row("pay", board.slot, env.number)
    board.row("run", board.slot, env.number)
    board.left, board.in_grace = board.quantum, False
    board.start(env)


def make_step(board: Board, env: Env) -> None:
    """The step is attempted from its fetch on until it misses no row of a mapping."""
    board.give(env, "step")
    pc, in_slot = env.cpu.pc, env.cpu.slot
    refills: List[Refill] = []
    while True:
        end = attempt(board, env)
        if not isinstance(end, Refill):
            break
        refills.append(end)
    count_refills(board, pc, in_slot, refills, end)


def attempt(board: Board, env: Env) -> Optional[Exception]:
    """An attempt of a step, behind which Random falls, and what it leads to. Answers how it ended, if it didn't retire."""
    end: Optional[Exception] = None
    try:
        step(env.cpu, Memory(board, env))
    except (Refill, KernelCall, Trap) as it:
        end = it
    if isinstance(end, Refill):
        board.seen["rows pushed out"] += board.cache.fill(end) != EMPTIED
    board.cache.fall()
    if isinstance(end, KernelCall):
        make_call(board, env)
    elif isinstance(end, Trap):
        board.raise_exception(env, end)
    return end


def count_refills(board: Board, pc: int, in_slot: bool, refills: List[Refill], end: Optional[Exception]) -> None:
    """Counts what kind of a step was refilled, whose address and place are these."""
    of_fetch = [refill.row[0] >> 12 == pc >> 12 for refill in refills]
    board.seen["steps with two refills"] += len(refills) == 2
    board.seen["fetches pushed out by their own load or store"] += of_fetch == [False, True]
    board.seen["refills in a delay slot"] += bool(refills) and in_slot
    board.seen["refills of a call's fetch"] += bool(refills) and isinstance(end, KernelCall)
    board.seen["refills of a store that is Mod"] += bool(refills) and isinstance(end, Trap) and end.code == MOD


def count(board: Board) -> None:
    """The timer: at the end of a slice who runs is told, or stopped; a quantum of grace that is used up is owed."""
    board.left -= 1
    if board.left:
        return
    env = board.running()
    if not board.in_grace and not env.handlers[ENDS]:
        board.stop()
        return
    board.left = board.quantum
    if not board.in_grace:
        board.in_grace = True
        board.row("end", board.slot, env.number)
        board.tell_end(env)
        return
    env.excess += 1
    board.row("over", board.slot, env.number, env.excess)
    if env.excess > MOST_EXCESS:
        board.give(env, "killed")
        board.die(env, "dead excess")
