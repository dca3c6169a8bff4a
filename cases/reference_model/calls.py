"""The kernel calls: docs/KERNEL.md, "Kernel calls". Each is a function of the board, its caller and its five arguments.

It raises Refused for the first cause that holds, or does what is asked and answers the value.
"""
from __future__ import annotations

import struct
from typing import Callable, Dict, Tuple

from board import ASYNCHRONOUS, LINES, MOST_SENT, SYNCHRONOUS, Board, Claim, Env
from files import MOST_PACKET, PAGE
from filters import BYTES_OF_ATOM, read_filter
from handlers import MOST_WORDS, first_bad
from kernel_calls import (AGAIN, ANY, BAD_CALL, BAD_FILTER, BAD_HANDLER, BAD_POINTER, BAD_VPN, CONSOLE_FULL, EXIT, FULL, GUARANTEED, LINE_TAKEN, NONE_FREE,
                          NOT_ACCEPTED, NOT_HOLDER, NOT_OWNER, NO_ENV, NO_FILTER, NO_PAGE, NO_RIGHT, NO_SLICE, OVERLAP, SLOT_TAKEN, TAKEN)

USER_VPNS = 0x80000
MOST_CONSOLE, MOST_ATOMS, MOST_CLAIMS, MOST_BACKUPS, LEAST_SENT = 65536, 16, 8, 64, 14


class Refused(Exception):
    """Why a call is refused, and the value that is answered."""

    def __init__(self, code: int, value: int = 0):
        self.code, self.value = code, value


def refuse_if(holds: object, code: int) -> None:
    if holds:
        raise Refused(code)


def long_word(low: int, high: int) -> int:
    return high << 32 | low


# What several calls check, or read


def read_range(board: Board, env: Env, address: int, length: int) -> bytes:
    """The bytes of a range that lies in one page which the caller sees."""
    refuse_if(address >> 31 or address // PAGE != (address + length - 1) // PAGE, BAD_POINTER)
    seen = env.sees(address // PAGE)
    if seen is None:
        raise Refused(BAD_POINTER)
    return bytes(board.pages[seen[0]].data[address % PAGE : address % PAGE + length])


def check_owned(board: Board, env: Env, number: int) -> None:
    """Refuses a page that isn't one that the caller has allocated."""
    refuse_if(number >= len(board.pages), NO_PAGE)
    refuse_if(board.pages[number].owner is not env, NOT_OWNER)
    refuse_if(board.pages[number].is_guaranteed, GUARANTEED)


def other_env(board: Board, env: Env, number: int) -> Env:
    """A living environment that isn't the caller."""
    refuse_if(number >= len(board.envs) or number == env.number or not board.envs[number].is_alive, NO_ENV)
    return board.envs[number]


def check_bindable(env: Env, vpn: int) -> None:
    refuse_if(vpn >= USER_VPNS, BAD_VPN)
    refuse_if(vpn in env.guaranteed, GUARANTEED)


# The calls, by rising number


def give_up(board: Board, env: Env, number: int, *_: int) -> int:
    """Yield, to whoever is next or to a target."""
    if number == ANY:
        board.stop()
        return 0
    target = other_env(board, env, number)
    refuse_if(board.in_grace, NO_SLICE)
    refuse_if(not target.accepts(env), NOT_ACCEPTED)
    board.row("give", board.slot, env.number, target.number)
    board.start(target)
    return 0


def put(board: Board, env: Env, address: int, length: int, *_: int) -> int:
    if length:
        refuse_if(length > PAGE, BAD_POINTER)
        data = read_range(board, env, address, length)
        refuse_if(len(env.console) + length > MOST_CONSOLE, CONSOLE_FULL)
        env.console += data
    return length


def alloc(board: Board, env: Env, number: int, *words: int) -> int:
    if number == ANY:
        lowest = board.lowest_free()
        if lowest is None:
            asked = board.press(env) if board.version == 2 else None
            raise Refused(NONE_FREE) if asked is None else Refused(AGAIN, asked.number)
        number = lowest
    else:
        refuse_if(number >= len(board.pages), NO_PAGE)
        refuse_if(board.pages[number].owner, TAKEN)
    board.allocate(env, number, long_word(*words[:2]), long_word(*words[2:]))
    return number


def free(board: Board, env: Env, number: int, *_: int) -> int:
    check_owned(board, env, number)
    board.give_back(env, number)
    return 0


def recap(board: Board, env: Env, number: int, *words: int) -> int:
    check_owned(board, env, number)
    board.recap(number, long_word(*words[:2]), long_word(*words[2:]))
    return 0


def bind(board: Board, env: Env, vpn: int, number: int, is_writable: int, *words: int) -> int:
    check_bindable(env, vpn)
    refuse_if(number >= len(board.pages), NO_PAGE)
    page, word = board.pages[number], long_word(*words)
    refuse_if(page.owner is env and page.is_guaranteed, GUARANTEED)
    if page.owner is not env:
        gives_right = word and (word == page.write or word == page.read and not is_writable)
        refuse_if(page.owner is None or page.is_guaranteed or not gives_right, NO_RIGHT)
    board.bind(env, vpn, number, bool(is_writable))
    return 0


def unbind(board: Board, env: Env, vpn: int, *_: int) -> int:
    check_bindable(env, vpn)
    is_bound = env.sees(vpn) is not None
    if is_bound:
        board.unbind(env, vpn)
    return int(is_bound)


def context(board: Board, env: Env, kind: int, address: int, *_: int) -> int:
    refuse_if(kind >= len(env.handlers) or address % 4 or address >> 31, BAD_CALL)
    env.handlers[kind] = address
    return 0


def accept(board: Board, env: Env, mask: int, *_: int) -> int:
    env.mask = mask
    return 0


def transfer(board: Board, env: Env, number: int, kind: int, *_: int) -> int:
    refuse_if(kind > 1, BAD_CALL)
    target = other_env(board, env, number)
    refuse_if(board.in_grace, NO_SLICE)
    hold = board.slots[board.slot]
    refuse_if(kind == 1 and not (hold and hold[1] == env.number), NOT_HOLDER)
    refuse_if(not target.accepts(env) or not target.handlers[(ASYNCHRONOUS, SYNCHRONOUS)[kind]], NOT_ACCEPTED)
    board.row(("async", "sync")[kind], board.slot, env.number, target.number)
    if kind == 1:
        board.change_slot(board.slot, (board.hold(board.slot)[0], target.number))
    board.enter(target, env, kind)
    return 0


def take_slot(board: Board, env: Env, slot: int, *_: int) -> int:
    refuse_if(slot >= len(board.slots), NO_SLICE)
    refuse_if(board.slots[slot], SLOT_TAKEN)
    board.change_slot(slot, (env.number, env.number))
    return 0


def drop_slot(board: Board, env: Env, slot: int, *_: int) -> int:
    refuse_if(slot >= len(board.slots), NO_SLICE)
    hold = board.slots[slot]
    refuse_if(not hold or hold[1] != env.number, NOT_HOLDER)
    board.leave_slot(slot, env)
    return 0


def query(board: Board, env: Env, what: int, index: int, *_: int) -> int:
    refuse_if(what > 8, BAD_CALL)
    if what == 5:
        refuse_if(index >= len(board.pages), NO_PAGE)
        owner = board.pages[index].owner
        return owner.number if owner else ANY
    if what == 6:
        refuse_if(index >= len(board.slots), NO_SLICE)
        hold = board.slots[index]
        return hold[1] if hold else ANY
    if what == 7:
        return env.excess
    if what == 8:
        refuse_if(index >= len(board.envs), NO_ENV)
        return int(not board.envs[index].is_alive)
    free_pages = sum(page.owner is None for page in board.pages)
    return (free_pages, len(board.pages), len(board.envs), len(board.slots), board.quantum)[what]


def claim(board: Board, env: Env, address: int, atoms: int, number: int, *_: int) -> int:
    refuse_if(not 1 <= atoms <= MOST_ATOMS, BAD_FILTER)
    filter_ = read_filter(read_range(board, env, address, BYTES_OF_ATOM * atoms))
    if filter_ is None:
        raise Refused(BAD_FILTER)
    check_owned(board, env, number)
    refuse_if(sum(it.env is env for it in board.claims.values()) == MOST_CLAIMS, FULL)
    for other in sorted(it.number for it in board.claims.values() if it.env is not env and it.filter.overlaps(filter_)):
        raise Refused(OVERLAP, other)
    return board.claim(env, filter_, number)


def own_claim(board: Board, env: Env, number: int) -> Claim:
    """A claim of the caller's that stands."""
    held = board.claims.get(number)
    if held is None or held.env is not env:
        raise Refused(NO_FILTER)
    return held


def unclaim(board: Board, env: Env, number: int, *_: int) -> int:
    board.withdraw(own_claim(board, env, number), "an unclaim")
    return 0


def handler(board: Board, env: Env, number: int, address: int, length: int, *_: int) -> int:
    held = own_claim(board, env, number)
    words: Tuple[int, ...] = ()
    if length > MOST_WORDS:
        raise Refused(BAD_HANDLER, MOST_WORDS)
    if length:
        words = struct.unpack(f"<{length}I", read_range(board, env, address, 4 * length))
        bad = first_bad(words)
        if bad is not None:
            raise Refused(BAD_HANDLER, bad)
    board.hear(held, words)
    return 0


def line(board: Board, env: Env, number: int, is_taken: int, *_: int) -> int:
    refuse_if(number >= LINES or is_taken > 1, BAD_CALL)
    owner = board.lines[number]
    if is_taken:
        refuse_if(owner not in (None, env), LINE_TAKEN)
        board.lines[number] = env
    else:
        refuse_if(owner is not env, NOT_HOLDER)
        board.lines[number] = None
    return 0


def backup(board: Board, env: Env, number: int, *_: int) -> int:
    check_owned(board, env, number)
    refuse_if(number in env.backups, TAKEN)
    refuse_if(len(env.backups) == MOST_BACKUPS, FULL)
    env.backups.append(number)
    return 0


def send(board: Board, env: Env, address: int, length: int, *_: int) -> int:
    refuse_if(not LEAST_SENT <= length <= MOST_PACKET, BAD_CALL)
    data = read_range(board, env, address, length)
    refuse_if(len(env.sent) == MOST_SENT, FULL)
    env.sent.append(data)
    return 0


def own_number(board: Board, env: Env, *_: int) -> int:
    return env.number


def clock(board: Board, env: Env, *_: int) -> int:
    return board.time


CALLS: Dict[int, Callable[..., int]] = {
    0: give_up, 1: put, 3: alloc, 4: free, 5: recap, 6: bind, 7: unbind, 8: context, 9: accept, 10: transfer, 11: take_slot, 12: drop_slot,
    13: query, 14: claim, 15: unclaim, 16: handler, 17: line, 18: backup, 19: send, 20: own_number, 21: clock,
}


def make_call(board: Board, env: Env) -> None:
    """What the runner's SYSCALL does. A refused call changes nothing but what its caller finds, and what AGAIN asks of another."""
    number, arguments = env.cpu.regs[2], env.cpu.regs[4:9]
    if number == EXIT:
        board.die(env, f"exit {arguments[0]}")
        return
    code, place = 0, board.place_of_next(env)
    try:
        refuse_if(number not in CALLS, BAD_CALL)
        value = CALLS[number](board, env, *arguments)
    except Refused as why:
        code, value = why.code, why.value
    board.seen[number, code] += 1
    board.give(env, "answer", code, value, place=place)
    env.cpu.set(2, code)
    env.cpu.set(3, value)
    env.cpu.continue_at(env.cpu.pc + 4)
