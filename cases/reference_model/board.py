"""All that the kernel keeps, and what is done to it: docs/KERNEL.md.

What calls refuse is in calls.py, and when things are done is in ticks.py. `seen` counts what happened for the test of this
case, and `feeds` has what each environment is given (docs/MODEL.md, "An environment alone"), where that is kept; nothing is
decided by them.
"""
from __future__ import annotations

import struct
from collections import Counter
from typing import Dict, Iterator, List, Optional, Tuple, Union

from cache import FORWARDED, GUARANTEED, STRIPE, Cache, Refill, hi_word, lo_word
from files import PAGE, VERSIONS, Image, Program
from filters import Filter
from handlers import FAULT, Run
from kernel_layout import (ASYNCHRONOUS, AT, BUFFER_SIZE, CONTEXT_VPN, END_AREA, ENDS, ENTRY_AREA, EXCEPTION_AREA, EXCEPTIONS, K0, K1, LINES, MOST_RECORDS,
                           NO_BACKUP, POST_LINES, POST_LOST, POST_OUTSTANDING, POST_PACKETS, POST_TAKINGS, RECORDS, START_AREA, STARTS,
                           SYNCHRONOUS)
from machine import ADEL, ADES, MOD, TLBL, TLBS, WORD, Cpu, Trap

MOST_OUTSTANDING = 0xFFFFFFFF
MOST_SENT = 256  # packets that an environment sends

# What an environment is given: the name of its kind, its numbers, and its bytes if it has some.
Item = Tuple[Union[str, int, bytes, None], ...]


class Page:
    """A page of physical memory: who owns it, if anybody, whether it is guaranteed, its words and its bytes."""

    def __init__(self) -> None:
        self.owner: Optional[Env] = None
        self.is_guaranteed, self.read, self.write = False, 0, 0
        self.data = bytearray(PAGE)

    def release(self) -> None:
        self.owner, self.is_guaranteed, self.read, self.write = None, False, 0, 0


class Claim:
    """A filter, whose it is, the ring page, how many packets came into the ring, and the words of a handler if it has one."""

    def __init__(self, number: int, env: Env, filter_: Filter, page: int):
        self.number, self.env, self.filter, self.page, self.deliveries = number, env, filter_, page, 0
        self.handler: Tuple[int, ...] = ()


class Env:
    """An environment. Bindings are by row of its stripe, each (VPN, page, whether it may be stored to); backups by their numbers,
    in order."""

    def __init__(self, number: int, program: Program, stripe_rows: int):
        self.number, self.name, self.life, self.stripe_rows = number, program.name, "live", stripe_rows
        self.cpu, self.handlers, self.mask = Cpu(program.entry), [0] * 5, program.accept
        self.guaranteed: Dict[int, Tuple[int, bool]] = {}
        self.bindings: Dict[int, Tuple[int, int, bool]] = {}
        self.console, self.excess = bytearray(), 0
        self.sent: List[bytes] = []
        self.outstanding, self.deadline = 0, 0
        self.backups: List[int] = []

    @property
    def is_alive(self) -> bool:
        return self.life == "live"

    def row_of(self, vpn: int) -> int:
        """The row in which the binding of a VPN stands."""
        return vpn % self.stripe_rows

    def sees(self, vpn: int) -> Optional[Tuple[int, bool]]:
        """The page at a VPN, and whether it may be stored to; or None."""
        if vpn in self.guaranteed:
            return self.guaranteed[vpn]
        binding = self.bindings.get(self.row_of(vpn))
        return binding[1:] if binding and binding[0] == vpn else None

    def has_bound(self, page: int) -> bool:
        return any(it[1] == page for it in self.bindings.values())

    def accepts(self, other: Env) -> bool:
        return bool(self.mask >> other.number & 1)


class Memory:
    """Memory as an environment sees it, through the TLB."""

    def __init__(self, board: Board, env: Env):
        self.board, self.env = board, env

    def reach(self, va: int, is_store: bool) -> int:
        if va >> 31:
            raise Trap(ADES if is_store else ADEL, va)
        seen = self.board.cache.find(va // PAGE, self.env.number)
        if seen is None:
            raise self.missed(va, is_store)
        if is_store and not seen[1]:
            raise Trap(MOD, va)
        return seen[0]

    def missed(self, va: int, is_store: bool) -> Exception:
        """What an access is that finds no row: a refill where there is a mapping, and else the environment's exception."""
        vpn, pid = va // PAGE, self.env.number
        mapping = self.env.sees(vpn)
        if mapping is None:
            self.board.cache.fills[pid][FORWARDED] += 1
            return Trap(TLBS if is_store else TLBL, va)
        return Refill(GUARANTEED if vpn in self.env.guaranteed else STRIPE, pid, hi_word(vpn, pid), lo_word(*mapping))

    def fetch(self, va: int) -> int:
        return word_of(self.board.pages[self.reach(va, False)].data, va % PAGE & ~3)

    def load(self, va: int, width: int) -> int:
        return self.fetch(va)

    def store(self, va: int, place: int, data: bytes) -> None:
        page = self.reach(va, True)
        self.board.pages[page].data[place % PAGE : place % PAGE + len(data)] = data
        self.board.leave(self.env, page, place % PAGE, data)
        if any(claim.env is not self.env for claim in self.board.claims_on(page)):
            self.board.seen["stores into another's ring"] += 1


def word_of(data: Union[bytes, bytearray], place: int) -> int:
    return int.from_bytes(data[place : place + 4], "little")


class Board:
    """The kernel. A slot is None or (owner, holder); `slot` is the cursor, and the slot of who runs. `feeds` has, if they are kept,
    the items that each environment was given, in order."""

    def __init__(self, image: Image, keeps_feeds: bool = False):
        self.version, self.quantum, self.time = image.version, image.quantum, 0
        self.rows: List[str] = []
        self.seen: Counter[object] = Counter()
        self.pages = [Page() for _ in range(image.pages)]
        self.slots = [None if owner is None else (owner, owner) for owner in image.slots]
        self.slot, self.left, self.in_grace = len(self.slots) - 1, 0, False
        self.runner: Optional[Env] = None
        self.lines: List[Optional[Env]] = [None] * LINES
        self.claims: Dict[int, Claim] = {}
        self.next_claim = 0
        self.taken: Dict[int, Env] = {}  # by page that was taken in this tick, from whom
        self.envs: List[Env] = []
        self.cache = Cache(len(image.programs))
        self.feeds: Optional[List[List[Item]]] = [[] for _ in image.programs] if keeps_feeds else None
        for program in image.programs:
            self.add(program)
        for slot, hold in enumerate(self.slots):
            if hold:
                self.change_slot(slot, hold)

    def add(self, program: Program) -> None:
        """Boots the next environment: each guaranteed page is the lowest free one."""
        env = Env(len(self.envs), program, VERSIONS[self.version].stripe_rows)
        self.envs.append(env)
        for vpn, is_writable in program.mappings().items():
            number = self.lowest_free()
            assert number is not None, "an image has a page for each mapping"
            page = self.pages[number]
            page.owner, page.is_guaranteed = env, True
            env.guaranteed[vpn] = number, is_writable
            for it in program.segments:
                # the segment's bytes from the file that lie in this page
                first, end = max(it.address, vpn * PAGE), min(it.address + len(it.data), (vpn + 1) * PAGE)
                if first < end:
                    page.data[first % PAGE : first % PAGE + end - first] = it.data[first - it.address : end - it.address]
        self.give(env, "boot", self.version, self.record(env))

    def row(self, name: str, *words: Union[int, str]) -> None:
        self.rows.append(" ".join(map(str, (name, self.time, *words))))

    def is_idle(self) -> bool:
        return self.runner is None and not any(self.slots)

    def running(self) -> Env:
        """Who runs, in a step and at its timer."""
        assert self.runner is not None, "somebody runs"
        return self.runner

    def hold(self, slot: int) -> Tuple[int, int]:
        """The owner and the holder of a slot that isn't empty."""
        hold = self.slots[slot]
        assert hold is not None, "the slot isn't empty"
        return hold

    def owner(self, number: int) -> Env:
        """Whose a page is that isn't free."""
        owner = self.pages[number].owner
        assert owner is not None, "the page isn't free"
        return owner

    # What environments are given

    def give(self, env: Env, *item: Union[str, int, bytes, None], place: Optional[int] = None) -> None:
        """An environment is given an item, behind all others or at a place of its feed."""
        if self.feeds is not None:
            feed = self.feeds[env.number]
            feed.insert(len(feed) if place is None else place, item)

    def place_of_next(self, env: Env) -> int:
        """The place of the item that an environment is given next."""
        return 0 if self.feeds is None else len(self.feeds[env.number])

    def record(self, env: Env) -> bytes:
        """An environment's record in the image: number, name, entry, mask, and each guaranteed page with its VPN and mode."""
        head = struct.pack("<B8sII", env.number, env.name.encode(), env.cpu.pc, env.mask)
        pages = (struct.pack("<II", vpn, is_writable) + self.pages[page].data for vpn, (page, is_writable) in sorted(env.guaranteed.items()))
        return head + b"".join(pages)

    def sharers(self, number: int, but: Env) -> Iterator[Env]:
        """Who has a page bound, but one environment."""
        return (env for env in self.envs if env is not but and env.has_bound(number))

    def leave(self, writer: Env, number: int, place: int, data: Union[bytes, bytearray]) -> None:
        """Bytes that were stored in a page are left to each other environment that owns it or has it bound."""
        page = self.pages[number]
        if self.feeds is None or page.is_guaranteed:
            return
        for env in self.envs:
            if env is not writer and (env is page.owner or env.has_bound(number)):
                self.give(env, "left", number, place, bytes(data))

    def take_from_sharers(self, number: int, owner: Env) -> None:
        """Whoever has a page bound but its owner loses it."""
        for env in self.sharers(number, owner):
            self.give(env, "lost", number)

    # Slots and slices

    def change_slot(self, slot: int, hold: Optional[Tuple[int, int]]) -> None:
        self.slots[slot] = hold
        self.row("own", slot, *(hold or ("-", "-")))

    def leave_slot(self, slot: int, env: Env) -> None:
        """Its holder lets a slot go: it is empty, or its owner's again."""
        owner, _ = self.hold(slot)
        self.change_slot(slot, None if owner == env.number else (owner, owner))

    def stop(self) -> None:
        """Nobody runs any more. Who ran keeps its registers as they stand."""
        self.row("stop", self.slot, self.running().number)
        self.runner = None

    def start(self, env: Env) -> None:
        """A slice of the environment starts."""
        self.give(env, "start")
        self.runner = env
        env.cpu.rest()
        if env.handlers[STARTS]:
            self.upcall(env, STARTS, START_AREA)

    def tell_end(self, env: Env) -> None:
        """Its slice is over."""
        self.give(env, "end")
        cause = env.cpu.cause()
        env.cpu.rest()
        self.upcall(env, ENDS, END_AREA, cause)

    def upcall(self, env: Env, kind: int, area: int, *more: int) -> None:
        """Continues at a handler of starts or ends, with the resume address in a register."""
        resume = env.cpu.pc
        self.set_context(env, area, env.cpu.regs[K0], resume, *more)
        env.cpu.set(K0, resume)
        env.cpu.continue_at(env.handlers[kind])

    def enter(self, env: Env, caller: Env, kind: int) -> None:
        """A transfer enters an environment with the caller's registers."""
        self.give(env, "transfer", caller.number, kind, struct.pack("<33I", *caller.cpu.regs[1:], caller.cpu.hi, caller.cpu.lo))
        env.cpu.rest()
        self.set_context(env, ENTRY_AREA, *env.cpu.regs[1:], env.cpu.hi, env.cpu.lo, env.cpu.pc, caller.number, kind)
        env.cpu.take_registers(caller.cpu)
        env.cpu.continue_at(env.handlers[(ASYNCHRONOUS, SYNCHRONOUS)[kind]])
        env.mask = 0
        self.runner = env

    # The context page

    def context(self, env: Env) -> bytearray:
        return self.pages[env.guaranteed[CONTEXT_VPN][0]].data

    def set_context(self, env: Env, place: int, *words: int) -> None:
        struct.pack_into(f"<{len(words)}I", self.context(env), place, *words)

    def count_up(self, env: Env, place: int) -> None:
        word = word_of(self.context(env), place) + 1 & WORD
        self.set_context(env, place, word)
        self.seen["post words that wrap"] += word == 0

    # Exceptions and deaths

    def raise_exception(self, env: Env, trap: Trap) -> None:
        """The handler gets an exception; without one it is the environment's death."""
        if not env.handlers[EXCEPTIONS]:
            self.die(env, f"dead {NAMES[trap.code]}")
            return
        cpu, epc, cause = env.cpu, env.cpu.restart(), env.cpu.cause(trap.code, trap.unit)
        self.set_context(env, EXCEPTION_AREA, cpu.regs[AT], cpu.regs[K0], cpu.regs[K1], epc, trap.bad, cause)
        for register, value in ((AT, cause), (K0, epc), (K1, trap.bad)):
            cpu.set(register, value)
        cpu.continue_at(env.handlers[EXCEPTIONS])

    def die(self, env: Env, life: str) -> None:
        """The runner dies."""
        self.row("dead", self.slot, env.number)
        env.life, env.excess, self.runner = life, 0, None
        for number, page in enumerate(self.pages):
            if page.owner is env:
                self.free(number, "a death")
        env.bindings.clear()
        self.count_emptied("a death", self.cache.drop_pid(env.number))
        self.seen["revocations that end with a death"] += env.outstanding > 0
        env.outstanding = 0
        self.seen["lines that end with a death"] += self.lines.count(env)
        self.lines = [None if owner is env else owner for owner in self.lines]
        for slot, hold in enumerate(self.slots):
            if hold and env.number == hold[0]:
                self.change_slot(slot, None)
            elif hold and env.number == hold[1]:
                self.leave_slot(slot, env)

    # Pages and bindings

    def lowest_free(self) -> Optional[int]:
        """The lowest page without an owner, or None."""
        return next((number for number, page in enumerate(self.pages) if page.owner is None), None)

    def allocate(self, env: Env, number: int, read: int, write: int) -> None:
        page = self.pages[number]
        page.owner, page.read, page.write = env, read, write
        page.data[:] = bytes(PAGE)
        self.give(env, "gained", number, 1, bytes(PAGE))
        if number in self.taken:
            self.seen["pages allocated in the tick of their taking" + (" again" if self.taken[number] is env else "")] += 1

    def give_back(self, env: Env, number: int) -> None:
        """An environment frees a page of its own: it is one fewer that is outstanding."""
        self.seen["backups that are freed"] += number in env.backups
        self.give(env, "lost", number)
        self.free(number)
        if env.outstanding:
            env.outstanding -= 1
            self.seen["revocations that are met in time" if env.outstanding == 0 else "pages given back of several"] += 1

    def free(self, number: int, cause: str = "a free") -> None:
        """A page is free: its bindings go, and the claims whose ring it is; and it is no backup."""
        owner = self.owner(number)
        if number in owner.backups:
            owner.backups.remove(number)
            self.seen[f"backups that end with {cause}"] += 1
        self.pages[number].release()
        self.empty_page(number, owner, cause)
        self.take_from_sharers(number, owner)
        self.break_bindings(number)
        for claim in self.claims_on(number):
            self.withdraw(claim, cause)

    def recap(self, number: int, read: int, write: int) -> None:
        """A page has other words: the bindings of all but its owner go, and no claim does."""
        page, owner = self.pages[number], self.owner(number)
        page.read, page.write = read, write
        self.empty_page(number, owner, "a recap")
        self.take_from_sharers(number, owner)
        self.break_bindings(number, but=owner)
        self.seen["rings that have other words"] += bool(self.claims_on(number))

    def bind(self, env: Env, vpn: int, page: int, is_writable: bool) -> None:
        """A binding stands in its row, in place of another if one is there."""
        replaced = env.bindings.get(env.row_of(vpn))
        self.count_emptied("a bind", self.cache.drop_pair(vpn, env.number))
        if replaced:
            self.count_emptied("a bind in its row", self.cache.drop_pair(replaced[0], env.number))
        env.bindings[env.row_of(vpn)] = vpn, page, is_writable
        if self.feeds is not None:
            self.give(env, "gained", page, int(is_writable), bytes(self.pages[page].data))

    def unbind(self, env: Env, vpn: int) -> None:
        self.count_emptied("an unbind", self.cache.drop_pair(vpn, env.number))
        del env.bindings[env.row_of(vpn)]

    def empty_page(self, number: int, owner: Env, cause: str) -> None:
        """The rows of a page are emptied, whosesoever they are."""
        others = sum(pid != owner.number for pid in self.cache.pids_of(number))
        self.count_emptied(cause, self.cache.drop_page(number))
        self.seen[f"rows of others emptied by {cause}"] += others

    def count_emptied(self, cause: str, count: int) -> None:
        self.seen[f"rows emptied by {cause}"] += count

    def claims_on(self, number: int) -> List[Claim]:
        """The claims whose ring a page is."""
        return [claim for claim in self.claims.values() if claim.page == number]

    def break_bindings(self, number: int, but: Optional[Env] = None) -> None:
        """All bindings of a page go, but those of one environment."""
        for env in self.envs:
            if env is not but:
                env.bindings = {row: it for row, it in env.bindings.items() if it[1] != number}

    # Revocation

    def revoke(self, number: int, count: int, grace: int) -> None:
        """An environment is asked for pages."""
        if number >= len(self.envs) or not self.envs[number].is_alive:
            self.seen["revocations of " + ("the dead" if number < len(self.envs) else "nobody")] += 1
            return
        env = self.envs[number]
        outstanding = min(env.outstanding + count, MOST_OUTSTANDING)
        if outstanding == 0:
            self.seen["revocations of no page"] += 1
            return
        self.seen["revocations that move a deadline alone"] += count == 0
        self.seen["revocations that come upon another"] += env.outstanding > 0
        self.seen["deadlines that come earlier"] += env.outstanding > 0 and self.time + grace < env.deadline
        env.outstanding, env.deadline = outstanding, self.time + grace
        self.give(env, "asked", outstanding, env.deadline)
        self.set_context(env, POST_OUTSTANDING, outstanding, env.deadline)
        self.row("asked", number, outstanding, env.deadline)
        self.seen["revocations due in their tick"] += grace == 0

    def revocable(self, env: Env) -> List[int]:
        """The pages that may be taken from an environment: those that it has allocated, but its backups."""
        return [number for number, page in enumerate(self.pages) if page.owner is env and not page.is_guaranteed and number not in env.backups]

    def press(self, env: Env) -> Optional[Env]:
        """No page is free for an environment: of the others the one of which most may be taken is asked for one, the lowest
        number among equals, if nothing is outstanding of it. None where nothing may be taken from any."""
        asked: Optional[Env] = None
        most, equals = 0, 0
        for other in self.envs:
            count = 0 if other is env else len(self.revocable(other))
            equals += 0 < count == most
            if count > most:
                most, asked, equals = count, other, 0
        self.count_press(env, asked, equals)
        if asked is None:
            return None
        if asked.outstanding == 0:
            self.revoke(asked.number, 1, 2 * self.quantum)
        return asked

    def count_press(self, env: Env, asked: Optional[Env], equals: int) -> None:
        """Counts what kind of a call comes that finds no page."""
        if asked is None:
            self.seen["calls under pressure with nobody to ask"] += 1
            return
        self.seen["calls under pressure"] += 1
        self.seen["calls under pressure with equals"] += equals > 0
        self.seen["calls under pressure while pages are outstanding"] += asked.outstanding > 0
        self.seen["calls under pressure of who has most"] += len(self.revocable(env)) >= len(self.revocable(asked))
        self.seen["calls under pressure that pass over backups"] += any(
            other is not env and len(self.revocable(other) + other.backups) > len(self.revocable(asked) + asked.backups) for other in self.envs)

    def serve(self) -> None:
        """What is outstanding of those whose deadline has come is taken."""
        self.taken = {}
        due = [env for env in self.envs if env.outstanding and env.deadline <= self.time]
        self.seen["ticks with several deadlines"] += len(due) > 1
        for env in due:
            owned = [number for number, page in enumerate(self.pages) if page.owner is env and not page.is_guaranteed]
            victims = self.revocable(env)[: env.outstanding]
            self.seen["deadlines with too few pages"] += len(victims) < env.outstanding
            self.seen["deadlines that spare a backup"] += any(number in env.backups for number in owned[: env.outstanding])
            for number in victims:
                self.take(env, number)
            env.outstanding = 0

    def take(self, env: Env, number: int) -> None:
        """A page is taken: its bytes go to the first backup, it is recorded, and then it is free."""
        self.count_taking(env, number)
        backup = env.backups.pop(0) if env.backups else None
        self.give(env, "taken", number, backup)
        if backup is not None:
            self.pages[backup].data[:] = self.pages[number].data
            self.leave(env, backup, 0, self.pages[backup].data)
        place = word_of(self.context(env), POST_TAKINGS)
        if place < MOST_RECORDS:
            self.set_context(env, RECORDS + 8 * place, number, NO_BACKUP if backup is None else backup)
        self.count_up(env, POST_TAKINGS)
        self.free(number, "a taking")
        self.row("take", env.number, number, "-" if backup is None else backup)
        self.taken[number] = env

    def count_taking(self, env: Env, number: int) -> None:
        """Counts what kind of a taking comes."""
        self.seen["pages taken " + ("with a copy" if env.backups else "without a copy")] += 1
        self.seen["pages taken that their owner has bound"] += env.has_bound(number)
        self.seen["pages taken that others have bound"] += any(self.sharers(number, env))
        self.seen["rings taken"] += bool(self.claims_on(number))
        self.seen["pages taken from the runner"] += env is self.runner
        self.seen["pages taken that hold bytes"] += any(self.pages[number].data)
        self.seen["takings behind the last record"] += word_of(self.context(env), POST_TAKINGS) >= MOST_RECORDS
        if env.backups:
            self.seen["copies that others see"] += any(self.sharers(env.backups[0], env))
            self.seen["copies into rings"] += bool(self.claims_on(env.backups[0]))
            self.seen["copies over other bytes"] += self.pages[env.backups[0]].data != self.pages[number].data

    # Packets and lines

    def claim(self, env: Env, filter_: Filter, page: int) -> int:
        number = self.next_claim
        self.claims[number] = Claim(number, env, filter_, page)
        self.next_claim += 1
        self.seen["claims beside sixty others"] += len(self.claims) > 60
        return number

    def withdraw(self, claim: Claim, cause: str) -> None:
        """A claim stands no more, nor does its handler."""
        del self.claims[claim.number]
        self.seen[f"claims that end with {cause}"] += 1
        self.seen["handlers that end with their claims"] += bool(claim.handler)

    def hear(self, claim: Claim, words: Tuple[int, ...]) -> None:
        """A claim has this handler and no other, or none of no words."""
        kind = "that are replaced" if words else "that are removed"
        self.seen[f"handlers {kind}"] += bool(claim.handler)
        claim.handler = words

    def receive(self, packet: bytes) -> None:
        """A packet comes: it is the lowest claim's that matches it, and nobody's if none does."""
        self.seen["packets that several claims match"] += sum(claim.filter.matches(packet) for claim in self.claims.values()) > 1
        claim = next((claim for _, claim in sorted(self.claims.items()) if claim.filter.matches(packet)), None)
        if claim is None:
            self.row("drop", len(packet))
            self.seen["packets dropped"] += 1
            return
        self.give(claim.env, "packet", claim.number, packet)
        self.count_up(claim.env, POST_PACKETS)
        if claim.handler:
            self.hand_over(claim, packet)
        else:
            self.deliver(claim, packet)

    def is_shared(self, claim: Claim) -> bool:
        """Whether others see the page of a claim."""
        return any(self.sharers(claim.page, claim.env))

    def deliver(self, claim: Claim, packet: bytes) -> None:
        """A packet goes into the buffer whose turn it is, or is lost if that is full."""
        page, buffer = self.pages[claim.page].data, claim.deliveries % 2 * BUFFER_SIZE
        if word_of(page, buffer):
            self.count_up(claim.env, POST_LOST)
            self.seen["packets lost"] += 1
            self.seen["packets lost beside an empty buffer"] += not word_of(page, BUFFER_SIZE - buffer)
            return
        page[buffer : buffer + 4 + len(packet)] = struct.pack("<I", len(packet)) + packet
        self.leave(claim.env, claim.page, 0, page)
        claim.deliveries += 1
        self.seen["packets delivered"] += 1
        self.seen["delivered", len(packet)] += 1
        self.seen["packets that others see"] += self.is_shared(claim)

    def hand_over(self, claim: Claim, packet: bytes) -> None:
        """The handler runs over a packet and the ring page, and its replies are sent as far as there is room."""
        run = Run(claim.handler, packet, claim.number, self.pages[claim.page].data)
        self.leave(claim.env, claim.page, 0, self.pages[claim.page].data)
        room = MOST_SENT - len(claim.env.sent)
        claim.env.sent += run.replies[:room]
        self.seen["packets that handlers take"] += 1
        self.seen["packets that handlers take over a page that others see"] += self.is_shared(claim)
        self.seen["replies"] += len(run.replies[:room])
        self.seen["replies without room"] += len(run.replies[room:])
        self.seen["runs of handlers with stores"] += run.memory.stores > 0
        if run.end == FAULT:
            self.seen[f"runs of handlers that end with a bad {run.why}"] += 1
            self.seen["runs of handlers that end with a fault behind a store"] += run.memory.stores > 0
            self.seen["runs of handlers that end with a fault behind a reply"] += bool(run.replies)

    def signal(self, line: int) -> None:
        """A line is raised: its owner, if it has one, finds the line's bit set."""
        env = self.lines[line]
        self.seen["lines to nobody" if env is None else "lines delivered"] += 1
        if env:
            self.give(env, "line", line)
            self.set_context(env, POST_LINES, word_of(self.context(env), POST_LINES) | 1 << line)


NAMES = dict(enumerate("int mod tlbl tlbs adel ades ibe dbe sys bp ri cpu ov".split()))
