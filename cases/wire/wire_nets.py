"""Random machines on a wire, made from a seed: those of cases/reference_model, which send each other packets that they claim.

The filters of all machines are known to each, so that a frame which one has to send is mostly made of another's filter, and
its byte 5 mostly names a machine: another, all others, the sender itself, or one that isn't there. Handlers turn a packet
round: the reply has its first bytes, and another receiver. Some machines have one environment alone, which sends a few
packets and exits, so that they are idle early.
"""
from __future__ import annotations

import os
import random
import struct
import sys
from typing import List, Tuple, Union

CASES = os.path.dirname(os.path.dirname(os.path.realpath(__file__)))
sys.path[:0] = [f"{CASES}/reference_model", f"{CASES}/random_systems", CASES]
import binary
from guests import PACKETS, SEND, Guest, System, Traffic
from handler_words import Handlers
from systems import A0, A1, BASE, COUNTER, EXIT, NOP, OPCODES, SYSCALL, V0, ZERO, addiu, immediate, ori

FRAMES, FRAME = 12, 64  # that a program has to send, and how far apart they stand
DELAYS = (1, 1, 1, 2, 2, 3, 7, 16, 16, 40, 40, 100, 100, 400, 65_536)


class TurningHandlers(Handlers):
    """Handlers of which many turn a packet round."""

    targets = (0,)

    def words(self) -> List[int]:
        return self.turning() if self.chance.random() < 0.5 else super().words()

    def turning(self) -> List[int]:
        """Copies sixteen bytes of the packet into the page, changes its receiver and at times its first byte, and replies."""
        place = 0x1000 + 16 * self.chance.randrange(4, 8)
        words: List[int] = []
        for at in range(0, 16, 4):
            words += immediate(OPCODES["lw"], ZERO, 8, at), immediate(OPCODES["sw"], ZERO, 8, place + at)
        words += ori(9, ZERO, self.chance.choice(self.targets)), immediate(OPCODES["sb"], ZERO, 9, place + 5)
        if self.chance.random() < 0.4:
            words += ori(9, ZERO, self.chance.randrange(4)), immediate(OPCODES["sb"], ZERO, 9, place)
        return [*words, ori(A0, ZERO, place), ori(A1, ZERO, self.chance.choice((14, 15, 16))), *[SYSCALL] * self.chance.choice((1, 1, 1, 2))]


class NetGuest(Guest):
    """A program with frames for other machines."""

    def __init__(self, chance: random.Random, system: NetSystem, number: int):
        self.net = system.net
        targets = self.net.targets(system.machine)
        self.MAKES = type("Turning", (TurningHandlers,), {"targets": targets})
        super().__init__(chance, system, number)
        for at in range(FRAMES):
            frame = bytearray(self.traffic.packet().ljust(14, b"\0")[:FRAME])
            frame[5] = chance.choice(targets)
            self.keep(PACKETS + FRAME * at, frame)

    def send(self) -> None:
        """Sends a frame, or what programs of a machine alone send."""
        if self.chance.random() < 0.15:
            super().send()
        else:
            self.call(SEND, self.frame(), self.chance.choice((14, 15, 16, 40, FRAME)))

    def frame(self) -> int:
        return PACKETS + FRAME * self.chance.randrange(FRAMES)

    def burst(self) -> None:
        """Sends a frame some times, tick upon tick."""
        self.load_number(A0, self.frame())
        self.add(ori(A1, ZERO, self.chance.choice((14, 16, FRAME))), *[ori(V0, ZERO, SEND), SYSCALL] * self.chance.randrange(2, 6))

    BLOCKS = (*(it for it in Guest.BLOCKS if it[0] is not Guest.send), (send, 70), (burst, 25), (Guest.handle_packets, 15))


class NetTraffic(Traffic):
    """The filters of all machines of a net, and packets of the lengths that a frame may have."""

    def __init__(self, chance: random.Random, filters: List[List[Tuple[int, ...]]]):
        super().__init__(chance)
        self.filters = filters


class NetSystem(System):
    """A machine of a net."""

    GUEST = NetGuest

    def __init__(self, seed: int, net: Net, machine: int):
        self.net, self.machine = net, machine
        super().__init__(seed)

    def new_traffic(self) -> NetTraffic:
        return NetTraffic(self.chance, self.net.filters)

    def environments(self) -> int:
        return self.chance.randrange(1, 4)


class Brief:
    """A machine with one environment, which sends a frame some times and exits."""

    schedule = b""

    def __init__(self, seed: int, net: Net, machine: int):
        chance = random.Random(seed)
        frame = bytearray(NetTraffic(chance, net.filters).packet().ljust(14, b"\0")[:FRAME])
        frame[5] = chance.choice(net.targets(machine))
        words = [ori(COUNTER, ZERO, chance.randrange(1, 40)), ori(A0, ZERO, BASE + 0x100), ori(A1, ZERO, len(frame)), ori(V0, ZERO, SEND), SYSCALL,
                 addiu(COUNTER, COUNTER, -1), immediate(5, COUNTER, ZERO, -4), NOP, ori(V0, ZERO, EXIT), SYSCALL]
        body = struct.pack(f"<{len(words)}I", *words).ljust(0x100, b"\0") + bytes(frame)
        self.image = binary.image(16, chance.randrange(16, 100), (0,), [binary.Program("brief", body, BASE)], chance.choice((1, 2)))


class Net:
    """Two to eight machines, a delay and a number of ticks."""

    def __init__(self, seed: int):
        chance = self.chance = random.Random(seed)
        self.count = chance.randrange(2, 9)
        self.filters: List[List[Tuple[int, ...]]] = []
        self.delay = chance.choice(DELAYS)
        self.ticks = chance.randrange(60) if chance.random() < 0.1 else chance.randrange(300, 900)
        are_brief = [chance.random() < 0.2 for _ in range(self.count)]
        self.machines = [self.machine(1000 * seed + machine, machine, is_brief) for machine, is_brief in enumerate(are_brief)]
        if chance.random() < 0.06:
            self.machines = [self.machines[0]] * self.count

    def machine(self, seed: int, machine: int, is_brief: bool) -> Union[Brief, NetSystem]:
        return Brief(seed, self, machine) if is_brief else NetSystem(seed, self, machine)

    def targets(self, machine: int) -> Tuple[int, ...]:
        """What byte 5 may name, mostly other machines or all of them."""
        others = [it for it in range(self.count) if it != machine]
        return (*others * 2, *[0xFF] * (1 + len(others)), machine, self.count, 0xFE)
