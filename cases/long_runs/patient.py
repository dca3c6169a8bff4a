"""Random systems that run for up to as many ticks as a machine has, made from a seed: those of cases/reference_model with long slices,
whose programs also count down from large numbers, and so wait.

The events are of the ticks that a schedule may name, and the deadlines after them too.
"""
from __future__ import annotations

import math
import os
import random
import sys

sys.path.append(os.path.join(os.path.dirname(os.path.dirname(os.path.realpath(__file__))), "reference_model"))
from guests import Guest, System
from limits import MOST_QUANTUM, MOST_TICKS
from systems import COUNTER, addiu

LEAST_TICKS, LEAST_QUANTUM = 500_000, 20_000
WAITS = 60  # of a program in a run, about
ROUND = 3  # ticks of a round of a wait


class PatientGuest(Guest):
    """A program that waits for long."""

    def __init__(self, chance: random.Random, system: PatientSystem, number: int):
        super().__init__(chance, system, number)
        self.patience = system.ticks // WAITS // ROUND
        self.is_calm = chance.random() < 0.4

    def wait_long(self) -> None:
        self.load_number(COUNTER, self.chance.randrange(1, 2 * self.patience))
        place = len(self.words)
        self.add(addiu(COUNTER, COUNTER, -1))
        self.branch_back(5, COUNTER, 0, place)

    def fault(self) -> None:
        if not self.is_calm:
            super().fault()

    def other_calls(self) -> None:
        if not self.is_calm:
            super().other_calls()

    BLOCKS = (*Guest.BLOCKS, (wait_long, 16))


class PatientSystem(System):
    """An image whose programs wait, and a schedule."""

    GUEST = PatientGuest

    def slice_ticks(self) -> int:
        return self.chance.randrange(LEAST_QUANTUM, MOST_QUANTUM + 1)

    def duration(self) -> int:
        return int(math.exp(self.chance.uniform(math.log(LEAST_TICKS), math.log(MOST_TICKS))))
