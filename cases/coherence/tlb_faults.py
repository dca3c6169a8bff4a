"""What is wrong of the TLB that `tlb` shows after some ticks and after one more, by docs/MACHINE.md, "The TLB under the kernel".

Nothing of it is computed here: the texts alone are looked at.
"""
from __future__ import annotations

from dataclasses import dataclass, field
from typing import Dict, Iterator, List, Set, Tuple

ROWS, FIRST_RANDOM, USER_END = 64, 8, 0x80000000
DIRTY, VALID, GLOBAL = 1 << 10, 1 << 9, 1 << 8
MOST_REFILLS, MOST_MISSES = 2, 1


@dataclass
class Shown:
    """What a text of `tlb` shows: the environments that live, where each has a guaranteed page, by environment and VPN the page and
    the mode of a binding, the counts of each environment, Random, and the rows in their order."""

    living: Set[int] = field(default_factory=set)
    kept: Set[Tuple[int, int]] = field(default_factory=set)
    bound: Dict[Tuple[int, int], Tuple[int, str]] = field(default_factory=dict)
    fills: Dict[int, Tuple[int, int, int]] = field(default_factory=dict)
    random: int = -1
    rows: List[Tuple[int, int]] = field(default_factory=list)


def read(text: str) -> Shown:
    shown = Shown()
    for line in text.splitlines():
        word, *rest = line.split()
        if word == "env" and rest[2] == "live":
            shown.living.add(int(rest[0]))
        elif word == "keep":
            shown.kept.add((int(rest[0]), int(rest[1], 16)))
        elif word == "bind":
            shown.bound[int(rest[0]), int(rest[1], 16)] = int(rest[2]), rest[3]
        elif word == "fill":
            shown.fills[int(rest[0])] = int(rest[1]), int(rest[2]), int(rest[3])
        elif word == "random":
            shown.random = int(rest[0])
        elif word == "row" and len(rest) == 3 and rest[0] == str(len(shown.rows)):
            shown.rows.append((int(rest[1], 16), int(rest[2], 16)))
    return shown


def row_faults(shown: Shown) -> Iterator[str]:
    """What is wrong of the rows that aren't empty, one by one and together."""
    places: Dict[Tuple[int, int], int] = {}
    for number, (high, low) in enumerate(shown.rows):
        if high >= USER_END:
            if (high, low) != (USER_END, 0):
                yield f"row {number} is neither empty nor a user's"
            continue
        vpn, env, page = high >> 12, high >> 6 & 63, low >> 12
        if (env, vpn) in places:
            yield f"rows {places[env, vpn]} and {number} fit one pair"
        places[env, vpn] = number
        if env not in shown.living:
            yield f"row {number} is of environment {env}, which doesn't live"
        elif (env, vpn) not in shown.kept and shown.bound.get((env, vpn)) != (page, "w" if low & DIRTY else "r"):
            yield f"row {number} is no mapping of environment {env}"
        if low & (VALID | GLOBAL) != VALID:
            yield f"row {number} isn't valid, or is everybody's"


def faults(shown: Shown) -> Iterator[str]:
    if len(shown.rows) != ROWS:
        yield f"{len(shown.rows)} rows"
    if not FIRST_RANDOM <= shown.random < ROWS:
        yield f"Random is {shown.random}"
    yield from row_faults(shown)


def rise_faults(before: Shown, after: Shown) -> Iterator[str]:
    """What is wrong of how the counts rise in a tick."""
    risen = [env for env, counts in after.fills.items() if counts != before.fills.get(env)]
    if len(risen) > 1 or before.fills.keys() != after.fills.keys():
        yield f"the counts of {len(risen)} environments change"
    for env in risen:
        rise = [new - old for old, new in zip(before.fills.get(env, (0, 0, 0)), after.fills[env])]
        if min(rise) < 0 or rise[0] + rise[1] > MOST_REFILLS or rise[2] > MOST_MISSES:
            yield f"the counts of environment {env} rise by {rise[0]}, {rise[1]} and {rise[2]}"


def all_faults(before: str, after: str) -> List[str]:
    first, second = read(before), read(after)
    return [*faults(first), *(f"then {it}" for it in faults(second)), *rise_faults(first, second)]
