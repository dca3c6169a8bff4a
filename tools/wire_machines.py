"""Machines on a wire, for tools/try: which words name them, how they run together, and what they leave in their folders."""

from __future__ import annotations

import os
from typing import List, Optional, Tuple

from limits import MOST_MACHINES
from packets import NO_WIRE, Packet, packets_text, reports, wired_schedule
from programs import REFUSED, USAGE, Again, Failed, Machine, aegis, bad_schedule, content, made_machine, refusal, reported, write

WIRED = "wired.sch"  # a machine's schedule under which it runs alone as on the wire
Named = Tuple[str, Optional[str]]  # a manifest, and its schedule if there is one


def named_machines(words: List[str]) -> List[Named]:
    """Each manifest with its schedule, if one follows it."""
    pairs: List[Named] = []
    for word in words:
        if not word.endswith(".sch"):
            pairs.append((word, None))
        elif pairs and pairs[-1][1] is None:
            pairs[-1] = (pairs[-1][0], word)
        else:
            raise Failed(USAGE, f"{word}: a schedule follows its manifest")
    if len(pairs) > MOST_MACHINES:
        raise Failed(USAGE, f"more than {MOST_MACHINES} machines")
    return pairs


def made_machines(pairs: List[Named], quantum: int, room: str) -> List[Machine]:
    """The machines of these manifests and schedules, each in a folder of its number."""
    machines = []
    for at, (manifest, schedule) in enumerate(pairs):
        os.makedirs(f"{room}/{at}", exist_ok=True)
        machines.append(made_machine([manifest], quantum, schedule, f"{room}/{at}"))
    return machines


def run_wire(machines: List[Machine], delay: int, ticks: int, room: str) -> List[str]:
    """Runs machines on a wire: the texts of their reports."""
    files = [os.path.join(str(at), file) for at, machine in enumerate(machines) for file in machine.files()]
    status, said = aegis("wire", str(delay), str(ticks), *files, cwd=room)
    if status == USAGE:
        raise Failed(USAGE, NO_WIRE)
    if status == REFUSED:
        machine = machines[int(said.split()[1].split(b"/")[0])]
        raise Failed(REFUSED, *bad_schedule(machine.schedule or "", content(f"{machine.room}/try.sch"), *refusal(said)))
    if status:
        raise Failed(status, f"`wire` ended with {status}: {said.decode(errors='replace').strip()}")
    return reports(said.decode("latin-1"))


def again_on_wire(machines: List[Machine], at: int, delay: int, room: str) -> Again:
    """How one of the machines on a wire runs with another limit."""
    return lambda limit: reported(machines[at], run_wire(machines, delay, limit, room)[at])


def keep_packets(machines: List[Machine], sent: List[Packet], delay: int, room: str) -> None:
    """Leaves what was sent, and for each machine the schedule under which it runs alone as on the wire."""
    write(f"{room}/try.packets", packets_text(delay, sent).encode())
    for at, machine in enumerate(machines):
        own = content(f"{machine.room}/try.sch").decode("latin-1") if machine.schedule else ""
        write(f"{machine.room}/{WIRED}", wired_schedule(own, sent, at, len(machines), delay).encode("latin-1"))
