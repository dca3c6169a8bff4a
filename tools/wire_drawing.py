"""Draws machines on a wire as SVG: their pictures one under another, and the packets between them."""

from __future__ import annotations

import html
from dataclasses import dataclass
from typing import List, Optional, Set, Tuple

from drawing import AXIS, GUTTER, HUES, Drawing, counted, number, whole
from limits import MOST_MACHINES
from packets import ALL_OTHERS, RECEIVER, Packet

NAME, GAP = 20, 16  # the height of a machine's name, and what is between two pictures
MOST_LINES = 2_000  # packets that are drawn
LONGEST = 60  # digits of a packet that hovering shows
STYLE = """
.sheet > section > h2 { font-size: 1.1rem; margin: .4rem 0 .6rem; }
.machine { font-size: 13px; font-weight: 600; fill: var(--ink); }
.packet { fill: none; stroke-width: 1.3; opacity: .8; }
.packet.late { stroke-dasharray: 3 3; }
.packet:hover { stroke-width: 3; opacity: 1; }
.nobody { stroke: var(--accent); stroke-width: 1.6; fill: none; }
""" + "".join(f".f{at} {{ --from: hsl({HUES[at]} 70% 42%); stroke: var(--from); }} .comes.f{at} {{ fill: var(--from); stroke: none; }}\n"
              for at in range(MOST_MACHINES))
LEGEND = {
    "packet": ('<path class="packet f0" d="M-5-7 4 5"/><circle class="comes f0" cx="4" cy="5" r="2.4"/>',
               "a packet, from the tick in which it is sent to the one in which it comes; the packets of a machine have one colour"),
    "late": ('<path class="packet late f0" d="M-5-7 4 5"/>', "broken: the other machine is idle, and takes none"),
    "nobody": ('<path class="nobody" d="M-3-3 3 3M3-3-3 3"/>', "a packet for the sender itself, or for no machine"),
}


@dataclass
class Machine:
    """A machine of the picture: its name, its drawing, how it ended and when, and where its drawing begins."""

    name: str
    drawing: Drawing
    ending: str
    time: int
    top: float = 0


class WireDrawing:
    """The picture of a wire. All drawings are of the same ticks, with the same width."""

    def __init__(self, machines: List[Machine], packets: List[Packet], delay: int):
        self.machines, self.delay = machines, delay
        self.seen: Set[str] = set()
        self.first, self.end = machines[0].drawing.picture.first, machines[0].drawing.picture.end
        self.packets = [it for it in packets if self.first <= it.tick < self.end]
        self.height = 0.0
        for machine in machines:
            machine.top = self.height + NAME
            self.height = machine.top + machine.drawing.height + GAP

    def svg(self) -> str:
        """The whole picture."""
        first = max((it.drawing for it in self.machines), key=lambda it: len(it.environments))
        bodies = "\n".join(self.machine(at) for at in range(len(self.machines)))
        lines = "\n".join(self.lines())
        return whole(first.width, self.height, "machines down, ticks across, and packets from one to another", f"{first.defs()}\n{bodies}\n{lines}")

    def machine(self, at: int) -> str:
        """The name and the drawing of a machine."""
        it = self.machines[at]
        ending = it.ending if self.first <= it.time <= self.end else ""
        return (f'<text class="machine" x="0" y="{number(it.top - 5)}">machine {at}: {html.escape(it.name)}</text>\n'
                f'<g transform="translate(0 {number(it.top)})">\n{it.drawing.body(ending, it.time)}\n</g>')

    def lines(self) -> List[str]:
        """The packets, as lines."""
        parts: List[str] = []
        for packet in self.packets[:MOST_LINES]:
            receivers = packet.receivers(len(self.machines))
            parts += [self.line(packet, it) for it in receivers] or [self.lost(packet)]
        return parts

    def line(self, packet: Packet, to: int) -> str:
        """A packet from its sender to a machine, as far as the range goes."""
        (x, y), (end, foot) = self.edge(packet.machine, packet.tick + 1, to), self.edge(to, packet.tick + self.delay, packet.machine)
        right = GUTTER + self.machines[to].drawing.picture.width
        comes = end <= right
        if not comes:
            end, foot = right, y + (foot - y) * (right - x) / (end - x)
        is_late = packet.tick + self.delay >= self.machines[to].time
        self.seen.update({"packet", "late"} if is_late else {"packet"})
        style = f"packet {'late ' if is_late else ''}f{packet.machine}"
        dot = f'<circle class="comes f{packet.machine}" cx="{number(end)}" cy="{number(foot)}" r="2.4"/>' if comes and not is_late else ""
        return f'<path class="{style}" d="M{number(x)} {number(y)}L{number(end)} {number(foot)}"><title>{self.says(packet, to)}</title></path>{dot}'

    def lost(self, packet: Packet) -> str:
        """A packet that comes to nobody."""
        self.seen.add("nobody")
        machine = self.machines[packet.machine]
        x, y = machine.drawing.x(packet.tick + 1), machine.top + machine.drawing.bottom + 6
        return f'<path class="nobody" d="M{number(x - 3)} {number(y - 3)}l6 6m0-6l-6 6"><title>{self.says(packet, None)}</title></path>'

    def edge(self, at: int, tick: int, other: int) -> Tuple[float, float]:
        """Where a line to another machine begins, or one from it ends."""
        machine = self.machines[at]
        return machine.drawing.x(tick), machine.top + (machine.drawing.bottom if other > at else AXIS)

    def says(self, packet: Packet, to: Optional[int]) -> str:
        """What hovering shows."""
        digits = packet.data.hex()
        named = "all others" if packet.data[RECEIVER] == ALL_OTHERS else f"machine {packet.data[RECEIVER]}"
        come = f"comes to machine {to} in tick {packet.tick + self.delay:,}" if to is not None else "comes to nobody"
        return (f"tick {packet.tick:,}: machine {packet.machine}, environment {packet.env}, to {named}; {come}\n{counted(len(packet.data), 'byte')}: "
                f"{digits[:LONGEST]}{'..' if len(digits) > LONGEST else ''}")
