"""Draws the slices, marks and holdings of a report as SVG: what is drawn of a range of ticks, and where it stands.

A lane is a slot, or an environment where the picture goes by environments. What is too small to draw is folded while the
report is read, so a long one takes little memory.
"""

from __future__ import annotations

import functools
import html
import math
from dataclasses import dataclass, field
from typing import Dict, Iterable, Iterator, List, Optional, Set, Tuple

from report import MOST_SLOTS, Environment, Listener, Mark, Slice

# --- What is drawn, and what is folded ------------------------------------------------------------------------


@dataclass(frozen=True)
class Kind:
    """A kind of mark."""

    shape: str  # within 5 of (0, 0)
    after: bool  # it happens after its tick's step, and stands after the tick
    says: str


KINDS = {
    "give": Kind('<path class="line" d="M-4.5 0H3.5M0-3.5 4 0 0 3.5"/>', True, "the rest of the slice is given away"),
    "async": Kind('<path class="open" d="M-3-4.2 4 0-3 4.2Z"/>', True, "asynchronous transfer"),
    "sync": Kind('<path d="M-4-4.2 2 0-4 4.2Z"/><path class="line" d="M3.7-4.2V4.2"/>', True,
                 "synchronous transfer: the slot goes along"),
    "end": Kind('<path d="M0-4.4 6.2-2 0 .6Z"/><path class="line" d="M0-4.4V4.8"/>', True,
                "its ticks are over, and grace begins"),
    "over": Kind('<path d="M0-4.2 4.4 3.6H-4.4Z"/>', True, "a quantum of grace overrun"),
    "pay": Kind('<path class="open" d="M0-4.6 4.6 0 0 4.6-4.6 0Z"/>', False, "a turn forfeited for an overrun"),
    "dead": Kind('<path class="halo" d="M-3.7-3.7 3.7 3.7M3.7-3.7-3.7 3.7"/>'
                 '<path class="cross" d="M-3.7-3.7 3.7 3.7M3.7-3.7-3.7 3.7"/>', True, "it dies of a cause"),
    "exit": Kind('<circle class="halo" r="3.4"/><circle class="dot" r="3.6"/>', True, "it exits"),
    "asked": Kind('<circle r="4.2"/><path class="line" d="M0-2.4V.4M0 2v.4"/>', False,
                  "asked to give pages back; the dashes lead to the deadline, or end where another comes"),
    "take": Kind('<path d="M-4-4H4V4H-4Z"/><path class="line" d="M-2 0H2"/>', False, "a page is taken"),
    "drop": Kind('<path class="line" d="M0-4.4V2.4M-3.2-.6 0 2.6 3.2-.6M-3.6 4.4H3.6"/>', False,
                 "a packet that nobody claims"),
    "packet": Kind('<path class="open" d="M-4.6-3.2H4.6V3.2H-4.6Z"/><path class="line" d="M-4.6-3.2 0 .8 4.6-3.2"/>', False,
                   "a packet arrives, as the schedule says"),
    "line": Kind('<path class="line" d="M-4.4 2.6H-1.4V-3.4H1.6V2.6H4.4"/>', False, "a signal on an interrupt line"),
    "revoke": Kind('<path class="line" d="M4.4 0H-3.6M-.6-3.4-4.2 0-.6 3.4"/>', False, "an environment is to give pages back"),
}
TRANSFERS = frozenset(("give", "async", "sync"))
Lane = Tuple[str, int]  # a slot or an environment with its slices, an environment's pages, the packets, or what the schedule says
SLOT, ENV, PAGES, PACKETS, OUTSIDE = "slot", "env", "pages", "packets", "outside"
SHOWN_ROWS = 6  # that hovering lists where several are folded


@dataclass
class Column:
    """Slices of one slot that are too narrow for bars of their own and stand in one column."""

    start: int
    end: int
    first: str  # the rows of its first slice
    begun: int = 0  # slices that begin in it
    pieces: int = 0  # slices that have a piece in it
    parts: Dict[int, int] = field(default_factory=dict)  # ticks of each environment

    def take(self, env: int, start: int, end: int, begun: int) -> None:
        """Takes in a piece of a slice: the column ends with it."""
        self.end = end
        self.begun += begun
        self.pieces += 1
        self.parts[env] = self.parts.get(env, 0) + end - start


@dataclass
class Note:
    """A remark at a tick of a lane, which is numbered in the picture and written below it."""

    tick: int
    lane: int
    text: str


@dataclass
class Spot:
    """Marks of one lane that stand within one unit of the picture."""

    x: float
    kinds: Dict[str, int]
    envs: Set[Optional[int]]
    rows: List[str]
    until: int = 0  # of the last `asked`: its deadline, or where that ended before it came
    is_over: bool = False  # whether it ended so, since it was moved, or by a death

    def join(self, other: "Spot") -> None:
        """Takes in a spot that stands too near."""
        for kind, count in other.kinds.items():
            self.kinds[kind] = self.kinds.get(kind, 0) + count
        self.envs |= other.envs
        self.rows += other.rows[:SHOWN_ROWS - len(self.rows)]
        self.until, self.is_over = other.until, other.is_over

    @property
    def count(self) -> int:
        return sum(self.kinds.values())


@dataclass
class Holding:
    """A slot's owner and holder from a tick on."""

    start: int
    owner: Optional[int]
    holder: Optional[int]
    row: str
    end: int = 0
    changes: int = 0  # above 0: so many short holdings, folded


class Picture(Listener):
    """What stands in a range of ticks. What is too small for its width is folded as it comes."""

    COLUMN = 3  # units across of a column; a bar that is narrower is put into columns

    MOST_LANES = 16  # slots with an owner at boot: where there are more, and nothing is chosen, lanes are environments

    def __init__(self, first: int, end: int, width: int, environments: int, by_env: Optional[bool] = None):
        self.first, self.end, self.width = first, end, width
        self.chosen, self.by_env = by_env, bool(by_env)
        self.scale = width / max(end - first, 1)
        self.column_ticks = max(1, math.ceil(self.COLUMN / self.scale))
        self.ticks = [0] * environments
        self.bars: List[Slice] = []
        self.columns: Dict[int, Dict[int, Column]] = {}
        self.spots: Dict[Lane, Dict[int, Spot]] = {}
        self.deaths: List[Tuple[str, int, int, int, str]] = []  # exits too: kind, lane, environment, tick, row
        self.holdings: Dict[int, List[Holding]] = {}
        self.asked: Dict[int, Spot] = {}  # by environment, the mark of its last revocation
        self.revocations: List[Mark] = []  # all rows `asked` and `take`, also out of the range

    @property
    def what(self) -> str:
        """What its lanes show."""
        return ENV if self.by_env else SLOT

    def end_boot(self) -> None:
        """Now it is known how many slots there are."""
        if self.chosen is None:
            self.by_env = len(self.holdings) > self.MOST_LANES

    def x(self, tick: float) -> float:
        """Where a tick begins."""
        return (tick - self.first) * self.scale

    def lane(self, slot: int, env: int) -> int:
        """The lane of what happens to an environment in a slot."""
        return env if self.by_env else slot

    def lanes(self) -> List[int]:
        """The slots that any row names, or all environments."""
        if self.by_env:
            return list(range(len(self.ticks)))
        named = {bar.slot for bar in self.bars} | set(self.columns) | set(self.holdings)
        return sorted(named | {slot for what, slot in self.spots if what == SLOT})

    def add_slice(self, piece: Slice) -> None:
        """Takes a slice in, as far as it lies in the range."""
        start, end = piece.start, piece.end
        if start < self.first or end > self.end:
            start, end = max(start, self.first), min(end, self.end)
        if end < start or (end == start and (piece.end > piece.start or start in (self.first, self.end))):
            self.columns.setdefault(self.lane(piece.slot, piece.env), {})
            return
        self.ticks[piece.env] += end - start
        if (end - start) >= self.column_ticks:
            self.bars.append(piece)
        else:
            self.fold(piece, start, end)

    def fold(self, piece: Slice, start: int, end: int) -> None:
        """Puts a narrow slice into the one column or the two in which it lies."""
        columns = self.columns.setdefault(self.lane(piece.slot, piece.env), {})
        at = (start - self.first) // self.column_ticks
        edge = self.first + (at + 1) * self.column_ticks
        begun = 1
        while True:
            column = columns.get(at)
            if column is None:
                column = columns[at] = Column(start, edge, piece.rows)
            column.take(piece.env, start, min(edge, end), begun)
            if edge >= end:
                return
            at, start, edge, begun = at + 1, edge, edge + self.column_ticks, 0

    def add_event(self, kind: str, time: int, row: str) -> None:
        """Takes in an event of the schedule, a mark of a lane of its own."""
        self.keep((OUTSIDE, 0), kind, time, None, row)

    def add_mark(self, kind: str, time: int, env: Optional[int], slot: Optional[int], row: str, until: int) -> None:
        """Takes a mark in, if its tick lies in the range. Deaths are few and stand for themselves."""
        if kind in ("asked", "take"):
            self.revocations.append(Mark(kind, time, env, slot, row, until))
        if env is None:
            self.keep((PACKETS, 0), kind, time, env, row)
            return
        if kind in ("asked", "dead", "exit"):
            self.end_deadline(env, time + KINDS[kind].after)
        lane = (self.what, self.lane(slot, env)) if slot is not None else (PAGES, env)
        if kind in ("dead", "exit"):
            self.spots.setdefault(lane, {})
            if self.first <= time < self.end:
                self.deaths.append((kind, lane[1], env, time, row))
            return
        spot = self.keep(lane, kind, time, env, row)
        if kind == "asked" and spot is not None:
            spot.until, spot.is_over = until, False
            self.asked[env] = spot

    def keep(self, lane: Lane, kind: str, time: int, env: Optional[int], row: str) -> Optional[Spot]:
        """The spot of a mark in a lane, where its tick lies in the range."""
        spots = self.spots.get(lane)
        if spots is None:
            spots = self.spots[lane] = {}
        if not self.first <= time < self.end:
            return None
        x = (time + KINDS[kind].after - self.first) * self.scale
        spot = spots.get(int(x))
        if spot is None:
            spot = spots[int(x)] = Spot(x, {kind: 1}, {env}, [row])
        else:
            spot.kinds[kind] = spot.kinds.get(kind, 0) + 1
            spot.envs.add(env)
            if len(spot.rows) < SHOWN_ROWS:
                spot.rows.append(row)
        return spot

    def end_deadline(self, env: int, time: int) -> None:
        """What an environment was asked for by its last revocation has another deadline from now on, or none."""
        spot = self.asked.pop(env, None)
        if spot is not None and time < spot.until:
            spot.until, spot.is_over = time, True

    def add_holder(self, slot: int, start: int, owner: Optional[int], holder: Optional[int], row: str) -> None:
        """A slot's owner and holder from tick `start` on. Short holdings in a row are folded into one."""
        held = self.holdings.setdefault(slot, [])
        if held:
            self.shut(held, start)
        held.append(Holding(start, owner, holder, row))

    def shut(self, held: List[Holding], end: int) -> None:
        """The last holding ends; where it was short or lay before the range, it is folded away."""
        last = held[-1]
        last.end = end
        before = held[-2] if len(held) > 1 else None
        if end <= self.first or last.start >= self.end:
            held.pop()
        elif (end - last.start) * self.scale < 2:
            last.changes = 1
            if before is not None and before.changes and before.end == last.start:
                before.end = end
                before.changes += 1
                held.pop()

    def finish(self) -> None:
        """No more rows."""
        for held in self.holdings.values():
            if held:
                self.shut(held, max(self.end, held[-1].start))

    def folded(self) -> Tuple[int, int]:
        """How many slices are folded, and into how many columns."""
        several = [c for columns in self.columns.values() for c in columns.values() if c.pieces > 1]
        return sum(column.begun for column in several), len(several)


def cluster(spots: Iterable[Spot]) -> Iterator[Spot]:
    """Joins spots whose marks would lie upon each other: a mark needs 10 units, one with a number 24."""
    current: Optional[Spot] = None
    for spot in sorted(spots, key=lambda spot: spot.x):
        if current is not None and spot.x - current.x < (10 if current.count == 1 else 24):
            current.join(spot)
            continue
        if current is not None:
            yield current
        current = spot
    if current is not None:
        yield current


# --- The picture as SVG ---------------------------------------------------------------------------------------

GUTTER, MARGIN, AXIS = 112, 28, 30  # left of the lanes, right of them, above them
LANE_HEIGHTS = ((4, 72), (8, 48), (16, 40), (32, 34), (MOST_SLOTS, 30))  # by the number of slots
NOTE_HEIGHT = 17
HUES = (212, 28, 135, 285, 0, 178, 48, 322, 95, 240, 14, 158, 300, 72, 195, 345)
# What is drawn on the ground of each pattern, 8 by 8: no two are alike in black and white.
INKS = (
    "",
    '<path d="M-1 1 1-1M0 8 8 0M7 9 9 7"/>',
    '<circle class="full" cx="2" cy="2" r="1.3"/><circle class="full" cx="6" cy="6" r="1.3"/>',
    '<path d="M0 2H8M0 6H8"/>',
    '<path d="M-1 7 1 9M0 0 8 8M7-1 9 1"/>',
    '<path d="M2 0V8M6 0V8"/>',
    '<path d="M0 4H8M4 0V8"/>',
    '<path d="M0 8 8 0M0 0 8 8M-1 1 1-1M7 9 9 7M-1 7 1 9M7-1 9 1"/>',
    '<path class="full" d="M0 0H4V4H0ZM4 4H8V8H4Z"/>',
    '<path d="M0 6 4 2 8 6"/>',
    '<path d="M0 1H8M0 5H8M2 1V5M6 5V9M6-3V1"/>',
    '<circle cx="4" cy="4" r="2.3"/>',
    '<path d="M0 2H5M4 6H8M0 6H1"/>',
    '<path d="M4 1.5V6.5M1.5 4H6.5"/>',
    '<path class="thick" d="M-2 2 2-2M0 8 8 0M6 10 10 6"/>',
    '<path class="full" d="M1 7 4 1 7 7Z"/>',
)


def number(value: float) -> str:
    """A coordinate, as short as it can be written."""
    return f"{value:.2f}".rstrip("0").rstrip(".")


def label_width(text: str) -> int:
    """About how wide a name in a bar is, in bold."""
    return sum(5 if letter in "fijlrt" else 12 if letter in "mw" else 8 for letter in text)


def counted(count: int, what: str) -> str:
    """A count of something, with its plural."""
    return f"{count:,} {what}" + ("" if count == 1 else "s")


def compact(count: int) -> str:
    """A count in at most four characters."""
    if count < 1_000:
        return str(count)
    return f"{count // 1_000}k" if count < 1_000_000 else f"{count // 1_000_000}M"


@dataclass(frozen=True)
class Place:
    """Where a lane stands: the numbers of its notes above, then its marks, its bars below them, and its holder's strip at
    the foot."""

    top: float
    height: float
    notes: float = 0  # the height that notes take

    MARKS, STRIP, THIN = 13, 5, 2.5
    LOW = 34  # a lane that is no higher has a thin strip, so that its bars are seen beside it

    @property
    def is_low(self) -> bool:
        return self.height - self.notes <= self.LOW

    @property
    def strip_height(self) -> float:
        return self.THIN if self.is_low else self.STRIP

    @property
    def note(self) -> float:
        return self.top + self.notes / 2 + 1

    @property
    def marks(self) -> float:
        return self.top + self.notes + self.MARKS / 2 + 1

    @property
    def bar(self) -> float:
        return self.top + self.notes + self.MARKS + 1

    @property
    def bar_height(self) -> float:
        return self.height - self.notes - self.MARKS - self.strip_height - 5

    @property
    def strip(self) -> float:
        return self.top + self.height - self.strip_height - 2.5


class Drawing:
    """A picture as SVG."""

    def __init__(self, picture: Picture, environments: List[Environment], notes: Iterable[Note] = ()):
        self.picture = picture
        self.environments = environments
        self.notes = [note for note in notes if picture.first <= note.tick < picture.end]
        lanes = picture.lanes()
        height = next(height for most, height in LANE_HEIGHTS if len(lanes) <= most)
        self.slots = sorted({bar.slot for bar in picture.bars} | set(picture.holdings)) if picture.by_env else lanes
        self.places: Dict[Lane, Place] = {}
        top = AXIS
        for which in lanes:
            room = NOTE_HEIGHT if any(note.lane == which for note in self.notes) else 0
            self.places[picture.what, which] = Place(top, height + room, room)
            top += height + room
        for lane in sorted(lane for lane in picture.spots if lane[0] not in (SLOT, ENV)):
            self.places[lane] = Place(top + 4, 22)
            top += 26
        self.bottom = top
        self.labelled: Set[Tuple[int, int]] = set()  # lanes and environments that have a short label
        self.parts: List[str] = []
        self.seen: Set[str] = set()  # kinds of marks, and what else the legend explains

    @property
    def width(self) -> float:
        return GUTTER + self.picture.width + MARGIN

    @property
    def height(self) -> float:
        return self.bottom + AXIS + 8

    def svg(self, ending: str) -> str:
        """The whole drawing; `ending` says how the run ended where its end is in the range."""
        body = self.body(ending, self.picture.end)
        return whole(self.width, self.height, f"{self.picture.what}s down, ticks across, a bar for each slice", f"{self.defs()}\n{body}")

    def body(self, ending: str, ended: int) -> str:
        """All that is drawn, from (0, 0) on, with a line at the tick at which the run ended."""
        self.axis(ending, ended)
        for (what, which), place in self.places.items():
            self.lane(what, which, place)
        for piece in self.picture.bars:
            self.bar(piece)
        for which, columns in self.picture.columns.items():
            self.columns(self.places[self.picture.what, which], columns)
        for slot, held in self.picture.holdings.items():
            if not self.picture.by_env:
                self.strip(self.places[SLOT, slot], held)
        for lane, spots in self.picture.spots.items():
            for spot in cluster(spots.values()):
                self.spot(self.places[lane], spot)
        for kind, which, env, time, row in self.picture.deaths:
            place = self.places[self.picture.what, which]
            self.seen.add(kind)
            self.use(kind, self.x(time + 1), place.bar + place.bar_height / 2, env, row)
        for number_of, note in enumerate(self.notes, 1):
            self.note(number_of, note)
        return "\n".join(self.parts)

    def x(self, tick: float) -> float:
        return GUTTER + self.picture.x(tick)

    def put(self, text: str) -> None:
        self.parts.append(text)

    def named(self, env: int) -> str:
        return f"{env} {self.environments[env].name}"

    def defs(self) -> str:
        """The patterns of the environments and the shapes of the marks."""
        patterns = [
            f'<pattern id="p{env.number}" class="p{env.number}" width="8" height="8" patternUnits="userSpaceOnUse">'
            f'<path class="ground" d="M0 0H8V8H0Z"/>{INKS[env.number % len(INKS)]}</pattern>'
            for env in self.environments
        ]
        shapes = [f'<g id="m-{word}">{kind.shape}</g>' for word, kind in KINDS.items()]
        shapes.append('<g id="m-several"><circle class="open" r="4.2"/><circle class="dot" r="1.6"/></g>')
        shapes.append('<g id="m-exchange"><path class="line" d="M-4.5-2H3.5M1-4.6 3.8-2 1 .6M4.5 2.4H-3.5M-1-.2-3.8 2.4-1 5"/></g>')
        return "<defs>" + "\n".join(patterns + shapes) + "</defs>"

    # Axes and lanes

    def axis(self, ending: str, ended: int) -> None:
        """Ticks across, above and below."""
        picture = self.picture
        end = self.x(ended)
        for tick in axis_ticks(picture.first, picture.end, picture.width):
            x = number(self.x(tick))
            self.put(f'<path class="grid" d="M{x} {AXIS - 4}V{number(self.bottom + 4)}"/>')
            self.put(f'<text class="axis" x="{x}" y="{AXIS - 10}">{tick:,}</text>')
            self.put(f'<text class="axis" x="{x}" y="{number(self.bottom + 17)}">{tick:,}</text>')
        self.put(f'<text class="axis name" x="0" y="{AXIS - 10}">tick</text>')
        if picture.scale >= 6:
            steps = "".join(f"M{number(self.x(t))} {AXIS - 4}v4" for t in range(picture.first, picture.end + 1))
            self.put(f'<path class="grid" d="{steps}"/>')
        if ending:
            self.put(f'<path class="ending" d="M{number(end)} {AXIS - 4}V{number(self.bottom + 4)}"/>')
            self.put(f'<text class="axis ending" x="{number(max(end, GUTTER + 60) + MARGIN - 2)}" y="{number(self.bottom + 33)}">'
                     f'{ending}</text>')

    def lane(self, what: str, which: int, place: Place) -> None:
        """A lane's name and its ground."""
        picture, name = self.picture, what
        owner: Optional[int] = None
        middle = place.marks + 4
        self.put(f'<path class="floor" d="M0 {number(place.top + place.height)}H{GUTTER + picture.width}"/>')
        if what in (SLOT, ENV):
            middle = place.bar + place.bar_height / 2 + 4
            name = f"{what} {which}"
            owners = [it.owner for it in picture.holdings.get(which, ()) if it.owner is not None] if what == SLOT else []
            owner = which if what == ENV else owners[0] if owners else None
            self.put(f'<path class="well" d="M{GUTTER} {number(place.bar)}h{picture.width}'
                     f'v{number(place.bar_height)}h{-picture.width}z"/>')
        elif what == PAGES:
            owner = which
        self.put(f'<text class="lane" x="0" y="{number(middle)}">{name}</text>')
        if owner is not None:
            self.put(f'<text class="owner" x="{GUTTER - 6}" y="{number(middle)}">'
                     f'{self.environments[owner].name}</text>')

    def strip(self, place: Place, held: List[Holding]) -> None:
        """Who holds the slot, as a line at the lane's foot, which is broken where that isn't the owner."""
        for holding in held:
            start, end = max(holding.start, self.picture.first), min(holding.end, self.picture.end)
            if end <= start or (holding.holder is None and not holding.changes):
                continue
            self.seen.add("strip")
            style, says = f"s{holding.holder}", holding.row
            if holding.holder != holding.owner:
                self.seen.add("lent")
                style += " lent"
            if holding.changes > 1:
                style, says = "mixed", f"{counted(holding.changes, 'row')} own, folded"
            style += " thin" if place.is_low else ""
            self.put(f'<path class="strip {style}" d="M{number(self.x(start))} {number(place.strip + place.strip_height / 2)}'
                     f'h{number((end - start) * self.picture.scale)}"><title>{says}</title></path>')

    # Bars and columns

    def bar(self, piece: Slice) -> None:
        """A slice as a bar: full height in its own ticks, lower in grace."""
        picture, lane = self.picture, self.picture.lane(piece.slot, piece.env)
        place = self.places[picture.what, lane]
        start, end = max(piece.start, picture.first), min(piece.end, picture.end)
        grace = end if piece.grace is None else min(max(piece.grace, start), end)
        self.seen.add("bar")
        self.put(f'<g class="bar"><title>{piece.rows}\n{self.named(piece.env)}: '
                 f'{counted(piece.end - piece.start, "tick")}, {piece.start:,} to {piece.end - 1:,}</title>')
        if grace > start:
            self.rect(piece.env, start, grace, place.bar, place.bar_height)
        if end > grace:
            self.seen.add("grace")
            low = place.bar_height * 0.55
            self.rect(piece.env, grace, end, place.bar + place.bar_height - low, low)
        room = ((grace - start) or (end - start)) * picture.scale - 8
        name = self.environments[piece.env].name
        label = next((text for text in (name, str(piece.env)) if label_width(text) <= room), "")
        if label != name or picture.by_env:  # a number says no more than the pattern, and in a lane of its own the name doesn't
            label = "" if (lane, piece.env) in self.labelled else label
            self.labelled.add((lane, piece.env))
        if label and place.bar_height >= 11:
            middle = place.bar + place.bar_height * (0.5 if grace > start else 0.72)
            self.put(f'<text class="label l{piece.env}" x="{number(self.x(start) + 5)}" y="{number(middle + 4)}">'
                     f'{label}</text>')
        self.put("</g>")

    def rect(self, env: int, start: int, end: int, y: float, height: float) -> None:
        """Ticks of an environment, in its one dark colour where they are too narrow for a pattern. Whoever reads
        the page can count them by `data-ticks`."""
        self.block(env, start, end, y, height, end - start, f"b{env}")

    def block(self, env: int, start: int, end: int, y: float, height: float, ticks: int, edge: str) -> None:
        """A rectangle of an environment, with the ticks that it stands for."""
        width = (end - start) * self.picture.scale
        style = f'class="{edge}" fill="url(#p{env})"' if width >= self.picture.COLUMN * 0.9 else f'class="t{env}"'
        self.put(f'<rect {style} x="{number(self.x(start))}" y="{number(y)}" width="{number(max(width, 1))}" '
                 f'height="{number(height)}" data-env="{env}" data-ticks="{ticks}"/>')

    def columns(self, place: Place, columns: Dict[int, Column]) -> None:
        """Narrow slices: one alone as a thin bar, several as a column cut by who had the ticks."""
        fullest = self.fullest
        for column in columns.values():
            self.seen.add("bar")
            if column.pieces == 1:
                env = next(iter(column.parts))
                self.put(f'<g class="bar"><title>{column.first}\n{self.named(env)}</title>')
                self.rect(env, column.start, column.end, place.bar, place.bar_height)
                self.put("</g>")
                continue
            self.seen.add("folded")
            self.put(f'<g class="bar"><title>{self.column_says(column)}</title>')
            self.stack(place, column, fullest)
            self.put("</g>")
        folded = sorted(at for at, column in columns.items() if column.pieces > 1)
        above = number(place.bar - 1)
        lines = "".join(f"M{number(self.x(columns[at].start))} {above}H{number(self.x(columns[to].end))}"
                        for at, to in stretches(folded))
        if lines:
            self.put(f'<path class="folded" d="{lines}"/>')

    def stack(self, place: Place, column: Column, fullest: float) -> None:
        """A folded column: its height is the slot's share of the ticks, measured by the fullest column's."""
        ticks = sum(column.parts.values())
        height = max(share(column) / fullest * place.bar_height, 2) if fullest else 2
        y = place.bar + place.bar_height
        for env, part in sorted(column.parts.items()):
            high = height * part / ticks if ticks else height / len(column.parts)
            y -= high
            self.block(env, column.start, column.end, y, high, part, "part")

    def column_says(self, column: Column) -> str:
        """What hovering over a folded column shows."""
        parts = [f"{self.named(env)}: {counted(part, 'tick')}" for env, part in sorted(column.parts.items())]
        return (f"ticks {column.start:,} to {column.end - 1:,}: {counted(column.pieces, 'slice')}, folded\n"
                + "\n".join(parts))

    @functools.cached_property
    def fullest(self) -> float:
        """The greatest share that a slot has of the ticks of a folded column."""
        shares = (share(column) for columns in self.picture.columns.values()
                  for column in columns.values() if column.pieces > 1)
        return max(shares, default=0.0)

    # Marks

    def spot(self, place: Place, spot: Spot) -> None:
        """A mark, with a number where it stands for several rows."""
        kind = next(iter(spot.kinds)) if len(spot.kinds) == 1 else "exchange" if TRANSFERS.issuperset(spot.kinds) else "several"
        self.seen.add(kind)
        env = next(iter(spot.envs)) if len(spot.envs) == 1 else None
        says = "\n".join(spot.rows)
        if spot.count > 1:
            self.seen.add("count")
            kinds = ", ".join(f"{word} {count:,}" for word, count in sorted(spot.kinds.items()))
            more = spot.count - len(spot.rows)
            says = f"{counted(spot.count, 'row')}: {kinds}\n{says}" + (f"\nand {more:,} more" if more else "")
        x = GUTTER + spot.x
        if kind == "asked" and env is not None:
            self.deadline(place, x, env, spot)
        if self.picture.by_env and kind in TRANSFERS and spot.count == 1:
            self.seen.add("handed")
            self.handed(place, x, int(spot.rows[0].split()[3]))
        self.use(kind, x, place.marks, env, says)
        if spot.count > 1:
            self.put(f'<text class="count" x="{number(x + 6)}" y="{number(place.marks + 3.2)}">'
                     f'{compact(spot.count)}</text>')

    def handed(self, place: Place, x: float, giver: int) -> None:
        """From the lane of who gives its time to that of who gets it."""
        giving = self.places[ENV, giver]
        foot = giving.bar + giving.bar_height if giving.top < place.top else giving.bar
        head = place.bar if giving.top < place.top else place.bar + place.bar_height
        self.put(f'<path class="handed" d="M{number(x)} {number(foot)}V{number(head)}"/>')

    def note(self, count: int, note: Note) -> None:
        """The number of a note."""
        place = self.places[self.picture.what, note.lane]
        x = number(min(max(self.x(note.tick + 0.5), GUTTER + 8), GUTTER + self.picture.width - 8))
        self.put(f'<g class="note-mark"><circle cx="{x}" cy="{number(place.note)}" r="7.5"/>'
                 f'<text x="{x}" y="{number(place.note + 3.8)}">{count}</text><title>{html.escape(note.text)}</title></g>')

    def deadline(self, place: Place, x: float, env: int, spot: Spot) -> None:
        """From a revocation to its deadline, as far as the range goes, and to where that ends before it comes."""
        end = self.x(min(spot.until, self.picture.end))
        stop = f"M{number(end)} {number(place.marks - 4)}v8" if spot.until <= self.picture.end and not spot.is_over else ""
        self.put(f'<path class="deadline s{env}" d="M{number(x)} {number(place.marks)}H{number(end)}{stop}"/>')

    def use(self, kind: str, x: float, y: float, env: Optional[int], says: str) -> None:
        """One mark."""
        style = "none" if env is None else f"k{env}"
        self.put(f'<use class="mark {style}" href="#m-{kind}" x="{number(x)}" y="{number(y)}">'
                 f'<title>{says}</title></use>')


def whole(width: float, height: float, says: str, inside: str) -> str:
    """An SVG of this size; `says` is what it shows."""
    return (f'<svg class="ledger" viewBox="0 0 {number(width)} {number(height)}" style="width: {number(width)}px" role="img" '
            f'aria-label="{says}">\n{inside}\n</svg>')


def share(column: Column) -> float:
    """The slot's share of the ticks of a column."""
    return sum(column.parts.values()) / max(column.end - column.start, 1)


def stretches(numbers: List[int]) -> Iterator[Tuple[int, int]]:
    """Rising numbers as first and last of each stretch without a gap."""
    for at, value in enumerate(numbers):
        if at == 0 or numbers[at - 1] != value - 1:
            first = value
        if at + 1 == len(numbers) or numbers[at + 1] != value + 1:
            yield first, value


def axis_ticks(first: int, end: int, width: float) -> List[int]:
    """Round ticks of a range, at least 70 units apart."""
    wanted = max((end - first) * 70 / width, 1)
    unit = 10 ** math.floor(math.log10(wanted))
    step = max(1, next(unit * many for many in (1, 2, 5, 10) if unit * many >= wanted))
    return list(range(-(-first // step) * step, end + 1, step))
