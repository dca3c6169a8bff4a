"""What environments have at a run's end, as parts of the ledger's page: the machine's pages by owner, the bindings, what
was asked for and given back, and the registers of those that live.
"""

from __future__ import annotations

import html
from collections import Counter
from dataclasses import dataclass
from typing import Dict, Iterator, List, Optional, Tuple

from drawing import counted
from limits import PAGE_SIZE
from report import Environment, Head, Mark

MOST_BOUND = 64  # rows of the table of bindings that are shown
STRIP = 1_000  # units across of the strip of pages
LEAST_WIDTH = 1.5  # units across of a stretch of pages, so that one page in thousands is seen
KEPT, OWN = "kept", "own"
NAMES = ("zero at v0 v1 a0 a1 a2 a3 t0 t1 t2 t3 t4 t5 t6 t7 s0 s1 s2 s3 s4 s5 s6 s7 t8 t9 k0 k1 gp sp fp ra").split()

STYLE = """
.machine { margin: 1rem 0 0; }
.machine .caption { margin: 0 0 .3rem; max-width: 62rem; }
.machine svg { display: block; width: 100%; height: 22px; }
.machine .kept { opacity: .45; }
.machine .edges { display: flex; justify-content: space-between; color: var(--soft); font-size: .8rem; font-variant-numeric: tabular-nums; }
.table { border-collapse: collapse; font-size: .84rem; margin: .4rem 0 0; font-variant-numeric: tabular-nums; }
.table th, .table td { text-align: left; padding: .1rem .9rem .1rem 0; border-bottom: 1px solid var(--line); font-weight: 400; }
.table th { color: var(--soft); }
.table code { font-size: .95em; }
details { margin: .5rem 0 0; font-size: .84rem; }
summary { cursor: pointer; color: var(--soft); }
.registers { display: grid; grid-template-columns: repeat(auto-fill, minmax(7.2rem, 1fr)); gap: 0 .6rem; margin: .3rem 0 0;
  font: .74rem ui-monospace, "SF Mono", Menlo, Consolas, "DejaVu Sans Mono", monospace; }
.registers i { font-style: normal; color: var(--soft); }
.asked { margin: .2rem 0 0; padding: 0; list-style: none; font-size: .84rem; color: var(--soft); }
.asked li { padding-left: .8rem; text-indent: -.8rem; }
.at { margin: .2rem 0 0; font: .78rem/1.35 ui-monospace, "SF Mono", Menlo, Consolas, "DejaVu Sans Mono", monospace;
  white-space: pre-wrap; overflow-wrap: anywhere; }
"""


# --- The machine's pages ------------------------------------------------------------------------------------------


@dataclass(frozen=True)
class Stretch:
    """Neighbouring pages of one environment."""

    first: int
    last: int
    env: int
    how: str  # kept or own

    def says(self, name: str) -> str:
        pages = f"page {self.first:,}" if self.first == self.last else f"pages {self.first:,} to {self.last:,}"
        return f"{pages}: {self.env} {name}, {'since boot' if self.how == KEPT else 'allocated'}"


def owners(head: Head) -> Dict[int, Tuple[int, str]]:
    """Whose each page is that the report names. Guaranteed pages are the lowest, environment by environment: so those of
    the environments before the first that is dead, of which the report doesn't say how many it had."""
    found: Dict[int, Tuple[int, str]] = {}
    for env in head.environments:
        if env.life != "live":
            break
        for _ in env.holds["keep"]:
            found[len(found)] = (env.number, KEPT)
    for env in head.environments:
        found.update((int(page), (env.number, OWN)) for page, _ in env.holds.get("page", ()))
    return found


def page_stretches(head: Head) -> List[Stretch]:
    """The pages by stretches, rising."""
    found: List[Stretch] = []
    for page, (env, how) in sorted(owners(head).items()):
        before = found[-1] if found else None
        if before and (before.last + 1, before.env, before.how) == (page, env, how):
            found[-1] = Stretch(before.first, page, env, how)
        else:
            found.append(Stretch(page, page, env, how))
    return found


def machine(head: Head) -> str:
    """The strip of the machine's pages, as far as the report names them."""
    stretches = page_stretches(head)
    if not stretches:
        return ""
    pages = stretches[-1].last + 1
    unit = STRIP / pages
    bars = "\n".join(
        f'<rect class="b{it.env} {it.how}" fill="url(#p{it.env})" x="{it.first * unit:.2f}" y="1" height="20" '
        f'width="{max((it.last + 1 - it.first) * unit, LEAST_WIDTH):.2f}"><title>{it.says(head.environments[it.env].name)}</title></rect>'
        for it in stretches)
    kept, own = (sum(it.last + 1 - it.first for it in stretches if it.how == how) for how in (KEPT, OWN))
    return f"""<section class="machine" aria-label="pages of the machine">
<p class="caption">Pages of the machine at the end, by owner: {kept:,} kept since boot (paler), {own:,} allocated. What is blank is
free, or kept by an environment behind one that is dead; the report doesn't say which.</p>
<svg viewBox="0 0 {STRIP} 22" preserveAspectRatio="none" role="img" aria-label="pages across"><path class="well" d="M0 1H{STRIP}V21H0Z"/>
{bars}
</svg>
<div class="edges"><span>page 0</span><span>page {pages - 1:,}</span></div>
</section>
"""


# --- Bindings -----------------------------------------------------------------------------------------------------


@dataclass(frozen=True)
class Bound:
    """Neighbouring bindings of an environment to neighbouring pages of one owner."""

    env: int
    vpn: int
    page: int
    many: int
    access: str  # r or w
    owner: Optional[int]

    def takes(self, other: "Bound") -> bool:
        """Whether the other one goes on where this one ends."""
        return (other.env, other.vpn, other.page, other.access, other.owner) == \
            (self.env, self.vpn + self.many, self.page + self.many, self.access, self.owner)


def bound_stretches(head: Head) -> List[Bound]:
    """The bindings of all environments, by rising VPN."""
    whose = owners(head)
    found: List[Bound] = []
    for env in head.environments:
        for vpn, page, access in env.holds.get("bind", ()):
            it = Bound(env.number, int(vpn, 16), int(page), 1, access, whose.get(int(page), (None, ""))[0])
            if found and found[-1].takes(it):
                last = found.pop()
                it = Bound(last.env, last.vpn, last.page, last.many + 1, last.access, last.owner)
            found.append(it)
    return found


def bindings(head: Head) -> str:
    """The table of bindings."""
    found = bound_stretches(head)
    if not found:
        return ""

    def named(env: Optional[int]) -> str:
        return "nobody that the report names" if env is None else f"{env} {head.environments[env].name}"

    rows = "\n".join(
        f"<tr><td>{named(it.env)}</td><td><code>0x{it.vpn * PAGE_SIZE:08x}</code> to "
        f"<code>0x{(it.vpn + it.many) * PAGE_SIZE - 1:08x}</code></td><td>{span(it.page, it.many)}</td><td>{named(it.owner)}</td>"
        f"<td>{'load and store' if it.access == 'w' else 'load'}</td></tr>" for it in found[:MOST_BOUND])
    left = sum(it.many for it in found[MOST_BOUND:])
    more = f'<p class="caption">and {counted(left, "binding")} more</p>\n' if left else ""
    return f"""<details{' open' if len(found) <= 8 else ''}><summary>{counted(sum(it.many for it in found), "binding")} at the end</summary>
<table class="table"><thead><tr><th>environment</th><th>sees at</th><th>page</th><th>owned by</th><th>to</th></tr></thead>
<tbody>
{rows}
</tbody></table>
{more}</details>
"""


def span(first: int, many: int) -> str:
    return f"{first:,}" if many == 1 else f"{first:,} to {first + many - 1:,}"


# --- An environment -----------------------------------------------------------------------------------------------


def asked_for(env: int, marks: List[Mark], died: Optional[int], end: int) -> Iterator[str]:
    """What became of each revocation: how many pages it made outstanding, and how many were taken and given back until its
    deadline, where that came."""
    asked = [it for it in marks if it.kind == "asked" and it.env == env]
    taken = Counter(it.time for it in marks if it.kind == "take" and it.env == env)
    for at, it in enumerate(asked):
        outstanding = int(it.row.split()[3])
        after = asked[at + 1].time if at + 1 < len(asked) else None
        says = f"tick {it.time:,}: {counted(outstanding, 'page')} outstanding until tick {it.until:,}"
        if after is not None and after <= it.until:
            yield f"{says}; asked again before"
        elif died is not None and died < it.until:
            yield f"{says}; it died before"
        elif it.until >= end:
            yield f"{says}, which is after the end"
        else:
            yield f"{says}: {outstanding - taken[it.until]:,} given back, {taken[it.until]:,} taken"


def revoked(env: int, marks: List[Mark], died: Optional[int], end: int, most: int = 6) -> str:
    """The list of it."""
    lines = list(asked_for(env, marks, died, end))
    more = [f"and {counted(len(lines) - most, 'revocation')} more"] if len(lines) > most else []
    return "".join(["<ul class=\"asked\">\n", *(f"<li>{line}</li>\n" for line in lines[:most] + more), "</ul>\n"]) if lines else ""


def registers(env: Environment, place: str) -> str:
    """Where an environment that lives stands, and its registers. `place` is its instruction and the line of its source,
    where these are known."""
    if env.cpu is None:
        return ""
    cpu = env.cpu
    slot = ", in a delay slot" if cpu.slot else ""
    cells = "\n".join(f"<span><i>${number} {name}</i> {cpu.registers[number]:08x}</span>" for number, name in enumerate(NAMES))
    said = f'<p class="at">{html.escape(place)}</p>\n' if place else ""
    return f"""{said}<details><summary>goes on at <code>0x{cpu.pc:08x}</code>{slot}</summary>
<div class="registers">
{cells}
<span><i>HI</i> {cpu.hi:08x}</span>
<span><i>LO</i> {cpu.lo:08x}</span>
</div>
</details>
"""
