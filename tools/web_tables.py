"""What the page for browsers has from the tools: names, sentences and limits, as values that JSON can have."""

from __future__ import annotations

from typing import Any, Dict

import faults
import flow
import kernel_calls
import kernel_layout
import limits
import manifests
import refusals
import refused_calls
import source
from programs import tool
from registers import NAMES
from report import CAUSES
from step_lines import EXCEPTIONS
from step_page import PAGE_TICKS

LINT, TRY = tool("lint"), tool("try")


def of_limits() -> Dict[str, Any]:
    """The numbers that the page says or keeps to."""
    return {
        "pageSize": limits.PAGE_SIZE, "ticks": limits.MOST_RUN_TICKS, "traced": limits.MOST_TRACED_TICKS, "page": PAGE_TICKS,
        "environments": limits.MOST_ENVIRONMENTS, "leastQuantum": limits.LEAST_QUANTUM, "mostQuantum": limits.MOST_QUANTUM,
        "stackPages": limits.MOST_STACK_PAGES, "leastPages": limits.LEAST_PAGES, "mostPages": refusals.MOST_PAGES, "mappings": limits.MOST_MAPPINGS,
        "packet": limits.MOST_PACKET_SIZE, "line": limits.MOST_LINE, "target": limits.MOST_TARGET, "asked": limits.MOST_ASKED,
        "versions": {number: {"pages": most.most_pages, "environments": most.most_environments} for number, most in limits.VERSIONS.items()},
        "console": limits.CONSOLE_SIZE, "allButFull": refused_calls.ALL_BUT_FULL,
        "rows": {number: most.stripe_rows for number, most in limits.VERSIONS.items()},
    }


def of_sources() -> Dict[str, Any]:
    """What the assembler has: operations with their operands, registers, and what is written elsewhere."""
    return {
        "operands": source.OPERANDS, "registers": source.REGISTERS, "branches": sorted(source.BRANCHES), "jumps": sorted(source.JUMPS),
        "loads": sorted(source.LOADS), "signed": sorted(source.SIGNED), "instead": refusals.INSTEAD, "ofRegisters": sorted(refusals.OF_REGISTERS),
        "withNumber": refusals.WITH_NUMBER, "nothingFor": refusals.NOTHING_FOR, "characters": refusals.CHARACTERS,
        "leftOut": sorted(refusals.LEFT_OUT), "forms": refusals.FORMS, "spim": LINT.SPIM,
        "ofSpim": {"byName": LINT.BY_NAME, "ofPages": LINT.OF_PAGES, "ofLengths": LINT.OF_LENGTHS}, "sections": faults.SECTIONS,
        "flow": {"links": sorted(flow.LINKS), "branches": sorted(flow.ALL_BRANCHES), "noResult": sorted(flow.NO_RESULT)},
        "manifest": {"lines": manifests.LINES, "forms": manifests.FORMS, "order": manifests.ORDER},
    }


def tables() -> Dict[str, Any]:
    """All of it, by the names that web/ has for them."""
    calls = {number: {"name": it.name, "arguments": it.arguments} for number, it in kernel_calls.CALLS.items()}
    posts = {name: kernel_layout.CONTEXT_VPN * limits.PAGE_SIZE + place
             for name, place in (("arrived", kernel_layout.POST_PACKETS), ("lost", kernel_layout.POST_LOST))}
    return {**of_sources(), "limits": of_limits(), "causes": CAUSES, "usually": TRY.USUALLY, "noSmallData": TRY.NO_SMALL_DATA,
            "refusals": refusals.KINDS, "calls": calls, "answers": kernel_calls.ANSWERS,
            "consoleFull": kernel_calls.CONSOLE_FULL, "posts": posts, "kinds": kernel_calls.KINDS, "names": NAMES, "exceptions": EXCEPTIONS}
