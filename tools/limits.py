"""The limits of the machine, of the kernel and of files (docs/FORMATS.md, "Limits"), for the tools, cases and benches.
cases/numbers compares them with the constants of the crates.
"""

from typing import NamedTuple

PAGE_SIZE = 4_096  # bytes
LEAST_PAGES, MOST_PAGES = 16, 4_096  # of physical memory, in any version
LEAST_QUANTUM, MOST_QUANTUM = 16, 65_536  # ticks
MOST_ENVIRONMENTS = 32  # in any version
MOST_SLOTS = 64
MOST_MAPPINGS = 256  # guaranteed pages of an environment, its context page among them
MOST_STACK_PAGES = 16
CONSOLE_SIZE = 65_536  # bytes
MOST_TICKS = 268_435_456  # of a machine, whose time ends there
MOST_RUN_TICKS = 4_194_304  # of `run`, `tlb` and a side of `twin`, and the last tick of an event
MOST_LONG_ROWS = 16_777_216  # of the ledger of a run by `long`
MOST_TRACED_TICKS = 262_144  # of which a trace has the steps
MOST_COMPARED_SLICES = 1_000_000  # of an environment of which two runs are compared
LEAST_FRAME_SIZE, MOST_PACKET_SIZE = 14, 1_514  # bytes that are sent, and of any packet
MOST_SENT = 256  # packets of an environment
MOST_EVENTS = 65_536  # of a schedule
MOST_ASKED = 4_096  # pages of a revocation
MOST_TARGET, MOST_LINE = 31, 7  # an environment that a revocation names, and an interrupt line
MOST_MACHINES, MOST_DELAY, MOST_WIRE_TICKS = 8, 65_536, 1_048_576  # of a wire
FILE_LIMIT = 67_108_864  # bytes


class Version(NamedTuple):
    """What a version of images allows."""

    most_pages: int
    most_environments: int
    stripe_rows: int  # in which an environment's bindings stand


VERSIONS = {1: Version(1_024, 16, 256), 2: Version(4_096, 32, 128)}
