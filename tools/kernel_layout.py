"""Where the kernel puts what it tells an environment: docs/KERNEL.md, "The context page" and "What happens from outside". The tools and
the reference have these numbers of one place; what the kernel does with them each tells by itself.
"""

from __future__ import annotations

CONTEXT_VPN = 1
# The kinds of handlers, and by kind the place in the context page at which the kernel writes.
EXCEPTIONS, STARTS, ENDS, ASYNCHRONOUS, SYNCHRONOUS = CONTEXTS = range(5)
EXCEPTION_AREA, START_AREA, END_AREA, ENTRY_AREA = 0x000, 0x040, 0x050, 0x080
# What the kernel counts and tells of in the page, and the records of pages that were taken.
POST_PACKETS, POST_LOST, POST_LINES = 0x140, 0x144, 0x148
POST_OUTSTANDING, POST_DEADLINE, POST_TAKINGS, RECORDS = 0x14C, 0x150, 0x17C, 0x180
MOST_RECORDS, NO_BACKUP = 64, 0xFFFFFFFF
BUFFER_SIZE = 0x800  # of which a ring page has two
LINES = 8
AT, K0, K1 = 1, 26, 27  # registers that the kernel sets
