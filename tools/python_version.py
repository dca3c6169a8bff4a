"""Imported before anything that an older Python doesn't know: ends the tool with a sentence where Python is too old."""

import sys

OLDEST = (3, 9)

if sys.version_info < OLDEST:
    # in words that any Python 3 reads
    print("aegis: the tools want Python %d.%d or later, and this is %d.%d" % (*OLDEST, *sys.version_info[:2]), file=sys.stderr)
    sys.exit(70)
