"""The program that the tools run."""

from __future__ import annotations

import python_version  # first: ends the tool where Python is too old
import functools
import os
import subprocess
import sys

TOOLS = os.path.dirname(os.path.realpath(__file__))


@functools.lru_cache(maxsize=None)
def program() -> str:
    """The path of the program: of the one that AEGIS names, or of this repository's (tools/program). Whether that has to
    be built is looked at once in a tool's run. Where it can't be built, the tool ends with status 70."""
    named = os.environ.get("AEGIS")
    if named:
        return os.path.abspath(named)
    ran = subprocess.run([f"{TOOLS}/program"], stdout=subprocess.PIPE, text=True)
    if ran.returncode:
        sys.exit(ran.returncode)
    return ran.stdout.split("\n")[0]
