"""Matches that have to be there."""

from __future__ import annotations

import re
from typing import Match, Pattern, Union


def matched(pattern: Union[str, Pattern[str]], text: str, flags: int = 0) -> Match[str]:
    """The first match of a pattern in a text that has one."""
    match = re.search(pattern, text, flags)
    if match is None:
        raise ValueError(f"{getattr(pattern, 'pattern', pattern)!r} isn't in {text[:200]!r}")
    return match
