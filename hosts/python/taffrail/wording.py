"""How numbers and names are written for people."""

from __future__ import annotations

import re
from typing import Iterable


def counted(count: int, thing: str) -> str:
    """So many of a thing: ``1 edit``, ``2 edits``."""
    return f"{count:,} {thing}" if count == 1 else f"{count:,} {thing}s"


def listed(things: Iterable[object], word: str = "or") -> str:
    """All of them: ``6, 7 or 8``."""
    *some, last = map(str, things)
    return f"{', '.join(some)} {word} {last}" if some else last


def readable(text: str) -> str:
    """The text with each byte of a file name that is no part of UTF-8 as ``\\xff``.

    Python holds such a byte as half of a surrogate pair, which can be neither printed nor put
    into JSON that other programs read.
    """
    return re.sub("[\udc80-\udcff]", lambda found: f"\\x{ord(found[0]) - 0xDC00:02x}", text)
