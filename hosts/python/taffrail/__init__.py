"""OCAD maps: check and search those of OCAD 6 to 11; add, remove and reinstate objects in those
of OCAD 6, 7 and 8, under a journal of edits.

A first use::

    import taffrail

    city = bytearray(open("city.ocd", "rb").read())
    print(taffrail.check(city))
    print(taffrail.search(city, 0, 0, 10_000, 10_000))

Maps and journals are buffers that the caller owns; edits change them in place. Each call
answers with a small value: ``Accepted``, ``Found``, ``Listed``, ``Done``, ``DoneBefore`` or
``Refused``. A refusal is an answer, not an exception, and changes nothing. It is false, and the
others are true; the module ``taffrail.reasons`` says in words what is wrong.

The calls work on memory. For files, with locks and safe saving, there is the command line
``python3 -m taffrail`` and, below it, the module ``taffrail.store``.
"""

from __future__ import annotations

from .calls import add, check, reinstate, remove, room_for_add, search, search_into
from .layout import empty_journal, empty_map
from .library import LibraryError
from .results import (
    WORDS,
    Accepted,
    CheckResult,
    Done,
    DoneBefore,
    EditResult,
    Found,
    Listed,
    ListResult,
    Refused,
    SearchResult,
)

__all__ = [
    "WORDS",
    "Accepted",
    "CheckResult",
    "Done",
    "DoneBefore",
    "EditResult",
    "Found",
    "LibraryError",
    "ListResult",
    "Listed",
    "Refused",
    "SearchResult",
    "add",
    "check",
    "empty_journal",
    "empty_map",
    "reinstate",
    "remove",
    "room_for_add",
    "search",
    "search_into",
]

__version__ = "1.0.0"
