"""A small map and edits of it, for the tests of reasons."""

from __future__ import annotations

import struct
from typing import Tuple

from support_host import object_bytes

import taffrail
from taffrail import Done
from taffrail.reasons import Asked

BLOCK = 88  # where the index block of the small map is
RECORD = struct.Struct("<IB3xI4x")


def small_map(version: int = 7) -> Tuple[bytearray, bytearray]:
    """A map of 6,236 bytes with an object at (5, 5) in slot 0, added as edit 1; its journal."""
    map_buffer = bytearray(taffrail.empty_map(version)) + bytes(40 + 6_148)
    journal = bytearray(taffrail.empty_journal(2))
    assert taffrail.add(map_buffer, journal, 1, object_bytes(), used=48) == Done(0, 6_236)
    return map_buffer, journal


def slot_place(number: int) -> int:
    return BLOCK + 4 + 24 * number


def edit_of(asked: Asked, room: int) -> taffrail.EditResult:
    """The library's answer, with so much room behind the map."""
    map_buffer, journal = bytearray(asked.map) + bytes(room), bytearray(asked.journal)
    used = len(asked.map)
    if asked.kind == "add":
        return taffrail.add(map_buffer, journal, asked.edit, asked.offered, used=used)
    call = taffrail.remove if asked.kind == "remove" else taffrail.reinstate
    return call(map_buffer, journal, asked.edit, asked.slot, used=used)
