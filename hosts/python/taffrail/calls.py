"""The five calls on Python buffers.

A map is the first ``used`` bytes of a buffer, which may be longer: an add needs room behind
the map for the object and perhaps an index block (``room_for_add`` says how much). Nothing
has to be checked beforehand; every call checks the map itself. ``check`` and the searches take
maps of OCAD 6 to 11. The edits take those of 6, 7 and 8, and refuse the others with 17.

Numbers that the C interface cannot hold, such as a negative length or an edit number of more
than 32 bits, raise ValueError before anything is called.
"""

from __future__ import annotations

import ctypes
import operator
from array import array
from typing import Optional, Tuple

from . import library
from .layout import SIX_TO_EIGHT
from .library import EditAnswer, Readable, SlotArray, Writable
from .results import (
    Accepted,
    CheckResult,
    Done,
    DoneBefore,
    EditResult,
    Found,
    Listed,
    ListResult,
    SearchResult,
    refused,
)

_LOWEST_SIGNED, _HIGHEST_SIGNED = -(2**31), 2**31 - 1  # int32_t
_HIGHEST_WORD = 2**32 - 1  # uint32_t
_HIGHEST_SIZE = 2 ** (8 * ctypes.sizeof(ctypes.c_size_t)) - 1  # size_t

_LIST_TOO_SHORT = 9

# A search begins with a list of so many entries, and is made again only where more are found.
_SHORT_LIST = 256


def check(map_buffer: Readable, *, used: Optional[int] = None) -> CheckResult:
    """Judge a map: ``Accepted()``, or ``Refused`` with the first fault's number and place.

    The map is the first ``used`` bytes of the buffer, all of it where ``used`` isn't given.
    A bytearray, a bytes object or any buffer that can be written is lent, not copied. Other
    read-only buffers (a memoryview of bytes, say) are copied once, because Python cannot
    lend them.
    """
    answer = library.in_use().check(map_buffer, _used(map_buffer, used))
    if answer.number != 0:
        return refused(answer.number, answer.place)
    return Accepted()


def search(
    map_buffer: Readable,
    left: int,
    bottom: int,
    right: int,
    top: int,
    *,
    used: Optional[int] = None,
) -> SearchResult:
    """Find the live slots whose rectangle meets the window, which is in 0.01 mm and closed.

    Answers ``Found(slots, blocks)`` or ``Refused``. The map is searched with a short list,
    and once more if more slots are found. Where another thread edits the map in between and
    the count grows, it is searched again. The buffer is lent or copied as ``check`` says.
    """
    slots = array("I", bytes(array("I").itemsize * _SHORT_LIST))
    answer = search_into(map_buffer, left, bottom, right, top, slots, used=used)
    # This ends: each list is longer than the one before, and a map's slots are limited.
    while not isinstance(answer, Listed) and answer.number == _LIST_TOO_SHORT:
        slots = array("I", bytes(slots.itemsize * answer.needed))
        answer = search_into(map_buffer, left, bottom, right, top, slots, used=used)
    if isinstance(answer, Listed):
        return Found(tuple(slots[: answer.count]), answer.blocks)
    return answer


def search_into(
    map_buffer: Readable,
    left: int,
    bottom: int,
    right: int,
    top: int,
    slots: SlotArray,
    *,
    used: Optional[int] = None,
) -> ListResult:
    """The same search into a list that the caller lends, an ``array('I')``.

    Answers ``Listed(count, blocks)``: the first ``count`` entries now hold slot numbers,
    ascending, and the others hold what they held. A list that is too short gets ``Refused``
    with number 9, and its ``needed`` says how many entries it must have.
    """
    window = _window(left, bottom, right, top)
    answer = library.in_use().search(map_buffer, _used(map_buffer, used), window, slots)
    if answer.number != 0:
        return refused(answer.number, answer.place, answer.found)
    return Listed(answer.found, answer.blocks)


def add(
    map_buffer: Writable, journal: Writable, edit: int, offered: Readable, *, used: int
) -> EditResult:
    """Add the offered object under this edit number.

    Answers ``Done(slot, length)``, ``DoneBefore(slot, length)`` for a repeat, or ``Refused``.
    Map and journal are lent and changed in place; the offered object is lent as ``check``
    says. After ``Done`` the map is the first ``length`` bytes of its buffer.
    """
    answer = library.in_use().add(
        map_buffer, _used(map_buffer, used), journal, _word(edit, "edit"), offered
    )
    return _edit_result(answer)


def remove(
    map_buffer: Writable, journal: Writable, edit: int, slot: int, *, used: int
) -> EditResult:
    """Remove the object of a live slot under this edit number. Answers as ``add`` does."""
    answer = library.in_use().remove(
        map_buffer, _used(map_buffer, used), journal, _word(edit, "edit"), _word(slot, "slot")
    )
    return _edit_result(answer)


def reinstate(
    map_buffer: Writable, journal: Writable, edit: int, slot: int, *, used: int
) -> EditResult:
    """Make an erased slot live again under this edit number. Answers as ``add`` does."""
    answer = library.in_use().reinstate(
        map_buffer, _used(map_buffer, used), journal, _word(edit, "edit"), _word(slot, "slot")
    )
    return _edit_result(answer)


def room_for_add(offered: Readable) -> int:
    """The bytes behind a map that are enough to add this object, whatever the map holds."""
    return memoryview(offered).nbytes + SIX_TO_EIGHT.block_size


def _edit_result(answer: EditAnswer) -> EditResult:
    if answer.number != 0:
        return refused(answer.number, answer.place)
    if answer.before:
        return DoneBefore(answer.slot, answer.length)
    return Done(answer.slot, answer.length)


def _used(map_buffer: Readable, used: Optional[int]) -> int:
    if used is None:
        return memoryview(map_buffer).nbytes
    return _within(used, "used", 0, _HIGHEST_SIZE)


def _window(left: int, bottom: int, right: int, top: int) -> Tuple[int, int, int, int]:
    return (
        _signed(left, "left"),
        _signed(bottom, "bottom"),
        _signed(right, "right"),
        _signed(top, "top"),
    )


def _signed(number: int, name: str) -> int:
    return _within(number, name, _LOWEST_SIGNED, _HIGHEST_SIGNED)


def _word(number: int, name: str) -> int:
    return _within(number, name, 0, _HIGHEST_WORD)


def _within(number: int, name: str, lowest: int, highest: int) -> int:
    """The number itself, where it is a whole number that C can hold. ctypes would cut it."""
    whole = operator.index(number)
    if not lowest <= whole <= highest:
        raise ValueError(f"{name} is {whole}, not within {lowest} to {highest}")
    return whole
