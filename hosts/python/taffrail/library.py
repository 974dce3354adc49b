"""Finds libtaffrail.so and calls it as taffrail.h declares.

The library is looked for in this order:

1. the file that the environment variable TAFFRAIL_LIBRARY names;
2. libtaffrail.so in the folder of this package;
3. libtaffrail.so in hosts/build-output, where the script hosts/build puts it.

Buffers are lent: C reads and writes the very bytes that the caller holds. While a call runs
it keeps the interpreter's lock, so no other thread of the program can change them meanwhile.
A Python that is built without that lock is not covered: there the program itself has to keep
its threads apart.
"""

from __future__ import annotations

import ctypes
import os
from array import array
from mmap import mmap
from pathlib import Path
from typing import TYPE_CHECKING, Any, List, NamedTuple, Optional, Protocol, Sequence, Union

from .results import WORDS

if TYPE_CHECKING:
    SlotArray = array[int]
    AnyArray = array[Any]
else:
    SlotArray = AnyArray = array

VARIABLE = "TAFFRAIL_LIBRARY"
FILE_NAME = "libtaffrail.so"

Writable = Union[bytearray, memoryview, mmap, AnyArray]
Readable = Union[bytes, Writable]


class LibraryError(Exception):
    """The shared library is missing, cannot be loaded, or broke its own rules."""


class CheckAnswer(NamedTuple):
    """What taffrail_check gives back."""

    number: int
    place: int


class SearchAnswer(NamedTuple):
    """What taffrail_search gives back beside the list."""

    number: int
    place: int
    found: int
    blocks: int


class EditAnswer(NamedTuple):
    """What the three edits give back beside the buffers."""

    number: int
    place: int
    before: int
    slot: int
    length: int


class Library(Protocol):
    """The five calls. The package asks for nothing else of what it calls."""

    def check(self, map_buffer: Readable, used: int) -> CheckAnswer:
        """Judge the map."""

    def search(
        self, map_buffer: Readable, used: int, window: Sequence[int], slots: SlotArray
    ) -> SearchAnswer:
        """Put the slots in the window (left, bottom, right, top) into the list."""

    def add(
        self, map_buffer: Writable, used: int, journal: Writable, edit: int, offered: Readable
    ) -> EditAnswer:
        """Add the offered object."""

    def remove(
        self, map_buffer: Writable, used: int, journal: Writable, edit: int, slot: int
    ) -> EditAnswer:
        """Remove a live slot."""

    def reinstate(
        self, map_buffer: Writable, used: int, journal: Writable, edit: int, slot: int
    ) -> EditAnswer:
        """Reinstate an erased slot."""


# The types of taffrail.h.
_Byte = ctypes.c_ubyte  # uint8_t
_Word = ctypes.c_uint32  # uint32_t
_Signed = ctypes.c_int32  # int32_t
_Size = ctypes.c_size_t  # size_t
_Bytes = ctypes.POINTER(_Byte)  # uint8_t *, const or not
_Words = ctypes.POINTER(_Word)  # uint32_t *

_MAP = [_Bytes, _Size, _Size]  # map, map_len, used
_JOURNAL = [_Bytes, _Size, _Word]  # journal, journal_len, edit
_EDIT_OUT = [_Words] * 4  # place, before, slot, length


class NativeLibrary:
    """The five calls of the shared library in this file."""

    def __init__(self, path: Union[str, Path]) -> None:
        calls = _load(str(path))
        self._check = _declare(calls, "taffrail_check", _MAP + [_Words])
        self._search = _declare(
            calls, "taffrail_search", _MAP + [_Signed] * 4 + [_Words, _Size] + [_Words] * 3
        )
        self._add = _declare(
            calls, "taffrail_add", _MAP + _JOURNAL + [_Bytes, _Size] + _EDIT_OUT
        )
        self._remove = _declare(calls, "taffrail_remove", _MAP + _JOURNAL + [_Word] + _EDIT_OUT)
        self._reinstate = _declare(
            calls, "taffrail_reinstate", _MAP + _JOURNAL + [_Word] + _EDIT_OUT
        )

    def check(self, map_buffer: Readable, used: int) -> CheckAnswer:
        lent_map = lend_for_reading(map_buffer)
        place = _Word()
        number = self._check(lent_map, len(lent_map), used, ctypes.byref(place))
        return CheckAnswer(known(number), place.value)

    def search(
        self, map_buffer: Readable, used: int, window: Sequence[int], slots: SlotArray
    ) -> SearchAnswer:
        lent_map = lend_for_reading(map_buffer)
        lent_list = lend_list(slots)
        refuse_overlap(lent_map, lent_list)
        place, count, blocks = _Word(), _Word(), _Word()
        out = [ctypes.byref(word) for word in (place, count, blocks)]
        number = self._search(
            lent_map, len(lent_map), used, *window, lent_list, len(lent_list), *out
        )
        return SearchAnswer(known(number), place.value, count.value, blocks.value)

    def add(
        self, map_buffer: Writable, used: int, journal: Writable, edit: int, offered: Readable
    ) -> EditAnswer:
        lent_object = lend_for_reading(offered)
        given = [lent_object, len(lent_object)]
        return _run_edit(self._add, map_buffer, used, journal, edit, given)

    def remove(
        self, map_buffer: Writable, used: int, journal: Writable, edit: int, slot: int
    ) -> EditAnswer:
        return _run_edit(self._remove, map_buffer, used, journal, edit, [slot])

    def reinstate(
        self, map_buffer: Writable, used: int, journal: Writable, edit: int, slot: int
    ) -> EditAnswer:
        return _run_edit(self._reinstate, map_buffer, used, journal, edit, [slot])


def _run_edit(
    call: Any, map_buffer: Writable, used: int, journal: Writable, edit: int, given: List[Any]
) -> EditAnswer:
    """One of the three edits; given is what stands between edit and the out parameters."""
    lent_map = lend_for_writing(map_buffer)
    lent_journal = lend_for_writing(journal)
    objects = [lent for lent in given if isinstance(lent, ctypes.Array)]
    refuse_overlap(lent_map, lent_journal, *objects)
    place, before, slot, length = _Word(), _Word(), _Word(), _Word()
    out = [ctypes.byref(word) for word in (place, before, slot, length)]
    number = call(
        lent_map, len(lent_map), used, lent_journal, len(lent_journal), edit, *given, *out
    )
    return EditAnswer(known(number), place.value, before.value, slot.value, length.value)


# Lending.


def lend_for_writing(buffer: Writable) -> Any:
    """The buffer's own bytes as a C array. A buffer that cannot be written is refused."""
    view = memoryview(buffer)
    if view.readonly:
        raise TypeError("an edit needs a buffer that can be written, as a bytearray can")
    if not view.c_contiguous:
        raise TypeError("an edit needs a buffer that lies in one piece")
    return (_Byte * view.nbytes).from_buffer(view)


def lend_for_reading(buffer: Readable) -> Any:
    """The buffer's own bytes as a C array.

    Python lends bytes objects and buffers that can be written. Other read-only buffers and
    those in several pieces are copied first.
    """
    if isinstance(buffer, bytes):
        return _lend_bytes(buffer)
    view = memoryview(buffer)
    if view.readonly or not view.c_contiguous:
        return (_Byte * view.nbytes).from_buffer_copy(view.tobytes())
    return (_Byte * view.nbytes).from_buffer(view)


def _lend_bytes(data: bytes) -> Any:
    """The bytes object's own bytes; the caller holds on to it for as long as the call takes."""
    address = ctypes.cast(ctypes.c_char_p(data), ctypes.c_void_p).value
    size = bytes.__len__(data)  # a subclass may tell another length
    if size == 0 or address is None:
        return (_Byte * 0)()
    return (_Byte * size).from_address(address)


def lend_list(slots: SlotArray) -> Any:
    """The entries of an array('I') as a C array of 32-bit numbers."""
    if not isinstance(slots, array) or slots.typecode != "I":
        raise TypeError("the list has to be an array of type code 'I'")
    if slots.itemsize != ctypes.sizeof(_Word):
        raise TypeError("an array of type code 'I' does not have 32-bit entries here")
    return (_Word * len(slots)).from_buffer(slots)


def refuse_overlap(*lent: Any) -> None:
    """Raises ValueError where two buffers share a byte: no call allows that."""
    spans = [(ctypes.addressof(part), ctypes.sizeof(part)) for part in lent]
    spans = sorted(span for span in spans if span[1] > 0)
    for (start, size), (following, _) in zip(spans, spans[1:]):
        if following < start + size:
            raise ValueError("two buffers of one call share bytes")


# Finding and loading.


def candidates() -> List[Path]:
    """Where the library is looked for; a name in TAFFRAIL_LIBRARY is the only place then."""
    named = os.environ.get(VARIABLE)
    if named:
        return [Path(named)]
    package = Path(__file__).resolve().parent
    return [package / FILE_NAME, package.parent.parent / "build-output" / FILE_NAME]


def find() -> str:
    """The path of the library, or LibraryError with what to do."""
    places = candidates()
    for place in places:
        if place.is_file():
            return str(place.resolve())
    looked = ", ".join(str(place) for place in places)
    raise LibraryError(
        f"the library is missing (looked at {looked}); run the script hosts/build once,"
        f" or let the variable {VARIABLE} name the file"
    )


def _load(path: str) -> ctypes.PyDLL:
    try:
        return ctypes.PyDLL(path)
    except OSError as problem:
        raise LibraryError(
            f"{path} cannot be loaded ({problem}); run the script hosts/build on this machine"
        ) from problem


def _declare(calls: ctypes.PyDLL, name: str, arguments: List[Any]) -> Any:
    try:
        call = getattr(calls, name)
    except AttributeError as problem:
        raise LibraryError(f"the library has no call {name}; run hosts/build again") from problem
    call.argtypes = arguments
    call.restype = _Word
    return call


def known(number: int) -> int:
    """A number that came back, if it is one that does."""
    if number != 0 and number not in WORDS:
        raise LibraryError(f"the library answered {number}, a number that does not exist")
    return number


_in_use: Optional[Library] = None


def in_use() -> Library:
    """The library that answers; found and loaded at the first call."""
    global _in_use
    if _in_use is None:
        _in_use = NativeLibrary(find())
    return _in_use


def use(library: Library) -> None:
    """Let this library answer from now on. Only tests need it, to put a model in place."""
    global _in_use
    _in_use = library
