"""Where the fields of maps and journals lie, by documents 01 and 02.

The library judges and edits. This module makes empty maps and journals, and reads fields, slots
and journal records for people to look at; nothing here replaces the library's check. Slots are
read only from a map whose index blocks are good, as those of an accepted map are.

Maps have one of two layouts: that of OCAD 6, 7 and 8, which are edited, and that of OCAD 9, 10
and 11, which are checked and searched. What differs stands side by side in ``SIX_TO_EIGHT`` and
``NINE_TO_ELEVEN``; only what Len means goes by the version (``sizes_by_len``).
"""

from __future__ import annotations

import operator
import struct
from typing import Dict, Iterator, List, Mapping, NamedTuple, Optional, Sequence, Tuple

from .wording import counted, listed

MAP_LIMIT = 16_777_216  # the most bytes of a map
JOURNAL_LIMIT = 65_536  # the most bytes of a journal

HEADER_SIZE = 48
LINK_SIZE = 4
SYMBOL_BLOCK_SIZE = 1_028
OBJECT_HEADER_SIZE = 32
LONG_HEADER_SIZE = 40  # of an object whose Len is its bytes, in 9 to 11
PAIR_SIZE = 8
LEAST_OBJECT = OBJECT_HEADER_SIZE + PAIR_SIZE
RECORD_SIZE = 16

SLOTS_IN_BLOCK = 256
MOST_PAIRS = {6: 8_187, 7: 8_187, 8: 32_768}  # of an object; 9 to 11 have no such limit
OBJECT_LIMIT = OBJECT_HEADER_SIZE + PAIR_SIZE * max(MOST_PAIRS.values())
MOST_RECORDS = JOURNAL_LIMIT // RECORD_SIZE

MARK = 3245
MARK_AT, VERSION_AT, FIRST_SYMBOL_BLOCK_AT, FIRST_INDEX_BLOCK_AT = 2, 4, 8, 12
NORMAL, HIDDEN = 1, 2  # the status of a live slot, where slots have one
KINDS = {1: "add", 2: "remove", 3: "reinstate"}

_NEW_HEADER = struct.Struct("<4H40x")  # mark, section mark, version, subversion
_VERSION = struct.Struct("<H")
_NUMBER = struct.Struct("<i")
_RECORD = struct.Struct("<IB3sI4s")


class Family(NamedTuple):
    """Versions that have one layout, and what that has of its own."""

    edited: bool  # or only checked and searched
    mark_name: str  # of the number at MARK_AT
    mark_form: struct.Struct
    marks: Mapping[int, Tuple[int, ...]]  # that each version takes; a new map has the first
    parts: Mapping[int, str]  # by the place of their position, which their size stands behind
    slot_form: struct.Struct  # rectangle, position, Len, Sym, and a status if there is one
    object_form: struct.Struct  # Sym, type, nItem, nText
    types: range  # of an object
    symbol_form: struct.Struct  # the Size of a symbol record
    least_symbol: int  # the least Size

    @property
    def versions(self) -> Tuple[int, ...]:
        return tuple(self.marks)

    @property
    def slot_size(self) -> int:
        return self.slot_form.size

    @property
    def block_size(self) -> int:
        """The bytes of an index block."""
        return LINK_SIZE + SLOTS_IN_BLOCK * self.slot_size


SIX_TO_EIGHT = Family(
    edited=True,
    mark_name="section mark",
    mark_form=struct.Struct("<H"),
    marks={6: (0,), 7: (7,), 8: (2, 3)},
    parts={16: "setup", 24: "info"},
    slot_form=struct.Struct("<5iHh"),
    object_form=struct.Struct("<hBxHH"),
    types=range(1, 6),
    symbol_form=struct.Struct("<h"),
    least_symbol=348,
)

NINE_TO_ELEVEN = Family(
    edited=False,
    mark_name="file type",
    mark_form=struct.Struct("<B"),
    marks={9: (0, 1, 3), 10: (0, 1, 3), 11: (0, 1, 8)},
    parts={},
    slot_form=struct.Struct("<7i2xB9x"),
    object_form=struct.Struct("<iB3xIH"),
    types=range(1, 8),
    symbol_form=struct.Struct("<i"),
    least_symbol=572,
)

FAMILIES = {
    version: family for family in (SIX_TO_EIGHT, NINE_TO_ELEVEN) for version in family.versions
}


class Slot(NamedTuple):
    """A slot, with its number, its state and its rectangle by value (in 0.01 mm). A hidden one
    is live."""

    number: int
    state: str
    sym: int
    len: int
    position: int
    left: int
    bottom: int
    right: int
    top: int
    hidden: bool


class ObjectHeader(NamedTuple):
    """What the start of an object says of it."""

    sym: int
    type: int
    items: int
    texts: int

    @property
    def pairs(self) -> int:
        """All its coordinate pairs."""
        return self.items + self.texts


class Record(NamedTuple):
    """A journal record that is in use."""

    edit: int
    kind: str
    slot: int


class JournalFault(ValueError):
    """A journal is malformed; the message says where."""


def empty_map(version: int) -> bytes:
    """A map of this version (6, 7 or 8) with no symbol and no slot."""
    if operator.index(version) not in SIX_TO_EIGHT.versions:
        raise ValueError(f"a new map has version {listed(SIX_TO_EIGHT.versions)}, not {version}")
    return _NEW_HEADER.pack(MARK, SIX_TO_EIGHT.marks[version][0], version, 0)


def empty_journal(records: int) -> bytes:
    """A journal with room for this many edits, 4,096 at most."""
    if not 0 <= operator.index(records) <= MOST_RECORDS:
        raise ValueError(f"a journal has 0 to {MOST_RECORDS:,} records, not {records}")
    return bytes(RECORD_SIZE * records)


def number_at(data: bytes, at: int, form: struct.Struct = _NUMBER) -> int:
    """The number of this form that stands here, a signed 32-bit one unless said otherwise."""
    return int(form.unpack_from(data, at)[0])


def version_of(header: bytes) -> int:
    """The version that a header tells."""
    return number_at(header, VERSION_AT, _VERSION)


def family_of(accepted_map: bytes) -> Family:
    """The family of an accepted map's version."""
    return FAMILIES[version_of(accepted_map)]


def known_family(data: bytes) -> Optional[Family]:
    """The family of any bytes' version, if they have one that is taken."""
    return FAMILIES.get(version_of(data)) if len(data) >= HEADER_SIZE else None


def object_header(family: Family, data: bytes, at: int = 0) -> ObjectHeader:
    """The header of the object that starts here."""
    return ObjectHeader._make(family.object_form.unpack_from(data, at))


def object_size(version: int, length: int) -> int:
    """The bytes of an object that this Len stands for, in 6 to 8. In 8 Len counts its pairs."""
    return OBJECT_HEADER_SIZE + PAIR_SIZE * length if version == 8 else length


def sizes_by_len(version: int, pairs: int) -> Dict[int, int]:
    """Each Len that an object of so many pairs may have, and the bytes that it has by that.

    In 6 and 7 Len is the bytes, in 8 it counts the pairs. In 9 to 11 it does one or the other,
    and as bytes it counts a longer header in.
    """
    size = OBJECT_HEADER_SIZE + PAIR_SIZE * pairs
    if version in SIX_TO_EIGHT.versions:
        return {pairs: size} if version == 8 else {size: size}
    long = LONG_HEADER_SIZE + PAIR_SIZE * pairs
    return {pairs: size, long: long}


def block_places(accepted_map: bytes) -> List[int]:
    """Where the index blocks of an accepted map start, in the order of their chain."""
    places: List[int] = []
    link_at = FIRST_INDEX_BLOCK_AT
    while True:
        link = number_at(accepted_map, link_at)
        if link == 0:
            return places
        places.append(link)
        link_at = link


def slot_at(accepted_map: bytes, places: Sequence[int], number: int) -> Slot:
    """The slot of this number; places are the map's index blocks."""
    family = family_of(accepted_map)
    block, entry = divmod(number, SLOTS_IN_BLOCK)
    at = places[block] + LINK_SIZE + family.slot_size * entry
    return _slot(number, *family.slot_form.unpack_from(accepted_map, at))


def all_slots(accepted_map: bytes) -> Iterator[Slot]:
    """Every slot of an accepted map, free ones too, in slot order."""
    family = family_of(accepted_map)
    size = family.block_size
    for place, block in enumerate(block_places(accepted_map)):
        slots = family.slot_form.iter_unpack(accepted_map[block + LINK_SIZE : block + size])
        for number, fields in enumerate(slots, SLOTS_IN_BLOCK * place):
            yield _slot(number, *fields)


def _slot(
    number: int,
    left: int,
    bottom: int,
    right: int,
    top: int,
    position: int,
    length: int,
    sym: int,
    status: Optional[int] = None,
) -> Slot:
    """The slot with these fields, which are those of a slot form."""
    rectangle = (value(left), value(bottom), value(right), value(top))
    state = state_of(length, sym, status)
    hidden = state == "live" and status == HIDDEN
    return Slot(number, state, sym, length, position, *rectangle, hidden)


def state_of(length: int, sym: int, status: Optional[int]) -> str:
    """Free, erased or live. Len decides first: Sym 0 alone does not make a slot free. Then the
    status decides, and Sym where there is none."""
    if length == 0:
        return "free"
    live = sym != 0 if status is None else status in (NORMAL, HIDDEN)
    return "live" if live else "erased"


def value(raw: int) -> int:
    """A coordinate in 0.01 mm: the raw number divided by 256 and rounded down."""
    return raw // 256


def read_journal(journal: bytes) -> List[Record]:
    """The records in use. Raises JournalFault where the journal is malformed by itself.

    Whether each slot exists in a map, and is not free there, is asked by the edits alone.
    """
    if len(journal) > JOURNAL_LIMIT:
        raise JournalFault(f"it is longer than {JOURNAL_LIMIT:,} bytes")
    if len(journal) % RECORD_SIZE != 0:
        raise JournalFault(f"{counted(len(journal), 'byte')}, which is no multiple of {RECORD_SIZE}")
    used = used_records(journal)
    if any(journal[RECORD_SIZE * used :]):
        raise JournalFault(f"record {used} is unused, but a byte after it is not zero")
    records = [_record_at(journal, place) for place in range(used)]
    _refuse_twins(records)
    return records


def used_records(journal: bytes) -> int:
    """How many records come before the first one that is all zero."""
    unused = bytes(RECORD_SIZE)
    for place in range(len(journal) // RECORD_SIZE):
        if journal[RECORD_SIZE * place : RECORD_SIZE * (place + 1)] == unused:
            return place
    return len(journal) // RECORD_SIZE


def _record_at(journal: bytes, place: int) -> Record:
    edit, kind, gap, slot, rest = _RECORD.unpack_from(journal, RECORD_SIZE * place)
    if edit == 0:
        raise JournalFault(f"record {place} has edit number 0")
    if kind not in KINDS:
        raise JournalFault(f"record {place} has kind {kind}")
    if any(gap) or any(rest):
        raise JournalFault(f"record {place} has a byte that should be zero and is not")
    return Record(edit, KINDS[kind], slot)


def _refuse_twins(records: Sequence[Record]) -> None:
    seen: Dict[int, int] = {}
    for place, record in enumerate(records):
        if record.edit in seen:
            raise JournalFault(
                f"record {place} has edit number {record.edit} again, as record {seen[record.edit]}"
            )
        seen[record.edit] = place
