"""Why a call was refused, in words for people.

The library gives a number and a place. These functions are given that answer and what the call
was lent, and say what is wrong there: ``slot 1: left 8,000,000 is past right 611,392``. Where
they cannot see it they say nothing, so that no reason contradicts the library. Nothing here
decides anything, and any bytes at all can be looked at.

A map is given as its own bytes, without the room behind it.
"""

from __future__ import annotations

from typing import Iterator, List, NamedTuple, Sequence

from . import faults, layout
from .layout import (
    HEADER_SIZE,
    JOURNAL_LIMIT,
    LEAST_OBJECT,
    MAP_LIMIT,
    MOST_RECORDS,
    OBJECT_LIMIT,
    RECORD_SIZE,
    SIX_TO_EIGHT,
    SLOTS_IN_BLOCK,
    JournalFault,
    Record,
    Slot,
)
from .results import Refused
from .wording import counted, listed

THIS = "this"  # what a map is called that has no name

NOT_EDITED = 17  # the number of an edit of a map that is checked and searched alone

FEW_LEFT = 3  # records of a journal

FORGETS = "a new journal forgets these numbers, and a late repeat would act again"


class Asked(NamedTuple):
    """An edit as it was asked for: its kind by name, with a slot or with an offered object."""

    map: bytes
    journal: bytes
    edit: int
    kind: str
    slot: int = 0
    offered: bytes = b""


def reason_of_check(answer: Refused, contents: bytes, name: str = THIS) -> str:
    """Why the check of a map was refused."""
    return faults.reason(answer.number, answer.place, contents, name)


def reason_of_search(
    answer: Refused, contents: bytes, window: Sequence[int], name: str = THIS
) -> str:
    """Why a search was refused; the window is left, bottom, right, top."""
    left, bottom, right, top = window
    if answer.number == 8 and left > right:
        return f"the window's left {left:,} is past its right {right:,}"
    if answer.number == 8 and bottom > top:
        return f"the window's bottom {bottom:,} is past its top {top:,}"
    if answer.number == 9 and answer.needed:
        return f"{counted(answer.needed, 'slot')} to list, and the list has room for fewer"
    return reason_of_check(answer, contents, name)


def reason_of_edit(answer: Refused, asked: Asked, name: str = THIS) -> str:
    """Why an edit was refused."""
    looks = {10: object_reason, 11: room_reason, 12: slot_reason, 13: journal_reason}
    looks.update({14: held_reason, 15: full_reason, NOT_EDITED: version_reason})
    if answer.number not in looks:
        return reason_of_check(answer, asked.map, name)
    family = layout.known_family(asked.map)
    # maps that are edited get the other numbers, and those that are not get 17
    if family is None or family.edited == (answer.number == NOT_EDITED):
        return ""
    return looks[answer.number](asked)


# The edits' own numbers.


def version_reason(asked: Asked) -> str:
    """17: which version the map has, and what can be done."""
    version, edited = layout.version_of(asked.map), listed(SIX_TO_EIGHT.versions)
    return (
        f"its version is OCAD {version}, which is checked and searched here, and not edited. Edit"
        f" it in OCAD, or save it as OCAD {edited} first"
    )


def object_reason(asked: Asked) -> str:
    """10: what is wrong with the offered object."""
    offered, version = asked.offered, layout.version_of(asked.map)
    if len(offered) > OBJECT_LIMIT:
        return f"it is longer than {OBJECT_LIMIT:,} bytes, the most of any object"
    if len(offered) < LEAST_OBJECT:
        return f"{counted(len(offered), 'byte')}, and an object has {LEAST_OBJECT} at least"
    header = layout.object_header(SIX_TO_EIGHT, offered)
    pairs = faults.pairs_told(header)
    size = layout.OBJECT_HEADER_SIZE + layout.PAIR_SIZE * header.pairs
    if len(offered) != size:
        return f"{pairs} are {counted(size, 'byte')}, and it has {len(offered):,}"
    if header.items < 1:
        return f"{pairs}: one pair at least is no text"
    if header.type not in SIX_TO_EIGHT.types:
        return faults.type_reason("it", header.type, SIX_TO_EIGHT)
    if header.sym == 0:
        return "its Sym is 0, which would be an erased object"
    return faults.pairs_reason(version, header)


def room_reason(asked: Asked) -> str:
    """11: how long the map would be. What room its buffer has is not known here."""
    length = len(asked.map) + len(asked.offered)
    if not any(slot.state == "free" for slot in slots_of(asked.map)):
        length += SIX_TO_EIGHT.block_size
    if length <= MAP_LIMIT:
        return ""
    return f"the map would have {length:,} bytes, and {MAP_LIMIT:,} are the most"


def slot_reason(asked: Asked) -> str:
    """12: the state of the slot."""
    index = faults.index_chain(asked.map)
    missing = missing_reason(asked.slot, index.blocks)
    if missing:
        return missing
    slot = layout.slot_at(asked.map, index.blocks, asked.slot)
    if asked.kind == "remove" and slot.state != "live":
        return f"slot {slot.number} is {slot.state}, and only a live slot can be removed"
    if asked.kind == "reinstate" and slot.state != "erased":
        return f"slot {slot.number} is {slot.state}, and only an erased slot can be reinstated"
    wrong = again_reason(asked.map, index, slot) if asked.kind == "reinstate" else ""
    return f"slot {slot.number} is erased and cannot be live again: {wrong}" if wrong else ""


def again_reason(contents: bytes, index: faults.Chain, slot: Slot) -> str:
    """Why an erased slot would not be good with its object's Sym."""
    sym = 0
    if 0 <= slot.position <= len(contents) - LEAST_OBJECT:
        sym = layout.object_header(SIX_TO_EIGHT, contents, slot.position).sym
    wrong = faults.live_reason(contents, index, slot._replace(sym=sym))
    return wrong or ("its object's Sym is 0" if sym == 0 else "")


def journal_reason(asked: Asked) -> str:
    """13: which record is at fault, and how."""
    try:
        records = layout.read_journal(asked.journal)
    except JournalFault as fault:
        return str(fault)
    index = faults.index_chain(asked.map)
    for place, record in enumerate(records):
        wrong = missing_reason(record.slot, index.blocks)
        if not wrong and layout.slot_at(asked.map, index.blocks, record.slot).state == "free":
            wrong = f"slot {record.slot} is free"
        if wrong:
            return f"record {place}, {told(record)}: {wrong}. Is it another map's journal?"
    return "the edit number is 0, and 1 is the least" if asked.edit == 0 else ""


def held_reason(asked: Asked) -> str:
    """14: which record holds the number."""
    for place, record in enumerate(records_of(asked.journal)):
        if record.edit == asked.edit:
            holder = f"{asked.edit} is the number of record {place}, {told(record)}"
            other = other_reason(asked, record)
            return f"{holder}, {other}; another edit needs a number of its own" if other else ""
    return ""


def other_reason(asked: Asked, record: Record) -> str:
    """What makes this edit another one than that of the record with its number."""
    if record.kind != asked.kind:
        return f"and this is: {asked.kind}"
    if asked.kind != "add":
        return f"and this is for slot {asked.slot}" if record.slot != asked.slot else ""
    index = faults.index_chain(asked.map)
    if missing_reason(record.slot, index.blocks):
        return ""
    slot = layout.slot_at(asked.map, index.blocks, record.slot)
    size = layout.object_size(layout.version_of(asked.map), slot.len)
    end = slot.position + size
    inside = slot.position >= HEADER_SIZE and end <= len(asked.map)
    if inside and asked.map[slot.position : end] == asked.offered:
        return ""
    return "and its object is not the one that is offered"


def full_reason(asked: Asked) -> str:
    """15: that all records are used, and what can be done."""
    size = len(asked.journal) // RECORD_SIZE
    if layout.used_records(asked.journal) < size or size > MOST_RECORDS:
        return ""
    return f"{used_up(size)}. {what_to_do(size)}"


def nearly_full(used: int, size: int) -> str:
    """What the edit that took the last of so many used records has to say of its journal: the
    one with which nine in ten are used, and the last few where more are used than are left."""
    reaches = 10 * (used - 1) < 9 * size <= 10 * used
    few = size - used <= FEW_LEFT and size - used < used
    if not reaches and not few:
        return ""
    if used == size:
        return f"{used_up(size)}, so that the next edit will be refused. {what_to_do(size)}"
    return f"{used:,} of {size:,} records are used. {what_to_do(size)}"


def used_up(size: int) -> str:
    if size == 0:
        return "the journal has room for no edit"
    return "its one record is used" if size == 1 else f"all its {size:,} records are used"


def what_to_do(size: int) -> str:
    """What helps a journal of so many records that has no room left, and what is safe."""
    if size < MOST_RECORDS:
        return (
            f"It can be made longer with zeros, up to {JOURNAL_LIMIT:,} bytes, and then forgets"
            f" nothing; {FORGETS}"
        )
    return (
        "No journal is longer. Begin a new one when nobody can send an edit of this one again:"
        f" {FORGETS}"
    )


# What several of them look at.


def missing_reason(number: int, blocks: Sequence[int]) -> str:
    slots = SLOTS_IN_BLOCK * len(blocks)
    if number < slots:
        return ""
    has = f"the map has slots 0 to {slots - 1}" if slots else "the map has no slot"
    return f"slot {number} is missing, {has}"


def slots_of(contents: bytes) -> Iterator[Slot]:
    blocks = faults.index_chain(contents).blocks
    for number in range(SLOTS_IN_BLOCK * len(blocks)):
        yield layout.slot_at(contents, blocks, number)


def records_of(journal: bytes) -> List[Record]:
    """The records in use, none of a journal that is malformed."""
    try:
        return layout.read_journal(journal)
    except JournalFault:
        return []


def told(record: Record) -> str:
    return f"{record.kind} of slot {record.slot}"
