"""What is wrong with a map, in words: the rules 1 to 7 of documents 01 and 02 for people.

The library judges. Here the place that it names is looked at once more, to say what is wrong
there. Where nothing is found wrong at that place nothing is said, so that no reason contradicts
the library. Any bytes at all can be looked at.
"""

from __future__ import annotations

from bisect import bisect_left, insort
from typing import Callable, List, NamedTuple, Optional, Tuple

from . import layout
from .layout import (
    FAMILIES,
    FIRST_INDEX_BLOCK_AT,
    FIRST_SYMBOL_BLOCK_AT,
    HEADER_SIZE,
    LEAST_OBJECT,
    LINK_SIZE,
    MAP_LIMIT,
    MARK,
    MARK_AT,
    MOST_PAIRS,
    SLOTS_IN_BLOCK,
    SYMBOL_BLOCK_SIZE,
    Family,
    ObjectHeader,
    Slot,
    family_of,
    number_at,
)
from .wording import counted, listed

MARK_BYTES = MARK.to_bytes(2, "little")


class Kind(NamedTuple):
    """A kind of blocks: their name, where the first link stands, and the bytes of one."""

    name: str
    head: int
    size: int


SYMBOLS = Kind("symbol block", FIRST_SYMBOL_BLOCK_AT, SYMBOL_BLOCK_SIZE)


class Chain:
    """The good blocks of a chain in their order, and what is wrong with the link behind them."""

    def __init__(self, kind: Kind) -> None:
        self.kind = kind
        self.blocks: List[int] = []
        self.fault: Optional[Tuple[int, str]] = None  # where the link stands, and the words
        self._sorted: List[int] = []

    def put(self, block: int) -> None:
        self.blocks.append(block)
        insort(self._sorted, block)

    def met_by(self, start: int, size: int) -> Optional[int]:
        """The block that shares a byte with this range: of those that start before its end the
        last one also ends last."""
        before = bisect_left(self._sorted, start + size)
        if before and self._sorted[before - 1] + self.kind.size > start:
            return self._sorted[before - 1]
        return None

    def around(self, place: int) -> Optional[Tuple[int, int]]:
        """The number and the start of the block that this place is in."""
        start = self.met_by(place, 1)
        return None if start is None else (self.blocks.index(start), start)


def reason(number: int, place: int, data: bytes, name: str) -> str:
    """Why a map is refused with 1 to 7 at this place; nothing where that cannot be seen.
    ``name`` is what the map is called."""
    if number == 1:
        return length_reason(data, name)
    if len(data) < HEADER_SIZE:
        return ""
    if number == 2:
        return mark_reason(data, name)
    if number == 3:
        return version_reason(data)
    looks = {4: part_reason, 5: index_reason, 6: symbol_reason, 7: slot_reason}
    seen = number in looks and layout.known_family(data) is not None
    return looks[number](data, place) if seen else ""


# 1 to 4: the header.


def length_reason(data: bytes, name: str) -> str:
    if len(data) > MAP_LIMIT:
        return f"{len(data):,} bytes, and a map has {MAP_LIMIT:,} at most"
    if len(data) >= HEADER_SIZE:
        return ""
    if not data:
        return f"{name} is empty"
    told = f"{counted(len(data), 'byte')}, and a map's header alone has {HEADER_SIZE}"
    return f"cut short: {told}" if data.startswith(MARK_BYTES) else f"{name} is no OCAD map: {told}"


def mark_reason(data: bytes, name: str) -> str:
    if data.startswith(MARK_BYTES):
        return ""
    start, mark = (part.hex(" ") for part in (data[:2], MARK_BYTES))
    return f"{name} is no OCAD map: it begins with the bytes {start}, and a map with {mark}"


def version_reason(data: bytes) -> str:
    version, family = layout.version_of(data), layout.known_family(data)
    if family is None:
        taken = f"OCAD {min(FAMILIES)} to {max(FAMILIES)}"
        return f"its version is OCAD {version}, and taken are {taken}"
    mark, marks = number_at(data, MARK_AT, family.mark_form), family.marks[version]
    if mark in marks:
        return ""
    return f"its {family.mark_name} is {mark}, and OCAD {version} has {listed(marks)}"


def part_reason(data: bytes, place: int) -> str:
    parts = family_of(data).parts
    if place not in parts:
        return ""
    position, size = number_at(data, place), number_at(data, place + 4)
    if size < 0:
        return f"{parts[place]} has the size {size:,}"
    return outside(parts[place], position, size, len(data)) if size else ""


def outside(thing: str, at: int, size: int, length: int) -> str:
    """Why so many bytes from here on cannot be a map's, nothing where they can."""
    if at < 0:
        return f"{thing} has the position {at:,}"
    if at < HEADER_SIZE:
        return f"{thing} at {at} starts in the header"
    if at + size > MAP_LIMIT:
        return f"{thing} at {at} ends behind any map's end, {MAP_LIMIT}"
    if at + size > length:
        return f"cut short: {thing} at {at} ends behind the file"
    return ""


# 5 and 6: the chains.


def index_reason(data: bytes, place: int) -> str:
    return told_at(index_chain(data), place)


def symbol_reason(data: bytes, place: int) -> str:
    index = index_chain(data)
    symbols = walk(data, SYMBOLS, lambda at: shared("the symbol block", at, SYMBOLS.size, index))
    found = symbols.around(place)
    if found is None or place == found[1]:
        return told_at(symbols, place)
    entry, rest = divmod(place - found[1] - LINK_SIZE, LINK_SIZE)
    wrong = record_reason(data, number_at(data, place), index) if rest == 0 else ""
    return f"symbol block at {found[1]}, entry {entry}: {wrong}" if wrong else ""


def told_at(chain: Chain, place: int) -> str:
    return chain.fault[1] if chain.fault and chain.fault[0] == place else ""


def index_chain(data: bytes) -> Chain:
    """The index blocks, as far as they are good."""
    family = family_of(data)
    kind = Kind("index block", FIRST_INDEX_BLOCK_AT, family.block_size)

    def keeps_off(block: int) -> str:
        for at, part in family.parts.items():
            position, size = number_at(data, at), number_at(data, at + 4)
            if size > 0 and block < position + size and position < block + kind.size:
                return f"the index block at {block} shares bytes with {part} at {position}"
        return ""

    return walk(data, kind, keeps_off)


def walk(data: bytes, kind: Kind, keeps_off: Callable[[int], str]) -> Chain:
    """The chain to its end or to its first fault; what its blocks keep off is given."""
    chain = Chain(kind)
    thing = f"the {kind.name}"
    place = kind.head
    while True:
        link = number_at(data, place)
        if link == 0:
            return chain
        wrong = outside(thing, link, kind.size, len(data)) or keeps_off(link)
        if not wrong and chain.met_by(link, 1) == link:
            wrong = f"the link leads back to {thing} at {link}"
        wrong = wrong or shared(thing, link, kind.size, chain)
        if wrong:
            chain.fault = place, wrong
            return chain
        chain.put(link)
        place = link


def shared(thing: str, at: int, size: int, chain: Chain) -> str:
    """Which block the bytes from here on share a byte with, if any."""
    met = chain.met_by(at, size)
    if met is None:
        return ""
    return f"{thing} at {at} shares bytes with the {chain.kind.name} at {met}"


def record_reason(data: bytes, at: int, index: Chain) -> str:
    """What is wrong with the symbol record that an entry has; nothing for an unused entry."""
    if at == 0:
        return ""
    thing, family = "the symbol record", family_of(data)
    wrong = outside(thing, at, family.symbol_form.size, len(data))
    if wrong:
        return wrong
    size = number_at(data, at, family.symbol_form)
    if size < family.least_symbol:
        return f"{thing} at {at} has Size {size:,}, and {family.least_symbol} is the least"
    return outside(thing, at, size, len(data)) or shared(thing, at, size, index)


# 7: the slots.


def slot_reason(data: bytes, place: int) -> str:
    index = index_chain(data)
    found = index.around(place)
    if found is None:
        return ""
    entry, rest = divmod(place - found[1] - LINK_SIZE, family_of(data).slot_size)
    if rest != 0 or entry < 0:
        return ""
    slot = layout.slot_at(data, index.blocks, SLOTS_IN_BLOCK * found[0] + entry)
    wrong = live_reason(data, index, slot) if slot.state == "live" else ""
    return f"slot {slot.number}: {wrong}" if wrong else ""


def live_reason(data: bytes, index: Chain, slot: Slot) -> str:
    """Why this slot cannot be live; nothing where it can."""
    if slot.left > slot.right:
        return f"left {slot.left:,} is past right {slot.right:,}"
    if slot.bottom > slot.top:
        return f"bottom {slot.bottom:,} is past top {slot.top:,}"
    return place_reason(data, index, slot, LEAST_OBJECT) or header_reason(data, index, slot)


def place_reason(data: bytes, index: Chain, slot: Slot, size: int) -> str:
    """Why the slot's object cannot have so many bytes where it is."""
    thing, at = "the object", slot.position
    wrong = outside(thing, at, size, len(data)) or shared(thing, at, size, index)
    return f"{wrong} (Len {slot.len:,})" if wrong else ""


def header_reason(data: bytes, index: Chain, slot: Slot) -> str:
    """What in the header of the slot's object is not as the slot says. The two together tell the
    object's bytes, and these may not all be where an object can be."""
    version, family = layout.version_of(data), family_of(data)
    header = layout.object_header(family, data, slot.position)
    thing = f"the object at {slot.position}"
    if header.sym != slot.sym:
        return f"Sym is {slot.sym}, and {thing} has {header.sym}"
    if header.type not in family.types:
        return type_reason(thing, header.type, family)
    sizes = layout.sizes_by_len(version, header.pairs)
    if slot.len not in sizes:
        lens = listed(f"{length:,}" for length in sizes)
        return f"Len is {slot.len:,}, and {thing} has {pairs_told(header)}, which make it {lens}"
    size = sizes[slot.len]
    if size < LEAST_OBJECT:
        return f"Len is {slot.len}, and an object has {LEAST_OBJECT} bytes at least"
    return pairs_reason(version, header) or place_reason(data, index, slot, size)


def pairs_reason(version: int, header: ObjectHeader) -> str:
    """That an object has more pairs than its version takes, if it does."""
    most = MOST_PAIRS.get(version, header.pairs)
    if header.pairs <= most:
        return ""
    return f"{header.pairs:,} pairs, and in OCAD {version} {most:,} are the most"


def type_reason(thing: str, found: int, family: Family) -> str:
    types = family.types
    return f"{thing} has type {found}, and types are {min(types)} to {max(types)}"


def pairs_told(header: ObjectHeader) -> str:
    return f"nItem {header.items:,} and nText {header.texts:,}"
