"""Seeded test inputs: maps, journals, windows, lists, offered objects and runs of edits.

All is drawn from the Random handed in, so a seed gives the same inputs again. A made map is
good by construction; damage is put on it field by field. Maps are of 6 to 8 or of 9 to 11, each
family with its layout. Quotations are from documents 01 and 02 f).
"""

from __future__ import annotations

import struct
from dataclasses import dataclass, field
from random import Random
from typing import Any, Iterator, NamedTuple, Sequence

import model

Window = tuple[int, int, int, int]

HEADER, LIMIT = 48, 16_777_216
SYMBOLS, OBJECT, LONG_OBJECT, PAIR, RECORD = 1_028, 32, 40, 8, 16
LEAST_VALUE, MOST_VALUE = -8_388_608, 8_388_607
LEAST_INT, MOST_INT = -(2**31), 2**31 - 1
VERSIONS = ((6, 0), (7, 7), (8, 2), (8, 3))  # and section marks
NEW_VERSIONS = tuple(  # and file types
    (version, kind) for version, last in ((9, 3), (10, 3), (11, 8)) for kind in (0, 1, last)
)
LIVE_STATUSES = (1, 1, 1, 2)
OTHER_STATUSES = (0, 3, 3, 4, 5, 16, 127, 128, 129, 130, 255)
CALLS = {1: "add", 2: "remove", 3: "reinstate"}
RECORD_FORM = struct.Struct("<IB3xI4x")
HEADER_FORM = struct.Struct("<4H10i")


class Layout(NamedTuple):
    """The layout of a family of versions; fields by name, place and width."""

    block: int  # an index block
    slot_form: struct.Struct
    slot_fields: tuple[tuple[str, int, int], ...]
    object_form: struct.Struct
    object_fields: tuple[tuple[str, int, int], ...]
    most_type: int
    record_form: struct.Struct  # Size
    least_record: int
    header_fields: tuple[tuple[str, int, int], ...]

    @property
    def slot(self) -> int:
        """The size of a slot."""
        return self.slot_form.size

    def object_field(self, name: str) -> tuple[int, int]:
        """Place and width of a field of an object."""
        return next((at, width) for this, at, width in self.object_fields if this == name)


def in_row(start: int, width: int, *names: str) -> tuple[tuple[str, int, int], ...]:
    """Fields of one width that follow each other."""
    return tuple((name, start + width * place, width) for place, name in enumerate(names))


OLD = Layout(
    6_148,
    struct.Struct("<5iHh"),
    in_row(0, 4, "left", "bottom", "right", "top", "position") + in_row(20, 2, "Len", "Sym"),
    struct.Struct("<hBxHH"),
    (("Sym", 0, 2), ("type", 2, 1), ("Unicode", 3, 1), ("nItem", 4, 2), ("nText", 6, 2)),
    5,
    struct.Struct("<h"),
    348,
    in_row(0, 2, "mark", "section", "version", "subversion")
    + in_row(8, 4, "symbol link", "index link", "setup", "setup size", "info", "info size")
    + in_row(32, 4, "strings", "reserved a", "reserved b", "reserved c"),
)
NEW = Layout(
    10_244,
    struct.Struct("<5iIi2xB9x"),
    in_row(0, 4, "left", "bottom", "right", "top", "position", "Len", "Sym")
    + in_row(28, 1, "type", "mode", "Status", "view")
    + (("colour", 32, 2), ("font", 38, 2)),
    struct.Struct("<iB3xIH"),
    (("Sym", 0, 4), ("type", 4, 1), ("customer", 5, 1), ("angle", 6, 2))
    + (("nItem", 8, 4), ("nText", 12, 2), ("mark", 14, 2)),
    7,
    struct.Struct("<i"),
    572,
    (("mark", 0, 2), ("file type", 2, 1), ("file status", 3, 1), ("version", 4, 2))
    + (("subversion", 6, 2), ("symbol link", 8, 4), ("index link", 12, 4))
    + in_row(16, 4, "unused a", "unused b", "unused c", "unused d")
    + in_row(32, 4, "strings", "file name", "file name size", "unused e"),
)


def layout_of(version: int) -> Layout:
    """The layout of a version's family."""
    return NEW if version >= 9 else OLD


class Case(NamedTuple):
    """One call with all it is lent; `valid` where the map is made to be accepted, `new` where
    it is made as one of 9 to 11."""

    call: str
    note: str
    valid: bool
    map_buf: bytes
    used: int
    journal: bytes = b""
    edit: int = 0
    offered: bytes = b""
    at: int = 0
    window: Window = (0, 0, 0, 0)
    entries: tuple[int, ...] = ()
    new: bool = False

    def run(self, lib: Any) -> Any:
        """The result of the call on a library with the calls of `model`."""
        if self.call == "check":
            return lib.check(self.map_buf, self.used)
        if self.call == "search":
            entries = list(self.entries)
            return lib.search(self.map_buf, self.used, *self.window, entries)
        last = self.offered if self.call == "add" else self.at
        call = getattr(lib, self.call)
        return call(self.map_buf, self.used, self.journal, self.edit, last)


class Part(NamedTuple):
    """A run of bytes to be laid out."""

    kind: str
    size: int


class Stored(NamedTuple):
    """An object in a map: where it is, its pairs, its Sym and its slot's Len."""

    position: int
    pairs: int
    sym: int
    length: int


class Field(NamedTuple):
    """A number in a map that can be damaged."""

    kind: str
    place: int
    width: int

    @property
    def family(self) -> str:
        """What its fault would belong to."""
        if self.kind in ("mark", "section", "file type", "version"):
            return "head"
        if self.kind in ("symbol link", "symbol block link", "entry", "record Size"):
            return "symbol"
        if self.kind in ("index link", "block link", "setup", "setup size", "info", "info size"):
            return "index"
        return "live" if self.kind.startswith(("live", "object")) else ""


@dataclass
class Made:
    """A map and what is known of it; lists of blocks are in chain order."""

    version: int
    section: int
    data: bytearray
    parts: list[tuple[int, Part]]
    index: list[int] = field(default_factory=list)
    symbols: list[int] = field(default_factory=list)
    records: list[int] = field(default_factory=list)
    objects: list[Stored] = field(default_factory=list)
    spoiled: list[Stored] = field(default_factory=list)
    live: list[int] = field(default_factory=list)
    erased: list[int] = field(default_factory=list)

    @property
    def layout(self) -> Layout:
        """The layout of its version."""
        return layout_of(self.version)

    @property
    def used(self) -> int:
        """The map's length."""
        return len(self.data)

    @property
    def slots(self) -> int:
        """How many slots exist."""
        return 256 * len(self.index)

    @property
    def taken(self) -> list[int]:
        """The slots that are not free."""
        return self.live + self.erased

    def place(self, number: int) -> int:
        """Where a slot is."""
        return self.index[number // 256] + 4 + self.layout.slot * (number % 256)

    def slot(self, number: int) -> tuple[int, ...]:
        """A slot's numbers: rectangle, position, Len, Sym, and in 9 to 11 the status."""
        return self.layout.slot_form.unpack_from(self.data, self.place(number))

    def len_of(self, pairs: int, long: bool = False) -> int:
        """The Len of an object of so many pairs; in 9 to 11 it may be its bytes, with a header
        of 40."""
        if long:
            return LONG_OBJECT + PAIR * pairs
        return pairs if self.version >= 8 else OBJECT + PAIR * pairs

    def size_of(self, length: int) -> int:
        """The bytes that a Len stands for in 6 to 8."""
        return OBJECT + PAIR * length if self.version == 8 else length

    def write(self, place: int, form: str, *numbers: int) -> None:
        """Put numbers at a place."""
        struct.pack_into("<" + form, self.data, place, *numbers)


# Numbers and objects.


def draw_value(rng: Random) -> int:
    """A coordinate in 0.01 mm, mostly small."""
    if rng.random() < 0.06:
        return rng.choice((LEAST_VALUE, LEAST_VALUE + 1, MOST_VALUE - 1, MOST_VALUE))
    return rng.randint(-20, 20)


def draw_mark(rng: Random) -> int:
    """"The low 8 bits are marks and never count in a comparison"."""
    return rng.choice((0, 0, 1, 2, 127, 128, 255))


def draw_raw(rng: Random) -> int:
    """A raw coordinate."""
    return 256 * draw_value(rng) + draw_mark(rng)


def draw_rectangle(rng: Random) -> tuple[int, int, int, int]:
    """Raw left, bottom, right, top, in order by value; the marks may be against it."""
    low = draw_value(rng), draw_value(rng)
    high = [min(MOST_VALUE, side + rng.choice((0, 0, 1, 3, 12))) for side in low]
    left, bottom, right, top = (256 * side + draw_mark(rng) for side in (*low, *high))
    return left, bottom, right, top


def draw_sym(rng: Random) -> int:
    """A Sym that is not 0."""
    return rng.choice((1, 2, 101, 101, 777, 32_767, -1, -7, -32_768, 256))


def draw_pairs(rng: Random) -> int:
    """A number of pairs, mostly small."""
    return rng.choice((1, 1, 1, 1, 2, 2, 3, 4, 5, 7, 12, 31, 32, 33, 60))


def draw_object(rng: Random, pairs: int, items: int) -> bytes:
    """An object with its nItem and so many pairs in all; long ones repeat theirs."""
    head = struct.pack(
        "<hBBHH", draw_sym(rng), rng.randint(1, 5), rng.choice((0, 1, 9)), items, pairs - items
    )
    few = min(pairs, 8)
    run = b"".join(struct.pack("<2i", draw_raw(rng), draw_raw(rng)) for _ in range(few))
    return head + rng.randbytes(24) + (run * (pairs // few + 1))[: PAIR * pairs]


def draw_offered(rng: Random) -> bytes:
    """A well-formed offered object."""
    pairs = draw_pairs(rng)
    return draw_object(rng, pairs, rng.choice((pairs, pairs, rng.randint(1, pairs))))


def draw_malformed(rng: Random, version: int) -> bytes:
    """"offered object malformed": one condition missed."""
    good = draw_offered(rng)
    kind = rng.randrange(9)
    if kind == 0:
        return good[: rng.choice((0, 1, 7, 8, 31, 32, 39, len(good) - 1))]
    if kind == 1:
        return good + rng.randbytes(rng.choice((1, 7, 8, 16)))
    if kind == 2:
        pairs = (len(good) - OBJECT) // PAIR
        return good[:4] + struct.pack("<HH", 0, pairs) + good[8:]
    if kind == 3:
        return bytes(2) + good[2:]
    if kind == 4:
        return good[:2] + bytes([rng.choice((0, 0, 6, 6, 128, 255))]) + good[3:]
    if kind == 5:
        wrap = rng.choice((draw_wrap(rng, (len(good) - OBJECT) // PAIR), (65_535, 1), (0, 0)))
        return good[:4] + struct.pack("<HH", *wrap) + good[8:]
    if kind == 6:
        item = rng.choice((1, 2, 3, 65_535))
        return good[:4] + struct.pack("<H", item) + good[6:]
    if kind == 7 and rng.random() < 0.2:
        most = 32_769 if version == 8 else 8_188
        return draw_object(rng, most, rng.choice((1, most)))
    return rng.randbytes(rng.choice((0, 16, 40, 48)))


def draw_wrap(rng: Random, pairs: int) -> tuple[int, int]:
    """nItem and nText that give the pairs only if their sum is cut to 16 bits."""
    items = rng.choice((32_768, 65_535, 65_535))
    return items, 65_536 + pairs - items


def draw_new_object(rng: Random, pairs: int, items: int, size: int) -> bytes:
    """An object of 9 to 11: any Sym, any bytes behind the numbers that count."""
    sym = rng.choice((0, 1, 101_000, 101_000, 65_637, 101, -1, -3, -65_536, LEAST_INT, MOST_INT))
    head = NEW.object_form.pack(sym, rng.randint(1, 7), items, pairs - items)
    data = bytearray(head + rng.randbytes(size - len(head)))
    data[5:8] = rng.randbytes(3)
    return bytes(data)


def draw_new_wrap(rng: Random, stored: Stored) -> tuple[int, int, int]:
    """Len, nItem and nText of 9 to 11 that go together by the other meaning of Len, or only if
    a number is cut to 16 or 32 bits or taken with its sign."""
    more = rng.randint(1, 9)
    return rng.choice(
        (
            (stored.length, stored.length, 0),
            (stored.length, 0, stored.length % 2**16),
            (stored.pairs, stored.pairs, 0),
            (LONG_OBJECT + PAIR * stored.pairs, stored.pairs, 0),
            (stored.length, 2**32 - more, stored.pairs + more),
            (stored.length, stored.pairs + more, 65_536 - more),
            (stored.length, stored.pairs + 65_536, 0),
            (stored.length, stored.pairs + 2**29, 0),
            (stored.length, stored.pairs + 2**31, 0),
            (stored.length + 65_536, stored.pairs, 0),
            (stored.length + 2**31, stored.pairs, 0),
            (stored.pairs + 2**29, stored.pairs + 2**29, 0),
            (stored.pairs + 65_536, stored.pairs + 65_536, 0),
            (2**32 - more, 2**32 - more, 0),
        )
    )


# Made maps.


def draw_map(rng: Random, versions: Sequence[tuple[int, int]] = VERSIONS + NEW_VERSIONS) -> Made:
    """A good map with 0 to 3 index blocks in scrambled file order."""
    version, section = rng.choice(versions)
    return make_map(rng, version, section, draw_parts(rng, layout_of(version)))


def draw_parts(rng: Random, layout: Layout) -> list[Part]:
    """What the map is to hold, in scrambled order."""
    parts = [Part("index", layout.block)] * rng.choice((0, 1, 1, 1, 1, 2, 2, 3))
    parts += [Part("symbols", SYMBOLS)] * rng.choice((0, 0, 1, 1, 2, 2, 3))
    parts += [
        Part("record", layout.least_record + rng.choice((0, 0, 1, 2, 60, 200)))
        for _ in range(rng.choice((0, 1, 1, 2, 3)))
    ]
    for _ in range(rng.randint(0, 5)):
        if layout is NEW and rng.random() < 0.5:
            pairs = rng.choice((0, draw_pairs(rng)))
            parts.append(Part("long object", LONG_OBJECT + PAIR * pairs))
        else:
            parts.append(Part("object", OBJECT + PAIR * draw_pairs(rng)))
    parts += [Part("spoiled", OBJECT + PAIR)] * rng.choice((0, 0, 1, 2))
    for kind in ("setup", "info"):
        if layout is OLD and rng.random() < 0.5:
            parts.append(Part(kind, rng.choice((1, 2, 7, 100))))
    rng.shuffle(parts)
    return parts


def make_map(
    rng: Random, version: int, section: int, parts: Sequence[Part], crowded: bool = True
) -> Made:
    """The map with these parts laid out one after another, with gaps of any bytes; its blocks
    may be full if it may be crowded."""
    placed: list[tuple[int, Part]] = []
    position = HEADER + rng.choice((0, 0, 1, 3))
    for part in parts:
        placed.append((position, part))
        position += part.size + rng.choice((0, 0, 0, 1, 2, 5, 8))
    used = rng.choice((position, max([HEADER] + [at + p.size for at, p in placed])))
    made = Made(version, section, bytearray(rng.randbytes(used)), placed)
    fill_header(rng, made)
    fill_symbols(rng, made)
    fill_objects(rng, made)
    fill_index(rng, made, crowded)
    return made


def starts(made: Made, kind: str) -> list[int]:
    """The positions of the parts of a kind."""
    return [position for position, part in made.parts if part.kind == kind]


def draw_area(rng: Random, made: Made, kind: str) -> tuple[int, int]:
    """Setup or info: its own part, or one it shares ("size 0 means absent, whatever the
    position"); in 9 to 11 any bytes."""
    if made.layout is NEW:
        where = rng.choice((0, -1, HEADER, *starts(made, "index")))
        return where, rng.choice((0, 1, -1, made.used, MOST_INT, LEAST_INT))
    own = [(at, part.size) for at, part in made.parts if part.kind == kind]
    if own:
        return own[0]
    if rng.random() < 0.2:
        others = [(at, part.size) for at, part in made.parts if part.kind != "index"]
        return rng.choice(others) if others else (0, 0)
    return rng.choice((0, -1, 1, 48, MOST_INT, LEAST_INT)), 0


def fill_header(rng: Random, made: Made) -> None:
    """The header, and the order of the chains."""
    made.index = starts(made, "index")
    made.symbols = starts(made, "symbols")
    rng.shuffle(made.index)
    rng.shuffle(made.symbols)
    above = rng.choice((0, 0, 1, 7, 255)) if made.layout is NEW else 0
    made.data[:HEADER] = HEADER_FORM.pack(
        3245,
        made.section + 256 * above,
        made.version,
        rng.choice((0, 4, 65_535)),
        made.symbols[0] if made.symbols else 0,
        made.index[0] if made.index else 0,
        *draw_area(rng, made, "setup"),
        *draw_area(rng, made, "info"),
        rng.choice((0, 48, -1, MOST_INT)),
        *(rng.choice((0, -1, 48)) for _ in range(3)),
    )
    for chain, size in ((made.index, made.layout.block), (made.symbols, SYMBOLS)):
        for block, link in zip(chain, chain[1:] + [0]):
            made.data[block : block + size] = bytes(size)
            made.write(block, "i", link)


def fill_symbols(rng: Random, made: Made) -> None:
    """Records, and entries anywhere in the symbol blocks that point to them."""
    for position, part in made.parts:
        if part.kind == "record":
            made.records.append(position)
            made.layout.record_form.pack_into(made.data, position, part.size)
    for block in made.symbols:
        for _ in range(rng.randint(0, 3) if made.records else 0):
            entry = rng.choice((0, 1, 2, 100, 254, 255))
            made.write(block + 4 + 4 * entry, "i", rng.choice(made.records))


def fill_objects(rng: Random, made: Made) -> None:
    """Objects in parts of their own, and some inside records, setup or other objects."""
    behind = made.layout.record_form.size
    for position, part in made.parts:
        if part.kind == "object":
            store(rng, made, position, (part.size - OBJECT) // PAIR)
        elif part.kind == "long object":
            store(rng, made, position, (part.size - LONG_OBJECT) // PAIR, long=True)
        elif part.kind == "spoiled":
            store_spoiled(rng, made, position)
        elif part.kind == "record" and rng.random() < 0.3:
            store(rng, made, position + rng.choice((behind, behind + 1, part.size - 40)), 1)
    long = [stored for stored in made.objects if stored.pairs >= 6]
    if long and rng.random() < 0.5:
        store(rng, made, rng.choice(long).position + OBJECT + rng.randint(0, 7), 1)


def store(rng: Random, made: Made, position: int, pairs: int, long: bool = False) -> None:
    """An object of a live slot: nItem may be 0."""
    items = rng.choice((pairs, pairs, 0, rng.randint(0, pairs)))
    if made.layout is NEW:
        size = (LONG_OBJECT if long else OBJECT) + PAIR * pairs
        data = draw_new_object(rng, pairs, items, size)
    else:
        data = draw_object(rng, pairs, items)
    made.data[position : position + len(data)] = data
    sym = made.layout.object_form.unpack_from(data)[0]
    made.objects.append(Stored(position, pairs, sym, made.len_of(pairs, long)))


def store_spoiled(rng: Random, made: Made, position: int) -> None:
    """An object that no live slot may have; erased slots point to it."""
    layout = made.layout
    good = draw_new_object(rng, 1, 1, 40) if layout is NEW else draw_object(rng, 1, 1)
    data = bytearray(good)
    wrong = ("type", 0), ("type", layout.most_type + 1), ("nItem", 0), ("nItem", 2)
    name, number = rng.choice((("Sym", 0), *wrong, ("nText", 65_535)))
    place, width = layout.object_field(name)
    data[place : place + width] = number.to_bytes(width, "little")
    made.data[position : position + len(data)] = data
    sym = layout.object_form.unpack_from(data)[0]
    made.spoiled.append(Stored(position, 1, sym, made.len_of(1)))


def fill_index(rng: Random, made: Made, crowded: bool) -> None:
    """Slots: live, erased and free ones, the free ones with any Sym."""
    live = [live_slot(rng, made, stored) for stored in made.objects for _ in range(2)]
    erased = [erase(rng, made, slot) for slot in live]
    erased += [erase(rng, made, live_slot(rng, made, stored)) for stored in made.spoiled]
    erased += [erased_slot(rng, made) for _ in range(4)]
    free = [bytes(made.layout.slot)] * 3 + [free_slot(rng, made)]
    full = crowded and rng.random() < 0.15
    for block in range(len(made.index)):
        slots = rng.choices(free, k=256)
        for number in sorted(set(range(256)) if full else draw_taken(rng, crowded)):
            if live and rng.random() < 0.6:
                slots[number] = rng.choice(live)
                made.live.append(256 * block + number)
            else:
                slots[number] = rng.choice(erased)
                made.erased.append(256 * block + number)
        place = made.place(256 * block)
        made.data[place : place + 256 * made.layout.slot] = b"".join(slots)


def draw_taken(rng: Random, crowded: bool) -> set[int]:
    """Which slots of a block are not free."""
    kind = rng.randrange(12 if crowded else 10)
    if kind == 0:
        return set()
    if kind < 7:
        return set(range(rng.randint(1, 8)))
    if kind < 10:
        return set(rng.sample(range(256), rng.choice((1, 3, 8, 40)))) | {255}
    return set(range(256)) - {rng.choice((0, 7, 255))}


def pack_slot(
    rng: Random, made: Made, rectangle: Sequence[int], position: int, length: int, sym: int
) -> bytes:
    """A slot that is live if its Len and, in 6 to 8, its Sym are not 0."""
    fields = (*rectangle, position, length, sym)
    if made.layout is OLD:
        return OLD.slot_form.pack(*fields)
    data = NEW.slot_form.pack(*fields, rng.choice(LIVE_STATUSES))
    return data[:28] + rng.randbytes(2) + data[30:31] + rng.randbytes(9)


def live_slot(rng: Random, made: Made, stored: Stored) -> bytes:
    """A slot of an object."""
    where = stored.position, stored.length, stored.sym
    return pack_slot(rng, made, draw_rectangle(rng), *where)


def erase(rng: Random, made: Made, slot: bytes) -> bytes:
    """A live slot's bytes made those of an erased one: by Sym 0, in 9 to 11 by the status."""
    if made.layout is OLD:
        return slot[:22] + bytes(2)
    return slot[:30] + bytes([rng.choice(OTHER_STATUSES)]) + slot[31:]


def free_slot(rng: Random, made: Made) -> bytes:
    """A slot whose Len is 0; all else is any."""
    rectangle = [rng.randint(LEAST_INT, MOST_INT) for _ in range(4)]
    where = rng.randint(LEAST_INT, MOST_INT), 0, rng.randint(-32_768, 32_767)
    return pack_slot(rng, made, rectangle, *where)


def erased_slot(rng: Random, made: Made) -> bytes:
    """"Erased and free slots aren't judged": pointing anywhere, or a live one that misses
    a condition."""
    most = 65_535 if made.layout is OLD else 2**32 - 1
    if made.objects and rng.random() < 0.5:
        slot = live_slot(rng, made, rng.choice(made.objects))
        fields = list(made.layout.slot_form.unpack(slot)[:7])
        which = rng.choice((0, 1, 4, 4, 5, 5))
        wrong = {0: fields[2] + 256, 1: fields[3] + 256}
        shift = rng.choice((-8, -1, 1, 8))
        fields[which] = wrong.get(which, fields[which] + shift)
        fields[which] = max(1, min(fields[which], most if which == 5 else MOST_INT))
        return erase(rng, made, pack_slot(rng, made, fields[:4], *fields[4:]))
    position = rng.choice(anchors(made) + [HEADER - 1, 0, 8, -1, -48, LEAST_INT, MOST_INT])
    length = rng.choice((1, 5, 31, 32, 33, 39, 40, 41, 48, 32_768, 32_769, 65_535, most))
    return erase(rng, made, pack_slot(rng, made, draw_rectangle(rng), position, length, 7))


def anchors(made: Made) -> list[int]:
    """Positions where something starts or ends, and one byte to each side."""
    edges = {HEADER, made.used}
    for position, part in made.parts:
        edges |= {position, position + part.size}
    layout = made.layout
    for size in (layout.record_form.size, 40, layout.least_record, SYMBOLS, layout.block):
        edges.add(made.used - size)
    return sorted({max(0, edge + near) for edge in edges for near in (-1, 0, 1)})


# Damage.


def slot_fields(made: Made, number: int, kind: str) -> list[Field]:
    """A slot's numbers."""
    place = made.place(number)
    fields = made.layout.slot_fields
    return [Field(f"{kind} {name}", place + at, width) for name, at, width in fields]


def object_fields(made: Made, stored: Stored) -> list[Field]:
    """The numbers of an object's header."""
    fields = made.layout.object_fields
    return [Field(f"object {name}", stored.position + at, width) for name, at, width in fields]


def all_fields(rng: Random, made: Made) -> list[Field]:
    """Every number worth damaging; of the slots, a few of each state."""
    fields = [Field(*field) for field in made.layout.header_fields]
    fields += [Field("block link", block, 4) for block in made.index]
    fields += [Field("symbol block link", block, 4) for block in made.symbols]
    for block in made.symbols:
        fields += [Field("entry", block + 4 + 4 * i, 4) for i in (0, 1, 2, 100, 254, 255)]
    width = made.layout.record_form.size
    fields += [Field("record Size", record, width) for record in made.records]
    for stored in made.objects:
        fields += object_fields(made, stored)
    for kind, numbers in (("live", made.live), ("erased", made.erased)):
        for number in rng.sample(numbers, min(3, len(numbers))):
            fields += slot_fields(made, number, kind)
    for number in rng.sample(range(made.slots), min(2, made.slots)):
        fields += slot_fields(made, number, "any")
    return fields


SMALL = (0, 1, 2, 5, 6, 7, 8, 9, 31, 32, 33, 39, 40, 41, 47, 48, 49, 255, 256)
BYTE_VALUES = (*range(10), 128, 129, 255)
SHORT_VALUES = SMALL + (346, 347, 348, 349, 3244, 32_767, 32_768, 32_769, 65_528, 65_535)
WIDE_VALUES = SMALL + (
    2**15,
    2**16 - 1,
    2**16,
    2**24,
    2**31 - 1,
    2**31,
    2**31 + 1,
    2**32 - 4,
    2**32 - 1,
)


def damage_values(made: Made, spot: Field) -> list[int]:
    """Interesting numbers for a field: fixed ones, some around what it holds, and where
    blocks are, so that links lead back."""
    old = int.from_bytes(made.data[spot.place : spot.place + spot.width], "little")
    if spot.width == 1:
        return list(BYTE_VALUES)
    near = [old + shift for shift in (-256, -8, -1, 1, 8, 256)]
    if spot.width == 2:
        return list(SHORT_VALUES) + near
    block = made.layout.block
    near += [old + 2**16, old + 2**31, 2**31 - 1 - block, 2**32 - block]
    return list(WIDE_VALUES) + near + anchors(made)


def near_values(made: Made, spot: Field) -> list[int]:
    """Numbers that are wrong by little, or right in their lower half."""
    layout = made.layout
    old = int.from_bytes(made.data[spot.place : spot.place + spot.width], "little")
    if spot.kind == "object type":
        return [0, layout.most_type, layout.most_type + 1]
    if spot.kind == "record Size":
        return [layout.least_record - 1, old - 1, old + 1, old + 2**16]
    return [old - 8, old - 1, old + 1, old + 8, old + 2**16]


def set_field(data: bytearray, spot: Field, number: int) -> None:
    """Write a number into a field."""
    run = (number % 256**spot.width).to_bytes(spot.width, "little")
    data[spot.place : spot.place + spot.width] = run


def draw_damage(rng: Random, made: Made, spot: Field) -> int:
    """One of the interesting numbers; a link often leads to a block."""
    blocks = made.index + made.symbols
    if blocks and spot.kind.endswith("link") and rng.random() < 0.3:
        return rng.choice(blocks) + rng.choice((0, 0, 0, -1, 1))
    if rng.random() < 0.3:
        return rng.choice(near_values(made, spot))
    return rng.choice(damage_values(made, spot))


def damage(rng: Random, made: Made) -> tuple[bytearray, str]:
    """The map with one to three fields damaged, each kind of field as likely; sometimes
    of one family, so that faults of one number stand in order."""
    data = bytearray(made.data)
    fields = all_fields(rng, made)
    family = rng.choice(("", "", "", "", "head", "symbol", "index", "live", "live", "live"))
    near = [spot for spot in fields if family in ("", spot.family)] or fields
    kinds = sorted({spot.kind for spot in near})
    notes = []
    for _ in range(rng.choice((1, 1, 1, 1, 2, 3))):
        kind = rng.choice(kinds)
        spot = rng.choice([spot for spot in near if spot.kind == kind])
        number = draw_damage(rng, made, spot)
        set_field(data, spot, number)
        notes.append(f"{spot.kind} at {spot.place} = {number}")
    if made.objects and rng.random() < (0.15 if made.layout is NEW else 0.05):
        stored = rng.choice(made.objects)
        damage_sum(rng, made, data, stored)
        notes.append(f"pair sum at {stored.position}")
    return data, ", ".join(notes)


def damage_sum(rng: Random, made: Made, data: bytearray, stored: Stored) -> None:
    """Give an object a sum of pairs, and in 9 to 11 its live slots a Len, that go together only
    for a reader who cuts them."""
    if made.layout is OLD:
        struct.pack_into("<HH", data, stored.position + 4, *draw_wrap(rng, stored.pairs))
        return
    length, items, texts = draw_new_wrap(rng, stored)
    struct.pack_into("<IH", data, stored.position + 8, items, texts)
    for number in made.live:
        if made.slot(number)[4] == stored.position:
            struct.pack_into("<I", data, made.place(number) + 20, length)


def draw_used(rng: Random, made: Made) -> int:
    """A length that is not the map's own."""
    far = (LIMIT, LIMIT + 1, 2**31, 2**32, 2**32 + 48, 2**32 + made.used, 2**63, 2**64 - 1)
    return rng.choice((*far, 0, 1, 47, 48, 49, *anchors(made)))


def draw_random(
    rng: Random, versions: Sequence[tuple[int, int]] = VERSIONS + NEW_VERSIONS
) -> bytearray:
    """Any bytes behind a plausible header."""
    version, section = rng.choice(versions)
    block = layout_of(version).block
    one = HEADER + block
    used = rng.choice(
        (48, 49, 80, 1_076, 1_424, 2_200, one - 1, one, one + 40, one + 1_104, one + block + 56)
    )
    data = bytearray(rng.randbytes(used)) if rng.random() < 0.5 else bytearray(used)
    for _ in range(rng.choice((0, 4, 40))):
        place, run = rng.randrange(48, used + 1), rng.randbytes(rng.choice((1, 4, 24)))
        data[place : place + len(run)] = run[: used - place]
    wild = (0, 0, 0, 48, 49, 1_076, used - block, used - 40, rng.randint(LEAST_INT, MOST_INT))
    numbers = [rng.choice(wild) for _ in range(10)]
    numbers[3], numbers[5] = (rng.choice((0, 0, 0, 0, 0, 0, 0, 1, 40, -1)) for _ in range(2))
    data[:HEADER] = HEADER_FORM.pack(3245, section, version, 0, *numbers)
    for link in (numbers[0], numbers[1]):
        if rng.random() < 0.6 and 48 <= link <= used - 4:
            struct.pack_into("<i", data, link, 0)
    return data


# Neighbours.


def things(layout: Layout) -> list[Part]:
    """What may lie beside a block."""
    block = layout.block
    parts = [Part("index", block), Part("symbols", SYMBOLS)]
    for size in (layout.least_record, layout.least_record + 1, block + 20, 32_000):
        parts.append(Part("record", size))
    for size in (32, 40, 41, 48, block + 4, 65_528):
        parts.append(Part("object", size))
    for size in (40, 48, block + 4) if layout is NEW else ():
        parts.append(Part("long object", size))
    for kind, size in (("setup", 1), ("setup", block + 20), ("info", 2), ("info", block + 20)):
        parts.append(Part(kind, size))
    return parts


def draw_neighbours(
    rng: Random, versions: Sequence[tuple[int, int]] = VERSIONS
) -> tuple[bytearray, str]:
    """A block and a thing beside it that share no byte, or one or two, or lie in each
    other; all else is good, and zero."""
    version, section = rng.choice(versions)
    layout = layout_of(version)
    thing = rng.choice(things(layout))
    block = Part("symbols", SYMBOLS) if rng.random() < 0.15 else Part("index", layout.block)
    where, shared = rng.choice(("before", "after", "in")), rng.choice((-1, 0, 0, 1, 1, 2))
    at = HEADER if where == "after" else HEADER + thing.size + rng.choice((1, 7))
    if where == "before":
        other = at - thing.size + shared
    elif where == "after":
        other = at + block.size - shared
    elif thing.size > layout.block:
        other = at - rng.randint(2, thing.size - layout.block)
    else:
        other = at + 4 + layout.slot * rng.randint(1, 40)
    end = max(at + block.size, other + thing.size)
    data = bytearray(end + SYMBOLS + layout.block)
    used = place_things(rng, data, version, (block, at), (thing, other))
    data[:8] = struct.pack("<4H", 3245, section, version, 0)
    note = f"{thing.kind} of {thing.size} at {other} {where} {block.kind} at {at}"
    return data[: used + rng.choice((0, 0, 0, 1, -1))], note


def place_things(
    rng: Random,
    data: bytearray,
    version: int,
    block: tuple[Part, int],
    beside: tuple[Part, int],
) -> int:
    """Write the links, sizes and headers of both; the length is returned."""
    layout = layout_of(version)
    (base, at), (thing, other) = block, beside
    end = max(at + base.size, other + thing.size)
    places = {"index": 12, "symbols": 8, "setup": 16, "info": 24}
    struct.pack_into("<i", data, places[base.kind], at)
    if thing.kind in ("setup", "info"):
        struct.pack_into("<2i", data, places[thing.kind], other, thing.size)
    elif thing.kind == base.kind:
        first, last = rng.choice(((at, other), (other, at)))
        struct.pack_into("<i", data, places[base.kind], first)
        struct.pack_into("<i", data, first, last)
    elif thing.kind in places:
        struct.pack_into("<i", data, places[thing.kind], other)
    elif thing.kind == "record":
        layout.record_form.pack_into(data, other, thing.size)
        symbols = at if base.kind == "symbols" else end
        struct.pack_into("<i", data, 8, symbols)
        struct.pack_into("<i", data, symbols + 4 * rng.choice((1, 2, 256)), other)
        end = max(end, symbols + SYMBOLS)
    else:
        pairs = (thing.size - (OBJECT if thing.kind == "object" else LONG_OBJECT)) // PAIR
        layout.object_form.pack_into(data, other, 101, 1, pairs, 0)
        index = at if base.kind == "index" else end
        struct.pack_into("<i", data, 12, index)
        counted = thing.kind == "object" and version >= 8
        fields = [0, 0, 0, 0, other, pairs if counted else thing.size, 101]
        status = [rng.choice((1, 2))] if layout is NEW else []
        layout.slot_form.pack_into(data, index + 4, *fields, *status)
        end = max(end, index + layout.block)
    return end


# Journals.


def draw_number(rng: Random) -> int:
    """An edit number, from few, so that numbers meet."""
    return rng.choice((1, 2, 3, 4, 5, 6, 7, 8, 9, 2**16, 2**16 + 1, 2**31, 2**32 - 1))


def good_records(rng: Random, made: Made, count: int) -> list[bytes]:
    """Records "with distinct numbers, each slot existing and not free"."""
    taken = made.taken
    numbers = list(dict.fromkeys(draw_number(rng) for _ in range(count)))
    if count > 20:
        # by the last of these all numbers stand in one tree (DECISIONS, J6)
        stride = rng.choice((1, 3, 2**16, 1_000_003, pow(2_654_435_769, -1, 2**32)))
        numbers = [stride * (number + 1) % 2**32 for number in range(count)]
        rng.shuffle(numbers)
    if not taken:
        return []
    return [
        RECORD_FORM.pack(number, rng.randint(1, 3), rng.choice(taken)) for number in numbers
    ]


def draw_journal(rng: Random, made: Made) -> tuple[bytes, str]:
    """A journal for the map, and how it was made."""
    kind = rng.random()
    if kind < 0.005:
        records = good_records(rng, made, rng.choice((4_095, 4_096)))
        journal = b"".join(records).ljust(65_536, b"\0")
        return (journal, "long") if kind < 0.003 else damage_journal(rng, made, journal)
    if kind < 0.03:
        length = rng.choice((0, 0, 1, 8, 15, 17, 16, 64, 65_520, 65_536, 65_552))
        return bytes(length), "zeros"
    if kind < 0.05:
        return rng.randbytes(rng.choice((15, 16, 64, 72))), "random"
    records = good_records(rng, made, rng.choice((0, 1, 2, 3, 5, 8)))
    journal = b"".join(records) + bytes(RECORD * rng.choice((0, 1, 1, 2, 4, 60)))
    if kind < 0.18:
        return damage_journal(rng, made, journal)
    return journal, "good"


def damage_journal(rng: Random, made: Made, journal: bytes) -> tuple[bytes, str]:
    """"any other is malformed": a field, a zero, an order or a length changed."""
    data = bytearray(journal)
    count = len(data) // RECORD
    if count == 0 or rng.random() < 0.12:
        return bytes(data) + bytes(rng.randint(1, 15)), "odd length"
    at = RECORD * rng.randrange(count)
    kind = rng.randrange(8)
    if kind == 0:
        data[at : at + 4] = bytes(4)
    elif kind == 1:
        data[at : at + 4] = data[:4]
    elif kind == 2:
        data[at + 4] = rng.choice((0, 4, 5, 128, 255))
    elif kind == 3:
        data[at + rng.choice((5, 6, 7, 12, 13, 14, 15))] = rng.choice((1, 128, 255))
    elif kind == 4:
        data[at : at + RECORD] = bytes(RECORD)
    elif kind == 5:
        free = sorted(set(range(made.slots)) - set(made.taken))[:2]
        slot = rng.choice((*free, made.slots, made.slots + 1, 2**31, 2**32 - 1))
        data[at + 8 : at + 12] = slot.to_bytes(4, "little")
    elif kind == 6:
        data[-RECORD:] = RECORD_FORM.pack(draw_number(rng), rng.randint(1, 3), 0)
    else:
        data[rng.randrange(len(data))] ^= 1 << rng.randrange(8)
    return bytes(data), f"damaged {kind}"


def held_records(journal: bytes) -> list[tuple[int, int, int]]:
    """Number, kind and slot of the records that are not zero."""
    whole = journal[: len(journal) // RECORD * RECORD]
    return [
        record for record in RECORD_FORM.iter_unpack(whole) if record[0] and record[1] in CALLS
    ]


# Cases.


def draw_case(rng: Random) -> Case:
    """One call on a map that is good, damaged, of a wrong length, or random bytes."""
    call = rng.choices(("check", "search", "edit"), (25, 20, 55))[0]
    new = rng.random() < (0.22 if call == "edit" else 0.52)
    versions = NEW_VERSIONS if new else VERSIONS
    if call == "edit" and not new and rng.random() < 0.05:
        return draw_beside(rng)
    made = draw_map(rng, versions)
    used, data, note = made.used, made.data, "good"
    kind = rng.random() + (0.25 if call == "edit" and not new else 0.0)
    if kind < 0.35:
        data, note = damage(rng, made)
    elif kind < 0.43:
        data, note = draw_random(rng, versions), "random"
        used = len(data)
    elif kind < 0.5:
        used, note = draw_used(rng, made), "length"
    elif kind < 0.65 and (new or call != "edit"):
        data, note = draw_neighbours(rng, versions)
        used = len(data)
    base = Case("check", note, note == "good", bytes(data), used, new=new)
    if call == "check":
        return base._replace(map_buf=base.map_buf + draw_past(rng, rng.choice((0, 1, 50))))
    if call == "search":
        return draw_search(rng, made, base)
    return draw_edit(rng, made, base)


def draw_past(rng: Random, length: int) -> bytes:
    """Bytes of the buffer past the map: any."""
    return rng.randbytes(length) if rng.random() < 0.5 else b"\xee" * length


def draw_search(rng: Random, made: Made, base: Case) -> Case:
    """A window and a list that is exact, one short, empty or long."""
    window = draw_window(rng, made)
    map_buf = base.map_buf + draw_past(rng, rng.choice((0, 3, 30)))
    roomy = [0] * (len(map_buf) // OLD.slot)
    count = model.search(map_buf, base.used, *window, roomy).count
    room = rng.choice((0, 1, count, count, max(0, count - 1), count + 1, count + 5))
    entries = tuple(rng.choice((7, 0, 2**32 - 1, number)) for number in range(room))
    return base._replace(call="search", map_buf=map_buf, window=window, entries=entries)


def draw_window(rng: Random, made: Made) -> Window:
    """Windows around a live slot's rectangle, anywhere, and extreme ones."""
    kind = rng.randrange(10)
    if kind == 0:
        return LEAST_INT, LEAST_INT, MOST_INT, MOST_INT
    if kind == 1:
        far = (LEAST_INT, MOST_INT, LEAST_VALUE, MOST_VALUE, LEAST_VALUE - 1, MOST_VALUE + 1, 0)
        left, bottom, right, top = (rng.choice(far) for _ in range(4))
        return left, bottom, right, top
    if kind == 2:
        left, bottom = rng.randint(-20, 20), rng.randint(-20, 20)
        return left, bottom, left + rng.choice((-1, 5)), bottom + rng.choice((-1, 5))
    if kind < 7 and made.live:
        return draw_near(rng, made.slot(rng.choice(made.live)))
    left, bottom = rng.randint(-25, 20), rng.randint(-25, 20)
    return left, bottom, left + rng.randint(0, 20), bottom + rng.randint(0, 20)


def draw_near(rng: Random, slot: Sequence[int]) -> Window:
    """A window that just touches a rectangle, just misses it, or lies within it."""
    left, bottom, right, top = (raw >> 8 for raw in slot[:4])
    near = rng.choice((0, 0, 1, -1))
    return rng.choice(
        (
            (left, bottom, right, top),
            (right + near, bottom, right + 9, top),
            (left - 9, bottom, left + near, top),
            (left, top + near, right, top + 9),
            (left, bottom - 9, right, bottom + near),
            (left, bottom, left, bottom),
        )
    )


def draw_edit(rng: Random, made: Made, base: Case) -> Case:
    """An edit under a journal, a repeat of a held number or a new one."""
    journal, how = draw_journal(rng, made)
    case = base._replace(journal=journal, note=f"{base.note}; journal {how}")
    held = held_records(journal)
    if made.layout is OLD and made.erased and rng.random() < 0.06:
        case = draw_odd_repeat(rng, made, case)
    elif held and rng.random() < 0.35:
        case = draw_repeat(rng, made, case, rng.choice(held))
    else:
        case = draw_new(rng, made, case)
    room = draw_room(rng, made, case) if base.used == made.used else rng.choice((0, 40))
    return case._replace(map_buf=case.map_buf + draw_past(rng, room))


def draw_beside(rng: Random) -> Case:
    """An edit where slot 0 is erased and its object may be next to a block."""
    data, note = draw_neighbours(rng)
    index = struct.unpack_from("<i", data, 12)[0]
    if HEADER <= index <= len(data) - OLD.block:
        struct.pack_into("<h", data, index + 4 + 22, 0)
    call = rng.choice(("reinstate", "reinstate", "reinstate", "add", "remove"))
    buffer = bytes(data) + draw_past(rng, 1_000)
    return Case(call, note, False, buffer, len(data), bytes(32), 5, draw_offered(rng))


def draw_new(rng: Random, made: Made, case: Case) -> Case:
    """An edit under a number that is mostly not held."""
    used_up = {number for number, _, _ in held_records(case.journal)}
    fresh = [number for number in (*range(1, 12), 2**32 - 3) if number not in used_up]
    edit = rng.choice((rng.choice(fresh), rng.choice(fresh), draw_number(rng), 2**32 - 2))
    if rng.random() < 0.02:
        edit = 0
    call = rng.choice(("add", "add", "remove", "reinstate", "reinstate"))
    offered = draw_offered(rng)
    if call == "add" and rng.random() < 0.3:
        offered = draw_malformed(rng, made.version)
    elif call == "add" and rng.random() < 0.005:
        most = 32_768 if made.version == 8 else 8_187
        offered = draw_object(rng, most, rng.choice((1, most)))
    return case._replace(call=call, edit=edit, offered=offered, at=draw_at(rng, made, call))


def draw_at(rng: Random, made: Made, call: str) -> int:
    """A slot, mostly in the state wanted."""
    wanted, other = (made.live, made.erased) if call == "remove" else (made.erased, made.live)
    kind = rng.random()
    if wanted and kind < 0.75:
        return rng.choice(wanted)
    if other and kind < 0.85:
        return rng.choice(other)
    if kind < 0.95:
        return rng.randrange(max(1, made.slots))
    return rng.choice((made.slots, made.slots + 1, 2**31, 2**32 - 1, 2**32 - 256))


def draw_repeat(
    rng: Random, made: Made, case: Case, record: tuple[int, int, int]
) -> Case:
    """A number that is held, with the same edit or with another."""
    number, kind, slot = record
    if rng.random() < 0.2:
        kind = rng.randint(1, 3)
    at = slot if rng.random() < 0.7 else rng.choice((0, slot + 1, made.slots, 2**32 - 1))
    offered = draw_same(rng, made, case, slot) if rng.random() < 0.8 else draw_offered(rng)
    call = CALLS[kind]
    return case._replace(call=call, edit=number, at=at % 2**32, offered=offered)


def draw_odd_repeat(rng: Random, made: Made, case: Case) -> Case:
    """A repeated add of an erased slot: "Len bytes in 6 and 7 whatever Len is, 32 + 8 x Len
    in 8, starts at 48 or later, lies inside and equals the offered bytes"."""
    slot = rng.choice(made.erased)
    length = rng.choice((1, 2, 5, 39, 40, 41, 47))
    size = made.size_of(length)
    last = made.used - size
    position = rng.choice((47, 48, 49, last - 1, last, last + 1, 0, 12, -1, -size))
    data = bytearray(case.map_buf)
    data[made.place(slot) + 16 : made.place(slot) + 22] = struct.pack("<iH", position, length)
    offered = (bytes(data) + b"\xee" * 8)[max(0, position) : max(0, position + size)]
    if rng.random() < 0.2:
        offered = offered[:-1]
    number = draw_number(rng)
    journal = RECORD_FORM.pack(number, 1, slot) + bytes(RECORD * rng.randint(0, 2))
    return case._replace(
        call="add",
        note=f"{case.note}; odd repeat",
        map_buf=bytes(data),
        journal=journal,
        edit=number,
        offered=offered,
    )


def draw_same(rng: Random, made: Made, case: Case, slot: int) -> bytes:
    """The bytes of a slot's object, or nearly so."""
    if slot >= made.slots:
        return b""
    position, length = made.slot(slot)[4:6]
    end = position + made.size_of(length)
    same = case.map_buf[max(0, position) : max(0, end)]
    kind = rng.randrange(8)
    if kind == 0 and same:
        at = rng.choice((0, len(same) - 1, rng.randrange(len(same))))
        return same[:at] + bytes([same[at] ^ 1]) + same[at + 1 :]
    if kind == 1:
        return same[:-1]
    if kind == 2:
        return same + b"\0"
    return same


def draw_room(rng: Random, made: Made, case: Case) -> int:
    """Bytes of buffer past the map: what an add needs, one less, one more, or any."""
    if case.call != "add":
        return rng.choice((0, 1, 50))
    needed = len(case.offered)
    if len(made.taken) == made.slots:
        needed += OLD.block
    near = (needed, needed, needed, needed - 1, needed + 1, needed + 90, 0, 39)
    return max(0, rng.choice(near))


def sweep(rng: Random, version: int, section: int) -> Iterator[Case]:
    """A check of one map under every interesting number in every field."""
    layout = layout_of(version)
    parts = [Part("index", layout.block)] * 2 + [Part("symbols", SYMBOLS)] * 2
    parts += [Part("record", layout.least_record), Part("object", 40)]
    if layout is NEW:
        parts += [Part("long object", 56)]
    else:
        parts += [Part("object", 56), Part("setup", 3), Part("info", 2)]
    rng.shuffle(parts)
    made = make_map(rng, version, section, parts, crowded=False)
    new = layout is NEW
    for spot in all_fields(rng, made):
        for number in damage_values(made, spot):
            data = bytearray(made.data)
            set_field(data, spot, number)
            note = f"{spot.kind} at {spot.place} = {number}"
            yield Case("check", note, False, bytes(data), made.used, new=new)
    for used in anchors(made):
        map_buf = bytes(made.data) + b"\xee"
        yield Case("check", f"length {used}", False, map_buf, used, new=new)


# Limits.


def limit_cases(rng: Random) -> Iterator[Case]:
    """Maps about as long as "16,777,216, so at most 2,728 index blocks"."""
    offered = draw_object(rng, 1, 1)
    parts = [Part("object", 40), Part("index", OLD.block)]
    made = make_map(rng, 7, 7, parts)
    while len(made.taken) == made.slots:
        made = make_map(rng, 7, 7, parts)
    short = bytes(made.data)
    for used, room in ((LIMIT - 40, 0), (LIMIT - 39, 9), (LIMIT, 100), (LIMIT + 1, 0)):
        buffer = short + bytes(used + 40 + room - len(short))
        note = f"length {used}"
        add = Case("add", note, used <= LIMIT, buffer, used, bytes(32), 5, offered)
        yield add
        yield add._replace(call="check")
    yield from many_blocks(rng, 7, 7, offered)
    yield from many_blocks(rng, 11, 8, offered)
    yield from many_symbols(rng)
    yield from long_cases(rng)
    yield from new_long_cases(rng)


def many_blocks(rng: Random, version: int, section: int, offered: bytes) -> Iterator[Case]:
    """2,728 index blocks, 698,368 slots; of 9 to 11, 1,637 and 419,072."""
    new = version >= 9
    count = 1_637 if new else 2_728
    full, last = full_map(rng, version, section, count, 0.002)
    buffer = full + b"\xee" * 7_000
    note = f"{count} blocks"
    base = Case("check", note, True, buffer, len(full), bytes(32), 5, offered, new=new)
    yield base
    yield base._replace(call="search", window=(-9, -9, 9, 9), entries=(7,) * count)
    if not new:
        yield base._replace(call="add")
        yield base._replace(call="remove", at=256 * count - 1)
        yield base._replace(call="reinstate", at=256 * (count - 1))
        yield base._replace(call="reinstate", at=256 * count)
    for link in (HEADER, last, last - 1):
        data = buffer[:last] + struct.pack("<i", link) + buffer[last + 4 :]
        yield base._replace(map_buf=data, valid=False, note=f"last link {link}")
    full, last = full_map(rng, version, section, count, 1.0)
    entries = tuple(range(7, 7 + 256 * count))
    search = Case("search", "all live", True, full, len(full), window=(5, 5, 9, 9), new=new)
    yield search._replace(entries=entries)


def full_map(
    rng: Random, version: int, section: int, count: int, live_share: float
) -> tuple[bytes, int]:
    """So many index blocks in scrambled order, and where the last is. No slot is free; the
    last slot is live. The object lies behind the blocks."""
    made = Made(version, section, bytearray(), [])
    size = made.layout.block
    blocks = [HEADER + size * place for place in range(count)]
    end = HEADER + size * count
    rng.shuffle(blocks)
    new = made.layout is NEW
    stored = draw_new_object(rng, 1, 1, 40) if new else draw_object(rng, 1, 1)
    sym = made.layout.object_form.unpack_from(stored)[0]
    live = pack_slot(rng, made, (0, 0, 1280, 1280), end, made.len_of(1), sym)
    erased = erase(rng, made, live)
    data = bytearray(HEADER_FORM.pack(3245, section, version, 0, 0, blocks[0], *([0] * 8)))
    data += bytes(end - HEADER) + stored
    rest = live if live_share == 1.0 else erased
    for block, link in zip(blocks, blocks[1:] + [0]):
        some = live if rng.random() < live_share else erased
        data[block : block + size] = struct.pack("<i", link) + rest * 255 + some
    last = blocks[-1] + size - len(live)
    data[last : last + len(live)] = live
    return bytes(data), blocks[-1]


def many_symbols(rng: Random) -> Iterator[Case]:
    """As many symbol blocks as a map can hold, and links that lead back."""
    count = (LIMIT - HEADER) // SYMBOLS
    blocks = [HEADER + SYMBOLS * place for place in range(count)]
    rng.shuffle(blocks)
    data = bytearray(LIMIT)
    data[:8] = struct.pack("<4H", 3245, 7, 7, 0)
    for at, link in zip([8] + blocks, blocks + [0]):
        struct.pack_into("<i", data, at, link)
    base = Case("check", f"{count} symbol blocks", True, bytes(data), LIMIT)
    yield base
    for link in (blocks[0], blocks[-1], blocks[7] + 1):
        struct.pack_into("<i", data, blocks[-1], link)
        yield base._replace(map_buf=bytes(data), valid=False, note=f"last link {link}")
    data[:8] = struct.pack("<4H", 3245, 1, 10, 0)
    yield base._replace(map_buf=bytes(data), valid=False, note="last link of 10", new=True)


def long_cases(rng: Random) -> Iterator[Case]:
    """"Len itself counts pairs, at most 32,768", "signed 16-bit Size", "k at most 8,187"."""
    for pairs in (32_767, 32_768, 32_769, 65_535):
        for sym in (101, 0):
            data = long_object(pairs, sym)
            base = Case("check", f"Len {pairs}", False, data, len(data), bytes(32), 5)
            yield base
            yield base._replace(call="search", entries=(7, 7))
            yield base._replace(call="reinstate")
            yield base._replace(call="remove")
            same = RECORD_FORM.pack(5, 1, 0) + bytes(16)
            yield base._replace(call="add", journal=same, offered=data[HEADER + OLD.block :])
    for size in (347, 348, 32_767, 32_768, 32_769, 65_535):
        data = bytearray(HEADER + SYMBOLS + size)
        data[:8] = struct.pack("<4H", 3245, 7, 7, 0)
        struct.pack_into("<i", data, 8, HEADER)
        struct.pack_into("<i", data, HEADER + 4, HEADER + SYMBOLS)
        struct.pack_into("<H", data, HEADER + SYMBOLS, size)
        yield Case("check", f"Size {size}", False, bytes(data), len(data))
    for version, section in VERSIONS:
        for pairs in (8_186, 8_187, 8_188, 32_767, 32_768, 32_769):
            offered = draw_object(rng, pairs, rng.choice((1, pairs)))
            empty = bytes(make_map(rng, version, section, []).data)
            for room in (0, -1):
                buffer = empty + draw_past(rng, len(offered) + OLD.block + room)
                note = f"{pairs} pairs"
                yield Case("add", note, True, buffer, len(empty), bytes(16), 5, offered)


def long_object(pairs: int, sym: int) -> bytes:
    """Version 8: a block at 48, an object of so many pairs behind it, slot 0 live or, with
    Sym 0, erased."""
    end = HEADER + OLD.block
    data = bytearray(end + OBJECT + PAIR * pairs)
    data[:8] = struct.pack("<4H", 3245, 2, 8, 0)
    struct.pack_into("<i", data, 12, HEADER)
    struct.pack_into("<iHh", data, HEADER + 4 + 16, end, pairs, sym)
    OLD.object_form.pack_into(data, end, 101, 1, pairs, 0)
    return bytes(data)


def new_long_cases(rng: Random) -> Iterator[Case]:
    """9 to 11: the longest map, Len and Size in 32 bits, and objects and records that end where
    the map does or past it."""
    longest = struct.pack("<4H", 3245, 8, 11, 0).ljust(LIMIT + 1, b"\0")
    for used in (LIMIT, LIMIT + 1):
        yield Case("check", f"length {used}", used == LIMIT, longest, used, new=True)
    for long, head in ((False, OBJECT), (True, LONG_OBJECT)):
        most = (LIMIT - HEADER - NEW.block - head) // PAIR
        for pairs in (32_768, 65_535, 65_536, 65_537, most):
            data = new_long_object(rng, pairs, long)
            for used in (len(data), len(data) - 1):
                note = f"{pairs} pairs, length {used}"
                yield Case("check", note, used == len(data), data, used, new=True)
    for size in (571, 572, 32_767, 32_768, 65_535, 65_536, 66_108, LIMIT - 1_076, -1, -572):
        data = bytearray(HEADER + SYMBOLS + max(572, size))
        data[:8] = struct.pack("<4H", 3245, 3, 10, 0)
        struct.pack_into("<i", data, 8, HEADER)
        struct.pack_into("<i", data, HEADER + 4, HEADER + SYMBOLS)
        struct.pack_into("<i", data, HEADER + SYMBOLS, size)
        for used in (len(data), len(data) - 1):
            note = f"Size {size}, length {used}"
            good = size >= 572 and used == len(data)
            yield Case("check", note, good, bytes(data), used, new=True)


def new_long_object(rng: Random, pairs: int, long: bool) -> bytes:
    """Version 9: a block at 48 and behind it an object of so many pairs, whose slot 0 is live
    and has a Len of either meaning."""
    made = Made(9, 0, bytearray(), [])
    end = HEADER + NEW.block
    data = bytearray(end + (LONG_OBJECT if long else OBJECT) + PAIR * pairs)
    data[:16] = struct.pack("<4H2i", 3245, 0, 9, 0, 0, HEADER)
    items = rng.choice((pairs, max(0, pairs - 65_535)))
    NEW.object_form.pack_into(data, end, 101_000, 1, items, pairs - items)
    slot = pack_slot(rng, made, draw_rectangle(rng), end, made.len_of(pairs, long), 101_000)
    data[HEADER + 4 : HEADER + 4 + NEW.slot] = slot
    return bytes(data)


# Long runs.


class Run:
    """One buffer and one journal, edited again and again."""

    def __init__(self, rng: Random, many: bool) -> None:
        self.rng = rng
        self.done: list[tuple[int, str, Any]] = []
        self.next_edit = rng.choice((1, 1, 1_000, 2**32 - 400))
        self.steps = 650 if many else rng.choice((40, 120, 160))
        version, section = rng.choice(VERSIONS)
        if many or rng.random() < 0.3:
            self.made = make_map(rng, version, section, [])
        else:
            self.made = draw_map(rng, VERSIONS)
        room = 3 * OLD.block + 40_000 if many else rng.choice((90, 900, 7_000, 14_000, 30_000))
        self.add_share = 0.8 if many else rng.choice((0.2, 0.45))
        self.map_buf = bytes(self.made.data) + draw_past(rng, room)
        self.used = self.made.used
        records = 700 if many else rng.choice((3, 20, 60, 200, 4_096))
        self.journal = bytes(RECORD * records)

    def next(self) -> Case:
        """The next call on the map and journal as they are now."""
        rng, kind = self.rng, self.rng.random()
        base = Case("check", "run", True, self.map_buf, self.used, self.journal)
        if kind < 0.03:
            return base
        if kind < 0.07:
            room = rng.choice((0, 3, 2_000))
            window = (-rng.randint(0, 9), -9, rng.randint(0, 9), 9)
            return base._replace(call="search", window=window, entries=(7,) * room)
        if self.done and kind < 0.2:
            return self.again(base)
        edit = 0 if kind < 0.21 else self.next_edit
        if rng.random() < self.add_share:
            offered = draw_offered(rng)
            if rng.random() < 0.05:
                offered = draw_malformed(rng, self.made.version)
            return base._replace(call="add", edit=edit, offered=offered)
        call = rng.choice(("remove", "reinstate"))
        at = draw_at(rng, self.made, call)
        return base._replace(call=call, edit=edit, at=at)

    def again(self, base: Case) -> Case:
        """A number that is held, with the same edit or with another."""
        edit, call, arg = self.rng.choice(self.done)
        if self.rng.random() < 0.3:
            call = self.rng.choice(("add", "remove", "reinstate"))
            arg = draw_offered(self.rng) if call == "add" else draw_at(self.rng, self.made, call)
        if call == "add":
            return base._replace(call=call, edit=edit, offered=arg)
        return base._replace(call=call, edit=edit, at=arg)

    def took(self, case: Case, result: model.EditResult) -> None:
        """Go on from what an edit left: "the length that the last done edit returned"."""
        if result.number != 0 or result.before != 0:
            return
        self.map_buf, self.journal = result.map_after, result.journal_after
        self.used = result.length
        arg = case.offered if case.call == "add" else case.at
        self.done.append((case.edit, case.call, arg))
        self.next_edit = self.next_edit % (2**32 - 1) + 1
        self.follow(case.call, result.slot)

    def follow(self, call: str, slot: int) -> None:
        """Keep the lists of live and erased slots."""
        if call == "remove":
            self.made.live.remove(slot)
            self.made.erased.append(slot)
            return
        if call == "reinstate":
            self.made.erased.remove(slot)
        elif slot == self.made.slots:
            self.made.index.append(0)
        self.made.live.append(slot)
