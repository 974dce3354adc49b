"""Document 01's calls, written from its words as functions on bytes.

Each call takes the lent bytes and returns all that the C interface gives back: the number,
the place, the counts, and every lent byte as it is afterwards. Nothing lent is changed in
place. Quotations are from document 01, and of 9 to 11 from document 02 f), whose fields are
those of source documents 003, 001 and 004.
"""

from __future__ import annotations

import struct
from bisect import bisect_left, insort
from typing import Callable, Iterator, NamedTuple, Optional, Sequence, Union

Bytes = Union[bytes, bytearray]

# "A map is the first `used` bytes of a lent buffer. Its length is 48 to 16,777,216"
HEADER_SIZE = 48
LENGTH_LIMIT = 16_777_216
# "The size of each kind of record belongs to that kind and is written once"
SYMBOL_BLOCK_SIZE = 1_028
OBJECT_HEADER_SIZE = 32
LONG_HEADER_SIZE = 40  # of an object in 9 to 11 where Len is its bytes
PAIR_SIZE = 8
RECORD_SIZE = 16
LINK_SIZE = 4
PLACES = 256  # slots in an index block, positions in a symbol block
LEAST_OBJECT = 40  # "An object is 40 bytes or more"
JOURNAL_LIMIT = 65_536  # "A journal is at most 65,536 bytes"
MOST_PAIRS_67 = 8_187  # "k at most 8,187 in 6 and 7 (Len 65,528)"
MOST_PAIRS_8 = 32_768  # "and 32,768 in 8"
MARK = 3245
VERSION_PAIRS = {(6, 0), (7, 7), (8, 2), (8, 3)}  # version and section mark
FILE_TYPES = {9: (0, 1, 3), 10: (0, 1, 3), 11: (0, 1, 8)}  # listed, by version
NORMAL, HIDDEN = 1, 2  # "a status byte that tells deleted from normal and hidden"
PROGRAM_LIMIT = 65_536  # "a map of at most 65,536 bytes from standard input"

# Places in the header of what the refusals name.
SYMBOL_LINK_AT, INDEX_LINK_AT, SETUP_AT, INFO_AT = 8, 12, 16, 24
SLOT_SYM_AT = 22

ADD, REMOVE, REINSTATE = 1, 2, 3  # "kind (1 add, 2 remove, 3 reinstate)"

HEADER_FORM = struct.Struct("<4H10i")
ENTRIES_FORM = struct.Struct("<256i")
PAIR_FORM = struct.Struct("<2i")
RECORD_FORM = struct.Struct("<IB3sI4s")
WINDOW_FORM = struct.Struct("<4i")
I16 = struct.Struct("<h")
I32 = struct.Struct("<i")


class Layout(NamedTuple):
    """What a family of versions has in a layout of its own."""

    block_size: int  # an index block: the link, then 256 slots
    slot_form: struct.Struct  # the numbers of a Slot
    object_form: struct.Struct  # the numbers of an ObjectHeader
    most_type: int  # the types of objects are 1 to this
    symbol_form: struct.Struct  # the Size of a symbol record
    least_symbol: int  # the least Size


# 6 to 8: "index block 6,148", "slot 24", "signed 16-bit Size is 348 or more". Setup and info
# are there, and maps are edited, in this layout alone.
OLD = Layout(6_148, struct.Struct("<5iHh"), struct.Struct("<hBxHH"), 5, I16, 348)
# 9 to 11: "their own slot of 40 bytes in a block of 10,244, 32-bit symbol numbers, symbol
# records of 572 bytes or more by a 32-bit Size, and a status byte". In the slot: position at
# 16, Len at 20, Sym at 24, status at 30. In the object: Sym at 0, type at 4, nItem at 8, nText
# at 12.
NEW = Layout(10_244, struct.Struct("<5iIi2xB9x"), struct.Struct("<iB3xIH"), 7, I32, 572)
LAYOUTS = {6: OLD, 7: OLD, 8: OLD, 9: NEW, 10: NEW, 11: NEW}


class CheckResult(NamedTuple):
    """What a check gives back."""

    number: int
    place: int


class SearchResult(NamedTuple):
    """What a search gives back, and the lent list afterwards."""

    number: int
    place: int
    count: int
    blocks: int
    list_after: list[int]


class EditResult(NamedTuple):
    """What an edit gives back, and the lent bytes afterwards."""

    number: int
    place: int
    before: int
    slot: int
    length: int
    map_after: bytes
    journal_after: bytes


class Refused(Exception):
    """A row of "Numbers that come back"; 9 "also returns the count needed"."""

    def __init__(self, number: int, place: int = 0, count: int = 0) -> None:
        super().__init__(number, place)
        self.number = number
        self.place = place
        self.count = count


class Header(NamedTuple):
    """"Header, 48 bytes": four 16-bit numbers, then ten signed 32-bit ones. In 9 to 11 the
    byte at 2 is the file type, and "no setup or info there"."""

    mark: int
    section: int
    version: int
    subversion: int
    symbols: int
    index: int
    setup: int
    setup_size: int
    info: int
    info_size: int
    strings: int
    reserved_a: int
    reserved_b: int
    reserved_c: int


class Slot(NamedTuple):
    """"A slot holds left, bottom, right, top, position, Len and Sym", and in 9 to 11 a
    status."""

    left: int
    bottom: int
    right: int
    top: int
    position: int
    len: int
    sym: int
    status: Optional[int] = None

    @property
    def live(self) -> bool:
        """"Both not 0: live", Len and Sym; in 9 to 11 normal and hidden, "both live if Len
        isn't 0; nothing else is"."""
        if self.status is None:
            return self.len != 0 and self.sym != 0
        return self.len != 0 and self.status in (NORMAL, HIDDEN)


class Record(NamedTuple):
    """"edit number (u32, not 0), kind, three zeros, slot (u32), four zeros"."""

    number: int
    kind: int
    zeros: bytes
    slot: int
    end: bytes


class ObjectHeader(NamedTuple):
    """"Sym at 0, type at 2, nItem at 4 and nText at 6", in 9 to 11 where their layout has
    them; both counts "read as unsigned"."""

    sym: int
    type: int
    items: int
    texts: int

    @property
    def pairs(self) -> int:
        """The sum nItem + nText."""
        return self.items + self.texts


class Opened(NamedTuple):
    """An accepted map; the chain holds its index blocks' positions in order."""

    data: Bytes
    used: int
    version: int
    layout: Layout
    chain: list[int]


class Plan(NamedTuple):
    """What a done edit returns and the bytes it puts at places."""

    slot: int
    length: int
    writes: list[tuple[int, bytes]]


ZERO_RECORD = Record._make(RECORD_FORM.unpack(bytes(RECORD_SIZE)))


class Blocks:
    """Blocks of one kind, no two of which share a byte, kept by position."""

    def __init__(self, size: int) -> None:
        self.size = size
        self.starts: list[int] = []

    def put(self, start: int) -> None:
        """Take in a block that shares no byte with those held."""
        insort(self.starts, start)

    def meets(self, start: int, size: int) -> bool:
        """Whether the bytes from start on share one with a block: the last block that
        starts before their end reaches furthest."""
        after = bisect_left(self.starts, start + size)
        return after > 0 and self.starts[after - 1] + self.size > start


def value(raw: int) -> int:
    """"the raw number divided by 256 and rounded down"."""
    return raw // 256


def shares(start: int, size: int, other: int, other_size: int) -> bool:
    """Whether two runs of bytes have one in common."""
    return start < other + other_size and other < start + size


def inside(start: int, size: int, used: int) -> bool:
    """"at least 48, and position plus size is at most the length"."""
    return start >= HEADER_SIZE and start + size <= used


# The check: 1, 2, 3, 4, 5, 6, 7.


def judge(data: Bytes, used: int) -> Opened:
    """Open the map, or raise its first refusal in the order 1 to 7."""
    header = judge_header(data, used)
    layout = LAYOUTS[header.version]
    areas = judge_areas(header, used) if layout is OLD else []
    chain, index = walk_index(data, used, header.index, layout.block_size, areas)
    walk_symbols(data, used, header.symbols, layout, index)
    opened = Opened(data, used, header.version, layout, chain)
    for number, slot in taken_slots(opened):
        if slot.live and not good_slot(opened, slot, index):
            raise Refused(7, slot_place(opened, number))
    return opened


def judge_header(data: Bytes, used: int) -> Header:
    """"length under 48 or over the limit, or past the buffer", "mark", "version pair"; "3
    also for a file type that the version's document doesn't list"."""
    if used < HEADER_SIZE or used > LENGTH_LIMIT or used > len(data):
        raise Refused(1)
    header = Header._make(HEADER_FORM.unpack_from(data, 0))
    if header.mark != MARK:
        raise Refused(2)
    if header.version in FILE_TYPES:
        known = header.section % 256 in FILE_TYPES[header.version]
    else:
        known = (header.version, header.section) in VERSION_PAIRS
    if not known:
        raise Refused(3)
    return header


def judge_areas(header: Header, used: int) -> list[tuple[int, int]]:
    """Setup and info, those that are there: "size 0 means absent, whatever the position.
    Otherwise size is positive, position is at least 48, and position plus size is at most the
    length"."""
    areas: list[tuple[int, int]] = []
    for position, size, place in (
        (header.setup, header.setup_size, SETUP_AT),
        (header.info, header.info_size, INFO_AT),
    ):
        if size < 0 or (size > 0 and not inside(position, size, used)):
            raise Refused(4, place)
        if size > 0:
            areas.append((position, size))
    return areas


def walk_index(
    data: Bytes, used: int, first: int, size: int, areas: Sequence[tuple[int, int]]
) -> tuple[list[int], Blocks]:
    """"Each index block starts at 48 or later, lies inside the map, and shares no byte
    with setup, info or an earlier index block"; the place is that of the link."""
    chain: list[int] = []
    earlier = Blocks(size)
    link_at, link = INDEX_LINK_AT, first
    while link != 0:
        if (
            not inside(link, size, used)
            or any(shares(link, size, *area) for area in areas)
            or earlier.meets(link, size)
        ):
            raise Refused(5, link_at)
        chain.append(link)
        earlier.put(link)
        link_at, link = link, I32.unpack_from(data, link)[0]
    return chain, earlier


def walk_symbols(
    data: Bytes, used: int, first: int, layout: Layout, index: Blocks
) -> None:
    """"In 6, a block, its entries, then its link"."""
    earlier = Blocks(SYMBOL_BLOCK_SIZE)
    link_at, link = SYMBOL_LINK_AT, first
    while link != 0:
        if (
            not inside(link, SYMBOL_BLOCK_SIZE, used)
            or index.meets(link, SYMBOL_BLOCK_SIZE)
            or earlier.meets(link, SYMBOL_BLOCK_SIZE)
        ):
            raise Refused(6, link_at)
        earlier.put(link)
        judge_entries(data, used, link + LINK_SIZE, layout, index)
        link_at, link = link, I32.unpack_from(data, link)[0]


def judge_entries(
    data: Bytes, used: int, first: int, layout: Layout, index: Blocks
) -> None:
    """"A symbol position of 0 is an unused entry"; all 256 are judged in order."""
    for number, position in enumerate(ENTRIES_FORM.unpack_from(data, first)):
        if position != 0 and not good_symbol(data, used, position, layout, index):
            raise Refused(6, first + 4 * number)


def good_symbol(
    data: Bytes, used: int, position: int, layout: Layout, index: Blocks
) -> bool:
    """"at least 48 and points to a record inside the map whose signed 16-bit Size is 348
    or more, sharing no byte with an index block"; in 9 to 11 "572 bytes or more by a 32-bit
    Size"."""
    if not inside(position, layout.symbol_form.size, used):
        return False
    size: int = layout.symbol_form.unpack_from(data, position)[0]
    return (
        size >= layout.least_symbol
        and inside(position, size, used)
        and not index.meets(position, size)
    )


def taken_slots(opened: Opened) -> Iterator[tuple[int, Slot]]:
    """The slots that are not free, ascending: "Len 0: free, whatever Sym is"."""
    whole = memoryview(opened.data)
    form = opened.layout.slot_form
    for place, block in enumerate(opened.chain):
        part = whole[block + LINK_SIZE : block + opened.layout.block_size]
        for number, fields in enumerate(form.iter_unpack(part), place * PLACES):
            if fields[5] != 0:
                yield number, Slot(*fields)


def slot_place(opened: Opened, number: int) -> int:
    """"Slot number = block's place in the chain times 256 plus place in the block"."""
    block = opened.chain[number // PLACES]
    return block + LINK_SIZE + opened.layout.slot_form.size * (number % PLACES)


def read_slot(opened: Opened, number: int) -> Slot:
    """An existing slot."""
    place = slot_place(opened, number)
    return Slot(*opened.layout.slot_form.unpack_from(opened.data, place))


def pair_count(version: int, length: int) -> Optional[int]:
    """"in 6 and 7, Len is the object's bytes, at least 40, and Len - 32 is a multiple of
    8; in 8, Len itself counts pairs, at most 32,768"; None where Len is neither."""
    if version == 8:
        return length if length <= MOST_PAIRS_8 else None
    pairs, rest = divmod(length - OBJECT_HEADER_SIZE, PAIR_SIZE)
    return pairs if length >= LEAST_OBJECT and rest == 0 else None


def object_size(version: int, length: int) -> int:
    """"Len bytes in 6 and 7 whatever Len is, 32 + 8 x Len in 8"."""
    return OBJECT_HEADER_SIZE + PAIR_SIZE * length if version == 8 else length


def size_by_pairs(version: int, length: int, pairs: int) -> Optional[int]:
    """The object's bytes where its Len goes with its pairs, None where it does not. In 9 to 11
    Len counts the pairs, and the object has 32 + 8 x Len bytes; or Len is the bytes of a header
    of 40 and of the pairs, and the object has Len bytes."""
    if LAYOUTS[version] is OLD:
        agrees = pair_count(version, length) == pairs
        return object_size(version, length) if agrees else None
    if length == pairs:
        return OBJECT_HEADER_SIZE + PAIR_SIZE * length
    return length if length == LONG_HEADER_SIZE + PAIR_SIZE * pairs else None


def good_slot(opened: Opened, slot: Slot, index: Blocks) -> bool:
    """The sentence that starts "A live slot is good when"."""
    if (
        value(slot.left) > value(slot.right)
        or value(slot.bottom) > value(slot.top)
        or not inside(slot.position, LEAST_OBJECT, opened.used)
    ):
        return False
    header = read_object(opened.layout, opened.data, slot.position)
    size = size_by_pairs(opened.version, slot.len, header.pairs)
    return (
        size is not None
        and inside(slot.position, size, opened.used)
        and not index.meets(slot.position, size)
        and header.sym == slot.sym
        and 1 <= header.type <= opened.layout.most_type
    )


def read_object(layout: Layout, data: Bytes, position: int) -> ObjectHeader:
    """The header of an object whose first bytes are there."""
    return ObjectHeader._make(layout.object_form.unpack_from(data, position))


def check(map_buf: Bytes, used: int) -> CheckResult:
    """"Number 0 with place 0 means accepted"."""
    try:
        judge(map_buf, used)
    except Refused as refusal:
        return CheckResult(refusal.number, refusal.place)
    return CheckResult(0, 0)


# The search: then 8, 9.


def search(
    map_buf: Bytes,
    used: int,
    left: int,
    bottom: int,
    right: int,
    top: int,
    list_entries: Sequence[int],
) -> SearchResult:
    """"Slot numbers go to a lent list of 32-bit numbers, ascending; entries past the count
    keep what they held"."""
    try:
        opened = judge(map_buf, used)
        found = find(opened, (left, bottom, right, top), len(list_entries))
    except Refused as refusal:
        kept = list(list_entries)
        return SearchResult(refusal.number, refusal.place, refusal.count, 0, kept)
    after = found + list(list_entries[len(found) :])
    return SearchResult(0, 0, len(found), len(opened.chain), after)


def find(opened: Opened, window: tuple[int, int, int, int], room: int) -> list[int]:
    """The live slots in the window; "window with left > right or bottom > top" is 8,
    "list shorter than the count" is 9."""
    left, bottom, right, top = window
    if left > right or bottom > top:
        raise Refused(8)
    found = [
        number
        for number, slot in taken_slots(opened)
        if slot.live and touches(slot, window)
    ]
    if room < len(found):
        raise Refused(9, count=len(found))
    return found


def touches(slot: Slot, window: tuple[int, int, int, int]) -> bool:
    """"closed on all sides, as rectangles are. Touching counts"."""
    left, bottom, right, top = window
    return (
        value(slot.left) <= right
        and left <= value(slot.right)
        and value(slot.bottom) <= top
        and bottom <= value(slot.top)
    )


def search_program(read: bytes) -> bytes:
    """What the search program writes for what it reads: "a window (four 32-bit numbers)
    and then a map"; "a longer one, or input without a whole window, gets 1"."""
    size = WINDOW_FORM.size
    map_buf = read[size:]
    if len(read) < size or len(map_buf) > PROGRAM_LIMIT:
        return b"refused 1 at 0\n"
    window = WINDOW_FORM.unpack_from(read)
    room = [0] * (len(map_buf) // OLD.slot_form.size)
    got = search(map_buf, len(map_buf), *window, room)
    if got.number != 0:
        return b"refused %d at %d\n" % (got.number, got.place)
    slots = dict(taken_slots(judge(map_buf, len(map_buf))))
    lines = [b"blocks %d\n" % got.blocks, b"found %d\n" % got.count]
    for number in got.list_after[: got.count]:
        slot = slots[number]
        lines.append(b"%d %d %d\n" % (number, slot.sym, slot.position))
    return b"".join(lines)


# The edits: then 17 in 9 to 11; 13, repeat or 14, 10 or 12, 11, 15.


def add(
    map_buf: Bytes, used: int, journal: Bytes, edit: int, obj: Bytes
) -> EditResult:
    """Add the offered object."""
    return run_edit(
        map_buf,
        used,
        journal,
        (edit, ADD),
        lambda opened, held: holds_object(opened, held, obj),
        lambda opened: plan_add(opened, obj),
    )


def remove(
    map_buf: Bytes, used: int, journal: Bytes, edit: int, at: int
) -> EditResult:
    """"Remove sets a live slot's Sym to 0"."""
    return run_edit(
        map_buf,
        used,
        journal,
        (edit, REMOVE),
        lambda opened, held: held == at,
        lambda opened: plan_remove(opened, at),
    )


def reinstate(
    map_buf: Bytes, used: int, journal: Bytes, edit: int, at: int
) -> EditResult:
    """"Reinstate gives an erased slot its object's Sym"."""
    return run_edit(
        map_buf,
        used,
        journal,
        (edit, REINSTATE),
        lambda opened, held: held == at,
        lambda opened: plan_reinstate(opened, at),
    )


def run_edit(
    map_buf: Bytes,
    used: int,
    journal: Bytes,
    asked: tuple[int, int],
    same: Callable[[Opened, int], bool],
    plan: Callable[[Opened], Plan],
) -> EditResult:
    """An edit of a number and kind; same tells whether the held slot is that of this
    edit, plan what is to be written. "Every refusal changes no lent byte"; in 9 to 11 it is "17
    for an edit", "right after 1 to 7"."""
    edit, kind = asked
    try:
        opened = judge(map_buf, used)
        if opened.layout is not OLD:
            raise Refused(17)
        records = read_journal(opened, journal)
        if edit == 0:
            raise Refused(13)
        for held in records:
            if held.number == edit:
                if held.kind != kind or not same(opened, held.slot):
                    raise Refused(14)
                kept = bytes(map_buf), bytes(journal)
                return EditResult(0, 0, 1, held.slot, used, *kept)
        planned = plan(opened)
        unused = len(records) * RECORD_SIZE
        if unused == len(journal):
            raise Refused(15)
    except Refused as refusal:
        kept = bytes(map_buf), bytes(journal)
        return EditResult(refusal.number, refusal.place, 0, 0, 0, *kept)
    record = RECORD_FORM.pack(edit, kind, bytes(3), planned.slot, bytes(4))
    after = put(map_buf, planned.writes), put(journal, [(unused, record)])
    return EditResult(0, 0, 0, planned.slot, planned.length, *after)


def put(data: Bytes, writes: Sequence[tuple[int, bytes]]) -> bytes:
    """"Beside these writes no byte of the buffer changes"."""
    after = bytearray(data)
    for place, run in writes:
        after[place : place + len(run)] = run
    return bytes(after)


def read_journal(opened: Opened, journal: Bytes) -> list[Record]:
    """The records in use: "The records in use come first, with distinct numbers, each
    slot existing and not free. All after them is zero. The length is a multiple of 16 and
    within the limit; any other is malformed"."""
    if len(journal) % RECORD_SIZE != 0 or len(journal) > JOURNAL_LIMIT:
        raise Refused(13)
    records: list[Record] = []
    for fields in RECORD_FORM.iter_unpack(journal):
        if fields == ZERO_RECORD:
            break
        records.append(Record._make(fields))
    rest = bytes(journal[len(records) * RECORD_SIZE :])
    numbers = {record.number for record in records}
    if (
        rest.count(0) != len(rest)
        or len(numbers) != len(records)
        or not all(good_record(opened, record) for record in records)
    ):
        raise Refused(13)
    return records


def good_record(opened: Opened, record: Record) -> bool:
    """A record in use, its slot "existing and not free"."""
    return (
        record.number != 0
        and record.kind in (ADD, REMOVE, REINSTATE)
        and record.zeros == ZERO_RECORD.zeros
        and record.end == ZERO_RECORD.end
        and exists(opened, record.slot)
        and read_slot(opened, record.slot).len != 0
    )


def exists(opened: Opened, number: int) -> bool:
    """Whether the chain has the slot."""
    return number < PLACES * len(opened.chain)


def holds_object(opened: Opened, number: int, offered: Bytes) -> bool:
    """"for an add: the slot's object starts at 48 or later, lies inside and equals the
    offered bytes"."""
    slot = read_slot(opened, number)
    size = object_size(opened.version, slot.len)
    if not inside(slot.position, size, opened.used):
        return False
    return opened.data[slot.position : slot.position + size] == offered


def judge_offered(version: int, offered: Bytes) -> ObjectHeader:
    """"The offered object is 32 + 8k bytes, k = nItem + nText, nItem at least 1, type 1 to
    5, Sym not 0; k at most 8,187 in 6 and 7 and 32,768 in 8"."""
    if len(offered) < OBJECT_HEADER_SIZE:
        raise Refused(10)
    header = read_object(OLD, offered, 0)
    most = MOST_PAIRS_8 if version == 8 else MOST_PAIRS_67
    if (
        len(offered) != OBJECT_HEADER_SIZE + PAIR_SIZE * header.pairs
        or header.items < 1
        or not 1 <= header.type <= OLD.most_type
        or header.sym == 0
        or header.pairs > most
    ):
        raise Refused(10)
    return header


def least_rectangle(offered: Bytes, items: int) -> tuple[int, int, int, int]:
    """"least one over the first nItem pairs by value, marks zero"."""
    end = OBJECT_HEADER_SIZE + PAIR_SIZE * items
    pairs = list(PAIR_FORM.iter_unpack(offered[OBJECT_HEADER_SIZE:end]))
    across = [value(x) for x, _ in pairs]
    upward = [value(y) for _, y in pairs]
    return (
        256 * min(across),
        256 * min(upward),
        256 * max(across),
        256 * max(upward),
    )


def first_free(opened: Opened) -> Optional[int]:
    """"It takes the first free slot in slot order"."""
    next_slot = 0
    for number, _ in taken_slots(opened):
        if number != next_slot:
            break
        next_slot += 1
    return next_slot if exists(opened, next_slot) else None


def plan_add(opened: Opened, offered: Bytes) -> Plan:
    """"It is stored at the old end"; "If none is free, a new zeroed index block follows
    the object, the chain's last link (or the header's) points to it, and its slot 0 is
    used"; all 24 bytes of the slot are written."""
    header = judge_offered(opened.version, offered)
    length = header.pairs if opened.version == 8 else len(offered)
    rectangle = least_rectangle(offered, header.items)
    fields = OLD.slot_form.pack(*rectangle, opened.used, length, header.sym)
    end = opened.used + len(offered)
    writes = [(opened.used, bytes(offered))]
    slot = first_free(opened)
    if slot is not None:
        writes.append((slot_place(opened, slot), fields))
    else:
        slot = PLACES * len(opened.chain)
        last = opened.chain[-1] if opened.chain else INDEX_LINK_AT
        writes += [
            (last, I32.pack(end)),
            (end, bytes(OLD.block_size)),
            (end + LINK_SIZE, fields),
        ]
        end += OLD.block_size
    if end > len(opened.data) or end > LENGTH_LIMIT:
        raise Refused(11)
    return Plan(slot, end, writes)


def plan_remove(opened: Opened, at: int) -> Plan:
    """"slot missing or not in the state wanted": a live one is."""
    if not exists(opened, at):
        raise Refused(12)
    if not read_slot(opened, at).live:
        raise Refused(12)
    return plan_sym(opened, at, 0)


def plan_reinstate(opened: Opened, at: int) -> Plan:
    """"done, journal aside, exactly when that Sym isn't 0 and the map with that slot live
    would be accepted"."""
    if not exists(opened, at):
        raise Refused(12)
    slot = read_slot(opened, at)
    readable = 0 <= slot.position <= opened.used - I16.size
    if slot.len == 0 or slot.sym != 0 or not readable:
        raise Refused(12)
    sym: int = I16.unpack_from(opened.data, slot.position)[0]
    planned = plan_sym(opened, at, sym)
    if sym == 0 or check(put(opened.data, planned.writes), opened.used).number != 0:
        raise Refused(12)
    return planned


def plan_sym(opened: Opened, at: int, sym: int) -> Plan:
    """A slot's Sym written; the length stays."""
    place = slot_place(opened, at) + SLOT_SYM_AT
    return Plan(at, opened.used, [(place, I16.pack(sym))])
