"""The worked cases as data, with answers worked out from document 01, and of OCAD 9, 10 and 11
from document 02 f).

The numbers of the cases are this project's own: T1 to T29 are of the check, T30 to T36 of the
search, T37 and T38 of the search program, T40 to T65 of the edits. `crates/vectors/make` has
the same numbers for cases of the same rules. The cases of 9 to 11 begin with f.

`run(lib)` takes any object that has the calls of `model` and returns what differs. A case is
a map, a call and the answer; an edit's answer also says which bytes are put where, and every
other lent byte has to stay. So that a refusal changes no lent byte is tested in every edit.
"""

from __future__ import annotations

import struct
import sys
from typing import Any, Iterator, NamedTuple, Sequence

Puts = Sequence[tuple[int, bytes]]

BUFFER = 40_000
FILL = 0xEE
LOWEST, HIGHEST = -(2**31), 2**31 - 1


class CheckCase(NamedTuple):
    """A buffer, the length within it, and the number and place."""

    name: str
    map_buf: bytes
    used: int
    want: tuple[int, int]


class SearchCase(NamedTuple):
    """A map, a window, a list, and number, place, count, blocks and list afterwards."""

    name: str
    map_buf: bytes
    window: tuple[int, int, int, int]
    entries: list[int]
    want: tuple[int, int, int, int, list[int]]


class Step(NamedTuple):
    """One edit: its number, its object or slot, the answer (number, before, slot, length)
    and the bytes put into the map and the journal."""

    call: str
    edit: int
    arg: Any
    want: tuple[int, int, int, int]
    map_puts: Puts = ()
    journal_puts: Puts = ()
    place: int = 0


class Script(NamedTuple):
    """Edits one after another on one buffer and journal."""

    name: str
    map_buf: bytes
    used: int
    journal: bytes
    steps: list[Step]


class ProgramCase(NamedTuple):
    """What the search program reads and writes."""

    name: str
    read: bytes
    want: bytes


# Building blocks.


def i16(number: int) -> bytes:
    """A 16-bit number, signed or not."""
    return (number % 2**16).to_bytes(2, "little")


def i32(number: int) -> bytes:
    """A 32-bit number, signed or not."""
    return (number % 2**32).to_bytes(4, "little")


def put(data: bytes, *puts: tuple[int, bytes]) -> bytes:
    """The bytes with runs put at places."""
    after = bytearray(data)
    for place, run in puts:
        after[place : place + len(run)] = run
    return bytes(after)


def grow(data: bytes, length: int, fill: int = 0) -> bytes:
    """The bytes, filled up to a length."""
    return data + bytes([fill]) * (length - len(data))


def lend(data: bytes, length: int = BUFFER) -> bytes:
    """A buffer that holds the map and 0xEE past it."""
    return grow(data, length, FILL)


def empty(version: int, section: int) -> bytes:
    """A header alone, all links and sizes 0."""
    return i16(3245) + i16(section) + i16(version) + bytes(42)


def make_object(
    sym: int = 101,
    kind: int = 1,
    items: int = 1,
    texts: int = 0,
    pairs: Sequence[tuple[int, int]] = ((1280, 1280),),
) -> bytes:
    """An object from its header fields and raw pairs."""
    head = i16(sym) + bytes([kind, 0]) + i16(items) + i16(texts) + bytes(24)
    return head + b"".join(i32(x) + i32(y) for x, y in pairs)


def make_slot(
    rectangle: Sequence[int], position: int, length: int, sym: int
) -> bytes:
    """The 24 bytes of a slot from raw numbers."""
    sides = b"".join(i32(raw) for raw in rectangle)
    return sides + i32(position) + i16(length) + i16(sym)


def record(edit: int, kind: int, slot: int) -> bytes:
    """The 16 bytes of a journal record."""
    return i32(edit) + bytes([kind, 0, 0, 0]) + i32(slot) + bytes(4)


FIVE = (1280, 1280, 1280, 1280)
E7 = empty(7, 7)
E8 = empty(8, 2)
O = make_object()
O_SLOT = make_slot(FIVE, 48, 40, 101)
M1 = put(E7, (12, i32(88))) + O + bytes(4) + O_SLOT + bytes(255 * 24)
M8 = put(E8, (12, i32(88))) + O + bytes(4) + make_slot(FIVE, 48, 1, 101) + bytes(6120)
J0 = bytes(64)
J1 = put(J0, (0, record(1, 1, 0)))
ERASED = put(M1, (114, i16(0)))
L1 = 6_236

DONE_FIRST = (0, 0, 0, L1)


def slot_zero(**fields: int) -> bytes:
    """M1 with fields of slot 0 and of its object set."""
    places = {
        "object_sym": (48, 2),
        "type": (50, 1),
        "items": (52, 2),
        "texts": (54, 2),
        "left": (92, 4),
        "right": (100, 4),
        "position": (108, 4),
        "len": (112, 2),
        "sym": (114, 2),
    }
    data = M1
    for name, number in fields.items():
        place, width = places[name]
        data = put(data, (place, (number % 256**width).to_bytes(width, "little")))
    return data


# Check.


def checks() -> Iterator[CheckCase]:
    """T1 to T29."""
    for used, length in ((0, 0), (47, BUFFER), (48, 47), (16_777_217, 16_777_300)):
        yield CheckCase("T1", lend(E7, length)[:length], used, (1, 0))
    for name, data, number, place in header_rows():
        yield CheckCase(name, lend(data), len(data), (number, place))
    for name, data, number, place in index_rows():
        yield CheckCase(name, lend(data), len(data), (number, place))
    for name, data, number, place in symbol_rows():
        yield CheckCase(name, lend(data), len(data), (number, place))
    for name, data, number, place in slot_rows():
        yield CheckCase(name, grow(data, len(data) + 64, FILL), len(data), (number, place))
    yield from new_checks()


Row = tuple[str, bytes, int, int]


def areas(length: int, setup: Sequence[int] = (0, 0), info: Sequence[int] = (0, 0)) -> bytes:
    """E7 grown to a length, with setup and info position and size."""
    four = b"".join(i32(number) for number in (*setup, *info))
    return grow(put(E7, (16, four)), length)


def header_rows() -> Iterator[Row]:
    """T2 to T8: mark, version pair, setup and info."""
    yield "T2", E7, 0, 0
    yield "T3", put(E7, (1, b"\0")), 2, 0
    for version, section in ((6, 0), (7, 7), (8, 2), (8, 3)):
        yield "T4", empty(version, section), 0, 0
    wrong = ((6, 7), (7, 0), (8, 0), (8, 7), (7, 0x0107), (5, 204), (12, 0))
    for version, section in wrong:
        yield "T4", empty(version, section), 3, 0
    yield "T5", areas(48, (-1, 0)), 0, 0
    yield "T6", areas(57, (47, 1)), 4, 16
    yield "T6", areas(48, (48, 1)), 4, 16
    yield "T6", areas(57, (48, -1)), 4, 16
    yield "T6", areas(57, (HIGHEST, HIGHEST)), 4, 16
    yield "T7", areas(49, (48, 1)), 0, 0
    yield "T8", areas(57, (48, -1), (48, -1)), 4, 16
    yield "T8", areas(57, (0, 0), (48, -1)), 4, 24


def index_rows() -> Iterator[Row]:
    """T9 to T12: index blocks."""
    one = grow(E7, 6_196)
    for link in (-1, 47, 49, HIGHEST):
        yield "T9", put(one, (12, i32(link))), 5, 12
    yield "T10", put(grow(E7, 6_195), (12, i32(48))), 5, 12
    yield "T10", put(one, (12, i32(48))), 0, 0
    for link in (48, 49):
        yield "T11", put(grow(E7, 20_000), (12, i32(48)), (48, i32(link))), 5, 48
    yield "T12", put(areas(6_196, (48, 1)), (12, i32(48))), 5, 12
    yield "T12", put(areas(6_196, (6_195, 1)), (12, i32(48))), 5, 12
    yield "T12", put(areas(6_197, (6_196, 1)), (12, i32(48))), 0, 0
    yield "T12", put(areas(6_197, (48, 1)), (12, i32(49))), 0, 0


def symbol_map(length: int, *puts: tuple[int, bytes]) -> bytes:
    """E7 with a symbol block at 48."""
    return put(grow(E7, length), (8, i32(48)), *puts)


def symbol_rows() -> Iterator[Row]:
    """T13 to T20: symbol blocks and records."""
    yield "T13", put(E7, (8, i32(-4))), 6, 8
    yield "T14", put(E7, (8, i32(-4)), (12, i32(-1))), 5, 12
    yield "T15", symbol_map(1_424, (56, i32(-1))), 6, 56
    for length, size, number, place in (
        (1_424, 348, 0, 0),
        (1_423, 348, 6, 52),
        (1_424, 347, 6, 52),
        (1_424, 0xFFFF, 6, 52),
    ):
        yield "T16", symbol_map(length, (52, i32(1_076)), (1_076, i16(size))), number, place
    yield "T17", symbol_map(1_424, (52, i32(1_423)), (1_076, i16(348))), 6, 52
    yield "T18", symbol_map(1_424, (64, i32(-1)), (48, i32(-1))), 6, 64
    yield "T18", symbol_map(1_424, (48, i32(-1))), 6, 48
    yield "T18", symbol_map(1_424, (48, i32(48))), 6, 48
    yield "T19", symbol_map(1_424, (16, i32(60) + i32(20))), 0, 0
    inner = (52, i32(92)), (92, i32(1_076)), (1_076, i16(348))
    yield "T20", symbol_map(1_424, *inner), 0, 0


def slot_rows() -> Iterator[Row]:
    """T21 to T29: live slots."""
    for fields in (
        {"type": 9},
        {"object_sym": 102},
        {"items": 2},
        {"len": 41},
        {"len": 39},
        {"len": 48, "items": 2},
        {"left": 1536},
        {"position": 47},
        {"position": 49},
        {"position": 6_197},
    ):
        yield "T21", slot_zero(**fields), 7, 92
    yield "T22", slot_zero(left=1535, right=1280), 0, 0
    yield "T23", slot_zero(items=0, texts=1), 0, 0
    yield "T24", slot_zero(len=0), 0, 0
    yield "T25", slot_zero(sym=0, type=9), 0, 0
    yield "T26", put(M1, (116, O_SLOT)), 0, 0
    yield "T26", put(slot_zero(type=9), (116, O_SLOT)), 7, 92
    yield "T26", put(M1, (116, O_SLOT), (116, i32(1536))), 7, 116
    yield "T27", M8, 0, 0
    yield "T28", long_object(32_768), 0, 0
    yield "T28", long_object(32_769), 7, 52
    yield "T29", backward(bad_first=True), 7, 6_200
    yield "T29", backward(bad_first=False), 7, 52


def long_object(pairs: int) -> bytes:
    """Version 8: a block at 48, slot 0 at 52, an object of so many pairs at 6,196."""
    slot = make_slot(FIVE, 6_196, pairs, 101)
    head = put(grow(E8, 6_196), (12, i32(48)), (52, slot))
    return head + make_object(items=pairs) + bytes(8 * (pairs - 1))


def backward(bad_first: bool) -> bytes:
    """Two blocks, at 48 and at 6,196; the one first in the chain is at 6,196. Slot 0 of
    the second is bad, that of the first is bad if asked."""
    bad = make_slot(FIVE, 47, 40, 101)
    puts = [(12, i32(6_196)), (6_196, i32(48)), (52, bad)]
    if bad_first:
        puts.append((6_200, bad))
    return put(grow(E7, 12_344), *puts)


# Search.


def searches() -> Iterator[SearchCase]:
    """T24, T27 and T30 to T36, and the table of coordinates, seen by point and by side."""
    sevens = [7] * 9
    whole = (0, 0, 10, 10)
    none = (0, 0, 0, 1, sevens)
    one = (0, 0, 1, 1, [0] + [7] * 8)
    yield SearchCase("T24", slot_zero(len=0), whole, sevens, none)
    yield SearchCase("T27", M8, whole, sevens, one)
    yield SearchCase("T30", M1, whole, sevens, one)
    yield SearchCase("T31", M1, (5, 5, 10, 10), sevens, one)
    yield SearchCase("T31", M1, (6, 6, 10, 10), sevens, none)
    yield SearchCase("T31", M1, (-10, -10, 5, 5), sevens, one)
    yield SearchCase("T31", M1, (4, 4, 4, 4), sevens, none)
    yield SearchCase("T32", M1, (6, 0, 5, 10), sevens, (8, 0, 0, 0, sevens))
    bad = slot_zero(type=9)
    yield SearchCase("T32", bad, (6, 0, 5, 10), sevens, (7, 92, 0, 0, sevens))
    yield SearchCase("T33", M1, (LOWEST, LOWEST, HIGHEST, HIGHEST), sevens, one)
    yield SearchCase("T34", M1, whole, [], (9, 0, 1, 0, []))
    two = put(M1, (116, O_SLOT))
    yield SearchCase("T34", two, whole, [7], (9, 0, 2, 0, [7]))
    below = at_raw(-1)
    yield SearchCase("T35", below, (-1, -1, -1, -1), sevens, one)
    yield SearchCase("T35", below, (0, 0, 0, 0), sevens, none)
    yield SearchCase("T36", E7, whole, sevens, (0, 0, 0, 0, sevens))
    yield from coordinates(one, none)
    yield from sides(one, none)
    yield from new_searches()


def at_raw(raw: int) -> bytes:
    """M1 with its rectangle at one raw number both ways."""
    return put(M1, (92, i32(raw) * 4))


COORDINATES = (
    (25602, 100),
    (255, 0),
    (-1, -1),
    (-256, -1),
    (-257, -2),
    (2147483647, 8388607),
    (-2147483648, -8388608),
)


def coordinates(one: Any, none: Any) -> Iterator[SearchCase]:
    """The document's table of raw numbers and values, seen through windows of one point."""
    for raw, value in COORDINATES:
        for near, want in ((value - 1, none), (value, one), (value + 1, none)):
            window = (near, near, near, near)
            yield SearchCase(f"raw {raw}", at_raw(raw), window, [7] * 9, want)


def sides(one: Any, none: Any) -> Iterator[SearchCase]:
    """The same through windows that have one side near, and through points 2 ** 24 away, whose
    values times 256 are the same in 32 bits."""
    for raw, value in COORDINATES:
        for side in range(4):
            inward = 1 if side < 2 else -1
            for near, want in ((value - inward, one), (value, one), (value + inward, none)):
                left, bottom, right, top = (
                    near if side == this else far
                    for this, far in enumerate((LOWEST, LOWEST, HIGHEST, HIGHEST))
                )
                name, window = f"raw {raw}, side {side}", (left, bottom, right, top)
                yield SearchCase(name, at_raw(raw), window, [7] * 9, want)
        for far in (value - 2**24, value + 2**24):
            window = (far, far, far, far)
            yield SearchCase(f"raw {raw}, far", at_raw(raw), window, [7] * 9, none)


def programs() -> Iterator[ProgramCase]:
    """T37 and T38."""
    window = struct.pack("<4i", 0, 0, 10, 10)
    refused = b"refused 1 at 0\n"
    yield ProgramCase("T37", window + M1, b"blocks 1\nfound 1\n0 101 48\n")
    yield ProgramCase("T38", window[:15], refused)
    yield ProgramCase("T38", window + grow(M1, 65_537), refused)
    yield ProgramCase("T38", window, refused)
    yield ProgramCase("T38", window + slot_zero(type=9), b"refused 7 at 92\n")
    yield ProgramCase("f1", window + F1, b"blocks 1\nfound 1\n0 101000 10292\n")
    wild = new_zero(sym=LOWEST, object_sym=LOWEST)
    found = b"blocks 1\nfound 1\n0 -2147483648 10292\n"
    yield ProgramCase("f Sym", window + wild, found)
    yield ProgramCase("f8", window + new_zero(type=8), b"refused 7 at 52\n")


# Edits and journal.


def scripts() -> Iterator[Script]:
    """T40 to T65."""
    yield from add_scripts()
    yield from offered_scripts()
    yield from state_scripts()
    yield from order_scripts()
    yield from journal_scripts()
    yield from repeat_scripts()
    yield from reinstate_scripts()
    yield from new_scripts()


def refuse(call: str, edit: int, arg: Any, number: int, place: int = 0) -> Step:
    """A refusal: slot 0, length 0, nothing written."""
    return Step(call, edit, arg, (number, 0, 0, 0), place=place)


def first_add(offered: bytes, slot: bytes) -> Step:
    """Add number 1 to an empty map: the object at 48, then a zeroed block."""
    block = 48 + len(offered)
    puts = [
        (12, i32(block)),
        (48, offered),
        (block, bytes(6_148)),
        (block + 4, slot),
    ]
    return Step("add", 1, offered, (0, 0, 0, block + 6_148), puts, [(0, record(1, 1, 0))])


def add_scripts() -> Iterator[Script]:
    """T40 to T45: where an object, a block and a rectangle go."""
    tight = lend(E7, 6_235)
    yield Script("T40", tight, 48, J0, [refuse("add", 1, O, 11)])
    first = first_add(O, O_SLOT)
    yield Script("T40", lend(E7, L1), 48, J0, [first])
    second = Step(
        "add",
        2,
        O,
        (0, 0, 1, 6_276),
        [(6_236, O), (116, make_slot(FIVE, 6_236, 40, 101))],
        [(16, record(2, 1, 1))],
    )
    yield Script("T41 T42", lend(E7), 48, J0, [first, second])
    many = [first] + [next_add(number) for number in range(1, 256)] + [block_add()]
    yield Script("T43", lend(E7), 48, bytes(16 * 257), many)
    wide = make_object(items=2, texts=1, pairs=[raw(10, -3), raw(-7, 4), (HIGHEST, LOWEST)])
    slot = make_slot((-1792, -768, 2560, 1024), 48, 56, 101)
    yield Script("T44", lend(E7), 48, J0, [first_add(wide, slot)])
    marked = make_object(pairs=[(25602, -257)])
    slot = make_slot((25600, -512, 25600, -512), 48, 40, 101)
    yield Script("T45", lend(E7), 48, J0, [first_add(marked, slot)])


def raw(x: int, y: int) -> tuple[int, int]:
    """A pair of values as raw numbers without marks."""
    return 256 * x, 256 * y


def next_add(number: int) -> Step:
    """Add number n + 1 of O after n adds, with a free slot n in the block at 88."""
    at = 6_236 + 40 * (number - 1)
    return Step(
        "add",
        number + 1,
        O,
        (0, 0, number, at + 40),
        [(at, O), (92 + 24 * number, make_slot(FIVE, at, 40, 101))],
        [(16 * number, record(number + 1, 1, number))],
    )


def block_add() -> Step:
    """The 257th add: slot 256 in a new block at 16,476."""
    puts = [
        (16_436, O),
        (88, i32(16_476)),
        (16_476, bytes(6_148)),
        (16_480, make_slot(FIVE, 16_436, 40, 101)),
    ]
    return Step("add", 257, O, (0, 0, 256, 22_624), puts, [(4_096, record(257, 1, 256))])


def offered_scripts() -> Iterator[Script]:
    """T46 and T47: what an offered object has to be."""
    malformed = [
        b"",
        O[:39],
        make_object(items=0, texts=1),
        make_object(sym=0),
        make_object(kind=0),
        make_object(kind=6),
        O + bytes(8),
        make_object(items=65_535, texts=1),
    ]
    steps = [refuse("add", 1, offered, 10) for offered in malformed]
    yield Script("T46", lend(E7), 48, J0, steps)
    for version, start, most, length in ((7, E7, 8_187, 65_528), (8, E8, 32_768, 32_768)):
        room = lend(start, 48 + 32 + 8 * most + 8 + 6_148)
        over = refuse("add", 1, many_pairs(most + 1), 10)
        slot = make_slot(FIVE, 48, length, 101)
        fits = first_add(many_pairs(most), slot)
        yield Script(f"T47 version {version}", room, 48, J0, [over, fits])


def many_pairs(count: int) -> bytes:
    """An object of so many pairs, each (5, 5)."""
    return make_object(items=count, pairs=[(1280, 1280)] * count)


def state_scripts() -> Iterator[Script]:
    """T48 to T54: free, erased and live slots, and numbers held."""
    rubbish = put(M1, (92, b"\x77" * 20 + i16(0) + i16(9)))
    taken = [(6_236, O), (92, make_slot(FIVE, 6_236, 40, 101))]
    step = Step("add", 1, O, (0, 0, 0, 6_276), taken, [(0, record(1, 1, 0))])
    yield Script("T48", lend(rubbish), L1, J0, [step])
    gone = Step("remove", 2, 0, DONE_FIRST, [(114, i16(0))], [(16, record(2, 2, 0))])
    other = Step(
        "add",
        3,
        O,
        (0, 0, 1, 6_276),
        [(6_236, O), (116, make_slot(FIVE, 6_236, 40, 101))],
        [(32, record(3, 1, 1))],
    )
    yield Script("T49", lend(M1), L1, J1, [gone, other])
    again = Step("reinstate", 3, 0, DONE_FIRST, [(114, i16(101))], [(32, record(3, 3, 0))])
    steps = [
        gone,
        refuse("remove", 3, 0, 12),
        refuse("remove", 3, 256, 12),
        refuse("remove", 3, 1, 12),
        refuse("reinstate", 3, 1, 12),
        again,
        Step("remove", 2, 0, (0, 1, 0, L1)),
        refuse("remove", 2, 1, 14),
        refuse("reinstate", 2, 0, 14),
        refuse("add", 2, O, 14),
    ]
    yield Script("T50 to T54", lend(M1), L1, J1, steps)


def order_scripts() -> Iterator[Script]:
    """T55 to T58 and T65: the order of the refusals."""
    repeat = Step("add", 1, O, (0, 1, 0, L1))
    steps = [
        repeat,
        refuse("add", 1, make_object(sym=102), 14),
        refuse("add", 1, O[:1], 14),
    ]
    yield Script("T55", lend(M1), L1, J1, steps)
    steps = [repeat, refuse("remove", 2, 0, 15)]
    yield Script("T56", lend(M1), L1, J1[:16], steps)
    yield Script("T57", lend(E7, 6_235), 48, b"", [refuse("add", 1, O, 11)])
    steps = [refuse("add", 1, O, 15), refuse("add", 1, O[:39], 10)]
    yield Script("T57", lend(E7, L1), 48, b"", steps)
    yield Script("T58", lend(M1), L1, J1, every_call(0, 13))
    for length in (15, 65_552):
        yield Script("T58", lend(M1), L1, bytes(length), every_call(2, 13))
    bad = slot_zero(type=9)
    yield Script("T65", lend(bad), L1, bytes(15), every_call(0, 7, 92))
    yield Script("T65", lend(put(E7, (1, b"\0"))), 48, bytes(15), every_call(0, 2))


def every_call(edit: int, number: int, place: int = 0) -> list[Step]:
    """The three edits under one number, all refused alike."""
    return [
        refuse("add", edit, O, number, place),
        refuse("remove", edit, 0, number, place),
        refuse("reinstate", edit, 0, number, place),
    ]


def journal_scripts() -> Iterator[Script]:
    """T59: malformed journals on M1."""
    for journal in (
        put(J0, (0, record(1, 1, 0)), (16, record(1, 1, 0))),
        put(J0, (16, record(1, 1, 0))),
        put(J0, (0, record(1, 4, 0))),
        put(J0, (0, record(1, 1, 1))),
        put(J0, (0, record(1, 1, 256))),
        put(J0, (0, record(0, 1, 0))),
        put(J1, (5, b"\1")),
        put(J1, (12, b"\7")),
    ):
        yield Script("T59", lend(M1), L1, journal, every_call(2, 13))


def repeat_scripts() -> Iterator[Script]:
    """T60 and T61: a repeated add of an erased slot, "whatever Len is"."""
    journal = put(J0, (0, record(9, 1, 0)))
    short = put(ERASED, (112, i16(5)))
    steps = [
        Step("add", 9, short[48:53], (0, 1, 0, L1)),
        refuse("add", 9, short[48:54], 14),
        refuse("add", 9, b"", 14),
    ]
    yield Script("T60", lend(short), L1, journal, steps)
    for position in (47, 6_232):
        buffer = lend(put(short, (108, i32(position))))
        offered = buffer[position : position + 5]
        yield Script("T61", buffer, L1, journal, [refuse("add", 9, offered, 14)])


def reinstate_scripts() -> Iterator[Script]:
    """T62 to T64."""
    for fields in (
        {"type": 9},
        {"object_sym": 0},
        {"position": 6_236},
        {"position": -1},
        {"position": 6_235},
        {"len": 39},
        {"left": 1536},
    ):
        data = slot_zero(sym=0, **fields)
        yield Script("T62", lend(data), L1, J1, [refuse("reinstate", 2, 0, 12)])
    data = slot_zero(sym=0, object_sym=-7)
    puts, kept = [(114, i16(-7))], [(16, record(2, 3, 0))]
    step = Step("reinstate", 2, 0, DONE_FIRST, puts, kept)
    yield Script("T63", lend(data), L1, J1, [step])
    late = make_object(sym=77)
    steps = [
        refuse("reinstate", 1, 0, 12),
        Step(
            "add",
            2,
            late,
            (0, 0, 1, 6_276),
            [(6_236, late), (116, make_slot(FIVE, 6_236, 40, 77))],
            [(0, record(2, 1, 1))],
        ),
        Step(
            "reinstate",
            3,
            0,
            (0, 0, 0, 6_276),
            [(114, i16(77))],
            [(16, record(3, 3, 0))],
        ),
    ]
    yield Script("T64", lend(slot_zero(sym=0, position=6_236)), L1, J0, steps)


# OCAD 9, 10 and 11.


def new_object(
    sym: int = 101_000, kind: int = 1, items: int = 1, texts: int = 0, size: int = 48
) -> bytes:
    """An object of 9 to 11 from its header fields, zeros after them."""
    head = i32(sym) + bytes([kind, 0, 0, 0]) + i32(items) + i16(texts)
    return grow(head, size)


def new_slot(
    position: int,
    length: int = 1,
    sym: int = 101_000,
    status: int = 1,
    rectangle: Sequence[int] = FIVE,
) -> bytes:
    """The 40 bytes of a slot of 9 to 11 from raw numbers."""
    sides = b"".join(i32(raw) for raw in rectangle)
    return sides + i32(position) + i32(length) + i32(sym) + bytes([0, 0, status]) + bytes(9)


E9, E10, E11 = empty(9, 0), empty(10, 0), empty(11, 0)
N = new_object()
F1 = put(E9, (12, i32(48))) + bytes(4) + new_slot(10_292) + bytes(255 * 40) + N
LF = 10_340

NEW_PLACES = {
    "file_type": (2, 1),
    "file_status": (3, 1),
    "version": (4, 2),
    "symbols": (8, 4),
    "index": (12, 4),
    "left": (52, 4),
    "bottom": (56, 4),
    "right": (60, 4),
    "top": (64, 4),
    "position": (68, 4),
    "len": (72, 4),
    "sym": (76, 4),
    "status": (82, 1),
    "object_sym": (10_292, 4),
    "type": (10_296, 1),
    "items": (10_300, 4),
    "texts": (10_304, 2),
}


def new_zero(**fields: int) -> bytes:
    """F1 with fields of the header, of slot 0 and of its object set."""
    data = F1
    for name, number in fields.items():
        place, width = NEW_PLACES[name]
        data = put(data, (place, (number % 256**width).to_bytes(width, "little")))
    return data


def new_checks() -> Iterator[CheckCase]:
    """f1 to f12 and all that the layout of 9 to 11 changes in the check."""
    for used, length in ((0, 0), (47, BUFFER), (LF, LF - 1), (16_777_217, 16_777_300)):
        yield CheckCase("f length", lend(F1, length)[:length], used, (1, 0))
    for rows in (
        new_header_rows(),
        new_index_rows(),
        new_symbol_rows(),
        new_slot_rows(),
        len_rows(),
        beside_rows(),
    ):
        for name, data, number, place in rows:
            yield CheckCase(name, grow(data, len(data) + 64, FILL), len(data), (number, place))
    for used, answer in ((10_331, (7, 52)), (10_332, (0, 0)), (10_339, (0, 0))):
        yield CheckCase("f7, more bytes behind", F1, used, answer)


def new_header_rows() -> Iterator[Row]:
    """f1, f3 and f4: file types, and what is not read."""
    yield "f1", F1, 0, 0
    yield "f mark", put(F1, (1, b"\0")), 2, 0
    for version, listed in ((9, (0, 1, 3)), (10, (0, 1, 3)), (11, (0, 1, 8))):
        yield "f3", empty(version, 0), 0, 0
        for kind in (*range(12), 128, 255):
            number = 0 if kind in listed else 3
            yield "f3", new_zero(version=version, file_type=kind), number, 0
            marked = new_zero(version=version, file_type=kind, file_status=255)
            yield "f3, byte 3", marked, number, 0
        for rubbish in (
            b"\xff" * 16,
            i32(48) + i32(10_244) + i32(48) + i32(1),
            i32(48) + i32(-1) + i32(47) + i32(1),
            i32(HIGHEST) * 4,
        ):
            yield "f4", put(new_zero(version=version), (16, rubbish)), 0, 0
        unread = ((6, b"\xff" * 2), (32, b"\xff" * 16), (80, b"\xff" * 2), (83, b"\xff" * 9))
        unread += ((10_297, b"\xff" * 3), (10_306, b"\xff" * 34))
        yield "f not read", put(new_zero(version=version), *unread), 0, 0
    for version in (0, 5, 12, 0x0109, 0x0A00, 0xFF0B):
        yield "f version", new_zero(version=version), 3, 0
    for version, section in ((6, 0x0100), (7, 0x0100), (8, 0x0102), (8, 1), (8, 8)):
        yield "f section mark", empty(version, section), 3, 0


def chained(length: int, *blocks: int) -> bytes:
    """E9 grown to a length, each link leading to the next position; the last one is not 0 only
    if it leads back or out."""
    places = (12,) + blocks
    links = [(at, i32(to)) for at, to in zip(places, blocks)]
    return put(grow(E9, length), *links)


def new_index_rows() -> Iterator[Row]:
    """f5: index blocks of 10,244 bytes."""
    yield "f5", F1[:10_291], 5, 12
    for version in (E9, E10, E11):
        for link in (-1, 1, 47, 49, HIGHEST, LOWEST):
            yield "f5", put(grow(version, 10_292), (12, i32(link))), 5, 12
        yield "f5", put(grow(version, 10_292), (12, i32(48))), 0, 0
        yield "f5", put(grow(version, 10_291), (12, i32(48))), 5, 12
        yield "f5", put(grow(version, 6_196), (12, i32(48))), 5, 12
    yield "f blocks", chained(20_536, 48, 10_292), 0, 0
    yield "f blocks", chained(20_535, 48, 10_292), 5, 48
    yield "f blocks", chained(20_536, 48, 10_291), 5, 48
    yield "f blocks", chained(20_536, 10_292, 48), 0, 0
    yield "f blocks", chained(20_536, 10_292, 49), 5, 10_292
    yield "f blocks", chained(20_536, 48, 6_196), 5, 48
    yield "f blocks", chained(20_536, 48, 48), 5, 48
    yield "f blocks", chained(20_536, 48, 10_292, 48), 5, 10_292
    yield "f blocks", chained(20_536, 10_292, 48, 10_292), 5, 48
    yield "f blocks", chained(30_780, 48, 20_536, 10_292), 0, 0
    yield "f blocks", chained(30_780, 48, 20_536, 10_293), 5, 20_536
    yield "f blocks", chained(30_780, 48, 20_536, 10_291), 5, 20_536
    yield "f blocks", chained(30_780, 48, 20_536, -48), 5, 20_536


def new_symbols(length: int, *puts: tuple[int, bytes]) -> bytes:
    """E9 with a symbol block at 48 and its entry 0 leading to 1,076."""
    return put(grow(E9, length), (8, i32(48)), (52, i32(1_076)), *puts)


def new_symbol_rows() -> Iterator[Row]:
    """f11: symbol blocks, and records with a 32-bit Size."""
    for size, number in (
        (571, 6),
        (572, 0),
        (573, 6),
        (348, 6),
        (0, 6),
        (-1, 6),
        (LOWEST + 572, 6),
        (HIGHEST, 6),
        (65_536 + 572, 6),
        (2**24 + 572, 6),
    ):
        data = new_symbols(1_648, (1_076, i32(size)))
        yield "f11", data, number, 52 if number else 0
    whole = new_symbols(1_076 + 66_108, (1_076, i32(65_536 + 572)))
    yield "f11", whole, 0, 0
    yield "f11", whole[:-1], 6, 52
    record = (1_076, i32(572))
    yield "f11", new_symbols(1_647, record), 6, 52
    for entry in (-1, 47, 1_644, 1_645, 1_647, 1_648):
        yield "f symbols", new_symbols(1_648, record, (56, i32(entry))), 6, 56
    late = (56, i32(1_648)), (1_648, i32(572))
    yield "f symbols", new_symbols(1_652, record, *late), 6, 56
    yield "f symbols", put(E9, (8, i32(-4))), 6, 8
    yield "f symbols", put(E9, (8, i32(-4)), (12, i32(-1))), 5, 12
    yield "f symbols", new_symbols(1_648, record, (64, i32(-1)), (48, i32(-1))), 6, 64
    yield "f symbols", new_symbols(1_648, record, (48, i32(-1))), 6, 48
    yield "f symbols", new_symbols(1_648, record, (48, i32(48))), 6, 48
    yield "f symbols", new_symbols(1_648, record, (1_072, i32(47))), 6, 1_072
    for index, size, number in ((1_648, 572, 0), (1_647, 572, 6), (1_648, 573, 6)):
        data = new_symbols(index + 10_244, (1_076, i32(size)), (12, i32(index)))
        yield "f record and block", data, number, 52 if number else 0
    within = (12, i32(1_076)), (52, i32(1_080)), (1_080, i32(572))
    yield "f record in block", new_symbols(11_320, *within), 6, 52
    for symbols, number in ((10_292, 0), (10_291, 6), (48, 6), (9_264, 6)):
        data = put(chained(11_320, 48), (8, i32(symbols)))
        yield "f symbols and block", data, number, 8 if number else 0
    yield "f 6 before 7", new_zero(symbols=-4, type=8), 6, 8


def new_slot_rows() -> Iterator[Row]:
    """f2, f6, f8 and f12: what a live slot has to be, and which slots are live."""
    for fields in (
        {"object_sym": 101_001},
        {"left": 1536},
        {"bottom": 1536},
        {"right": 1279},
        {"top": 1279},
        {"left": -1, "bottom": -1, "right": -257, "top": -1},
        {"position": 0},
        {"position": 47},
        {"position": -1},
        {"position": 10_293},
        {"position": 10_301},
        {"position": 10_340},
        {"position": HIGHEST},
        {"position": LOWEST},
        {"position": LOWEST + 10_292},
        {"items": 2},
        {"items": 0},
        {"texts": 1},
    ):
        yield "f slot", new_zero(**fields), 7, 52
    for fields in (
        {"left": 1535, "right": 1280, "bottom": 1535, "top": 1280},
        {"left": -1, "bottom": -1, "right": -256, "top": -256},
        {"left": LOWEST, "bottom": LOWEST, "right": HIGHEST, "top": HIGHEST},
        {"items": 0, "texts": 1},
    ):
        yield "f slot", new_zero(**fields), 0, 0
    for status in (1, 2):
        yield "f2", new_zero(status=status), 0, 0
        yield "f2", new_zero(status=status, type=99), 7, 52
        yield "f2", new_zero(status=status, type=99, len=0), 0, 0
        yield "f2", new_zero(status=status, sym=0), 7, 52
        yield "f2", new_zero(status=status, sym=0, object_sym=0), 0, 0
        yield "f2", new_zero(status=status, sym=0, object_sym=0, type=99), 7, 52
    for status in (0, 3, 4, 5, 16, 127, 128, 129, 130, 254, 255):
        rubbish = {"type": 99, "position": -1, "len": -1, "left": HIGHEST}
        yield "f2", new_zero(status=status, **rubbish), 0, 0
    for slot_sym, object_sym in ((65_637, 101), (101, 65_637), (101, 0x65000000 + 101)):
        yield "f6", new_zero(sym=slot_sym, object_sym=object_sym), 7, 52
    for sym in (0, -1, -2, -3, -4, 1, 32_768, 65_536, LOWEST, HIGHEST):
        yield "f Sym", new_zero(sym=sym, object_sym=sym), 0, 0
    for kind in (*range(10), 128, 129, 255):
        number = 0 if 1 <= kind <= 7 else 7
        yield "f8", new_zero(type=kind), number, 52 if number else 0
    yield "f12", new_zero(items=-1, texts=2), 7, 52
    yield "f12", new_zero(items=2, texts=-1), 7, 52
    yield "f12", new_zero(items=65_537), 7, 52
    second = (92, new_slot(10_292))
    yield "f order", put(F1, second), 0, 0
    yield "f order", put(new_zero(type=8), second), 7, 52
    yield "f order", put(F1, second, (92, i32(1536))), 7, 92
    yield "f order", put(F1, (52 + 255 * 40, new_slot(47))), 7, 10_252
    bad, worse = (52, new_slot(47)), (10_296, new_slot(47))
    yield "f order", put(chained(20_536, 10_292, 48), bad), 7, 52
    yield "f order", put(chained(20_536, 10_292, 48), bad, worse), 7, 10_296


def sized(length: int, pairs: int, texts: int, used: int) -> bytes:
    """F1 with a Len, nItem and nText, and a length."""
    return grow(new_zero(len=length, items=pairs, texts=texts), used)[:used]


def len_rows() -> Iterator[Row]:
    """f7 and both meanings of Len: it counts the pairs, and the object has 32 + 8 x Len bytes,
    or it is the object's bytes, 40 and 8 for each pair."""
    for length, items, texts, size in (
        (1, 1, 0, 40),
        (1, 0, 1, 40),
        (2, 1, 1, 48),
        (40, 40, 0, 352),
        (48, 40, 8, 416),
        (65_535, 0, 65_535, 524_312),
        (65_536, 1, 65_535, 524_320),
        (65_537, 65_537, 0, 524_328),
        (48, 1, 0, 48),
        (48, 0, 1, 48),
        (40, 0, 0, 40),
        (56, 1, 1, 56),
        (65_536, 8_187, 0, 65_536),
        (524_328, 1, 65_535, 524_328),
    ):
        name = f"f Len {length}"
        yield name, sized(length, items, texts, 10_292 + size), 0, 0
        yield name, sized(length, items, texts, 10_291 + size), 7, 52
    for length, items, texts in (
        (47, 1, 0),
        (49, 1, 0),
        (40, 1, 0),
        (48, 2, 0),
        (32, 0, 0),
        (41, 0, 0),
        (39, 0, 0),
        (2, 1, 0),
        (1, 0, 0),
        (1, 2, 0),
        (65_537, 1, 0),
        (65_584, 1, 0),
        (65_536, 65_536, 0),
        (2**24 + 48, 1, 0),
        (2**31 + 48, 1, 0),
        (-1, -1, 0),
        (2**31, 2**31, 0),
        (HIGHEST, HIGHEST, 0),
        (2**29, 2**29, 0),
        (2**29 + 1, 2**29 + 1, 0),
        (2**29 + 1, 2**29, 1),
        (40, 2**29, 0),
        (48, 2**29 + 1, 0),
        (48, 2**29, 1),
        (48, -(2**29) + 1, 0),
        (48, -1, 2),
        (-16, -7, 0),
    ):
        yield f"f Len {length}", sized(length, items, texts, LF), 7, 52
    yield "f7", F1[:10_332], 0, 0
    yield "f7", F1[:10_331], 7, 52
    yield "f7", F1[:10_305], 7, 52
    yield "f7", F1[:10_292], 7, 52


def before_block(position: int, length: int, items: int, index: int) -> bytes:
    """An object, and an index block behind it whose slot 0 has that object."""
    offered = new_object(items=items, size=32)
    puts = ((12, i32(index)), (index + 4, new_slot(position, length)), (position, offered))
    return put(grow(E9, index + 10_244), *puts)


def beside_rows() -> Iterator[Row]:
    """Objects next to a block, and before 48."""
    for position, length, items, index, number in (
        (48, 1, 1, 88, 0),
        (48, 1, 1, 87, 7),
        (48, 48, 1, 96, 0),
        (48, 48, 1, 95, 7),
        (48, 40, 0, 88, 0),
        (48, 40, 0, 87, 7),
        (48, 3, 3, 104, 0),
        (48, 3, 3, 103, 7),
        (47, 1, 1, 88, 7),
        (47, 48, 1, 96, 7),
    ):
        data = before_block(position, length, items, index)
        yield "f object before block", data, number, index + 4 if number else 0
    inside = put(grow(F1, 10_400), (10_291, new_object(sym=256)), (68, i32(10_291)))
    inside = put(inside, (76, i32(256)))
    yield "f object in block", inside, 7, 52
    over = before_block(48, 2_000, 2_000, 200)
    yield "f object over block", over + bytes(16_000), 7, 204
    later = (52, new_slot(20_500)), (20_500, new_object(size=32))
    yield "f object in later block", put(chained(30_780, 48, 20_536), *later), 7, 52


def new_searches() -> Iterator[SearchCase]:
    """f1, f2 and windows on 9 to 11."""
    nines = [9] * 4
    ten = (0, 0, 10, 10)
    whole = (LOWEST, LOWEST, HIGHEST, HIGHEST)
    one = (0, 0, 1, 1, [0] + [9] * 3)
    none = (0, 0, 0, 1, nines)
    for version, kind in ((9, 0), (9, 3), (10, 1), (11, 0), (11, 8)):
        data = put(new_zero(version=version, file_type=kind), (16, b"\xff" * 16))
        yield SearchCase("f1", data, ten, nines, one)
        yield SearchCase("f1", new_zero(version=version, len=48), ten, nines, one)
    for status in range(256):
        want = one if status in (1, 2) else none
        yield SearchCase(f"f2 status {status}", new_zero(status=status), whole, nines, want)
    yield SearchCase("f2", new_zero(len=0), whole, nines, none)
    yield SearchCase("f2", new_zero(status=0, type=99), whole, nines, none)
    yield SearchCase("f2", new_zero(sym=0, object_sym=0), whole, nines, one)
    yield SearchCase("f2", new_zero(sym=-3, object_sym=-3, type=7), whole, nines, one)
    yield SearchCase("f empty", E9, whole, nines, (0, 0, 0, 0, nines))
    for wrong in ((6, 0, 5, 10), (0, 1, 10, 0)):
        for data, number, place in (
            (F1, 8, 0),
            (E11, 8, 0),
            (new_zero(type=8), 7, 52),
            (new_zero(symbols=-4), 6, 8),
            (new_zero(index=47), 5, 12),
            (new_zero(file_type=2), 3, 0),
        ):
            yield SearchCase("f 8", data, wrong, nines, (number, place, 0, 0, nines))
    yield SearchCase("f 9", F1, ten, [], (9, 0, 1, 0, []))
    many = put(F1, *((52 + 40 * n, new_slot(10_292, status=1 + n % 4)) for n in range(8)))
    yield SearchCase("f many", many, ten, nines, (0, 0, 4, 1, [0, 1, 4, 5]))
    yield SearchCase("f 9", many, ten, nines[:3], (9, 0, 4, 0, nines[:3]))
    yield from new_windows(one, none)
    yield from new_chain_searches()


def new_windows(one: Any, none: Any) -> Iterator[SearchCase]:
    """Rectangles of 9 to 11: the table of coordinates, and rectangles in the west and south."""
    nines = [9] * 4
    for raw, value in COORDINATES:
        data = put(F1, (52, i32(raw) * 4))
        for near, want in ((value - 1, none), (value, one), (value + 1, none)):
            window = (near, near, near, near)
            yield SearchCase(f"f raw {raw}", data, window, nines, want)
    west = new_zero(left=-25_601, bottom=-512, right=-257, top=255)
    for window, want in (
        ((-200, -10, -102, 10), none),
        ((-200, -10, -101, 10), one),
        ((-2, -10, 10, 10), one),
        ((-1, -10, 10, 10), none),
        ((-50, -10, -50, -3), none),
        ((-50, -10, -50, -2), one),
        ((-50, 0, -50, 10), one),
        ((-50, 1, -50, 10), none),
        ((-50, -1, -50, -1), one),
    ):
        yield SearchCase("f west", west, window, nines, want)


def new_chain_searches() -> Iterator[SearchCase]:
    """Slot numbers go with the chain: the second block of the file is its first."""
    nines = [9] * 4
    slots = (
        (10_296 + 40 * 255, new_slot(20_536)),
        (52, new_slot(20_536, 40, status=2)),
        (52 + 40 * 7, new_slot(20_536, 40, status=3)),
        (52 + 40 * 255, new_slot(20_536, 40)),
    )
    data = put(chained(20_536 + 40, 10_292, 48), (20_536, new_object(items=0, size=40)), *slots)
    place = 10_296 + 40 * 255
    window = (0, 0, 10, 10)
    yield SearchCase("f chain", data, window, nines, (7, place, 0, 0, nines))
    data = put(data, (place + 20, i32(40)))
    yield SearchCase("f chain", data, window, nines, (0, 0, 3, 2, [255, 256, 511, 9]))
    yield SearchCase("f chain", data, (6, 6, 10, 10), nines, (0, 0, 0, 2, nines))


def new_scripts() -> Iterator[Script]:
    """f9: an edit on 9 to 11 is 17, right after 1 to 7."""
    steps = every_new(1, 17)
    for version in (9, 10, 11):
        yield Script("f9", lend(new_zero(version=version)), LF, J0, steps)
        yield Script("f9", lend(empty(version, 0)), 48, J0, steps)
    yield Script("f9, no room", F1, LF, J0, steps)
    for journal in (b"", bytes(15), bytes(65_552), J1, J1[:16], b"\xff" * 64):
        yield Script("f9, journal", lend(F1), LF, journal, every_new(0, 17) + steps)
    erased = new_zero(status=3)
    yield Script("f9, deleted", lend(erased), LF, J0, steps)
    for data, number, place in (
        (F1[:47], 1, 0),
        (put(F1, (1, b"\0")), 2, 0),
        (new_zero(file_type=2), 3, 0),
        (new_zero(version=12), 3, 0),
        (F1[:10_291], 5, 12),
        (new_zero(symbols=-4), 6, 8),
        (new_zero(type=8), 7, 52),
        (F1[:10_331], 7, 52),
    ):
        for journal in (J0, bytes(15)):
            bad = every_new(0, number, place) + every_new(1, number, place)
            yield Script(f"f {number} before 17", lend(data), len(data), journal, bad)


def every_new(edit: int, number: int, place: int = 0) -> list[Step]:
    """The three edits under one number, with good and bad objects and slots."""
    steps = every_call(edit, number, place)
    steps += [refuse("add", edit, offered, number, place) for offered in (N, b"", O[:39])]
    for at in (1, 256, 2**32 - 1):
        steps += [refuse("remove", edit, at, number, place)]
        steps += [refuse("reinstate", edit, at, number, place)]
    return steps


# The runner.


def run(lib: Any) -> list[str]:
    """What the library answers otherwise than the document, a line for each."""
    wrong: list[str] = []
    for case in checks():
        compare(wrong, case.name, tuple(lib.check(case.map_buf, case.used)), case.want)
    for search in searches():
        buffer, used = lend(search.map_buf), len(search.map_buf)
        got = tuple(lib.search(buffer, used, *search.window, search.entries))
        compare(wrong, search.name, got, search.want)
    for script in scripts():
        run_script(wrong, lib, script)
    if hasattr(lib, "search_program"):
        for program in programs():
            compare(wrong, program.name, lib.search_program(program.read), program.want)
    return wrong


def compare(wrong: list[str], name: str, got: Any, want: Any) -> None:
    """Note a difference."""
    if got != want:
        wrong.append(f"{name}: got {got}, want {want}")


def run_script(wrong: list[str], lib: Any, script: Script) -> None:
    """Run the edits, each on the bytes and the length that the document expects."""
    data, journal, used = script.map_buf, script.journal, script.used
    for number, step in enumerate(script.steps):
        call = getattr(lib, step.call)
        got = call(data, used, journal, step.edit, step.arg)
        data, journal = put(data, *step.map_puts), put(journal, *step.journal_puts)
        name = f"{script.name} step {number} {step.call}"
        answer, before, slot, length = step.want
        want = (answer, step.place, before, slot, length)
        compare(wrong, name, tuple(got[:5]), want)
        compare_bytes(wrong, f"{name} map", got[5], data)
        compare_bytes(wrong, f"{name} journal", got[6], journal)
        used = length if answer == 0 else used


def compare_bytes(wrong: list[str], name: str, got: bytes, want: bytes) -> None:
    """Note the first byte that differs."""
    if got == want:
        return
    at = next((i for i, (a, b) in enumerate(zip(got, want)) if a != b), len(want))
    wrong.append(f"{name}: byte {at} is {got[at:at + 8].hex()}, want {want[at:at + 8].hex()}")


def count() -> int:
    """How many answers the cases compare."""
    steps = sum(len(script.steps) for script in scripts())
    return len(list(checks())) + len(list(searches())) + steps


if __name__ == "__main__":
    import model

    lines = run(model)
    print("\n".join(lines + [f"vectors {count()}, wrong {len(lines)}"]))
    sys.exit(1 if lines else 0)
