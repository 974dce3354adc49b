"""Runs the calls of taffrail.h on a stack of a given size, and tells what each takes of it.

``python3 support_stack.py BYTES [CALL]`` runs every call, or this one, on the largest map and on a
small one, of OCAD 7 and of 9, and writes a line for each: the call, and the bytes that it took. A call that goes past
the stack comes to a page that nobody may touch, which ends the process: so the tests run it as a
child.
"""

from __future__ import annotations

import ctypes
import mmap
import struct
import sys
from array import array
from typing import Iterator, List, NamedTuple, Sequence, Tuple

from support_host import object_bytes

from generate import HEADER, HEADER_FORM, LIMIT, NEW, OLD, RECORD_FORM, SYMBOLS, Layout
from taffrail import library
from taffrail.layout import JOURNAL_LIMIT, MOST_RECORDS

LIBC = ctypes.PyDLL(None)
HAS_CONTEXTS = all(hasattr(LIBC, name) for name in ("getcontext", "makecontext", "swapcontext"))
PROT_NONE, PR_SET_DUMPABLE = 0, 4

PAINT = b"\xa5"
MAPS = {  # with their layouts and their index blocks
    "the largest map": (OLD, (LIMIT - HEADER) // OLD.block),
    "a small map": (OLD, 1),
    "OCAD 9, the largest map": (NEW, (LIMIT - HEADER - 2_048) // NEW.block),
    "OCAD 9, a small map": (NEW, 1),
}
BRIDGE = object_bytes()
WIDE_BRIDGE = NEW.object_form.pack(101, 1, 1, 0).ljust(40, b"\0") + struct.pack("<2i", 1_280, 1_280)
GOOD_WINDOW, BAD_WINDOW = (0, 0, 10, 10), (10, 0, 0, 10)


class Context(ctypes.Structure):
    """How ucontext_t begins on x86-64 and on aarch64, and more room behind that than either has."""

    _fields_ = [
        ("flags", ctypes.c_ulong),
        ("link", ctypes.c_void_p),
        ("stack", ctypes.c_void_p),
        ("stack_flags", ctypes.c_int),
        ("stack_size", ctypes.c_size_t),
        ("rest", ctypes.c_uint64 * 1_024),
    ]


class Stack:
    """So many bytes of stack, a multiple of 16, with a page below them that nobody may touch."""

    def __init__(self, size: int) -> None:
        self.size = size
        self.memory = mmap.mmap(-1, mmap.PAGESIZE + size, flags=mmap.MAP_PRIVATE | mmap.MAP_ANON)
        page = ctypes.addressof(ctypes.c_char.from_buffer(self.memory))
        failed = LIBC.mprotect(ctypes.c_void_p(page), ctypes.c_size_t(mmap.PAGESIZE), PROT_NONE)
        assert failed == 0, "the page below the stack cannot be protected"
        self.bottom = page + mmap.PAGESIZE

    def taken_by(self, function: ctypes.c_void_p, words: Sequence[int]) -> int:
        """The bytes from the top to the lowest that a call writes. What it returns is lost."""
        ctypes.memset(self.bottom, PAINT[0], self.size)
        here, there = Context(), Context()
        LIBC.getcontext(ctypes.byref(there))
        there.link, there.stack = ctypes.addressof(here), self.bottom
        there.stack_size = self.size
        given = [ctypes.c_uint64(word) for word in words]
        LIBC.makecontext(ctypes.byref(there), function, len(given), *given)
        LIBC.swapcontext(ctypes.byref(here), ctypes.byref(there))
        return len(ctypes.string_at(self.bottom, self.size).lstrip(PAINT))


class Call(NamedTuple):
    """A call of the library: the words before its out parameters, what these have to be, and what
    it is lent."""

    name: str
    words: List[int]
    out: List[int]
    lent: Sequence[object]

    def run(self, calls: ctypes.PyDLL, stack: Stack) -> int:
        """What it takes of the stack. Out parameters that are right show that it ran to its end."""
        out = (ctypes.c_uint32 * len(self.out))(*[2**32 - 1] * len(self.out))
        addresses = [ctypes.addressof(out) + 4 * at for at in range(len(out))]
        function = ctypes.cast(getattr(calls, f"taffrail_{self.name}"), ctypes.c_void_p)
        taken = stack.taken_by(function, [*self.words, *addresses])
        assert list(out) == self.out, f"{self.name} answered {list(out)} and not {self.out}"
        return taken


# Maps, journals and how they are lent.


def slot_bytes(layout: Layout, position: int, sym: int) -> bytes:
    """A slot of the point, live where it has a Sym, and else erased."""
    if layout is OLD:
        return layout.slot_form.pack(*[1_280] * 4, position, len(BRIDGE), sym)
    return layout.slot_form.pack(*[1_280] * 4, position, len(WIDE_BRIDGE), 101, 1 if sym else 0)


def made_map(layout: Layout, blocks: int) -> bytes:
    """A map with a symbol block, an object and index blocks. Slot 0 and the last are live, slot 1
    is erased."""
    bridge = BRIDGE if layout is OLD else WIDE_BRIDGE
    position = HEADER + SYMBOLS
    first = position + len(bridge)
    made = bytearray(first + layout.block * blocks)
    version = (7, 7) if layout is OLD else (0, 9)
    HEADER_FORM.pack_into(made, 0, 3245, *version, 0, HEADER, first, *[0] * 8)
    made[position:first] = bridge
    for block in range(first, len(made) - layout.block, layout.block):
        struct.pack_into("<i", made, block, block + layout.block)
    places = ((first + 4, 101), (first + 4 + layout.slot, 0), (len(made) - layout.slot, 101))
    for place, sym in places:
        made[place : place + layout.slot] = slot_bytes(layout, position, sym)
    return bytes(made)


def made_journal() -> bytes:
    """The longest journal, with room for one more edit."""
    used = (RECORD_FORM.pack(edit, 1, 0) for edit in range(1, MOST_RECORDS))
    return b"".join(used).ljust(JOURNAL_LIMIT, b"\0")


def lend(data: bytes) -> Tuple[object, List[int]]:
    """A copy of the bytes, and the words that lend it: where it is, and its length."""
    lent = library.lend_for_writing(bytearray(data))
    return lent, [ctypes.addressof(lent), len(data)]


OFFERED, OFFERED_WORDS = lend(BRIDGE)


# The calls.


def check(layout: Layout, made: bytes) -> Call:
    """The last slot's left is past its right: its place is told once all before it is judged."""
    place = len(made) - layout.slot
    lent, words = lend(made[:place] + struct.pack("<i", 2_560) + made[place + 4 :])
    return Call("check", [*words, len(made)], [place], [lent])


def search(made: bytes, window: Sequence[int], count: int, blocks: int) -> Call:
    found = array("I", [0, 0])
    lent, words = lend(made)
    words += [len(made), *window, *found.buffer_info()]
    return Call("search", words, [0, count, blocks], [lent, found])


def edit(name: str, made: bytes, last: List[int], slot: int, length: int) -> Call:
    """An edit whose number is new; ``last`` is what stands behind that number."""
    lent_map, words = lend(made + bytes(len(BRIDGE)))
    lent_journal, journal_words = lend(made_journal())
    words += [len(made), *journal_words, MOST_RECORDS, *last]
    return Call(name, words, [0, 0, slot, length], [lent_map, lent_journal])


def refused(name: str, made: bytes, last: List[int]) -> Call:
    """An edit of a map of OCAD 9 to 11."""
    return edit(name, made, last, 0, 0)


def calls_on(layout: Layout, blocks: int) -> Iterator[Tuple[str, Call]]:
    """Every call on a map of so many index blocks, under a name of its own."""
    made = made_map(layout, blocks)
    used, last_slot = len(made), 256 * blocks - 1
    yield "check", check(layout, made)
    yield "search", search(made, GOOD_WINDOW, 2, blocks)
    yield "search with a window that is refused", search(made, BAD_WINDOW, 0, 0)
    if layout is OLD:
        yield "add", edit("add", made, OFFERED_WORDS, 2, used + len(BRIDGE))
        yield "remove", edit("remove", made, [last_slot], last_slot, used)
        yield "reinstate", edit("reinstate", made, [1], 1, used)
    else:
        yield "add", refused("add", made, OFFERED_WORDS)
        yield "remove", refused("remove", made, [last_slot])
        yield "reinstate", refused("reinstate", made, [1])


def main(size: int, chosen: Sequence[str]) -> None:
    LIBC.prctl(PR_SET_DUMPABLE, 0)  # no core file where the stack is too small
    stack, calls = Stack(size), ctypes.PyDLL(library.find())
    for map_name, (layout, blocks) in MAPS.items():
        for name, call in calls_on(layout, blocks):
            name = f"{name}, {map_name}"
            if not chosen or name in chosen:
                print(name, end=": ", flush=True)
                print(call.run(calls, stack), flush=True)


if __name__ == "__main__":
    main(int(sys.argv[1]), sys.argv[2:])
