"""The package's five calls on buffers: answers, refusals, ranges, lending, finding the library."""

from __future__ import annotations

import os
import struct
import tempfile
import unittest
from array import array
from mmap import mmap
from pathlib import Path
from typing import Any, Callable, Iterator, Tuple
from unittest import mock

from support_host import (
    DELETED,
    HIDDEN,
    MODEL,
    PACKAGE_FOLDER,
    UNDONE,
    Drawn,
    later_map,
    later_object,
    later_slot,
    object_bytes,
)
from vectors import COORDINATES

import taffrail
from taffrail import (
    Accepted,
    Done,
    DoneBefore,
    EditResult,
    Found,
    LibraryError,
    Listed,
    Refused,
    layout,
    library,
)

BLOCK = 6_148


def with_room(version: int = 7, room: int = 20_000) -> Tuple[bytearray, bytearray]:
    """An empty map of 48 bytes in a longer buffer, and an empty journal for eight edits."""
    map_buffer = bytearray(taffrail.empty_map(version)) + bytes(room)
    return map_buffer, bytearray(taffrail.empty_journal(8))


def with_bridge() -> Tuple[bytearray, bytearray, int]:
    """A map with an object at (5, 5) in slot 0, added as edit 1; its journal and length."""
    map_buffer, journal = with_room()
    answer = taffrail.add(map_buffer, journal, 1, object_bytes(), used=48)
    assert isinstance(answer, Done)
    return map_buffer, journal, answer.length


def number_of(answer: object) -> int:
    assert isinstance(answer, Refused), answer
    return answer.number


class TheDocumentsExample(unittest.TestCase):
    """The numbers that document 01 gives for an empty version 7 map."""

    def test_lengths(self) -> None:
        map_buffer, journal = with_room()
        self.assertEqual(taffrail.check(map_buffer, used=48), Accepted())
        first = taffrail.add(map_buffer, journal, 1, object_bytes(), used=48)
        self.assertEqual(first, Done(0, 6_236))
        self.assertEqual(struct.unpack_from("<i", map_buffer, 12), (88,))
        second = taffrail.add(map_buffer, journal, 2, object_bytes(), used=6_236)
        self.assertEqual(second, Done(1, 6_276))
        self.assertEqual(taffrail.check(map_buffer, used=6_276), Accepted())

    def test_one_byte_too_few(self) -> None:
        map_buffer, journal = with_room(room=6_235 - 48)
        answer = taffrail.add(map_buffer, journal, 1, object_bytes(), used=48)
        self.assertEqual(number_of(answer), 11)
        map_buffer, journal = with_room(room=6_236 - 48)
        answer = taffrail.add(map_buffer, journal, 1, object_bytes(), used=48)
        self.assertEqual(answer, Done(0, 6_236))

    def test_windows(self) -> None:
        map_buffer, _, used = with_bridge()
        self.assertEqual(taffrail.search(map_buffer, 0, 0, 10, 10, used=used), Found((0,), 1))
        self.assertEqual(taffrail.search(map_buffer, 5, 5, 10, 10, used=used), Found((0,), 1))
        self.assertEqual(taffrail.search(map_buffer, 6, 6, 10, 10, used=used), Found((), 1))

    def test_type_9(self) -> None:
        map_buffer, _, used = with_bridge()
        map_buffer[48 + 2] = 9
        answer = taffrail.check(map_buffer, used=used)
        self.assertEqual(answer, Refused(7, 92, "live slot, lowest number first"))
        self.assertEqual(str(answer), "refused 7 at 92: live slot, lowest number first")

    def test_footbridge(self) -> None:
        map_buffer, journal, used = with_bridge()
        self.assertEqual(taffrail.remove(map_buffer, journal, 2, 0, used=used), Done(0, used))
        self.assertEqual(taffrail.search(map_buffer, 0, 0, 10, 10, used=used), Found((), 1))
        self.assertEqual(taffrail.reinstate(map_buffer, journal, 3, 0, used=used), Done(0, used))
        again = taffrail.remove(map_buffer, journal, 2, 0, used=used)
        self.assertEqual(again, DoneBefore(0, used))
        self.assertEqual(taffrail.search(map_buffer, 0, 0, 10, 10, used=used), Found((0,), 1))

    def test_coordinates(self) -> None:
        for raw, value in COORDINATES:
            self.assertEqual(layout.value(raw), value)


class BetweenTwoCalls(unittest.TestCase):
    """A search whose first list is too short asks again, and another thread may edit the map in
    between."""

    def search_during(
        self, used: int, map_buffer: bytearray, *edits: Callable[[], object]
    ) -> object:
        """A search with one of the edits after each of its first calls."""
        answering, waiting = library.in_use(), list(edits)
        search = answering.search

        def busy(*given: Any) -> library.SearchAnswer:
            answer = search(*given)
            if waiting:
                waiting.pop(0)()
            return answer

        without_room = mock.patch.object(taffrail.calls, "_SHORT_LIST", 0)
        with without_room, mock.patch.object(answering, "search", busy):
            found = taffrail.search(map_buffer, 0, 0, 10, 10, used=used)
        self.assertEqual(waiting, [])
        return found

    def test_the_count_changes(self) -> None:
        m, j, used = with_bridge()
        used += 80
        self.assertEqual(taffrail.add(m, j, 2, object_bytes(), used=used - 80), Done(1, used - 40))
        self.assertEqual(taffrail.add(m, j, 3, object_bytes(), used=used - 40), Done(2, used))
        taffrail.remove(m, j, 4, 1, used=used)
        taffrail.remove(m, j, 5, 2, used=used)

        def again(edit: int, slot: int) -> Callable[[], object]:
            return lambda: taffrail.reinstate(m, j, edit, slot, used=used)

        found = self.search_during(used, m, again(6, 1), again(7, 2))
        self.assertEqual(found, Found((0, 1, 2), 1))
        found = self.search_during(used, m, lambda: taffrail.remove(m, j, 8, 0, used=used))
        self.assertEqual(found, Found((1, 2), 1))


class EveryVersion(unittest.TestCase):
    def test_edits(self) -> None:
        for version, size in ((6, 40), (7, 40), (8, 1)):
            with self.subTest(version=version):
                map_buffer, journal = with_room(version)
                self.assertEqual(taffrail.check(map_buffer, used=48), Accepted())
                answer = taffrail.add(map_buffer, journal, 9, object_bytes(), used=48)
                self.assertEqual(answer, Done(0, 6_236))
                slots = list(layout.all_slots(bytes(map_buffer)))
                self.assertEqual(len(slots), 256)
                self.assertEqual(slots[0], (0, "live", 101, size, 48, 5, 5, 5, 5, False))
                self.assertEqual(slots[1].state, "free")


class LaterVersions(unittest.TestCase):
    """OCAD 9, 10 and 11: the check and the search take them, and the edits do not."""

    def test_file_types(self) -> None:
        for version, listed in ((9, (0, 1, 3)), (10, (0, 1, 3)), (11, (0, 1, 8))):
            map_buffer = later_map(version)
            for file_type in range(256):
                map_buffer[2] = file_type
                good = file_type in listed
                answer = taffrail.check(map_buffer)
                self.assertEqual(answer, Accepted() if good else Refused(3, 0, taffrail.WORDS[3]))

    def test_states(self) -> None:
        """The status tells what is live, and Len 0 what is free, whatever the Sym."""
        for status, length, state, hidden in (
            (1, 48, "live", False),
            (1, 1, "live", False),
            (HIDDEN, 48, "live", True),
            (HIDDEN, 1, "live", True),
            (DELETED, 48, "erased", False),
            (UNDONE, 48, "erased", False),
            (4, 48, "erased", False),
            (255, -1, "erased", False),
            (1, 0, "free", False),
            (HIDDEN, 0, "free", False),
            (DELETED, 0, "free", False),
        ):
            for sym in (101_000, 0, -3):
                with self.subTest(status=status, length=length, sym=sym):
                    drawn = Drawn(sym, status, len=length)
                    map_buffer = later_map(9, [drawn, Drawn()])
                    slots = list(layout.all_slots(bytes(map_buffer)))
                    told = (0, state, sym, length, later_object(0), 5, 5, 5, 5, hidden)
                    self.assertEqual(slots[0], told)
                    found = (0, 1) if state == "live" else (1,)
                    answer = taffrail.search(map_buffer, 0, 0, 10, 10)
                    self.assertEqual(answer, Found(found, 1))

    def test_windows(self) -> None:
        for version in (9, 10, 11):
            map_buffer = later_map(version, [Drawn(), Drawn(at=(-300, 7), status=HIDDEN)])
            self.assertEqual(taffrail.search(map_buffer, 5, 5, 10, 10), Found((0,), 1))
            self.assertEqual(taffrail.search(map_buffer, 6, 6, 10, 10), Found((), 1))
            self.assertEqual(taffrail.search(map_buffer, -300, 0, 5, 7), Found((0, 1), 1))

    def test_blocks_and_slots(self) -> None:
        """A second index block in front of the first: its slots come behind."""
        first = later_map(11, [Drawn(sym=1)])
        second = later_map(11, [Drawn(sym=2)])
        map_buffer = first + second[48:]
        link, shift = len(first), len(first) - 48
        struct.pack_into("<i", map_buffer, 12, link)
        struct.pack_into("<i", map_buffer, link, 48)
        struct.pack_into("<i", map_buffer, later_slot(0) + shift + 16, later_object(0) + shift)
        slots = list(layout.all_slots(bytes(map_buffer)))
        self.assertEqual([slots[0].sym, slots[256].sym], [2, 1])
        self.assertEqual(len(slots), 512)
        self.assertEqual(taffrail.search(map_buffer, 0, 0, 10, 10), Found((0, 256), 2))

    def test_edits(self) -> None:
        """17 comes before all that is the edit's own, and nothing changes."""
        for version in (9, 10, 11):
            map_buffer = later_map(version, [Drawn(), Drawn(status=DELETED)])
            used = len(map_buffer)
            map_buffer += bytes(20_000)
            for journal in (bytearray(32), bytearray(), bytearray(15), bytearray(b"\xee" * 64)):
                before = bytes(map_buffer), bytes(journal)
                for answer in self.edits(map_buffer, journal, used):
                    self.assertEqual(answer, Refused(17, 0, taffrail.WORDS[17]))
                self.assertEqual((bytes(map_buffer), bytes(journal)), before)

    def test_edits_of_a_bad_map(self) -> None:
        """1 to 7 come before 17."""
        map_buffer = later_map(10)
        map_buffer[later_object(0) + 4] = 8
        for answer in self.edits(map_buffer, bytearray(32), len(map_buffer)):
            self.assertEqual(answer, Refused(7, later_slot(0), taffrail.WORDS[7]))

    def edits(self, m: bytearray, j: bytearray, used: int) -> Iterator[EditResult]:
        """The answers to edits that 6 to 8 would do or refuse with 10, 12, 13 or 15."""
        for edit in (0, 1):
            yield taffrail.add(m, j, edit, object_bytes(), used=used)
            yield taffrail.add(m, j, edit, b"", used=used)
            yield taffrail.remove(m, j, edit, 0, used=used)
            yield taffrail.remove(m, j, edit, 2**32 - 1, used=used)
            yield taffrail.reinstate(m, j, edit, 1, used=used)


class EveryRefusal(unittest.TestCase):
    """Each number of document 01 comes back as a result, and changes nothing."""

    def assert_number(self, number: int, call: Callable[[], object], *lent: bytearray) -> None:
        before = [bytes(buffer) for buffer in lent]
        answer = call()
        self.assertEqual(number_of(answer), number)
        assert isinstance(answer, Refused)
        self.assertEqual(answer.words, taffrail.WORDS[number])
        self.assertEqual([bytes(buffer) for buffer in lent], before)

    def check_spoiled(self, number: int, place: int, at: int, form: str, value: int) -> None:
        """Spoils one field of a map of one block and checks it."""
        map_buffer, _, used = with_bridge()
        struct.pack_into(form, map_buffer, at, value)
        answer = taffrail.check(map_buffer, used=used)
        self.assertEqual(answer, Refused(number, place, taffrail.WORDS[number]))

    def test_the_check(self) -> None:
        self.assertEqual(number_of(taffrail.check(b"")), 1)
        self.assertEqual(number_of(taffrail.check(bytes(47))), 1)
        self.assertEqual(number_of(taffrail.check(taffrail.empty_map(8), used=49)), 1)
        self.assertEqual(number_of(taffrail.check(taffrail.empty_map(8), used=2**63)), 1)
        self.check_spoiled(2, 0, 0, "<h", 3246)
        self.check_spoiled(3, 0, 4, "<h", 12)
        self.check_spoiled(4, 16, 20, "<i", -1)
        self.check_spoiled(4, 24, 28, "<i", 100)
        self.check_spoiled(5, 12, 12, "<i", -88)
        self.check_spoiled(5, 88, 88, "<i", 88)
        self.check_spoiled(6, 8, 8, "<i", 47)
        self.check_spoiled(7, 92, 92 + 16, "<i", 47)

    def test_the_search(self) -> None:
        map_buffer, _, used = with_bridge()
        none, one = array("I"), array("I", [7])
        window = (0, 0, 10, 10)
        self.assertEqual(number_of(taffrail.search(map_buffer, 1, 0, 0, 0, used=used)), 8)
        answer = taffrail.search_into(map_buffer, *window, none, used=used)
        self.assertEqual(answer, Refused(9, 0, taffrail.WORDS[9], needed=1))
        answer = taffrail.search_into(map_buffer, 0, 1, 0, 0, one, used=used)
        self.assertEqual(answer, Refused(8, 0, taffrail.WORDS[8], needed=0))
        self.assertEqual(one[0], 7)

    def test_the_edits(self) -> None:
        m, j, used = with_bridge()

        def add(edit: int, offered: bytes) -> EditResult:
            return taffrail.add(m, j, edit, offered, used=used)

        self.assert_number(10, lambda: add(2, b""), m, j)
        self.assert_number(10, lambda: add(2, object_bytes()[:-1]), m, j)
        self.assert_number(10, lambda: add(2, object_bytes(sym=0)), m, j)
        self.assert_number(12, lambda: taffrail.remove(m, j, 2, 1, used=used), m, j)
        self.assert_number(12, lambda: taffrail.remove(m, j, 2, 2**32 - 1, used=used), m, j)
        self.assert_number(12, lambda: taffrail.reinstate(m, j, 2, 0, used=used), m, j)
        self.assert_number(13, lambda: add(0, object_bytes()), m, j)
        self.assert_number(14, lambda: add(1, object_bytes(sym=102)), m, j)
        self.assert_number(14, lambda: taffrail.remove(m, j, 1, 0, used=used), m, j)

    def test_the_journal(self) -> None:
        m, j, used = with_bridge()
        odd = bytearray(17)
        self.assert_number(13, lambda: taffrail.remove(m, odd, 2, 0, used=used), m, odd)
        long = bytearray(65_552)
        self.assert_number(13, lambda: taffrail.remove(m, long, 2, 0, used=used), m, long)
        full = j[:16]
        self.assert_number(15, lambda: taffrail.remove(m, full, 2, 0, used=used), m, full)
        empty = bytearray()
        self.assert_number(15, lambda: taffrail.remove(m, empty, 2, 0, used=used), m, empty)

    def test_words_are_complete(self) -> None:
        self.assertEqual(sorted(taffrail.WORDS), [*range(1, 16), 17])


class Results(unittest.TestCase):
    def test_kinds_are_apart(self) -> None:
        self.assertNotEqual(Done(0, 48), DoneBefore(0, 48))
        self.assertNotEqual(Found((), 0), Listed(0, 0))
        self.assertEqual(Done(0, 48), Done(0, 48))

    def test_a_refusal_alone_is_false(self) -> None:
        """So that ``if taffrail.check(m):`` is right, and a search that finds nothing is true."""
        self.assertFalse(taffrail.check(b""))
        self.assertFalse(Refused(9, 0, taffrail.WORDS[9], needed=1))
        for answer in (Accepted(), Found((), 0), Listed(0, 0), Done(0, 0), DoneBefore(0, 0)):
            self.assertTrue(answer)
        self.assertTrue(taffrail.check(taffrail.empty_map(8)))

    def test_they_cannot_be_changed(self) -> None:
        done: Any = Done(0, 48)
        with self.assertRaises(AttributeError):
            done.slot = 1


class NewOnes(unittest.TestCase):
    """Maps and journals that no call would take are not made."""

    def test_versions(self) -> None:
        for version in (6, 7, 8):
            self.assertEqual(taffrail.check(taffrail.empty_map(version)), Accepted())
        for version in (5, 9, 10, 11, 12, -1, 2**70):
            words = f"a new map has version 6, 7 or 8, not {version}"
            with self.assertRaisesRegex(ValueError, words):
                taffrail.empty_map(version)

    def test_records(self) -> None:
        for records in (0, 1, 4_096):
            self.assertEqual(taffrail.empty_journal(records), bytes(16 * records))
        for records in (5_000, 4_097, -1, 2**70):
            with self.assertRaisesRegex(ValueError, f"0 to 4,096 records, not {records}"):
                taffrail.empty_journal(records)

    def test_whole_numbers_only(self) -> None:
        for wrong in (7.0, "7", None):
            given: Any = wrong
            for make in (taffrail.empty_map, taffrail.empty_journal):
                with self.assertRaises(TypeError):
                    make(given)


class Ranges(unittest.TestCase):
    """A number that C cannot hold is refused before the call, never cut."""

    def setUp(self) -> None:
        self.map, self.journal, self.used = with_bridge()

    def test_used(self) -> None:
        for used in (-1, 2**64, 2**64 + 48):
            with self.assertRaisesRegex(ValueError, "used"):
                taffrail.check(self.map, used=used)
            with self.assertRaisesRegex(ValueError, "used"):
                taffrail.remove(self.map, self.journal, 2, 0, used=used)

    def test_edit(self) -> None:
        for edit in (-1, 2**32, 2**32 + 1, 2**64):
            with self.assertRaisesRegex(ValueError, "edit"):
                taffrail.add(self.map, self.journal, edit, object_bytes(), used=self.used)
            with self.assertRaisesRegex(ValueError, "edit"):
                taffrail.remove(self.map, self.journal, edit, 0, used=self.used)

    def test_slot(self) -> None:
        for slot in (-1, 2**32):
            with self.assertRaisesRegex(ValueError, "slot"):
                taffrail.remove(self.map, self.journal, 2, slot, used=self.used)
            with self.assertRaisesRegex(ValueError, "slot"):
                taffrail.reinstate(self.map, self.journal, 2, slot, used=self.used)

    def test_window(self) -> None:
        far = 2**31
        with self.assertRaisesRegex(ValueError, "left"):
            taffrail.search(self.map, -far - 1, 0, 0, 0, used=self.used)
        with self.assertRaisesRegex(ValueError, "top"):
            taffrail.search(self.map, 0, 0, 0, far, used=self.used)
        widest = taffrail.search(self.map, -far, -far, far - 1, far - 1, used=self.used)
        self.assertEqual(widest, Found((0,), 1))

    def test_whole_numbers_only(self) -> None:
        for wrong in (2.0, "2", None):
            given: Any = wrong
            with self.assertRaises(TypeError):
                taffrail.remove(self.map, self.journal, given, 0, used=self.used)

    def test_the_highest_edit_number(self) -> None:
        answer = taffrail.remove(self.map, self.journal, 2**32 - 1, 0, used=self.used)
        self.assertEqual(answer, Done(0, self.used))
        self.assertEqual(self.journal[16:20], b"\xff\xff\xff\xff")


class Lending(unittest.TestCase):
    def test_edits_change_the_callers_bytes(self) -> None:
        map_buffer, journal, used = with_bridge()
        views = memoryview(map_buffer), memoryview(journal)
        answer = taffrail.remove(views[0], views[1], 2, 0, used=used)
        self.assertEqual(answer, Done(0, used))
        self.assertEqual(map_buffer[88 + 4 + 22 : 88 + 4 + 24], b"\0\0")
        self.assertEqual(journal[16:32], struct.pack("<IB3xI4x", 2, 2, 0))

    def test_buffers_are_given_back(self) -> None:
        map_buffer, journal, used = with_bridge()
        taffrail.search(map_buffer, 0, 0, 1, 1, used=used)
        map_buffer.append(0)  # fails while something still holds the buffer
        journal.append(0)

    def test_mapped_files_and_arrays(self) -> None:
        """They are edited in place, and given back when the call ends."""
        map_buffer, journal, used = with_bridge()
        mapped, numbers = mmap(-1, len(map_buffer)), array("B", journal)
        mapped[:] = bytes(map_buffer)
        self.assertEqual(taffrail.check(mapped, used=used), Accepted())
        offered = array("I", object_bytes())
        self.assertEqual(taffrail.room_for_add(offered), 40 + BLOCK)
        answer = taffrail.add(mapped, numbers, 2, offered, used=used)
        self.assertEqual(answer, Done(1, used + 40))
        self.assertEqual(taffrail.search(mapped, 0, 0, 9, 9, used=used + 40), Found((0, 1), 1))
        self.assertEqual(numbers.tobytes()[16:32], struct.pack("<IB3xI4x", 2, 1, 1))
        mapped.close()
        numbers.append(0)

    def test_read_only_buffers(self) -> None:
        map_buffer, journal, used = with_bridge()
        fixed: Any = bytes(map_buffer[:used])
        for buffer in (fixed, memoryview(fixed), memoryview(fixed + fixed)[:used]):
            self.assertEqual(taffrail.check(buffer), Accepted())
            self.assertEqual(taffrail.search(buffer, 0, 0, 10, 10), Found((0,), 1))
        with self.assertRaises(TypeError):
            taffrail.remove(fixed, journal, 2, 0, used=used)
        fixed = bytes(journal)
        with self.assertRaises(TypeError):
            taffrail.remove(map_buffer, fixed, 2, 0, used=used)

    def test_a_list_that_is_lent(self) -> None:
        map_buffer, _, used = with_bridge()
        slots = array("I", [9, 9, 9])
        answer = taffrail.search_into(map_buffer, 0, 0, 10, 10, slots, used=used)
        self.assertEqual(answer, Listed(1, 1))
        self.assertEqual(slots.tolist(), [0, 9, 9])

    def test_no_copy_is_made(self) -> None:
        buffer = bytearray(b"abc")
        library.lend_for_writing(buffer)[0] = ord("x")
        library.lend_for_reading(buffer)[1] = ord("y")
        self.assertEqual(buffer, b"xyc")
        fixed = b"abc"
        self.assertEqual(bytes(library.lend_for_reading(fixed)), fixed)
        self.assertEqual(len(library.lend_for_reading(b"")), 0)
        self.assertEqual(bytes(library.lend_for_reading(memoryview(b"abcd")[::2])), b"ac")

    def test_bytes_that_tell_another_length(self) -> None:
        class Odd(bytes):
            def __len__(self) -> int:
                return 5

        self.assertEqual(taffrail.check(Odd(taffrail.empty_map(7))), Accepted())
        self.assertEqual(bytes(library.lend_for_reading(Odd(b"abc"))), b"abc")
        self.assertEqual(bytes(library.lend_for_reading(Odd(b""))), b"")

    def test_wrong_lists_and_pieces(self) -> None:
        wrong: Any
        for wrong in (array("H"), [0], b"0000"):
            with self.assertRaises(TypeError):
                library.lend_list(wrong)
        with self.assertRaises(TypeError):
            library.lend_for_writing(memoryview(bytearray(4))[::2])

    @unittest.skipIf(MODEL, "the model works on copies")
    def test_buffers_of_a_call_may_not_overlap(self) -> None:
        map_buffer, journal, used = with_bridge()
        with self.assertRaisesRegex(ValueError, "share"):
            taffrail.remove(map_buffer, map_buffer, 2, 0, used=used)
        with self.assertRaisesRegex(ValueError, "share"):
            taffrail.add(map_buffer, journal, 2, memoryview(map_buffer)[48:88], used=used)
        self.assertEqual(taffrail.remove(map_buffer, journal, 2, 0, used=used), Done(0, used))


class Journals(unittest.TestCase):
    """What the listing takes for a well-formed journal."""

    def assert_fault(self, journal: bytes, words: str) -> None:
        with self.assertRaisesRegex(layout.JournalFault, words):
            layout.read_journal(journal)

    def test_records(self) -> None:
        form = struct.Struct("<IB3sI4s")
        first, second = form.pack(7, 1, b"", 0, b""), form.pack(8, 3, b"", 5, b"")
        records = layout.read_journal(first + second + bytes(32))
        self.assertEqual(records, [(7, "add", 0), (8, "reinstate", 5)])
        self.assertEqual(layout.read_journal(b""), [])
        self.assert_fault(first + bytes(1), "no multiple")
        self.assert_fault(bytes(65_552), "longer")
        self.assert_fault(first + first, "again")
        self.assert_fault(bytes(16) + first, "unused")
        self.assert_fault(form.pack(0, 1, b"", 0, b""), "number 0")
        self.assert_fault(form.pack(1, 4, b"", 0, b""), "kind 4")
        self.assert_fault(form.pack(1, 2, b"\1", 0, b""), "zero")
        self.assert_fault(form.pack(1, 2, b"", 0, b"\1"), "zero")


class FindingTheLibrary(unittest.TestCase):
    def test_a_name_that_leads_nowhere(self) -> None:
        with mock.patch.dict(os.environ, {library.VARIABLE: "/nowhere/libtaffrail.so"}):
            with self.assertRaisesRegex(LibraryError, "hosts/build") as caught:
                library.find()
        self.assertIn("/nowhere/libtaffrail.so", str(caught.exception))

    def test_the_places(self) -> None:
        with mock.patch.dict(os.environ, {library.VARIABLE: ""}):
            places = library.candidates()
        beside = PACKAGE_FOLDER / "taffrail" / "libtaffrail.so"
        built = PACKAGE_FOLDER.parent / "build-output" / "libtaffrail.so"
        self.assertEqual(places, [beside, built])

    def test_a_file_that_is_no_library(self) -> None:
        with tempfile.TemporaryDirectory() as folder:
            path = Path(folder) / "libtaffrail.so"
            path.write_bytes(b"not a library")
            with self.assertRaisesRegex(LibraryError, "cannot be loaded"):
                library.NativeLibrary(str(path))

    def test_numbers_that_do_not_exist(self) -> None:
        """What the library answers is one of the numbers that have words."""
        for number in (0, *taffrail.WORDS):
            self.assertEqual(library.known(number), number)
        for number in (16, 18, 2**32 - 1):
            with self.assertRaisesRegex(LibraryError, f"answered {number}"):
                library.known(number)

    def test_a_library_without_the_calls(self) -> None:
        import _ctypes

        path = getattr(_ctypes, "__file__", None)
        if path is None:
            self.skipTest("this Python has no shared library of its own")
        with self.assertRaisesRegex(LibraryError, "taffrail_check"):
            library.NativeLibrary(path)


if __name__ == "__main__":
    unittest.main()
