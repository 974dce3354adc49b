"""The reasons for refusals: their words, and where they are told."""

from __future__ import annotations

import struct
import unittest
from typing import Any, List

from support_host import (
    PACKAGE_FOLDER,
    Drawn,
    FolderTest,
    later_map,
    later_object,
    later_slot,
    object_bytes,
    run,
)
from support_reasons import RECORD, edit_of, slot_place, small_map

import taffrail
from taffrail import Refused, reports
from taffrail.reasons import Asked, reason_of_check, reason_of_edit, reason_of_search

REFUSED = 1


class WordsTest(unittest.TestCase):
    def assert_reason(self, contents: bytes, number: int, place: int, words: str) -> None:
        answer = taffrail.check(bytes(contents))
        self.assertEqual(answer, Refused(number, place, taffrail.WORDS[number]))
        assert isinstance(answer, Refused)
        self.assertEqual(reason_of_check(answer, bytes(contents), "x.ocd"), words)

    def assert_spoiled(
        self, number: int, place: int, words: str, *fields: Any, version: int = 7
    ) -> None:
        """The reason where these fields of the small map (place, form, number) are changed."""
        contents = later_map(version) if version > 8 else small_map(version)[0]
        for at, form, value in zip(fields[::3], fields[1::3], fields[2::3]):
            struct.pack_into(form, contents, at, value)
        self.assert_reason(contents, number, place, words)


class Words(WordsTest):
    """What is said of each fault."""

    def test_the_length(self) -> None:
        self.assert_reason(b"", 1, 0, "x.ocd is empty")
        header = "and a map's header alone has 48"
        self.assert_reason(taffrail.empty_map(7)[:47], 1, 0, f"cut short: 47 bytes, {header}")
        self.assert_reason(b"#", 1, 0, f"x.ocd is no OCAD map: 1 byte, {header}")
        words = "16,777,217 bytes, and a map has 16,777,216 at most"
        self.assert_reason(taffrail.empty_map(7).ljust(16_777_217, b"\0"), 1, 0, words)

    def test_the_header(self) -> None:
        words = "x.ocd is no OCAD map: it begins with the bytes 23 20, and a map with ad 0c"
        self.assert_reason(b"# ".ljust(48), 2, 0, words)
        for version in (5, 12, 65_535):
            words = f"its version is OCAD {version}, and taken are OCAD 6 to 11"
            self.assert_spoiled(3, 0, words, 4, "<H", version)
        words = "its section mark is 3, and OCAD 7 has 7"
        self.assert_spoiled(3, 0, words, 2, "<H", 3)
        words = "its section mark is 7, and OCAD 8 has 2 or 3"
        self.assert_spoiled(3, 0, words, 2, "<H", 7, version=8)

    def test_setup_and_info(self) -> None:
        self.assert_spoiled(4, 16, "setup has the size -1", 20, "<i", -1)
        words = "info at 47 starts in the header"
        self.assert_spoiled(4, 24, words, 24, "<i", 47, 28, "<i", 1)
        words = "cut short: info at 6230 ends behind the file"
        self.assert_spoiled(4, 24, words, 24, "<i", 6_230, 28, "<i", 7)

    def test_index_blocks(self) -> None:
        self.assert_spoiled(5, 12, "the index block has the position -88", 12, "<i", -88)
        self.assert_spoiled(5, 12, "the index block at 47 starts in the header", 12, "<i", 47)
        self.assert_spoiled(5, 88, "the link leads back to the index block at 88", 88, "<i", 88)
        words = "cut short: the index block at 6000 ends behind the file"
        self.assert_spoiled(5, 88, words, 88, "<i", 6_000)
        words = "the index block at 2000000000 ends behind any map's end, 16777216"
        self.assert_spoiled(5, 88, words, 88, "<i", 2_000_000_000)
        words = "the index block at 80 shares bytes with the index block at 88"
        self.assert_spoiled(5, 88, words, 88, "<i", 80)
        words = "the index block at 88 shares bytes with setup at 90"
        self.assert_spoiled(5, 12, words, 16, "<i", 90, 20, "<i", 1)

    def test_symbols(self) -> None:
        contents, _ = small_map()
        contents += bytes(1_028 + 400)
        struct.pack_into("<i", contents, 8, 6_236)
        words = "the symbol block at 6000 shares bytes with the index block at 88"
        self.assert_symbols(contents, 6_236, words, 6_236, 6_000)
        words = "cut short: the symbol block at 7000 ends behind the file"
        self.assert_symbols(contents, 8, words, 8, 7_000)
        entry = "symbol block at 6236, entry 2: the symbol record"
        place = 6_236 + 4 + 8
        self.assert_symbols(contents, place, f"{entry} at 12 starts in the header", place, 12)
        words = f"{entry} at 7264 has Size 0, and 348 is the least"
        self.assert_symbols(contents, place, words, place, 7_264)
        struct.pack_into("<h", contents, 7_264, 401)
        words = "symbol block at 6236, entry 2: cut short: the symbol record at 7264 ends behind"
        self.assert_symbols(contents, place, f"{words} the file", place, 7_264)
        struct.pack_into("<h", contents, 6_200, 348)
        words = f"{entry} at 6200 shares bytes with the index block at 88"
        self.assert_symbols(contents, place, words, place, 6_200)

    def assert_symbols(
        self, contents: bytearray, place: int, words: str, at: int, value: int
    ) -> None:
        spoiled = bytearray(contents)
        struct.pack_into("<i", spoiled, at, value)
        self.assert_reason(spoiled, 6, place, words)

    def test_slots(self) -> None:
        place, shares = slot_place(0), "shares bytes with the index block at"
        header = "the object at 48 has nItem 1 and nText"
        for words, *fields in (
            ("left 8,000,000 is past right 5", place, "<i", 256 * 8_000_000),
            ("bottom 6 is past top 5", place + 4, "<i", 6 * 256 + 255),
            (f"Len is 41, and {header} 0, which make it 40", place + 20, "<H", 41),
            ("the object at 47 starts in the header (Len 40)", place + 16, "<i", 47),
            ("the object has the position -1 (Len 40)", place + 16, "<i", -1),
            ("cut short: the object at 6200 ends behind the file (Len 40)", place + 16, "<i", 6200),
            (f"the object at 49 {shares} 88 (Len 40)", place + 16, "<i", 49),
            ("Sym is 7, and the object at 48 has 101", place + 22, "<h", 7),
            ("the object at 48 has type 9, and types are 1 to 5", 50, "<B", 9),
            (f"Len is 40, and {header} 2, which make it 56", 54, "<H", 2),
            ("Len is 32, and an object has 40 bytes at least", place + 20, "<H", 32, 52, "<H", 0),
        ):
            self.assert_spoiled(7, place, f"slot 0: {words}", *fields)
        words = f"slot 0: Len is 32,769, and {header} 0, which make it 1"
        self.assert_spoiled(7, place, words, place + 20, "<H", 32_769, version=8)

    def test_a_slot_with_too_many_pairs(self) -> None:
        """In 8 Len can count more pairs than an object may have."""
        contents, _ = small_map(8)
        place = slot_place(0)
        struct.pack_into("<iH", contents, place + 16, len(contents), 32_769)
        contents += object_bytes([(5, 5)] * 32_769)
        words = "slot 0: 32,769 pairs, and in OCAD 8 32,768 are the most"
        self.assert_reason(contents, 7, place, words)


class LaterWords(WordsTest):
    """What is said of each fault in OCAD 9, 10 and 11."""

    def test_file_types(self) -> None:
        """The byte behind it is any; it would count in 6 to 8."""
        for version, found, listed in (
            (9, 2, "0, 1 or 3"),
            (9, 8, "0, 1 or 3"),
            (10, 255, "0, 1 or 3"),
            (11, 3, "0, 1 or 8"),
        ):
            words = f"its file type is {found}, and OCAD {version} has {listed}"
            self.assert_spoiled(3, 0, words, 2, "<B", found, version=version)

    def test_index_blocks(self) -> None:
        """They are as long as those of 9 to 11, and keep off nothing that 6 to 8 have at 16."""
        words = "cut short: the index block at 97 ends behind the file"
        self.assert_spoiled(5, 12, words, 12, "<i", 97, version=9)
        words = "the index block at 10291 shares bytes with the index block at 48"
        contents = later_map(10) + bytes(10_244)
        struct.pack_into("<i", contents, 48, 10_291)
        self.assert_reason(contents, 5, 48, words)
        contents = later_map(11)
        struct.pack_into("<2i", contents, 16, 48, 10_244)
        self.assertTrue(taffrail.check(contents))

    def test_symbols(self) -> None:
        contents = later_map(9) + bytes(1_028 + 600)
        symbols = later_object(1)
        record, entry = symbols + 1_028, symbols + 4 + 8
        struct.pack_into("<i", contents, 8, symbols)
        struct.pack_into("<i", contents, entry, record)
        told = f"symbol block at {symbols}, entry 2:"
        thing = f"the symbol record at {record}"
        for size in (571, 348, 0, -1, -(2**31)):
            struct.pack_into("<i", contents, record, size)
            words = f"{told} {thing} has Size {size:,}, and 572 is the least"
            self.assert_reason(contents, 6, entry, words)
        for size in (601, 65_536 + 572):
            struct.pack_into("<i", contents, record, size)
            words = f"{told} cut short: {thing} ends behind the file"
            self.assert_reason(contents, 6, entry, words)
        struct.pack_into("<i", contents, entry, len(contents) - 3)
        words = f"{told} cut short: the symbol record at {len(contents) - 3} ends behind the file"
        self.assert_reason(contents, 6, entry, words)
        struct.pack_into("<i", contents, 10_292 - 500, 572)
        struct.pack_into("<i", contents, entry, 10_292 - 500)
        shares = "shares bytes with the index block at 48"
        self.assert_reason(contents, 6, entry, f"{told} the symbol record at 9792 {shares}")

    def test_slots(self) -> None:
        place, at = later_slot(0), later_object(0)
        thing = f"the object at {at}"
        neither = f"{thing} has nItem 1 and nText 0, which make it 1 or 48"
        shares = "shares bytes with the index block at 48"
        for words, *fields in (
            ("left 8,000,000 is past right 5", place, "<i", 256 * 8_000_000),
            ("bottom 6 is past top 5", place + 4, "<i", 6 * 256 + 255),
            ("the object at 47 starts in the header (Len 48)", place + 16, "<i", 47),
            ("the object has the position -1 (Len 48)", place + 16, "<i", -1),
            (f"the object at 10291 {shares} (Len 48)", place + 16, "<i", at - 1),
            ("Sym is 65637, and the object at 10292 has 101000", place + 24, "<i", 65_637),
            ("Sym is -3, and the object at 10292 has 101000", place + 24, "<i", -3),
            ("Sym is 0, and the object at 10292 has 101000", place + 24, "<i", 0),
            (f"{thing} has type 8, and types are 1 to 7", at + 4, "<B", 8),
            (f"{thing} has type 0, and types are 1 to 7", at + 4, "<B", 0),
            (f"Len is 47, and {neither}", place + 20, "<i", 47),
            (f"Len is 49, and {neither}", place + 20, "<i", 49),
            (f"Len is 40, and {neither}", place + 20, "<i", 40),
            (f"Len is -1, and {neither}", place + 20, "<i", -1),
            (f"Len is 65,537, and {neither}", place + 20, "<i", 65_537),
        ):
            for version in (9, 10, 11):
                self.assert_spoiled(7, place, f"slot 0: {words}", *fields, version=version)

    def test_counts_are_wide_and_have_no_sign(self) -> None:
        """Cut to 32 bits, or read with a sign, the pairs of the second would be one."""
        place, at = later_slot(0), later_object(0)
        for items, texts, lens in (
            (2, 0, "2 or 56"),
            (2**32 - 1, 2, "4,294,967,297 or 34,359,738,416"),
        ):
            header = f"the object at {at} has nItem {items:,} and nText {texts}"
            words = f"slot 0: Len is 1, and {header}, which make it {lens}"
            fields = (place + 20, "<i", 1, at + 8, "<I", items, at + 12, "<H", texts)
            self.assert_spoiled(7, place, words, *fields, version=9)

    def test_the_end_of_an_object(self) -> None:
        """Its bytes are Len, or 32 and 8 for each pair that Len counts."""
        for length, needed in ((48, 48), (1, 40)):
            contents = later_map(9, [Drawn(len=length)])[: later_object(0) + needed]
            self.assertTrue(taffrail.check(contents))
            words = "slot 0: cut short: the object at 10292 ends behind the file"
            self.assert_reason(contents[:-1], 7, later_slot(0), f"{words} (Len {length})")

    def test_an_object_without_pairs(self) -> None:
        contents = later_map(9, [Drawn(len=40)])[: later_object(0) + 40]
        struct.pack_into("<I", contents, later_object(0) + 8, 0)
        self.assertTrue(taffrail.check(contents))
        words = "slot 0: cut short: the object at 10292 ends behind the file (Len 40)"
        self.assert_reason(contents[:-1], 7, later_slot(0), words)

    def test_a_later_part_of_an_object_in_an_index_block(self) -> None:
        """Its first 40 bytes are before the block, its last pair is in it."""
        contents = bytearray(48) + later_map(10)[: later_object(0)]
        contents[:16] = later_map(10)[:16]
        struct.pack_into("<i", contents, 12, 48 + 48)
        place = later_slot(0) + 48
        struct.pack_into("<5i2iBBB", contents, place, 0, 0, 0, 0, 50, 48, 7, 0, 0, 1)
        struct.pack_into("<iB3xIH", contents, 50, 7, 1, 1, 0)
        words = "slot 0: the object at 50 shares bytes with the index block at 96 (Len 48)"
        self.assert_reason(contents, 7, place, words)


class EditWords(unittest.TestCase):
    """What is said of an edit that is refused."""

    def setUp(self) -> None:
        self.map, self.journal = small_map()

    def assert_reason(self, number: int, words: str, kind: str, edit: int, **what: Any) -> None:
        asked = Asked(bytes(self.map), bytes(self.journal), edit, kind, **what)
        answer = edit_of(asked, 7_000)
        self.assertEqual(answer, Refused(number, 0, taffrail.WORDS[number]))
        assert isinstance(answer, Refused)
        self.assertEqual(reason_of_edit(answer, asked), words)

    def test_the_object(self) -> None:
        good = object_bytes()
        for words, offered in (
            ("0 bytes, and an object has 40 at least", b""),
            ("39 bytes, and an object has 40 at least", good[:-1]),
            ("nItem 1 and nText 0 are 40 bytes, and it has 48", good + bytes(8)),
            ("nItem 0 and nText 1: one pair at least is no text", object_bytes(text=1)),
            ("it has type 0, and types are 1 to 5", good[:2] + b"\0" + good[3:]),
            ("its Sym is 0, which would be an erased object", object_bytes(sym=0)),
            ("it is longer than 262,176 bytes, the most of any object", bytes(262_177)),
            ("8,188 pairs, and in OCAD 7 8,187 are the most", object_bytes([(1, 1)] * 8_188)),
        ):
            self.assert_reason(10, words, "add", 2, offered=offered)

    def test_the_room(self) -> None:
        self.map += bytes(16_777_216 - 39 - len(self.map))
        words = "the map would have 16,777,217 bytes, and 16,777,216 are the most"
        self.assert_reason(11, words, "add", 2, offered=object_bytes())
        self.map[:48] = taffrail.empty_map(7)  # without a block, so that one is needed
        self.journal = bytearray(32)
        words = "the map would have 16,783,365 bytes, and 16,777,216 are the most"
        self.assert_reason(11, words, "add", 2, offered=object_bytes())

    def test_slots(self) -> None:
        words = "slot 256 is missing, the map has slots 0 to 255"
        self.assert_reason(12, words, "remove", 2, slot=256)
        words = "slot 1 is free, and only a live slot can be removed"
        self.assert_reason(12, words, "remove", 2, slot=1)
        words = "slot 0 is live, and only an erased slot can be reinstated"
        self.assert_reason(12, words, "reinstate", 2, slot=0)
        again = "slot 0 is erased and cannot be live again: "
        place = slot_place(0)
        struct.pack_into("<h", self.map, place + 22, 0)
        for words, at, form, value in (
            ("its object's Sym is 0", 48, "<h", 0),
            ("the object at 48 has type 6, and types are 1 to 5", 50, "<B", 6),
            ("left 6 is past right 5", place, "<i", 6 * 256),
            ("the object has the position -5 (Len 40)", place + 16, "<i", -5),
        ):
            old = bytes(self.map)
            struct.pack_into(form, self.map, at, value)
            self.assert_reason(12, again + words, "reinstate", 2, slot=0)
            self.map = bytearray(old)
        self.map = bytearray(taffrail.empty_map(7))
        self.journal = bytearray(32)
        words = "slot 0 is missing, the map has no slot"
        self.assert_reason(12, words, "remove", 2, slot=0)

    def test_the_journal(self) -> None:
        another = "Is it another map's journal?"
        for words, journal in (
            ("17 bytes, which is no multiple of 16", bytes(17)),
            ("record 1 has kind 9", RECORD.pack(1, 1, 0) + RECORD.pack(2, 9, 0)),
            ("record 1 has edit number 5 again, as record 0", RECORD.pack(5, 2, 0) * 2),
            ("record 0 is unused, but a byte after it is not zero", bytes(31) + b"\1"),
            (
                "record 1, remove of slot 300: slot 300 is missing, the map has slots 0 to 255."
                f" {another}",
                RECORD.pack(1, 1, 0) + RECORD.pack(2, 2, 300),
            ),
            (f"record 0, add of slot 7: slot 7 is free. {another}", RECORD.pack(1, 1, 7)),
        ):
            self.journal = bytearray(journal)
            self.assert_reason(13, words, "remove", 9, slot=0)
        self.journal = bytearray(32)
        words = "the edit number is 0, and 1 is the least"
        self.assert_reason(13, words, "remove", 0, slot=0)

    def test_held_numbers(self) -> None:
        own = "another edit needs a number of its own"
        words = f"1 is the number of record 0, add of slot 0, and this is: remove; {own}"
        self.assert_reason(14, words, "remove", 1, slot=0)
        other = "and its object is not the one that is offered"
        words = f"1 is the number of record 0, add of slot 0, {other}; {own}"
        self.assert_reason(14, words, "add", 1, offered=object_bytes(sym=7))
        self.journal[:16] = RECORD.pack(1, 2, 0)
        words = f"1 is the number of record 0, remove of slot 0, and this is for slot 3; {own}"
        self.assert_reason(14, words, "remove", 1, slot=3)

    def test_a_full_journal(self) -> None:
        """What can be done, and what is safe."""
        forgets = "a new journal forgets these numbers, and a late repeat would act again"
        longer = "It can be made longer with zeros, up to 65,536 bytes, and then forgets nothing"
        for size, used in (
            (0, "the journal has room for no edit"),
            (1, "its one record is used"),
            (5, "all its 5 records are used"),
        ):
            self.journal = bytearray(b"".join(RECORD.pack(e + 1, 1, 0) for e in range(size)))
            self.assert_reason(15, f"{used}. {longer}; {forgets}", "remove", 9, slot=0)
        self.journal = bytearray(b"".join(RECORD.pack(e + 1, 1, 0) for e in range(4_096)))
        words = (
            "all its 4,096 records are used. No journal is longer. Begin a new one when nobody"
            f" can send an edit of this one again: {forgets}"
        )
        self.assert_reason(15, words, "remove", 5_000, slot=0)

    def test_nothing_is_wrong(self) -> None:
        """Nothing is said of an edit that can be done, whatever the number."""
        pair = bytes(self.map), bytes(self.journal)
        longest = object_bytes([(1, 1)] * 8_187)
        for asked in (
            Asked(*pair, 2, "add", offered=longest),
            Asked(*pair, 1, "add", offered=object_bytes()),
            Asked(*pair, 2, "remove", slot=0),
        ):
            self.assertNotIsInstance(edit_of(asked, 80_000), Refused)
            for number in range(18):
                if number == 10 and asked.kind != "add" or number == 12 and asked.kind == "add":
                    continue
                answer = Refused(number, 0, "")
                self.assertEqual(reason_of_edit(answer, asked), "", (number, asked.kind))

    def test_versions_that_are_not_edited(self) -> None:
        for version in (9, 10, 11):
            self.map = later_map(version)
            words = (
                f"its version is OCAD {version}, which is checked and searched here, and not"
                " edited. Edit it in OCAD, or save it as OCAD 6, 7 or 8 first"
            )
            self.assert_reason(17, words, "add", 2, offered=object_bytes())
            self.assert_reason(17, words, "remove", 2, slot=0)
            self.assert_reason(17, words, "reinstate", 2, slot=0)
        asked = Asked(bytes(self.map), bytes(self.journal), 0, "remove", slot=300)
        for number in (10, 11, 12, 13, 14, 15):
            self.assertEqual(reason_of_edit(Refused(number, 0, ""), asked), "", number)

    def test_windows(self) -> None:
        contents = bytes(self.map)
        for window, words in (
            ((1, 0, 0, 0), "the window's left 1 is past its right 0"),
            ((0, 9, 0, -9), "the window's bottom 9 is past its top -9"),
        ):
            answer = taffrail.search(contents, *window)
            assert isinstance(answer, Refused)
            self.assertEqual(reason_of_search(answer, contents, window), words)
        answer = Refused(9, 0, taffrail.WORDS[9], needed=1)
        words = "1 slot to list, and the list has room for fewer"
        self.assertEqual(reason_of_search(answer, contents, (0, 0, 9, 9)), words)


class OnTheCommandLine(FolderTest):
    """The file, the number, the place and the reason in one line, and in JSON."""

    def setUp(self) -> None:
        super().setUp()
        contents, journal = small_map()
        self.map.write_bytes(contents)
        self.journal.write_bytes(journal)

    def assert_told(
        self, file: object, number: int, place: int, reason: str, *words: object
    ) -> None:
        ran = run(*words)
        told = f"{file}: refused {number} at {place}: {reason}\n"
        self.assertEqual((ran.code, ran.out, ran.err), (REFUSED, "", told))
        facts = run(*words, "--json").json()
        for name, fact in (("file", str(file)), ("reason", reason), ("number", number)):
            self.assertEqual(facts[name], fact)
        self.assertEqual((facts["place"], facts["words"]), (place, taffrail.WORDS[number]))

    def edit(self, kind: str, edit: int, slot: int) -> List[object]:
        return [kind, self.map, self.journal, "--edit", edit, "--slot", slot]

    def test_no_map(self) -> None:
        readme = self.folder / "README.md"
        readme.write_text("# A page of words, which is longer than a map's header is\n")
        reason = "README.md is no OCAD map: it begins with the bytes 23 20, and a map with ad 0c"
        self.assert_told(readme, 2, 0, reason, "check", readme)

    def test_a_bad_map(self) -> None:
        contents = bytearray(self.map.read_bytes())
        struct.pack_into("<i", contents, slot_place(0) + 4, 256 * 600_000)
        self.map.write_bytes(contents)
        for words in (
            ["check", self.map],
            ["show", self.map],
            ["search", self.map, 0, 0, 1, 1],
            self.edit("remove", 2, 0),
            ["add", self.map, self.journal, "--edit", 2, self.object],
        ):
            reason = "slot 0: bottom 600,000 is past top 5"
            self.assert_told(self.map, 7, slot_place(0), reason, *words)

    def test_which_file_is_at_fault(self) -> None:
        reason = "the window's left 1 is past its right 0"
        self.assert_told(self.map, 8, 0, reason, "search", self.map, 1, 0, 0, 0)
        self.object.write_bytes(b"short")
        reason = "5 bytes, and an object has 40 at least"
        words = ("add", self.map, self.journal, "--edit", 2)
        self.assert_told(self.object, 10, 0, reason, *words, self.object)
        reason = "0 bytes, and an object has 40 at least"
        self.assert_told("standard input", 10, 0, reason, *words, "-")
        reason = "slot 1 is free, and only a live slot can be removed"
        self.assert_told(self.map, 12, 0, reason, *self.edit("remove", 2, 1))
        reason = "the edit number is 0, and 1 is the least"
        self.assert_told(self.journal, 13, 0, reason, *self.edit("remove", 0, 0))

    def test_a_version_that_is_not_edited(self) -> None:
        """The line is the one that the package's page shows."""
        (self.folder / "alps.ocd").write_bytes(later_map(9))
        words = ("remove", "alps.ocd", self.journal, "--edit", 2, "--slot", 0)
        told = run(*words, folder=self.folder).err.strip()
        self.assertTrue(told.startswith("alps.ocd: refused 17 at 0: "), told)
        page = (PACKAGE_FOLDER / "README.md").read_text()
        self.assertIn(f"`{told}`", " ".join(page.split()))

    def test_a_journal_by_itself(self) -> None:
        self.journal.write_bytes(RECORD.pack(1, 4, 0))
        reason = "record 0 has kind 4"
        self.assert_told(self.journal, 13, 0, reason, "journal", self.journal)
        self.assertEqual(run("journal", self.journal, "--json").json()["detail"], reason)

    def test_where_no_reason_is_found(self) -> None:
        """The number's own words have to do."""
        report = reports.report_refused(Refused(7, 9, taffrail.WORDS[7]), "x.ocd", "")
        self.assertEqual(report.text, f"x.ocd: refused 7 at 9: {taffrail.WORDS[7]}")
        self.assertEqual(report.facts["reason"], taffrail.WORDS[7])


if __name__ == "__main__":
    unittest.main()
