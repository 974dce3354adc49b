"""Reasons on generated maps and journals: they never contradict the library."""

from __future__ import annotations

import struct
import unittest
from array import array
from random import Random
from typing import Dict, Iterator, NamedTuple, Sequence, Tuple

from support_host import later_map, later_slot
from support_reasons import edit_of, small_map

import generate
import taffrail
from taffrail import Refused
from taffrail.layout import FAMILIES, version_of
from taffrail.reasons import Asked, reason_of_check, reason_of_edit, reason_of_search


class Judged(NamedTuple):
    """A generated call that was refused, and the reason that is found for it."""

    answer: Refused
    reason: str
    note: str
    version: int


SEED = 18
CASES = 2_500
SWEEP_STEP = 11  # every so many of the swept maps are looked at

Spoken = Dict[str, Tuple[Tuple[int, ...], str]]

# What the reason for a single damaged field has to speak of, where the number is one of these.
IN_SIX_TO_EIGHT: Spoken = {
    "section": ((3,), "section mark"),
    "setup": ((4, 5), "setup"),
    "setup size": ((4, 5), "setup"),
    "info": ((4, 5), "info"),
    "info size": ((4, 5), "info"),
}
IN_NINE_TO_ELEVEN: Spoken = {
    "file type": ((3,), "file type"),
}
IN_BOTH: Spoken = {
    "mark": ((2,), "no OCAD map"),
    "version": ((3,), "OCAD"),
    "index link": ((5,), "index block"),
    "block link": ((5,), "index block"),
    "symbol link": ((6,), "symbol block"),
    "symbol block link": ((6,), "symbol block"),
    "entry": ((6,), "entry"),
    "record Size": ((6,), "symbol record"),
    "live left": ((7,), "left"),
    "live right": ((7,), "left"),
    "live bottom": ((7,), "bottom"),
    "live top": ((7,), "bottom"),
    "live position": ((7,), "object"),
    "live Len": ((7,), "Len"),
    "live Sym": ((7,), "Sym"),
    "object Sym": ((7,), "Sym"),
    "object type": ((7,), "type"),
    "object nItem": ((7,), "nItem"),
    "object nText": ((7,), "nText"),
}


class Agreement(unittest.TestCase):
    """On generated maps and journals a reason is found for the library's number and place, and
    for no other."""

    def test_generated_cases(self) -> None:
        seen = set()
        for judged in self.refused_cases():
            with self.subTest(note=judged.note, answer=str(judged.answer)):
                self.assertNotEqual(judged.reason, "")
            if judged.version in FAMILIES:
                seen.add((FAMILIES[judged.version].edited, judged.answer.number))
        edited = {(True, number) for number in (*range(2, 11), *range(12, 16))}
        others = {(False, number) for number in (2, 3, 5, 6, 7, 8, 9, 17)}
        self.assertEqual(seen, edited | others)

    def refused_cases(self) -> Iterator[Judged]:
        """Generated calls that were refused, but for those on account of their buffer."""
        for number in range(CASES):
            case = generate.draw_case(Random(f"{SEED} {number}"))
            contents = case.map_buf[: case.used]
            if len(contents) < max(48, case.used):
                continue
            answer = self.answer_to(case, contents)
            if isinstance(answer, Refused) and answer.number != 11:
                reason, version = self.reason_for(case, contents, answer), version_of(contents)
                yield Judged(answer, reason, case.note, version)

    def answer_to(self, case: generate.Case, contents: bytes) -> object:
        if case.call == "check":
            return taffrail.check(contents)
        if case.call == "search":
            slots = array("I", case.entries)
            return taffrail.search_into(contents, *case.window, slots)
        return edit_of(asked_by(case, contents), 7_000 + len(case.offered))

    def reason_for(self, case: generate.Case, contents: bytes, answer: Refused) -> str:
        if case.call == "search":
            return reason_of_search(answer, contents, case.window)
        if case.call == "check":
            return reason_of_check(answer, contents)
        return reason_of_edit(answer, asked_by(case, contents))

    def test_damage_to_one_field(self) -> None:
        """The reason speaks of the field that was damaged."""
        self.assert_spoken_of({**IN_BOTH, **IN_SIX_TO_EIGHT}, generate.VERSIONS)
        self.assert_spoken_of({**IN_BOTH, **IN_NINE_TO_ELEVEN}, generate.NEW_VERSIONS)

    def assert_spoken_of(self, fields: Spoken, versions: Sequence[Tuple[int, int]]) -> None:
        """Every one of the fields, in maps of these versions with these marks."""
        spoken = set()
        for case in self.swept(versions):
            answer = taffrail.check(case.map_buf, used=case.used)
            contents = case.map_buf[: case.used]
            if not isinstance(answer, Refused) or len(contents) < case.used:
                continue
            reason = reason_of_check(answer, contents)
            kind = case.note.split(" at ")[0]
            numbers, words = fields.get(kind, ((), ""))
            with self.subTest(note=case.note, answer=str(answer)):
                self.assertNotEqual(reason, "")
                if answer.number in numbers:
                    spoken.add(kind)
                    self.assertIn(words, reason)
        self.assertEqual(spoken, set(fields))

    def swept(self, versions: Sequence[Tuple[int, int]]) -> Iterator[generate.Case]:
        for version, section in versions:
            cases = list(generate.sweep(Random(f"{SEED} {version} {section}"), version, section))
            yield from cases[::SWEEP_STEP]

    def test_good_maps(self) -> None:
        """Nothing is found wrong at any place of a map that is accepted."""
        for number in range(40):
            made = generate.draw_map(Random(f"{SEED} good {number}"))
            contents = bytes(made.data)
            self.assertTrue(taffrail.check(contents))
            for fault, place in self.places_of(made):
                answer = Refused(fault, place, taffrail.WORDS[fault])
                self.assertEqual(reason_of_check(answer, contents), "", (number, fault, place))

    def places_of(self, made: generate.Made) -> Iterator[Tuple[int, int]]:
        """Where each number could stand, and places beside."""
        yield from ((number, 0) for number in range(1, 8))
        yield from ((4, place) for place in (16, 24, 17))
        for block in [12, *made.index]:
            yield from ((5, place) for place in (block, block + 1))
        for block in made.symbols:
            yield from ((6, block + 4 * entry) for entry in range(257))
            yield 6, block + 2
        for block in made.index:
            yield from ((7, block + 4 + made.layout.slot * slot) for slot in range(256))
            yield from ((7, block + offset) for offset in (0, 5, made.layout.block - 1))
        yield 6, 8

    def test_other_places(self) -> None:
        """A fault at one place is no reason for a refusal at another."""
        old, new = small_map()[0], later_map(10)
        slot = later_slot(1)
        new[slot : slot + 40] = new[later_slot(0) : slot]  # a second slot with the same object
        for contents, number, right, at, wrong in (
            (old, 7, 92, 92 + 16, 47),
            (old, 5, 88, 88, 7),
            (old, 6, 8, 8, 88),
            (new, 7, slot, slot + 16, 47),
            (new, 5, 48, 48, 7),
            (new, 6, 8, 8, 88),
        ):
            spoiled = bytearray(contents)
            struct.pack_into("<i", spoiled, at, wrong)
            answer = taffrail.check(spoiled)
            self.assertEqual(answer, Refused(number, right, taffrail.WORDS[number]))
            for place in range(300):
                found = reason_of_check(Refused(number, place, ""), bytes(spoiled))
                self.assertEqual(found != "", place == right, (number, place))

    def test_any_bytes(self) -> None:
        """A reason can be asked for with any number, place and bytes, also wrong ones."""
        rng = Random(SEED)
        for _ in range(1_500):
            contents = bytes(self.any_map(rng))
            journal = rng.randbytes(rng.choice((0, 15, 16, 64))) + bytes(16)
            number = rng.randint(0, 18)
            place = rng.choice((0, 8, 12, 16, 24, rng.randrange(7_000), 2**32 - 1))
            answer = Refused(number, place, "")
            kind, slot = rng.choice(sorted(generate.CALLS.values())), rng.choice((0, 5, 2**32 - 1))
            offered = rng.randbytes(rng.choice((0, 7, 40)))
            asked = Asked(contents, journal, rng.randrange(3), kind, slot, offered)
            for found in (
                reason_of_check(answer, contents),
                reason_of_search(answer, contents, (1, 2, 3, 0)),
                reason_of_edit(answer, asked),
            ):
                self.assertIsInstance(found, str)

    def any_map(self, rng: Random) -> bytes:
        kind = rng.random()
        if kind < 0.3:
            return rng.randbytes(rng.choice((0, 1, 47, 48, 100)))
        if kind < 0.6:
            return bytes(generate.draw_random(rng))
        return bytes(generate.damage(rng, generate.draw_map(rng))[0])


def asked_by(case: generate.Case, contents: bytes) -> Asked:
    return Asked(contents, case.journal, case.edit, case.call, case.at, case.offered)


if __name__ == "__main__":
    unittest.main()
