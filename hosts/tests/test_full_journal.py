"""A journal that is nearly full, and one that is full."""

from __future__ import annotations

import unittest
from typing import List

from support_host import FolderTest, Ran, run

import taffrail
from taffrail.reasons import nearly_full

DONE, REFUSED = 0, 1
FORGETS = "a new journal forgets these numbers, and a late repeat would act again"


class WhenItIsTold(unittest.TestCase):
    """By the edit with which nine records in ten are used, and by the last few."""

    def told(self, size: int) -> List[int]:
        return [used for used in range(1, size + 1) if nearly_full(used, size)]

    def test_sizes(self) -> None:
        self.assertEqual(self.told(4_096), [3_687, 4_093, 4_094, 4_095, 4_096])
        self.assertEqual(self.told(100), [90, 97, 98, 99, 100])
        self.assertEqual(self.told(10), [7, 8, 9, 10])
        self.assertEqual(self.told(5), [3, 4, 5])
        self.assertEqual(self.told(2), [2])
        self.assertEqual(self.told(1), [1])

    def test_words(self) -> None:
        longer = "It can be made longer with zeros, up to 65,536 bytes, and then forgets nothing"
        self.assertEqual(
            nearly_full(90, 100), f"90 of 100 records are used. {longer}; {FORGETS}"
        )
        refused = "all its 100 records are used, so that the next edit will be refused"
        self.assertEqual(nearly_full(100, 100), f"{refused}. {longer}; {FORGETS}")
        new = "No journal is longer. Begin a new one when nobody can send an edit of this one again"
        self.assertEqual(
            nearly_full(3_687, 4_096), f"3,687 of 4,096 records are used. {new}: {FORGETS}"
        )


class OnTheCommandLine(FolderTest):
    def setUp(self) -> None:
        super().setUp()
        self.make_pair(records=5)

    def flip(self, edit: int, *more: object) -> Ran:
        """Removes the bridge under an even number, reinstates it under an odd one."""
        name = "reinstate" if edit % 2 else "remove"
        return run(name, self.map, self.journal, "--edit", edit, "--slot", 0, *more)

    def test_nearly_full(self) -> None:
        """The edit is done and says so; the warning is for people."""
        for ran in (self.add_bridge(), self.flip(2)):
            self.assertEqual((ran.code, ran.err), (DONE, ""))
        ran = self.flip(3)
        self.assertEqual(ran.out, "done: edit 3, slot 0, map of 6,236 bytes\n")
        self.assertEqual(ran.code, DONE)
        self.assertTrue(
            ran.err.startswith(f"taffrail: {self.journal}: 3 of 5 records are used. "), ran.err
        )
        self.assertIn(FORGETS, ran.err)
        ran = self.flip(4, "--json")
        facts = ran.json()
        self.assertEqual((ran.code, ran.err, facts["result"]), (DONE, "", "done"))
        self.assertEqual(facts["records_left"], 1)
        self.assertIn(f"{self.journal}: 4 of 5 records are used", facts["warning"])

    def test_a_repeat_tells_nothing(self) -> None:
        self.add_bridge()
        self.flip(2)
        self.assertNotEqual(self.flip(3).err, "")
        ran = self.flip(3)
        self.assertEqual((ran.code, ran.out[:11], ran.err), (DONE, "done before", ""))
        self.assertNotIn("warning", self.flip(3, "--json").json())

    def test_a_full_journal_made_longer(self) -> None:
        """It takes edits again, and still knows the old ones."""
        self.add_bridge()
        for edit in (2, 3, 4, 5):
            self.assertEqual(self.flip(edit).code, DONE)
        ran = self.flip(6)
        self.assertEqual(ran.code, REFUSED)
        self.assertIn("refused 15 at 0: all its 5 records are used. It can be made", ran.err)
        with open(self.journal, "r+b") as file:
            file.truncate(65_536)
        self.assertEqual(self.flip(6).code, DONE)
        self.assertTrue(self.flip(2).out.startswith("done before"))

    def test_a_new_journal_forgets(self) -> None:
        """A repeat of what the old journal held acts again: the words are true."""
        self.add_bridge()
        self.flip(2)
        self.flip(3)
        self.journal.write_bytes(taffrail.empty_journal(5))
        self.assertTrue(self.flip(2).out.startswith("done: edit 2"))


if __name__ == "__main__":
    unittest.main()
