"""What the documents say: that they agree with each other, with the code and with what happens."""

from __future__ import annotations

import io
import re
import shutil
import struct
import subprocess
import unittest
from contextlib import redirect_stdout
from pathlib import Path
from typing import Any, Dict, List, Set
from unittest import mock

from support_host import FolderTest, object_bytes, run

import taffrail
from taffrail import Done, Refused, reports

ROOT = Path(__file__).resolve().parent.parent.parent
README = (ROOT / "README.md").read_text()
PACKAGE = (ROOT / "hosts" / "python" / "README.md").read_text()
PROMISES = (ROOT / "docs" / "PROMISES.md").read_text()
DECISIONS = (ROOT / "docs" / "DECISIONS.md").read_text()

NAME = re.compile(r"`([a-z_]+::[a-z_]+)`")
COUNTS = {"Two": 2, "Three": 3, "Four": 4, "Five": 5, "Six": 6, "Seven": 7, "Eight": 8, "Nine": 9}


def example_in(text: str) -> str:
    """The first program in a document."""
    return text.split("```python\n")[1].split("```")[0]


def paragraph_with(text: str, words: str) -> str:
    """The paragraph or the item of a list that has these words."""
    (found,) = [part for part in re.split(r"\n\n|\n(?=- )", text) if words in part]
    return found


class Examples(unittest.TestCase):
    def printed_by(self, program: str) -> List[str]:
        said = io.StringIO()
        with redirect_stdout(said):
            exec(program, {})
        return said.getvalue().splitlines()

    def test_the_first_page(self) -> None:
        """It prints what stands beside it, also where there is more room behind the map."""
        program = example_in(README)
        told = re.findall(r"print\(.*# (.*)", program)
        self.assertEqual(len(told), 4)
        self.assertEqual(self.printed_by(program), told)
        roomy = mock.patch.object(taffrail, "room_for_add", lambda offered: 9_000)
        with roomy:
            self.assertEqual(self.printed_by(program), told)

    def test_the_package(self) -> None:
        names: Dict[str, Any] = {"offered": object_bytes()}
        exec(example_in(PACKAGE), names)
        self.assertEqual((names["answer"], names["used"]), (Done(0, 6_236), 6_236))

    def test_figures(self) -> None:
        """The page on cost is written anew with each measurement, so no other page has them."""
        self.assertEqual(re.findall(r"\d\.\d\d", README), [])


class Kit(unittest.TestCase):
    def test_the_first_page_names_it(self) -> None:
        kit = (ROOT / ".ci" / "kit").read_text().strip()
        self.assertEqual(re.findall(r"`(rattle-kit-[^`]*)`", README), [kit])


class PublicCalls(unittest.TestCase):
    """The functions that the documents name, and their contracts."""

    def setUp(self) -> None:
        """Of each function that crates show, by crate, what stands between its name and its body."""
        self.shown: Dict[str, Dict[str, str]] = {}
        function = re.compile(r'^pub (?:extern "C" )?fn (\w+)(.*?)^\{', re.DOTALL | re.MULTILINE)
        for crate in (ROOT / "crates").iterdir():
            for file in crate.glob("src/**/*.rt"):
                for name, contract in function.findall(file.read_text()):
                    self.shown.setdefault(name, {})[crate.name] = contract

    def contracts(self, named: str) -> List[str]:
        """Of the function that a document names: in its crate, or wherever it has moved to."""
        crate, name = named.split("::")
        found = self.shown.get(name, {})
        return [found[crate]] if crate in found else list(found.values())

    def test_public_calls_ask_for_nothing(self) -> None:
        public = NAME.findall(paragraph_with(PROMISES, "The public calls are"))
        self.assertEqual(len(public), 22)
        for name in public:
            with self.subTest(name=name):
                self.assertTrue(any("requires" not in found for found in self.contracts(name)))

    def test_what_is_left_open(self) -> None:
        """Both documents name the same functions, and count them rightly."""
        promised = paragraph_with(PROMISES, "between the floors leave something open")
        decided = paragraph_with(DECISIONS, "between the floors leave something open")
        for text in (promised, decided):
            self.assertEqual(set(NAME.findall(text)), set(NAME.findall(decided)))
            count = re.search(r"(\w+) functions between the floors leave", text)
            assert count is not None
            self.assertEqual(COUNTS[count[1]], len(set(NAME.findall(text))))
        relations = paragraph_with(DECISIONS, "**Relations with one answer.**")
        self.assert_between_floors(set(NAME.findall(decided)) | set(NAME.findall(relations)))

    def assert_between_floors(self, names: Set[str]) -> None:
        public = NAME.findall(paragraph_with(PROMISES, "The public calls are"))
        for name in names:
            self.assertTrue(self.contracts(name), name)
            self.assertNotIn(name, public)


class Refusals(FolderTest):
    def test_the_lines_that_are_shown(self) -> None:
        """Such files get the very lines of the document."""
        contents = bytearray(taffrail.empty_map(7)).ljust(25_740 + 6_148, b"\0")
        struct.pack_into("<i", contents, 12, 25_740)
        rectangle = [256 * side for side in (8_000_000, 0, 611_392, 0)]
        struct.pack_into("<5iHh", contents, 25_768, *rectangle, 48, 40, 101)
        old = bytes(contents[:4]) + struct.pack("<H", 9) + bytes(contents[6:])
        said = []
        for name, data in (
            ("forest.ocd", bytes(contents)),
            ("forest.ocd", bytes(contents[:-1])),
            ("old.ocd", old),
            ("README.md", b"# ".ljust(48)),
        ):
            (self.folder / name).write_bytes(data)
            said.append(run("check", name, folder=self.folder).err.rstrip("\n"))
        shown = re.findall(r"^    (\S+: refused \d+ at .*)$", PACKAGE, re.MULTILINE)
        self.assertEqual(said, shown)


class ExitCodes(unittest.TestCase):
    def test_each_is_told_everywhere(self) -> None:
        codes = [reports.DONE, reports.REFUSED, reports.UNUSABLE, reports.FAILED_AFTERWARDS]
        told = [str(code) for code in (*codes, reports.INTERRUPTED)]
        self.assertEqual(re.findall(r"^\| (\d+) \|", PACKAGE, re.MULTILINE), told)
        for text in (run("--help").out, paragraph_with(DECISIONS, "**H9. ")):
            (listed,) = re.findall(r"Exit codes:(.*?)\.", " ".join(text.split()))
            self.assertEqual(re.findall(r"\d+", listed), told)


class Leftovers(FolderTest):
    """What an edit that was cut before it was done leaves behind."""

    def test_who_removes_them(self) -> None:
        self.assertNotIn("the next command finishes the edit and removes", " ".join(PACKAGE.split()))
        self.assertIn("commands that only read leave them", " ".join(PACKAGE.split()))
        self.make_pair()
        self.add_bridge()
        left = [f"{self.map}.taffrail-pending.part", f"{self.journal}.taffrail-partner.part"]
        for path in left:
            Path(path).write_bytes(b"half")
        for words in (("check", self.map), ("show", self.map), ("journal", self.journal)):
            self.assertEqual(run(*words).code, 0)
            self.assertTrue(all(Path(path).exists() for path in left))
        ran = run("remove", self.map, self.journal, "--edit", 2, "--slot", 0)
        self.assertEqual(ran.code, 0)
        self.assertFalse(any(Path(path).exists() for path in left))


class Threads(unittest.TestCase):
    """What is said of a length that is out of date."""

    def setUp(self) -> None:
        self.map = bytearray(taffrail.empty_map(7)) + bytes(9_000)
        self.journal = bytearray(taffrail.empty_journal(8))
        self.assertEqual(self.add(1, 48), Done(0, 6_236))

    def add(self, edit: int, used: int, sym: int = 101) -> taffrail.EditResult:
        return taffrail.add(self.map, self.journal, edit, object_bytes(sym=sym), used=used)

    def test_the_words(self) -> None:
        words = " ".join(PACKAGE.split())
        self.assertIn("the map's buffer, the journal and the length `used`", words)
        self.assertIn("a lock of the program's own has to go around them", words)

    def test_mostly_refused(self) -> None:
        for used, number in ((48, 5), (6_236, 7)):
            self.assertEqual(self.add(2, 6_236), Done(1, 6_276))
            answer = self.add(3, used)
            assert isinstance(answer, Refused)
            self.assertEqual(answer.number, number)
            self.setUp()

    def test_and_where_not_written_over(self) -> None:
        self.assertEqual(self.add(2, 6_236), Done(1, 6_276))
        self.assertTrue(taffrail.remove(self.map, self.journal, 3, 1, used=6_276))
        before = self.map[6_236:6_276]
        self.assertEqual(self.add(4, 6_236, sym=7), Done(2, 6_276))
        self.assertNotEqual(self.map[6_236:6_276], before)


class FullJournals(FolderTest):
    def test_both_pages_say_what_is_safe(self) -> None:
        for page in (README, PACKAGE):
            words = " ".join(page.split())
            self.assertRegex(words, "a late repeat (of an old edit )?would act again")
            self.assertRegex(words, "(?i)a full journal")

    @unittest.skipUnless(shutil.which("flock"), "there is no flock")
    def test_the_command_that_makes_it_longer(self) -> None:
        self.make_pair(records=1)
        self.add_bridge()
        command = re.search(r"^ +(flock .*)$", PACKAGE, re.MULTILINE)
        assert command is not None
        subprocess.run(command[1].split(), cwd=self.folder, check=True, timeout=60)
        ran = run("journal", self.journal)
        self.assertTrue(ran.out.startswith("records in use: 1 of 4,096\n"), ran)
        self.assertTrue(self.add_bridge().out.startswith("done before"))


if __name__ == "__main__":
    unittest.main()
