"""The words of a command: where they may stand, numbers, names of files, and how names are told."""

from __future__ import annotations

import io
import os
import subprocess
import unittest
from contextlib import redirect_stderr, redirect_stdout

from support_host import FolderTest, Ran, command_line, environment, run

from taffrail import cli
from taffrail.arguments import make_parser

DONE, UNUSABLE = 0, 2


class ArgumentsTest(FolderTest):
    def assert_unusable(self, ran: Ran, *words: object) -> None:
        self.assertEqual((ran.code, ran.out), (UNUSABLE, ""), ran.err)
        self.assertNotIn("Traceback", ran.err)
        for word in words:
            self.assertIn(str(word), ran.err)


class BeforeTheCommand(ArgumentsTest):
    """What every command takes may stand before its name too."""

    def setUp(self) -> None:
        super().setUp()
        self.make_pair()

    def test_json(self) -> None:
        for word in ("--json", "--js"):
            for words in ((word, "check", self.map), ("check", word, self.map)):
                with self.subTest(words=words):
                    self.assertEqual(run(*words).json()["result"], "accepted")

    def test_json_with_wrong_words(self) -> None:
        for words in (
            ("--json", "check"),
            ("check", "--js"),
            ("--js", "fly"),
            ("--j", "check"),
            ("check", self.map, "--json=yes"),
        ):
            with self.subTest(words=words):
                ran = run(*words)
                self.assertEqual((ran.code, ran.err), (UNUSABLE, ""))
                self.assertEqual(ran.json()["result"], "unusable")

    def test_a_file_of_that_name_is_no_such_word(self) -> None:
        self.assert_unusable(run("check", "--", "--json", "more"), "unrecognized arguments: more")

    def test_no_json_unless_asked_for(self) -> None:
        self.assertTrue(run("check", self.map).out.startswith("accepted"))
        self.assert_unusable(run("check"), "usage: taffrail check")

    def test_waiting(self) -> None:
        """The last word on waiting holds."""
        parser = make_parser(cli.COMMANDS)
        for words, wait in (
            (["check", "m"], 60.0),
            (["--wait", "5", "check", "m"], 5.0),
            (["--wait", "5", "check", "m", "--wait", "7"], 7.0),
            (["--no-wait", "check", "m"], 0.0),
            (["--wait", "5", "check", "m", "--no-wait"], 0.0),
        ):
            self.assertEqual(parser.parse_args(words).wait, wait, words)


class Numbers(ArgumentsTest):
    def test_numbers_that_are_too_large(self) -> None:
        """However long a number is, it is one."""
        self.make_pair()
        pair = (self.map, self.journal)
        for digits in (20, 21, 25, 5_000):
            number = "9" * digits
            for words in (
                ("remove", *pair, "--edit", number, "--slot", 0),
                ("remove", *pair, "--edit", 1, "--slot", f"-{number}"),
                ("search", self.map, 0, 0, number, 0),
                ("new", self.folder / "x.ocd", "--version", number),
                ("new", "--journal", self.folder / "x.journal", "--records", number),
            ):
                self.assert_unusable(run(*words), f"{number} is not within")

    def test_zeros_before_a_number(self) -> None:
        self.make_pair()
        words = ("add", self.map, self.journal, "--edit", "0" * 30 + "7", self.object)
        self.assertIn("done: edit 7,", run(*words).out)
        self.assertEqual(run("search", self.map, "-0", "-00", "010", 10).code, DONE)


class NamesOfFiles(ArgumentsTest):
    def test_an_empty_name(self) -> None:
        """Not the folder that the command runs in."""
        self.make_pair()
        for words in (
            ("check", ""),
            ("journal", ""),
            ("new", ""),
            ("new", "--journal", ""),
            ("remove", self.map, "", "--edit", 1, "--slot", 0),
            ("add", self.map, self.journal, "--edit", 1, ""),
        ):
            with self.subTest(words=words):
                self.assert_unusable(run(*words), "the name of a file is empty")

    def test_a_name_of_a_folder(self) -> None:
        """A slash at the end is for folders; the map of that name is not meant."""
        self.make_pair()
        for name in (f"{self.map}/", f"{self.map}/.", f"{self.folder}/", ".", ".."):
            with self.subTest(name=name):
                self.assert_unusable(run("check", name), name, "is the name of a folder")
        self.assert_unusable(run("new", f"{self.folder}/x.ocd/"), "is the name of a folder")
        self.assertFalse((self.folder / "x.ocd").exists())

    def test_names_that_are_not_utf_8(self) -> None:
        """Their bytes are told, and every program can read the JSON."""
        name = b"h\xc3\xb6he\xff.ocd"
        path = os.fsencode(str(self.folder)) + b"/" + name
        told = str(self.folder) + "/höhe\\xff.ocd"
        ran = self.run_on(b"new", path)
        self.assertEqual((ran.code, ran.out), (DONE, f"new map {told}: OCAD 8, 48 bytes\n"))
        ran = self.run_on(b"new", path)
        self.assertEqual(ran.err, f"taffrail: {told}: exists already; nothing was changed\n")
        self.assertEqual(self.run_on(b"check", path).code, DONE)
        os.unlink(path)
        ran = self.run_on(b"new", path, b"--json")
        self.assertNotIn("udcff", ran.out)
        self.assertEqual(ran.json()["map"], told)
        ran = self.run_on(b"check", path + b"x", b"--json")
        self.assertEqual(ran.json()["message"], f"{told}x: no such file")
        ran = self.run_on(b"check", path, b"--wait", b"\xff")
        self.assertIn("'\\xff' is not a number of seconds", ran.err)

    def run_on(self, *words: bytes) -> Ran:
        """A command whose words may be no text."""
        start = [os.fsencode(word) for word in command_line()]
        variables = {**environment(), "PYTHONUTF8": "1"}
        ended = subprocess.run(
            start + list(words), env=variables, capture_output=True, timeout=120, check=False
        )
        return Ran(ended.returncode, ended.stdout.decode(), ended.stderr.decode())

    def test_from_a_program(self) -> None:
        """The command line as a function writes such names too."""
        path = os.fsdecode(os.fsencode(str(self.folder)) + b"/\xff.ocd")
        out, err = (io.TextIOWrapper(io.BytesIO(), "utf-8") for _ in range(2))
        with redirect_stdout(out), redirect_stderr(err):
            self.assertEqual(cli.main(["new", path]), DONE)
            self.assertEqual(cli.main(["new", path]), UNUSABLE)
        for stream in (out, err):
            stream.seek(0)
            self.assertIn("/\\xff.ocd: ", stream.read())


class OneOfAThing(ArgumentsTest):
    def test_a_journal_for_one_edit(self) -> None:
        ran = run("new", "--journal", self.journal, "--records", 1)
        self.assertEqual(ran.out, f"new journal {self.journal}: room for 1 edit\n")
        self.journal.unlink()
        ran = run("new", "--journal", self.journal, "--records", 2)
        self.assertEqual(ran.out, f"new journal {self.journal}: room for 2 edits\n")

    def test_a_journal_of_one_byte(self) -> None:
        self.journal.write_bytes(b"\0")
        self.assertIn("1 byte, which is no multiple of 16", run("journal", self.journal).err)


if __name__ == "__main__":
    unittest.main()
