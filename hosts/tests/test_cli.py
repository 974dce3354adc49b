"""The command line as a user types it: every command, exit codes, JSON, and files in trouble."""

from __future__ import annotations

import fcntl
import io
import os
import shlex
import struct
import subprocess
import sys
import termios
import time
import unittest
from pathlib import Path
from typing import Dict, List
from unittest import mock

from support_host import (
    DELETED,
    HIDDEN,
    MODEL,
    PACKAGE_FOLDER,
    UNDONE,
    Drawn,
    FolderTest,
    Ran,
    command_line,
    environment,
    later_map,
    object_bytes,
    run,
)

import taffrail
from taffrail import cli, layout

DONE, REFUSED, UNUSABLE, FAILED_AFTERWARDS = 0, 1, 2, 3
COMMANDS = ("new", "check", "search", "add", "remove", "reinstate", "journal", "show")


class CliTest(FolderTest):
    def assert_done(self, ran: Ran, out: str) -> None:
        self.assertEqual(ran, Ran(DONE, out, ""))

    def assert_refused(self, ran: Ran, number: int, place: int = 0) -> None:
        self.assertEqual((ran.code, ran.out), (REFUSED, ""), ran.err)
        self.assertRegex(ran.err, rf"^[^\n]+: refused {number} at {place}: [^\n]+\n$")

    def assert_unusable(self, ran: Ran, *words: object) -> None:
        self.assertEqual((ran.code, ran.out), (UNUSABLE, ""), ran.err)
        self.assertNotIn("Traceback", ran.err)
        for word in words:
            self.assertIn(str(word), ran.err)

    def remove(self, edit: int, slot: int, *more: object) -> Ran:
        return run("remove", self.map, self.journal, "--edit", edit, "--slot", slot, *more)

    def reinstate(self, edit: int, slot: int, *more: object) -> Ran:
        return run("reinstate", self.map, self.journal, "--edit", edit, "--slot", slot, *more)

    def commands_on_the_map(self) -> Dict[str, List[object]]:
        """A command of each kind that opens the map."""
        pair = [self.map, self.journal, "--edit", 5]
        return {
            "check": ["check", self.map],
            "search": ["search", self.map, 0, 0, 1, 1],
            "show": ["show", self.map],
            "add": ["add", *pair, self.object],
            "remove": ["remove", *pair, "--slot", 0],
            "reinstate": ["reinstate", *pair, "--slot", 0],
        }

    def commands_on_the_journal(self) -> Dict[str, List[object]]:
        edits = ("add", "remove", "reinstate")
        found = {name: self.commands_on_the_map()[name] for name in edits}
        found["journal"] = ["journal", self.journal]
        return found


class EveryCommand(CliTest):
    """What each command says when all is well."""

    def test_new(self) -> None:
        ran = run("new", self.map, "--version", 7, "--journal", self.journal, "--records", 3)
        self.assert_done(
            ran,
            f"new map {self.map}: OCAD 7, 48 bytes\n"
            f"new journal {self.journal}: room for 3 edits\n",
        )
        self.assertEqual(self.map.read_bytes(), layout.empty_map(7))
        self.assertEqual(self.journal.read_bytes(), bytes(48))
        self.assertEqual(self.names(), ["bridge.object", "city.journal", "city.ocd"])

    def test_new_of_every_version_is_accepted(self) -> None:
        for version in (6, 7, 8):
            path = self.folder / f"{version}.ocd"
            self.assertEqual(run("new", path, "--version", version).code, DONE)
            text = f"accepted: OCAD {version}, 48 bytes, 0 index blocks\n"
            self.assert_done(run("check", path), text)

    def test_new_journal_alone(self) -> None:
        self.assertEqual(run("new", "--journal", self.journal).code, DONE)
        self.assertEqual(self.journal.read_bytes(), bytes(65_536))
        self.assertFalse(self.map.exists())

    def test_new_with_one_name_for_both(self) -> None:
        self.assert_unusable(run("new", self.map, "--journal", self.map), "named twice")
        self.assertFalse(self.map.exists())

    def test_new_fills_an_empty_file(self) -> None:
        self.map.touch()
        self.assertEqual(run("new", self.map).code, DONE)
        self.assertEqual(self.map.read_bytes(), layout.empty_map(8))

    def test_new_keeps_what_is_there(self) -> None:
        self.map.write_bytes(b"precious")
        self.assert_unusable(run("new", self.map), "exists already")
        self.assertEqual(self.map.read_bytes(), b"precious")
        other = self.folder / "other.ocd"
        self.assert_unusable(run("new", other, "--journal", self.map), "exists already")
        self.assertFalse(other.exists())

    def test_the_footbridge(self) -> None:
        self.make_pair()
        self.assert_done(self.add_bridge(1), "done: edit 1, slot 0, map of 6,236 bytes\n")
        self.assert_done(
            run("search", self.map, 0, 0, 10, 10),
            "found 1, index blocks walked: 1\n"
            "slot  state  Sym  Len  position  left  bottom  right  top\n"
            "   0   live  101   40        48     5       5      5    5\n",
        )
        self.assert_done(self.remove(2, 0), "done: edit 2, slot 0, map of 6,236 bytes\n")
        nothing = "found 0, index blocks walked: 1\n"
        self.assert_done(run("search", self.map, 0, 0, 10, 10), nothing)
        self.assert_done(self.reinstate(3, 0), "done: edit 3, slot 0, map of 6,236 bytes\n")
        again = "done before: edit 2, slot 0, map of 6,236 bytes\n"
        self.assert_done(self.remove(2, 0), again)
        self.assert_done(
            run("journal", self.journal),
            "records in use: 3 of 16\n"
            "record  edit       kind  slot\n"
            "     0     1        add     0\n"
            "     1     2     remove     0\n"
            "     2     3  reinstate     0\n",
        )
        self.assert_done(
            run("show", self.map),
            "OCAD 7, 6,236 bytes, 1 index block; slots: 1 live, 0 erased, 255 free\n"
            "slot  state  Sym  Len  position  left  bottom  right  top\n"
            "   0   live  101   40        48     5       5      5    5\n",
        )

    def test_check(self) -> None:
        self.make_pair()
        self.add_bridge()
        text = "accepted: OCAD 7, 6,236 bytes, 1 index block\n"
        self.assert_done(run("check", self.map), text)

    def test_show_free_slots_too(self) -> None:
        self.make_pair()
        self.add_bridge()
        self.assertEqual(len(run("show", self.map, "--free").out.splitlines()), 2 + 256)

    def test_show_an_erased_slot(self) -> None:
        self.make_pair()
        self.add_bridge()
        self.remove(2, 0)
        self.assertIn("erased", run("show", self.map).out.splitlines()[2])

    def test_show_rectangles_by_value(self) -> None:
        self.make_pair(version=8)
        pairs = [(-300, 7), (12, -1), (9_999, 9_999)]
        self.object.write_bytes(object_bytes(pairs, sym=-5, text=1))
        self.assertEqual(self.add_bridge().code, DONE)
        row = run("show", self.map).out.splitlines()[2].split()
        self.assertEqual(row, ["0", "live", "-5", "3", "48", "-300", "-1", "12", "7"])

    def test_windows_with_negative_sides(self) -> None:
        self.make_pair()
        self.object.write_bytes(object_bytes([(-5, -6)]))
        self.add_bridge()
        self.assertTrue(run("search", self.map, -5, -6, -5, -6).out.startswith("found 1,"))
        self.assertTrue(run("search", self.map, -4, -6, 0, 0).out.startswith("found 0,"))

    def test_object_from_standard_input(self) -> None:
        self.make_pair()
        words = ("add", self.map, self.journal, "--edit", 1, "-")
        self.assertEqual(run(*words, given=object_bytes()).code, DONE)
        self.assertEqual(run(*words, given=object_bytes()).out[:11], "done before")

    def test_options_come_in_any_place(self) -> None:
        self.make_pair()
        self.assertEqual(
            run("add", "--edit", 1, self.map, "--json", self.journal, self.object).code, DONE
        )

    def test_relative_names(self) -> None:
        self.make_pair()
        words = ("add", "city.ocd", "city.journal", "--edit", 1, "bridge.object")
        self.assertEqual(run(*words, folder=self.folder).code, DONE)

    def test_names_that_are_not_text(self) -> None:
        path = os.fsdecode(os.fsencode(str(self.folder)) + b"/m\xff.ocd")
        words = ["new", path, "--journal", path + ".journal", "--records", "4"]
        ended = subprocess.run(command_line(*words), env=environment(), capture_output=True)
        self.assertEqual(ended.returncode, DONE, ended.stderr)
        self.assertEqual(
            run("add", path, path + ".journal", "--edit", 1, self.object).code, DONE
        )


class Json(CliTest):
    def test_every_command(self) -> None:
        made = run("new", self.map, "--version", 7, "--journal", self.journal, "--json").json()
        self.assertEqual(made["result"], "new")
        self.assertEqual((made["map"], made["version"], made["length"]), (str(self.map), 7, 48))
        self.assertEqual((made["journal"], made["records"]), (str(self.journal), 4_096))
        accepted = {"result": "accepted", "version": 7, "length": 48, "blocks": 0}
        self.assertEqual(run("check", self.map, "--json").json(), accepted)
        done = {"result": "done", "edit": 1, "slot": 0, "length": 6_236}
        words = ("add", self.map, self.journal, "--edit", 1, self.object, "--json")
        self.assertEqual(run(*words).json(), done)
        self.assertEqual(run(*words).json(), {**done, "result": "done before"})
        self.assertEqual(self.remove(2, 0, "--json").json(), {**done, "edit": 2})
        self.assertEqual(self.reinstate(3, 0, "--json").json(), {**done, "edit": 3})
        self.check_lists()

    def check_lists(self) -> None:
        slot = {"number": 0, "state": "live", "sym": 101, "len": 40, "position": 48}
        slot.update(left=5, bottom=5, right=5, top=5, hidden=False)
        found = run("search", self.map, 0, 0, 10, 10, "--json").json()
        self.assertEqual(found, {"result": "found", "count": 1, "blocks": 1, "slots": [slot]})
        shown = run("show", self.map, "--json").json()
        counts = {"live": 1, "erased": 0, "free": 255, "hidden": 0}
        self.assertEqual({state: shown[state] for state in counts}, counts)
        self.assertEqual(shown["slots"], [slot])
        listed = run("journal", self.journal, "--json").json()
        self.assertEqual((listed["used"], listed["size"]), (3, 4_096))
        self.assertEqual(listed["records"][1], {"edit": 2, "kind": "remove", "slot": 0})

    def test_refusals_and_problems(self) -> None:
        self.make_pair()
        ran = self.remove(1, 0, "--json")
        self.assertEqual((ran.code, ran.err), (REFUSED, ""))
        refused = {"result": "refused", "number": 12, "place": 0, "words": taffrail.WORDS[12]}
        refused.update(file=str(self.map), reason="slot 0 is missing, the map has no slot")
        self.assertEqual(ran.json(), refused)
        ran = run("check", self.folder / "missing", "--json")
        self.assertEqual((ran.code, ran.err), (UNUSABLE, ""))
        self.assertEqual(ran.json()["result"], "unusable")
        self.assertIn("no such file", ran.json()["message"])


    def test_wrong_usage(self) -> None:
        """What is wrong with the words is told in JSON too, whatever they are."""
        pair = (self.map, self.journal)
        cases = {
            (): "required: COMMAND",
            ("fly",): "invalid choice: 'fly'",
            ("check",): "check: the following arguments are required: MAP",
            ("check", self.map, "--wait", "long"): "'long' is not a number of seconds",
            ("remove", *pair, "--edit", 2**32, "--slot", 0): "4294967296 is not within",
            ("search", self.map, 0, 0, 0, "far"): "argument T: 'far' is not a whole number",
            ("new",): "new: name a map",
        }
        for words, said in cases.items():
            with self.subTest(words=words):
                ran = run(*words, "--json")
                self.assertEqual((ran.code, ran.err), (UNUSABLE, ""))
                self.assertEqual(sorted(ran.json()), ["message", "result"])
                self.assertEqual(ran.json()["result"], "unusable")
                self.assertIn(said, ran.json()["message"])

    def test_the_word_cut_short(self) -> None:
        self.make_pair()
        self.assertEqual(run("check", self.map, "--js").json()["result"], "accepted")


class Refusals(CliTest):
    """Refusals name file, number, place and reason, end with 1, and write nothing."""

    def setUp(self) -> None:
        super().setUp()
        self.make_pair(records=2)
        self.assertEqual(self.add_bridge().code, DONE)

    def assert_nothing_written(self, words: List[object], number: int, place: int = 0) -> None:
        before = self.traces()
        self.assert_refused(run(*words), number, place)
        self.assertEqual(self.traces(), before)
        self.assertEqual(self.names(), ["bridge.object", "city.journal", "city.ocd"])

    def traces(self) -> List[object]:
        """What writing would change: the bytes, and the times of the files and the folder."""
        times = [path.stat().st_mtime_ns for path in (self.map, self.journal, self.folder)]
        return [self.map.read_bytes(), self.journal.read_bytes(), times]

    def test_edits(self) -> None:
        pair = [self.map, self.journal]
        self.assert_nothing_written(["add", *pair, "--edit", 2, "-"], 10)
        self.assert_nothing_written(["remove", *pair, "--edit", 2, "--slot", 1], 12)
        self.assert_nothing_written(["remove", *pair, "--edit", 2, "--slot", 2**32 - 1], 12)
        self.assert_nothing_written(["reinstate", *pair, "--edit", 2, "--slot", 0], 12)
        self.assert_nothing_written(["remove", *pair, "--edit", 0, "--slot", 0], 13)
        self.assert_nothing_written(["remove", *pair, "--edit", 1, "--slot", 0], 14)
        self.assertEqual(self.remove(2, 0).code, DONE)
        self.assert_nothing_written(["reinstate", *pair, "--edit", 3, "--slot", 0], 15)

    def test_window(self) -> None:
        self.assert_nothing_written(["search", self.map, 1, 0, 0, 0], 8)

    def test_a_bad_map(self) -> None:
        data = bytearray(self.map.read_bytes())
        data[48 + 2] = 9
        self.map.write_bytes(data)
        for words in self.commands_on_the_map().values():
            self.assert_nothing_written(words, 7, 92)

    def test_an_object_that_is_too_long(self) -> None:
        with open(self.object, "r+b") as file:
            file.truncate(1 << 30)
        self.assert_nothing_written(["add", self.map, self.journal, "--edit", 2, self.object], 10)

    def test_done_before_writes_nothing(self) -> None:
        before = self.traces()
        self.assertEqual(self.add_bridge().code, DONE)
        self.assertEqual(self.traces(), before)


class LaterMaps(CliTest):
    """OCAD 9, 10 and 11: checked, searched and shown, and not edited."""

    HEADINGS = "slot         state     Sym  Len  position  left  bottom  right  top\n"
    NORMAL_ROW = "   0          live  101000   48     10292     5       5      5    5\n"
    HIDDEN_ROW = "   1  live, hidden      -2    1     10340    -7       5     -7    5\n"
    UNDONE_ROW = "   2        erased       7   48     10388     5       5      5    5\n"

    def setUp(self) -> None:
        super().setUp()
        self.journal.write_bytes(taffrail.empty_journal(4))
        self.draw(9)

    def draw(self, version: int) -> None:
        """A map with a normal object, a hidden one, and one that OCAD can undo the deleting of."""
        hidden = Drawn(sym=-2, status=HIDDEN, at=(-7, 5), len=1)
        self.map.write_bytes(later_map(version, [Drawn(), hidden, Drawn(sym=7, status=UNDONE)]))

    def test_check(self) -> None:
        for version in (9, 10, 11):
            self.draw(version)
            text = f"accepted: OCAD {version}, 10,436 bytes, 1 index block\n"
            self.assert_done(run("check", self.map), text)
            accepted = {"result": "accepted", "version": version, "length": 10_436, "blocks": 1}
            self.assertEqual(run("check", self.map, "--json").json(), accepted)

    def test_search(self) -> None:
        """Hidden objects are found, and told apart; deleted ones are not found."""
        rows = self.HEADINGS + self.NORMAL_ROW + self.HIDDEN_ROW
        found = f"found 2, index blocks walked: 1\n{rows}"
        self.assert_done(run("search", self.map, -10, 0, 10, 10), found)
        facts = run("search", self.map, -10, 0, 10, 10, "--json").json()
        self.assertEqual((facts["count"], facts["blocks"]), (2, 1))
        told = [(slot["state"], slot["hidden"], slot["sym"]) for slot in facts["slots"]]
        self.assertEqual(told, [("live", False, 101_000), ("live", True, -2)])

    def test_show(self) -> None:
        states = "2 live (1 hidden), 1 erased, 253 free"
        rows = self.HEADINGS + self.NORMAL_ROW + self.HIDDEN_ROW + self.UNDONE_ROW
        for version in (9, 10, 11):
            self.draw(version)
            line = f"OCAD {version}, 10,436 bytes, 1 index block; slots: {states}\n"
            self.assert_done(run("show", self.map), line + rows)
        facts = run("show", self.map, "--json").json()
        counts = {"version": 11, "live": 2, "erased": 1, "free": 253, "hidden": 1}
        self.assertEqual({name: facts[name] for name in counts}, counts)
        self.assertEqual([slot["hidden"] for slot in facts["slots"]], [False, True, False])
        self.assertEqual([slot["state"] for slot in facts["slots"]], ["live", "live", "erased"])
        self.assertEqual(len(run("show", self.map, "--free").out.splitlines()), 2 + 256)

    def test_show_where_nothing_is_hidden(self) -> None:
        self.map.write_bytes(later_map(10, [Drawn(), Drawn(status=DELETED)]))
        line = "OCAD 10, 10,388 bytes, 1 index block; slots: 1 live, 1 erased, 254 free"
        self.assertEqual(run("show", self.map).out.splitlines()[0], line)

    def test_edits(self) -> None:
        for version in (9, 10, 11):
            self.draw(version)
            before = self.map.read_bytes(), self.journal.read_bytes()
            reason = (
                f"its version is OCAD {version}, which is checked and searched here, and not"
                " edited. Edit it in OCAD, or save it as OCAD 6, 7 or 8 first"
            )
            refused = {"result": "refused", "number": 17, "place": 0, "words": taffrail.WORDS[17]}
            refused.update(file=str(self.map), reason=reason)
            for name in ("add", "remove", "reinstate"):
                words = self.commands_on_the_map()[name]
                told = f"{self.map}: refused 17 at 0: {reason}\n"
                self.assertEqual(run(*words), Ran(REFUSED, "", told))
                ran = run(*words, "--json")
                self.assertEqual((ran.code, ran.err), (REFUSED, ""))
                self.assertEqual(ran.json(), refused)
            self.assertEqual((self.map.read_bytes(), self.journal.read_bytes()), before)
            self.assertEqual(self.names(), ["bridge.object", "city.journal", "city.ocd"])

    def test_the_journal_is_not_looked_at(self) -> None:
        """Whatever it holds: no edit is made, and the other commands need none."""
        for journal in (b"", b"\xee" * 17, b"\xee" * 70_000):
            self.journal.write_bytes(journal)
            self.assert_refused(self.remove(1, 0), 17)
            self.assertEqual(run("check", self.map).code, DONE)
            self.assertEqual(self.journal.read_bytes(), journal)
        self.journal.unlink()
        for name in ("check", "search", "show"):
            self.assertEqual(run(*self.commands_on_the_map()[name]).code, DONE)

    def test_bad_maps(self) -> None:
        """An edit of a map that is refused by the check gets the check's number."""
        data = self.map.read_bytes()
        faults = ((2, 2, 3, 0), (4, 12, 3, 0), (12, 47, 5, 12), (8, 1, 6, 8))
        for at, wrong, number, place in faults:
            self.map.write_bytes(data[:at] + bytes([wrong]) + data[at + 1 :])
            for words in self.commands_on_the_map().values():
                self.assert_refused(run(*words), number, place)

    def test_new(self) -> None:
        """They are not made, and the words say so."""
        path = self.folder / "new.ocd"
        for version in (9, 10, 11):
            words = f"{version} is not within 6 to 8; maps of OCAD 9, 10 and 11 are checked,"
            ran = run("new", path, "--version", version)
            self.assert_unusable(ran, f"{words} searched and shown, and not made")
            ran = run("new", path, "--version", version, "--json")
            self.assertEqual(ran.code, UNUSABLE)
            self.assertIn(words, ran.json()["message"])
        self.assertFalse(path.exists())


class Usage(CliTest):
    """Wrong usage ends with 2 and says what is wrong."""

    def test_wrong_words(self) -> None:
        self.make_pair()
        pair = (self.map, self.journal)
        cases = [
            (),
            ("fly",),
            ("new",),
            ("new", self.folder / "x", "--version", 5),
            ("new", self.folder / "x", "--records", 5),
            ("new", "--version", 7, "--journal", self.folder / "x"),
            ("new", "--journal", self.folder / "x", "--records", 4_097),
            ("new", "--journal", self.folder / "x", "--records", -1),
            ("check",),
            ("check", self.map, self.map),
            ("search", self.map, 0, 0, 0),
            ("search", self.map, 0, 0, 0, "far"),
            ("search", self.map, 0, 0, 0, 2**31),
            ("add", *pair, self.object),
            ("add", *pair, "--edit", 1),
            ("remove", *pair, "--edit", 1),
            ("remove", *pair, "--edit", 2**32, "--slot", 0),
            ("remove", *pair, "--edit", -1, "--slot", 0),
            ("remove", *pair, "--edit", 1.5, "--slot", 0),
            ("remove", *pair, "--edit", "1_0", "--slot", 0),
            ("remove", *pair, "--edit", 1, "--slot", 2**32),
            ("check", self.map, "--wait", "long"),
            ("check", self.map, "--wait", "-1"),
            ("check", self.map, "--wait", "inf"),
            ("check", self.map, "--wait", 1, "--no-wait"),
        ]
        for words in cases:
            with self.subTest(words=words):
                self.assert_unusable(run(*words))
        self.assertFalse((self.folder / "x").exists())

    def test_a_number_that_is_too_large_is_named(self) -> None:
        self.make_pair()
        self.assert_unusable(self.remove(2**32, 0), "--edit", "4294967296 is not within")

    def test_the_usage_is_told(self) -> None:
        self.assert_unusable(run("check"), "usage: taffrail check", "taffrail: check: ", "MAP")
        self.assert_unusable(run(), "usage: taffrail ", "taffrail: the following", "COMMAND")

    def test_help(self) -> None:
        ran = run("--help")
        self.assertEqual(ran.code, DONE)
        for code in ("0 done", "1 refused", "2 usage", "130 interrupted"):
            self.assertIn(code, " ".join(ran.out.split()))
        for name in COMMANDS:
            self.assertIn(name, ran.out)
            self.assertEqual(run(name, "--help").code, DONE)

    def test_help_says_which_versions_are_taken(self) -> None:
        self.assertIn("show those of OCAD 6 to 11", " ".join(run("--help").out.split()))
        for name in ("new", "add", "remove", "reinstate"):
            self.assertRegex(run(name, "--help").out, r"\(OCAD 6, 7 (and|or) 8\)")


class FilesInTrouble(CliTest):
    """Missing, truncated, locked, read-only, huge, and other sorts of files."""

    def setUp(self) -> None:
        super().setUp()
        self.make_pair()
        self.assertEqual(self.add_bridge().code, DONE)

    def test_missing_map(self) -> None:
        self.map.unlink()
        for words in self.commands_on_the_map().values():
            self.assert_unusable(run(*words), self.map, "no such file")
        self.assertFalse(self.map.exists())

    def test_missing_journal(self) -> None:
        self.journal.unlink()
        for words in self.commands_on_the_journal().values():
            self.assert_unusable(run(*words), self.journal, "no such file")
        self.assertFalse(self.journal.exists())

    def test_missing_object(self) -> None:
        self.object.unlink()
        self.assert_unusable(self.add_bridge(2), self.object, "no such file")

    def test_missing_folder(self) -> None:
        path = self.folder / "nowhere" / "map.ocd"
        self.assert_unusable(run("check", path), path, "no such file")
        self.assert_unusable(run("new", path), path, "no such file")
        words = ("new", self.folder / "good.ocd", "--journal", path)
        self.assert_unusable(run(*words), path, "no such file")
        self.assertFalse((self.folder / "good.ocd").exists())

    def test_a_directory(self) -> None:
        self.map.unlink()
        self.map.mkdir()
        for words in self.commands_on_the_map().values():
            self.assert_unusable(run(*words), self.map, "is a directory")
        self.assert_unusable(run("journal", self.folder), "is a directory")
        words = ("add", self.folder / "x", self.journal, "--edit", 3, self.folder)
        self.assert_unusable(run(*words), "is a directory")

    def test_a_pipe_does_not_hang(self) -> None:
        pipe = self.folder / "pipe"
        os.mkfifo(pipe)
        self.assert_unusable(run("check", pipe), "not a plain file")
        self.assert_unusable(run("add", pipe, self.journal, "--edit", 9, self.object))
        self.assert_unusable(run("new", pipe))

    def test_empty_files(self) -> None:
        self.map.write_bytes(b"")
        for words in self.commands_on_the_map().values():
            self.assert_refused(run(*words), 1)
        self.journal.write_bytes(b"")
        self.assert_done(run("journal", self.journal), "records in use: 0 of 0\n")

    def test_an_empty_journal_is_full(self) -> None:
        self.journal.write_bytes(b"")
        self.assert_refused(self.remove(2, 0), 15)

    def test_truncated_map(self) -> None:
        whole = self.map.read_bytes()
        for length, number, place in ((47, 1, 0), (48, 5, 12), (87, 5, 12), (6_235, 5, 12)):
            self.map.write_bytes(whole[:length])
            for words in self.commands_on_the_map().values():
                self.assert_refused(run(*words), number, place)
            self.assertEqual(self.map.read_bytes(), whole[:length])

    def test_journal_of_odd_length(self) -> None:
        data = self.journal.read_bytes()[:-1]
        self.journal.write_bytes(data)
        for words in self.commands_on_the_journal().values():
            self.assert_refused(run(*words), 13)
        self.assertEqual(self.journal.read_bytes(), data)

    def test_malformed_journal_says_where(self) -> None:
        data = bytearray(self.journal.read_bytes())
        data[4] = 9
        self.journal.write_bytes(data)
        self.assertIn("record 0 has kind 9", run("journal", self.journal).err)
        self.assert_refused(self.remove(2, 0), 13)

    def test_huge_map(self) -> None:
        with open(self.map, "r+b") as file:
            file.truncate(1 << 36)
        for words in self.commands_on_the_map().values():
            self.assert_unusable(run(*words), self.map, "longer than 16,777,216 bytes")
        self.assertEqual(self.map.stat().st_size, 1 << 36)

    def test_the_longest_map(self) -> None:
        with open(self.map, "r+b") as file:
            file.truncate(16_777_216)
        self.assertEqual(run("check", self.map).code, DONE)
        self.assert_refused(self.add_bridge(2), 11)
        self.assertEqual(self.remove(2, 0).code, DONE)
        with open(self.map, "r+b") as file:
            file.truncate(16_777_217)
        self.assert_unusable(run("check", self.map), "longer than 16,777,216 bytes")

    def test_the_last_byte_of_the_longest_map(self) -> None:
        with open(self.map, "r+b") as file:
            file.truncate(16_777_216 - 40)
        self.assert_done(self.add_bridge(2), "done: edit 2, slot 1, map of 16,777,216 bytes\n")

    def test_huge_journal(self) -> None:
        with open(self.journal, "r+b") as file:
            file.truncate(1 << 36)
        for words in self.commands_on_the_journal().values():
            self.assert_refused(run(*words), 13)

    def test_the_longest_journal(self) -> None:
        with open(self.journal, "r+b") as file:
            file.truncate(65_536)
        self.assertEqual(self.remove(2, 0).code, DONE)
        self.assertTrue(run("journal", self.journal).out.startswith("records in use: 2 of 4,096"))
        with open(self.journal, "r+b") as file:
            file.truncate(65_552)
        self.assert_refused(self.remove(3, 0), 13)

    def test_read_only_files(self) -> None:
        for path in (self.map, self.journal):
            path.chmod(0o444)
            self.assert_unusable(self.remove(2, 0), path, "read-only")
            path.chmod(0o644)
        self.map.chmod(0o444)
        self.journal.chmod(0o444)
        self.assertEqual(run("check", self.map).code, DONE)
        self.assertEqual(run("show", self.map).code, DONE)
        self.assertEqual(run("search", self.map, 0, 0, 9, 9).code, DONE)
        self.assertEqual(run("journal", self.journal).code, DONE)

    def test_files_of_others(self) -> None:
        """A folder that this user may not write to, and a file that may not be read."""
        self.folder.chmod(0o755)
        for path in (self.map, self.journal, self.object):
            path.chmod(0o666)
        before = self.map.read_bytes(), self.journal.read_bytes()
        self.assert_unusable(self.as_another("remove", 0), "cannot be saved", "nothing was changed")
        self.assertEqual((self.map.read_bytes(), self.journal.read_bytes()), before)
        self.assertEqual(self.names(), ["bridge.object", "city.journal", "city.ocd"])
        self.map.chmod(0o600)
        self.assert_unusable(self.as_another("remove", 0), self.map, "Permission denied")
        self.assert_unusable(self.as_another("check"), self.map, "Permission denied")

    def as_another(self, name: str, slot: int = -1) -> Ran:
        """The command as a user who owns none of the files; an administrator can become one."""
        if os.geteuid() != 0:
            self.skipTest("only an administrator can run a command as another user")
        words = [name, str(self.map)]
        if slot >= 0:
            words += [str(self.journal), "--edit", "2", "--slot", str(slot)]
        taffrail.check(b"")  # loads the library, which that user may be unable to reach
        reading, writing = os.pipe()
        child = os.fork()
        if child == 0:
            os.dup2(writing, 2)
            os.setegid(65_534)
            os.seteuid(65_534)
            sys.stderr = os.fdopen(2, "w")
            code = cli.main(words)
            sys.stderr.flush()
            os._exit(code)
        os.close(writing)
        with os.fdopen(reading) as pipe:
            said = pipe.read()
        return Ran(os.WEXITSTATUS(os.waitpid(child, 0)[1]), "", said)

    def test_hard_links(self) -> None:
        os.link(self.map, self.folder / "backup.ocd")
        self.assert_unusable(self.remove(2, 0), self.map, "hard link")
        self.assertEqual(run("check", self.map).code, DONE)

    def test_long_names(self) -> None:
        """A file whose name leaves no room for the endings of a save is read, and not edited."""
        longest = os.pathconf(self.folder, "PC_NAME_MAX")
        for room in (0, 16, 17, 21):
            name = self.folder / ("m" * (longest - room))
            self.map.rename(name)
            self.map = name
            self.assertEqual(run("check", self.map).code, DONE)
            self.assertEqual(run("show", self.map).code, DONE)
            before = self.map.read_bytes(), self.names()
            self.assert_unusable(self.remove(2, 0), "the name is too long to be edited")
            self.assertEqual((self.map.read_bytes(), self.names()), before)
        self.assert_unusable(run("new", self.folder / ("n" * longest)), "too long")
        self.assertEqual(self.names(), before[1])
        self.journal.rename(self.folder / ("j" * longest))
        self.assertEqual(run("journal", self.folder / ("j" * longest)).code, DONE)

    def test_the_longest_name_that_can_be_edited(self) -> None:
        name = self.folder / ("m" * (os.pathconf(self.folder, "PC_NAME_MAX") - 22))
        self.map.rename(name)
        self.map = name
        self.assertEqual(self.remove(2, 0).code, DONE)

    def test_names_of_the_stores_own_files(self) -> None:
        """A save would overwrite or remove a map or a journal of such a name."""
        old = self.map.read_bytes(), self.journal.read_bytes()
        for ending in (".taffrail-pending", ".taffrail-partner"):
            for name in (f"{self.map}{ending}", f"{self.map}{ending}.part"):
                self.assert_unusable(run("new", name), "needs another name")
                self.assert_unusable(run("new", "--journal", name), "needs another name")
                self.assertFalse(os.path.exists(name))
                self.journal.rename(name)
                words = ("remove", self.map, name, "--edit", 2, "--slot", 0)
                self.assert_unusable(run(*words), "needs another name")
                self.assert_unusable(run("journal", name), "needs another name")
                os.rename(name, self.journal)
                self.assertEqual((self.map.read_bytes(), self.journal.read_bytes()), old)
        self.assertEqual(self.names(), ["bridge.object", "city.journal", "city.ocd"])

    def test_one_file_for_both(self) -> None:
        words = ("remove", self.map, self.map, "--edit", 2, "--slot", 0)
        self.assert_unusable(run(*words), "named twice")
        link = self.folder / "link"
        link.symlink_to(self.map)
        words = ("remove", self.map, link, "--edit", 2, "--slot", 0)
        self.assert_unusable(run(*words), "named twice")


class LockedFiles(CliTest):
    def setUp(self) -> None:
        super().setUp()
        self.make_pair()
        self.assertEqual(self.add_bridge().code, DONE)

    def held(self, path: Path, kind: int) -> None:
        """Holds a lock on the file until the test ends."""
        file = open(path, "rb")
        self.addCleanup(file.close)
        fcntl.flock(file, kind)

    def test_a_map_that_is_being_edited(self) -> None:
        self.held(self.map, fcntl.LOCK_EX)
        for words in self.commands_on_the_map().values():
            ran = run(*words, "--no-wait")
            self.assert_unusable(ran, self.map, "is locked by another process")

    def test_a_journal_that_is_being_edited(self) -> None:
        self.held(self.journal, fcntl.LOCK_EX)
        for words in self.commands_on_the_journal().values():
            ran = run(*words, "--no-wait")
            self.assert_unusable(ran, self.journal, "is locked by another process")

    def test_a_map_that_is_being_read(self) -> None:
        self.held(self.map, fcntl.LOCK_SH)
        self.assertEqual(run("check", self.map, "--no-wait").code, DONE)
        self.assert_unusable(self.remove(2, 0, "--no-wait"), "is locked by another process")

    def test_waiting_in_vain(self) -> None:
        self.held(self.map, fcntl.LOCK_EX)
        started = time.monotonic()
        ran = run("check", self.map, "--wait", 0.5, "--json")
        self.assertGreaterEqual(time.monotonic() - started, 0.5)
        self.assertEqual(ran.code, UNUSABLE)
        self.assertIn("is locked by another process", ran.json()["message"])

    def test_waiting_for_the_end(self) -> None:
        with open(self.map, "rb") as file:
            fcntl.flock(file, fcntl.LOCK_EX)
            words = command_line("remove", self.map, self.journal, "--edit", 2, "--slot", 0)
            child = subprocess.Popen(words, env=environment(), stdout=subprocess.PIPE)
            time.sleep(0.5)
            self.assertIsNone(child.poll())
        out, _ = child.communicate(timeout=60)
        self.assertEqual((child.returncode, out[:5]), (DONE, b"done:"))


class Output(CliTest):
    """Where the answer goes, and what happens when it cannot go there."""

    def setUp(self) -> None:
        super().setUp()
        self.make_pair()
        self.add_bridge()

    def test_a_reader_that_has_seen_enough(self) -> None:
        words = command_line("show", self.map, "--free")
        child = subprocess.Popen(
            words, env=environment(), stdout=subprocess.PIPE, stderr=subprocess.PIPE
        )
        assert child.stdout is not None and child.stderr is not None
        child.stdout.close()
        self.assertEqual(child.stderr.read(), b"")
        child.stderr.close()
        self.assertEqual(child.wait(), DONE)

    def assert_code_on_a_full_disk(self, code: int, *words: object) -> bytes:
        """The exit code where the answer cannot be written. Gives what is told of it."""
        with open("/dev/full", "wb") as full:
            ended = subprocess.run(
                command_line(*words),
                env=environment(),
                stdout=full,
                stderr=subprocess.PIPE,
                check=False,
            )
        self.assertEqual(ended.returncode, code)
        self.assertIn(b"No space left", ended.stderr)
        self.assertNotIn(b"Traceback", ended.stderr)
        return ended.stderr

    @unittest.skipUnless(os.path.exists("/dev/full"), "there is no /dev/full")
    def test_a_full_disk(self) -> None:
        self.assert_code_on_a_full_disk(UNUSABLE, "check", self.map)

    @unittest.skipUnless(os.path.exists("/dev/full"), "there is no /dev/full")
    def test_a_full_disk_after_an_edit(self) -> None:
        """The exit code says that it is done."""
        removal = ("remove", self.map, self.journal, "--edit", 2, "--slot", 0)
        self.assert_code_on_a_full_disk(FAILED_AFTERWARDS, *removal)
        again = "done before: edit 2, slot 0, map of 6,236 bytes\n"
        self.assert_done(self.remove(2, 0), again)
        self.assert_code_on_a_full_disk(FAILED_AFTERWARDS, *removal, "--json")
        other = self.folder / "other.ocd"
        self.assert_code_on_a_full_disk(FAILED_AFTERWARDS, "new", other)
        self.assertEqual(other.read_bytes(), layout.empty_map(8))
        refused = ("remove", self.map, self.journal, "--edit", 3, "--slot", 0, "--json")
        self.assert_code_on_a_full_disk(UNUSABLE, *refused)

    @unittest.skipUnless(os.path.exists("/dev/full"), "there is no /dev/full")
    def test_a_full_disk_and_a_warning(self) -> None:
        """A journal that is nearly full is told nevertheless."""
        self.make_pair(records=1)
        words = ("add", self.map, self.journal, "--edit", 1, self.object)
        told = self.assert_code_on_a_full_disk(FAILED_AFTERWARDS, *words)
        self.assertIn(b"its one record is used", told)

    @unittest.skipUnless(os.path.exists("/dev/full"), "there is no /dev/full")
    def test_standard_error_that_cannot_be_written(self) -> None:
        """The exit code is what it would be otherwise, and nothing goes to standard output."""
        missing = self.folder / "missing"
        for words, code in (
            (("check", missing), UNUSABLE),
            (("fly",), UNUSABLE),
            (("check",), UNUSABLE),
            (("remove", self.map, self.journal, "--edit", 2, "--slot", 1), REFUSED),
        ):
            for there in ("2>/dev/full", "2>&-"):
                with self.subTest(words=words, there=there):
                    line = f"{shlex.join(command_line(*words))} {there}"
                    ended = subprocess.run(
                        line, shell=True, env=environment(), stdout=subprocess.PIPE, check=False
                    )
                    self.assertEqual((ended.returncode, ended.stdout), (code, b""))

    @unittest.skipUnless(os.path.exists("/dev/full"), "there is no /dev/full")
    def test_neither_can_be_written(self) -> None:
        line = f"{shlex.join(command_line('check', self.map))} >/dev/full 2>/dev/full"
        ended = subprocess.run(line, shell=True, env=environment(), check=False)
        self.assertEqual(ended.returncode, UNUSABLE)

    def test_standard_input_that_does_not_wait(self) -> None:
        """The object comes in two halves, the second when the first has been read."""
        reading, writing = os.pipe()
        os.set_blocking(reading, False)
        os.write(writing, object_bytes()[:20])
        words = command_line("add", self.map, self.journal, "--edit", 2, "-")
        child = subprocess.Popen(
            words, env=environment(), stdin=reading, stdout=subprocess.PIPE, stderr=subprocess.PIPE
        )
        while self.bytes_in(reading) > 0 and child.poll() is None:
            time.sleep(0.01)
        os.write(writing, object_bytes()[20:])
        os.close(writing)
        os.close(reading)
        out, err = child.communicate(timeout=60)
        self.assertEqual((child.returncode, out[:5], err), (DONE, b"done:", b""))

    def bytes_in(self, pipe: int) -> int:
        """How many bytes wait in the pipe."""
        (count,) = struct.unpack("i", fcntl.ioctl(pipe, termios.FIONREAD, bytes(4)))
        return int(count)

    def test_standard_input_without_a_descriptor(self) -> None:
        with mock.patch.object(sys, "stdin", io.TextIOWrapper(io.BytesIO(b"bytes"))):
            self.assertEqual(cli.read_object("-"), b"bytes")

    def test_standard_input_that_is_closed(self) -> None:
        line = " ".join(command_line("add", self.map, self.journal, "--edit", 2, "-")) + " <&-"
        ended = subprocess.run(
            line, shell=True, env=environment(), capture_output=True, check=False
        )
        self.assertEqual(ended.returncode, UNUSABLE)
        self.assertIn(b"standard input is closed", ended.stderr)


class TheDemonstration(unittest.TestCase):
    @unittest.skipIf(MODEL, "the demonstration runs with the library")
    def test_with_folders_that_cd_looks_through(self) -> None:
        """With CDPATH, cd goes by other folders and writes where it went."""
        ended = subprocess.run(
            ["hosts/demo"],
            cwd=PACKAGE_FOLDER.parent.parent,
            env={**environment(), "CDPATH": ".", "PYTHON": sys.executable},
            capture_output=True,
            timeout=120,
            check=False,
        )
        self.assertEqual((ended.returncode, ended.stderr), (0, b""))
        self.assertIn(b"All answers were as expected.", ended.stdout)


class TheLibrary(CliTest):
    def test_a_library_that_is_missing(self) -> None:
        self.make_pair()
        ended = subprocess.run(
            [sys.executable, "-m", "taffrail", "check", str(self.map)],
            env={**environment(), "TAFFRAIL_LIBRARY": "/nowhere/libtaffrail.so"},
            capture_output=True,
            check=False,
        )
        self.assertEqual(ended.returncode, UNUSABLE)
        self.assertIn(b"hosts/build", ended.stderr)
        self.assertNotIn(b"Traceback", ended.stderr)


if __name__ == "__main__":
    unittest.main()
