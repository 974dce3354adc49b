"""Saving a map and its journal: cuts at every system call, failing calls, and many at once."""

from __future__ import annotations

import errno
import fcntl
import json
import os
import random
import resource
import shutil
import signal
import subprocess
import time
import traceback
import unittest
from dataclasses import replace
from pathlib import Path
from typing import Callable, ContextManager, List, Sequence, Tuple

from support_host import FolderTest, command_line, environment, object_bytes, run
from support_cut import (
    ALL,
    CHANGING,
    CountingFiles,
    Ended,
    Event,
    broken,
    count_calls,
    cut,
    cut_after,
    cut_in_the_middle,
    no_space,
    run_here,
    run_in_child,
)
from support_disk import PAGE, SmallDisk, fill_disk, mount_small_disk

import taffrail
from taffrail import layout
from taffrail.files import DoneUnfinished, FileProblem, Files, Locked
from taffrail.locks import EXCLUSIVE, SHARED, TURNSTILE, opened
from taffrail.pending import Pending, change_between, encode_pending
from taffrail.store import PARTNER, PENDING, Store, Wanted

MOST = 10_000_000
NO_DISK = 77  # the exit code of a child that gets no disk of its own
Pair = Tuple[bytes, bytes]


class Scene:
    """A folder with a pair of files, and a command that changes them."""

    def __init__(self, test: CutTest, *command: object) -> None:
        self.test = test
        self.command = command
        self.start = test.folder / "start"
        self.work = test.folder / "work"
        self.look = test.folder / "look"
        self.old = self.pair_in(self.start)
        self.begin()
        self.calls = {kind: self.count(kind) for kind in (ALL, CHANGING)}
        self.new = self.pair_in(self.work)

    def arguments(self, folder: Path, command: Sequence[object]) -> List[object]:
        """The command with MAP and JOURNAL as the files in this folder."""
        names = {"MAP": folder / "maps" / "city.ocd", "JOURNAL": folder / "city.journal"}
        return [names.get(str(word), word) for word in command]

    def pair_in(self, folder: Path) -> Pair:
        """The bytes that the two files really have."""
        return (folder / "maps" / "city.ocd").read_bytes(), (folder / "city.journal").read_bytes()

    def copy(self, source: Path, target: Path) -> None:
        shutil.rmtree(target, ignore_errors=True)
        shutil.copytree(source, target)

    def begin(self) -> None:
        self.copy(self.start, self.work)

    def count(self, counted: Sequence[str]) -> int:
        self.begin()
        return count_calls(self.arguments(self.work, self.command), counted)

    def run(self, chosen: int, counted: Sequence[str], event: Event) -> Ended:
        """The command on fresh files, with the event at this call."""
        self.begin()
        files = CountingFiles(counted, chosen, event)
        return run_in_child(self.arguments(self.work, self.command), files)

    def look_with(self, see: Callable[[Path], Pair]) -> Pair:
        """What can be seen of the files as the command left them; they stay as they are."""
        self.copy(self.work, self.look)
        return see(self.look)


# Ways to look at a pair. Each stands for the next command that opens it.


def map_then_journal(folder: Path) -> Pair:
    store = Store(wait=0)
    seen = store.read(Wanted(str(folder / "maps" / "city.ocd"), MOST))
    return seen, store.read(Wanted(str(folder / "city.journal"), MOST))


def journal_then_map(folder: Path) -> Pair:
    store = Store(wait=0)
    seen = store.read(Wanted(str(folder / "city.journal"), MOST))
    return store.read(Wanted(str(folder / "maps" / "city.ocd"), MOST)), seen


def an_edit(folder: Path) -> Pair:
    names = (folder / "maps" / "city.ocd", folder / "city.journal")
    with Store(wait=0).edit(*[Wanted(str(name), MOST) for name in names]) as group:
        seen_map, seen_journal = group.contents
    return seen_map, seen_journal


def without_writing(folder: Path) -> Pair:
    """A reader to whom the files are read-only."""
    names = (folder / "maps" / "city.ocd", folder / "city.journal")
    before = [name.read_bytes() for name in names]
    for name in names:
        name.chmod(0o444)
    seen = journal_then_map(folder)
    assert [name.read_bytes() for name in names] == before
    return seen


LOOKS = (map_then_journal, journal_then_map, an_edit, without_writing)


class ChildrenTest(FolderTest):
    """A test with processes that use its files at the same time."""

    def start(self, work: Callable[[], None]) -> int:
        child = os.fork()
        if child == 0:
            code = 1
            try:
                work()
                code = 0
            except BaseException:
                traceback.print_exc()
            finally:
                os._exit(code)
        return child

    def assert_all_end_well(self, children: Sequence[int]) -> None:
        for child in children:
            _, status = os.waitpid(child, 0)
            self.assertEqual(status, 0)


class CutTest(FolderTest):
    """Sets the scenes up. The map is in a folder of its own, apart from the journal."""

    def make_scene(self, *command: object, before: Sequence[Sequence[object]] = ()) -> Scene:
        folder = self.folder / "start"
        (folder / "maps").mkdir(parents=True)
        self.map, self.journal = folder / "maps" / "city.ocd", folder / "city.journal"
        self.make_pair(records=4)
        for earlier in before:
            names = {"MAP": self.map, "JOURNAL": self.journal}
            ended = run_here(*[names.get(str(word), word) for word in earlier])
            self.assertEqual(ended.code, 0, ended.wrote)
        return Scene(self, *command)

    def first_add(self) -> Scene:
        return self.make_scene("add", "MAP", "JOURNAL", "--edit", 1, self.object)

    def second_add(self) -> Scene:
        added = ("add", "MAP", "JOURNAL", "--edit", 1, self.object)
        return self.make_scene("add", "MAP", "JOURNAL", "--edit", 2, self.object, before=[added])

    def removal(self) -> Scene:
        added = ("add", "MAP", "JOURNAL", "--edit", 1, self.object)
        return self.make_scene("remove", "MAP", "JOURNAL", "--edit", 2, "--slot", 0, before=[added])

    def reinstatement(self) -> Scene:
        added = ("add", "MAP", "JOURNAL", "--edit", 1, self.object)
        gone = ("remove", "MAP", "JOURNAL", "--edit", 2, "--slot", 0)
        again = ("reinstate", "MAP", "JOURNAL", "--edit", 3, "--slot", 0)
        return self.make_scene(*again, before=[added, gone])


class Cuts(CutTest):
    """The process is ended at each of its system calls."""

    def assert_old_or_new(self, scene: Scene, look: Callable[[Path], Pair]) -> bool:
        """Whether it is the new pair that can be seen; it must be one of the two."""
        seen = scene.look_with(look)
        self.assertIn(seen, (scene.old, scene.new), look.__name__)
        return seen == scene.new

    def cut_everywhere(self, scene: Scene, counted: Sequence[str], event: Event) -> List[bool]:
        """Cuts at each counted call; tells for each whether the new pair was seen then."""
        found = []
        for chosen in range(1, scene.calls[tuple(counted)] + 1):
            ended = scene.run(chosen, counted, event)
            self.assertTrue(ended.cut, ended.wrote)
            seen = {self.assert_old_or_new(scene, look) for look in LOOKS}
            self.assertEqual(len(seen), 1, f"call {chosen}: two looks, two pairs")
            self.assert_repeat_is_safe(scene)
            found.append(seen.pop())
        return found

    def assert_repeat_is_safe(self, scene: Scene) -> None:
        """The command given again is done or done before, and leaves exactly the new pair
        and nothing beside it."""
        scene.copy(scene.work, scene.look)
        ended = run_here(*scene.arguments(scene.look, scene.command))
        self.assertEqual(ended.code, 0, ended.wrote)
        self.assertEqual(scene.pair_in(scene.look), scene.new)
        names = sorted(path.name for path in scene.look.rglob("*"))
        self.assertEqual(names, ["city.journal", "city.ocd", "maps"])

    def assert_one_turn(self, found: List[bool]) -> None:
        """The old pair up to some call, the new one from then on."""
        self.assertIn(True, found)
        self.assertIn(False, found)
        self.assertEqual(found, sorted(found))

    def test_first_add_at_every_call(self) -> None:
        scene = self.first_add()
        self.assert_one_turn(self.cut_everywhere(scene, ALL, cut))

    def test_second_add(self) -> None:
        self.assert_one_turn(self.cut_everywhere(self.second_add(), CHANGING, cut))

    def test_removal(self) -> None:
        self.assert_one_turn(self.cut_everywhere(self.removal(), CHANGING, cut))

    def test_reinstatement(self) -> None:
        self.assert_one_turn(self.cut_everywhere(self.reinstatement(), CHANGING, cut))

    def test_in_the_middle_of_writes(self) -> None:
        self.assert_one_turn(self.cut_everywhere(self.first_add(), CHANGING, cut_in_the_middle))

    def test_the_map_alone_stays_accepted(self) -> None:
        """Even a copy of the map without the files beside it is accepted."""
        scene = self.first_add()
        for chosen in range(1, scene.calls[CHANGING] + 1):
            scene.run(chosen, CHANGING, cut)
            alone = self.folder / "alone.ocd"
            shutil.copy(scene.work / "maps" / "city.ocd", alone)
            self.assertEqual(run_here("check", alone).code, 0)

    def test_cuts_while_finishing(self) -> None:
        """A command that finishes a cut edit is itself cut at each call."""
        scene = self.first_add()
        for chosen in range(1, scene.calls[CHANGING] + 1):
            scene.run(chosen, CHANGING, cut)
            new = self.assert_old_or_new(scene, without_writing)
            if new:
                self.cut_the_finishing(scene, ["check", "MAP"])
                self.cut_the_finishing(scene, ["journal", "JOURNAL"])

    def cut_the_finishing(self, scene: Scene, command: Sequence[object]) -> None:
        kept = self.folder / "kept"
        scene.copy(scene.work, kept)
        for chosen in range(1, 100):
            scene.copy(kept, scene.work)
            files = CountingFiles(CHANGING, chosen, cut_in_the_middle)
            ended = run_in_child(scene.arguments(scene.work, command), files)
            for look in (journal_then_map, without_writing):
                self.assertEqual(scene.look_with(look), scene.new)
            self.assert_repeat_is_safe(scene)
            if not ended.cut:
                self.assertEqual(ended.code, 0, ended.wrote)
                break
        else:
            self.fail("the command never came to its end")
        scene.copy(kept, scene.work)

    def test_the_real_commands_afterwards(self) -> None:
        """What a user sees who types a command after the cut."""
        scene = self.first_add()
        for chosen in range(1, scene.calls[CHANGING] + 1, 3):
            scene.run(chosen, CHANGING, cut)
            new = scene.look_with(map_then_journal) == scene.new
            listed = run("journal", scene.work / "city.journal", "--json").json()
            shown = run("show", scene.work / "maps" / "city.ocd", "--json").json()
            self.assertEqual((listed["used"], shown["live"]), (1, 1) if new else (0, 0))

    def test_new(self) -> None:
        """A cut while a pair is made leaves it whole, or leaves nothing but empty files, and
        the command can be given again."""
        command = ["new", self.map, "--journal", self.journal, "--records", 4]
        calls = count_calls(command, CHANGING)
        for chosen in range(1, calls + 1):
            for path in self.folder.glob("city*"):
                path.unlink()
            ended = run_in_child(command, CountingFiles(CHANGING, chosen, cut_in_the_middle))
            self.assertTrue(ended.cut)
            again = run_here(*command)
            self.assertIn(again.code, (0, 2))
            if again.code == 2:
                self.assertIn("exists already", again.wrote)
            seen = [Store().read(Wanted(str(path), MOST)) for path in (self.map, self.journal)]
            self.assertEqual(seen, [layout.empty_map(8), bytes(64)])
            added = run_here("add", self.map, self.journal, "--edit", 1, self.object)
            self.assertEqual(added.code, 0, added.wrote)
            self.assertEqual(self.names(), ["bridge.object", "city.journal", "city.ocd"])


class RandomCuts(FolderTest):
    """Real commands, ended by SIGKILL at times of no choosing."""

    def test_kill_at_any_time(self) -> None:
        self.make_pair(records=64)
        seed = random.randrange(2**32)
        chance = random.Random(seed)
        started = time.monotonic()
        self.assertEqual(self.add_bridge(1).code, 0)
        longest = 1.2 * (time.monotonic() - started)
        for edit in range(2, 32):
            with self.subTest(seed=seed, edit=edit):
                words = command_line("add", self.map, self.journal, "--edit", edit, self.object)
                child = subprocess.Popen(
                    words, env=environment(), stdout=subprocess.DEVNULL, stderr=subprocess.DEVNULL
                )
                time.sleep(chance.uniform(0, longest))
                child.kill()
                child.wait()
                self.assert_pair_agrees(edit)

    def assert_pair_agrees(self, edit: int) -> None:
        """As many objects as records; then the edit is given again, and both have it."""
        journal = layout.read_journal(Store().read(Wanted(str(self.journal), MOST)))
        slots = list(layout.all_slots(Store().read(Wanted(str(self.map), MOST))))
        live = sum(slot.state == "live" for slot in slots)
        self.assertEqual(live, len(journal))
        self.assertIn(len(journal), (edit - 1, edit))
        self.assertEqual(
            run_here("add", self.map, self.journal, "--edit", edit, self.object).code, 0
        )


class FailingCalls(CutTest):
    """The disk is full at each of the system calls in turn."""

    def test_what_is_said_is_true(self) -> None:
        scene = self.first_add()
        for chosen in range(1, scene.calls[CHANGING] + 1):
            ended = scene.run(chosen, CHANGING, no_space)
            self.assertIn(ended.code, (2, 3), ended.wrote)
            done = ended.code == 3
            self.assertEqual("the edit is done" in ended.wrote, done, ended.wrote)
            for look in LOOKS:
                seen = scene.look_with(look)
                self.assertEqual(seen, scene.new if done else scene.old, ended.wrote)

    def test_any_call(self) -> None:
        """The exit code says done, 0 or 3, exactly where the edit is done."""
        scene = self.first_add()
        for chosen in range(1, scene.calls[ALL] + 1):
            ended = scene.run(chosen, ALL, broken)
            seen = scene.look_with(map_then_journal)
            self.assertEqual(ended.code in (0, 3), seen == scene.new, (chosen, ended.wrote))
            self.assertIn(seen, (scene.old, scene.new))
            self.assertNotIn("Traceback", ended.wrote)

    def test_new(self) -> None:
        """A pair is made wholly, or nothing is left of the try."""
        command = ["new", self.map, "--journal", self.journal, "--records", 4]
        calls = count_calls(command, CHANGING)
        found = []
        for chosen in range(1, calls + 1):
            for path in self.folder.glob("city*"):
                path.unlink()
            ended = run_in_child(command, CountingFiles(CHANGING, chosen, no_space))
            self.assertIn(ended.code, (2, 3), ended.wrote)
            done = ended.code == 3
            if done:
                seen = [Store().read(Wanted(str(path), MOST)) for path in (self.map, self.journal)]
                self.assertEqual(seen, [layout.empty_map(8), bytes(64)])
            else:
                self.assertEqual(self.names(), ["bridge.object"], chosen)
            found.append(done)
        self.assertEqual(set(found), {False, True})

    def test_what_is_told_when_it_is_done(self) -> None:
        """The answer and then the trouble."""
        scene = self.first_add()
        last = scene.count(["remove"])
        trouble = (
            f"{scene.work}/maps/city.ocd: the edit is done, but the files could not be brought up"
            " to date (No space left on device); the next command finishes it"
        )
        answer = "done: edit 1, slot 0, map of 6,236 bytes"
        ended = scene.run(last, ["remove"], no_space)
        self.assertEqual(ended, (False, 3, f"{answer}\ntaffrail: {trouble}\n"))

    def test_what_is_told_of_a_journal_that_is_nearly_full(self) -> None:
        """It is told too, to people and to scripts."""
        scene = self.reinstatement()
        last = scene.count(["remove"])
        ended = scene.run(last, ["remove"], no_space)
        self.assertEqual(ended.code, 3)
        answer, trouble, warning = ended.wrote.splitlines()
        self.assertTrue(answer.startswith("done: edit 3,"), answer)
        self.assertIn("the next command finishes it", trouble)
        self.assertIn("city.journal: 3 of 4 records are used", warning)
        scene.command = (*scene.command, "--json")
        told = json.loads(scene.run(last, ["remove"], no_space).wrote)
        self.assertEqual((told["result"], told["records_left"]), ("done unfinished", 1))
        self.assertIn(told["message"], trouble)
        self.assertIn(told["warning"], warning)

    def test_what_is_told_of_new_files(self) -> None:
        command = ["new", self.map, "--journal", self.journal, "--json"]
        ended = run_in_child(command, CountingFiles(["write"], 3, no_space))
        self.assertEqual(ended.code, 3)
        told = json.loads(ended.wrote)
        self.assertEqual((told["result"], told["records"]), ("new unfinished", 4_096))
        self.assertIn("the next command finishes it", told["message"])

    def test_new_leaves_what_it_has_not_made(self) -> None:
        """An empty file that was there before stays, and so does one that others have filled."""
        self.map.touch()
        command = ["new", self.map, "--journal", self.journal, "--records", 4]
        ended = run_in_child(command, CountingFiles(["write"], 1, no_space))
        self.assertEqual(ended.code, 2)
        self.assertEqual(self.names(), ["bridge.object", "city.ocd"])
        self.map.unlink()

        def filled(files: Files, name: str, given: Sequence[object]) -> None:
            self.map.write_bytes(b"theirs")
            no_space(files, name, given)

        ended = run_in_child(command, CountingFiles(["create"], 3, filled))
        self.assertEqual(ended.code, 2)
        self.assertEqual(self.map.read_bytes(), b"theirs")

    def test_a_full_disk_while_finishing(self) -> None:
        """A reader sees the new pair though it cannot be finished; an editor says why not."""
        scene = self.first_add()
        scene.run(2, ["rename"], cut_after)
        files = CountingFiles(["write"], 1, no_space)
        ended = run_in_child(scene.arguments(scene.work, ["show", "MAP", "--json"]), files)
        self.assertEqual(ended.code, 0)
        self.assertIn('"live": 1', ended.wrote)
        files = CountingFiles(["write"], 1, no_space)
        ended = run_in_child(scene.arguments(scene.work, scene.command), files)
        self.assertEqual(ended.code, 2)
        self.assertIn("No space left on device", ended.wrote)


class FilledByOthers(SmallDisk):
    """A disk whose room others take as soon as an edit is done."""

    def rename(self, path: str, new_path: str) -> None:
        super().rename(path, new_path)
        if new_path.endswith(PENDING):
            self.left = 0


class Recording(Files):
    """Notes what is reserved and what is written: in which file, from where, how much."""

    def __init__(self) -> None:
        self.reserved: List[Tuple[int, int, int]] = []
        self.written: List[Tuple[int, int, int]] = []

    def reserve(self, handle: int, at: int, size: int) -> None:
        self.reserved.append((self.about(handle).st_ino, at, size))

    def write(self, handle: int, data: bytes, at: int) -> int:
        self.written.append((self.about(handle).st_ino, at, len(data)))
        return super().write(handle, data, at)


class LittleRoom(CutTest, ChildrenTest):
    """On a disk with little room an edit is done, or nothing is changed."""

    def large_add(self) -> Scene:
        """An add with which the map grows by some blocks."""
        self.object.write_bytes(object_bytes([(5, 5)] * 1_500))
        return self.first_add()

    def assert_refused(self, scene: Scene, ended: Ended, words: str) -> None:
        """Nothing was changed, nothing is left, and with room the command is done."""
        self.assertEqual(ended.code, 2, ended.wrote)
        self.assertIn(words, ended.wrote)
        self.assertIn("nothing was changed", ended.wrote)
        self.assertEqual(scene.pair_in(scene.work), scene.old)
        self.assertEqual(list(scene.work.rglob("*taffrail*")), [])
        self.assertEqual(run_here(*scene.arguments(scene.work, scene.command)).code, 0)
        self.assertEqual(scene.pair_in(scene.work), scene.new)

    def assert_done_or_refused(self, scene: Scene, run_with: Callable[[int], Ended]) -> None:
        """With more and more blocks left: refused up to some number, and done from there."""
        codes = []
        for left in range(20):
            scene.begin()
            ended = run_with(left)
            codes.append(ended.code)
            if ended.code == 0:
                self.assertEqual(scene.pair_in(scene.work), scene.new)
            else:
                self.assert_refused(scene, ended, "No space left on device")
        self.assertEqual(codes, sorted(codes, reverse=True))
        self.assertEqual(set(codes), {0, 2})

    def assert_done_or_refused_on_a_played_disk(self, can_reserve: bool) -> None:
        scene = self.large_add()
        arguments = scene.arguments(scene.work, scene.command)
        self.assert_done_or_refused(
            scene, lambda left: run_in_child(arguments, SmallDisk(left, can_reserve))
        )

    def test_a_disk_that_can_reserve(self) -> None:
        self.assert_done_or_refused_on_a_played_disk(True)

    def test_a_disk_that_cannot_reserve(self) -> None:
        self.assert_done_or_refused_on_a_played_disk(False)

    def test_a_real_disk(self) -> None:
        child = self.start(self.on_a_real_disk)
        _, status = os.waitpid(child, 0)
        if os.WEXITSTATUS(status) == NO_DISK:
            self.skipTest("the system does not let this user mount a disk")
        self.assertEqual(status, 0)

    def on_a_real_disk(self) -> None:
        try:
            mount_small_disk(self.folder, 256 * PAGE)
        except OSError:
            os._exit(NO_DISK)
        scene = self.large_add()
        arguments = scene.arguments(scene.work, scene.command)

        def run_with(left: int) -> Ended:
            filler = fill_disk(self.folder, left * PAGE)
            ended = run_here(*arguments)
            filler.unlink()
            return ended

        self.assert_done_or_refused(scene, run_with)

    def test_a_limit_on_the_size_of_files(self) -> None:
        """A real one, which lets a save write the pending file and not the longer map."""
        scene = self.second_add()
        limit = len(scene.new[0]) - 1

        def limited() -> None:
            resource.setrlimit(resource.RLIMIT_FSIZE, (limit, limit))

        for files in (Files(), Recording()):  # which does not ask for the limit when reserving
            scene.begin()
            ended = run_in_child(scene.arguments(scene.work, scene.command), files, limited)
            self.assert_refused(scene, ended, "File too large")

    def test_reserved_room_is_given_back(self) -> None:
        scene = self.large_add()
        scene.begin()
        path = scene.work / "maps" / "city.ocd"
        before = path.stat().st_blocks
        self.assertEqual(scene.run(1, ["rename"], no_space).code, 2)
        self.assertEqual(path.stat().st_blocks, before)

    def test_room_is_reserved_for_all_that_is_written(self) -> None:
        """What is written over may be a hole in the file, which takes no room before."""
        self.make_pair()
        wanted = [Wanted(str(path), MOST) for path in (self.map, self.journal)]
        files = Recording()
        with Store(files).edit(*wanted) as group:
            group.save(*[b"new" + content for content in group.contents])
        own = {path.stat().st_ino for path in (self.map, self.journal)}
        written = [place for place in files.written if place[0] in own]
        self.assertEqual(len(written), 4)
        self.assertEqual(sorted(files.reserved), sorted(written))

    def test_room_that_others_take(self) -> None:
        """Where room cannot be reserved, others may take it when the edit is done. Then the
        command says that it is done, and the next one finishes it."""
        scene = self.large_add()
        scene.begin()
        arguments = scene.arguments(scene.work, scene.command)
        ended = run_in_child([*arguments, "--json"], FilledByOthers(100, can_reserve=False))
        self.assertEqual(ended.code, 3, ended.wrote)
        told = json.loads(ended.wrote)
        self.assertEqual((told["result"], told["slot"]), ("done unfinished", 0))
        self.assertIn("No space left on device", told["message"])
        self.assertEqual(scene.look_with(without_writing), scene.new)
        again = run_here(*arguments)
        self.assertEqual((again.code, again.wrote[:12]), (0, "done before:"))
        self.assertEqual(scene.pair_in(scene.work), scene.new)
        self.assertEqual(list(scene.work.rglob("*taffrail*")), [])


class ClosedFolder(Files):
    """A system where this folder can be written, but not opened to look at what is in it."""

    def __init__(self, folder: Path) -> None:
        self.folder = str(folder)

    def open(self, path: str, flags: int) -> int:
        if path == self.folder:
            raise PermissionError(errno.EACCES, os.strerror(errno.EACCES), path)
        return super().open(path, flags)


class FoldersThatCannotBeOpened(CutTest):
    """A folder's names cannot be brought to disk: that is told before the edit is done."""

    def assert_nothing_is_changed(self, scene: Scene, folder: Path) -> None:
        ended = run_in_child(scene.arguments(scene.work, scene.command), ClosedFolder(folder))
        self.assertEqual(ended.code, 2)
        self.assertIn("nothing was changed", ended.wrote)
        self.assertIn("Permission denied", ended.wrote)
        self.assertEqual(scene.pair_in(scene.work), scene.old)
        self.assertEqual(list(scene.work.rglob("*taffrail*")), [])

    def test_the_maps_folder(self) -> None:
        scene = self.first_add()
        scene.begin()
        self.assert_nothing_is_changed(scene, scene.work / "maps")

    def test_the_journals_folder(self) -> None:
        scene = self.first_add()
        scene.begin()
        self.assert_nothing_is_changed(scene, scene.work)


class Waiting(CutTest):
    """A pair that waits to be finished, and what people do with files meanwhile."""

    def setUp(self) -> None:
        super().setUp()
        self.scene = self.first_add()
        self.scene.run(2, ["rename"], cut_after)  # the note's rename is the first
        self.map = self.scene.work / "maps" / "city.ocd"
        self.journal = self.scene.work / "city.journal"
        self.pending = Path(f"{self.map}{PENDING}")
        self.note = Path(f"{self.journal}{PARTNER}")

    def pair(self) -> Pair:
        return self.map.read_bytes(), self.journal.read_bytes()

    def read(self, path: Path) -> bytes:
        return Store(wait=0).read(Wanted(str(path), MOST))

    def assert_problem(self, words: str, path: Path) -> None:
        before = self.pair()
        with self.assertRaisesRegex(FileProblem, words):
            self.read(path)
        self.assertEqual(self.pair(), before)

    def test_it_waits(self) -> None:
        self.assertEqual(self.pair(), self.scene.old)
        self.assertTrue(self.note.exists())

    def test_each_read_command_finishes(self) -> None:
        window = (0, 0, 9, 9)
        commands = (("check", "MAP"), ("show", "MAP"), ("search", "MAP", *window))
        for command in (*commands, ("journal", "JOURNAL")):
            self.scene.copy(self.scene.work, self.scene.look)
            ended = run_here(*self.scene.arguments(self.scene.look, command))
            self.assertEqual(ended.code, 0, ended.wrote)
            self.assertEqual(self.scene.pair_in(self.scene.look), self.scene.new)

    def test_a_reader_does_not_wait_for_readers(self) -> None:
        with open(self.map, "rb") as other:
            fcntl.flock(other, fcntl.LOCK_SH)
            self.assertEqual(self.read(self.map), self.scene.new[0])
            self.assertEqual(self.read(self.journal), self.scene.new[1])
            self.assertEqual(self.pair(), self.scene.old)

    def test_the_folder_gets_another_name(self) -> None:
        moved = self.folder / "moved"
        self.scene.work.rename(moved)
        self.assertEqual(journal_then_map(moved), self.scene.new)
        self.assertEqual(self.scene.pair_in(moved), self.scene.new)

    def test_links_and_relative_paths(self) -> None:
        link = self.folder / "link.ocd"
        link.symlink_to(os.path.join("work", "maps", "city.ocd"))
        os.chdir(self.folder)
        self.addCleanup(os.chdir, "/")
        self.assertEqual(Store().read(Wanted("link.ocd", MOST)), self.scene.new[0])
        self.assertEqual(self.pair(), self.scene.new)
        self.assertTrue(link.is_symlink())

    def test_the_map_is_changed_by_something_else(self) -> None:
        self.map.write_bytes(layout.empty_map(6))
        self.assert_problem("something else has changed it", self.map)

    def test_the_map_is_cut_off(self) -> None:
        self.map.write_bytes(b"")
        self.assert_problem("something else has changed it", self.map)

    def test_the_journal_is_changed_by_something_else(self) -> None:
        self.journal.write_bytes(bytes(32))
        self.assert_problem("something else has changed it", self.journal)
        ended = run_here("remove", self.map, self.journal, "--edit", 9, "--slot", 0)
        self.assertEqual(ended.code, 2)
        self.assertIn("has to be finished first", ended.wrote)
        self.assertEqual(self.map.read_bytes(), self.scene.old[0])

    def test_the_journal_is_away(self) -> None:
        self.journal.rename(self.folder / "elsewhere")
        self.assertEqual(self.read(self.map), self.scene.new[0])
        self.assertEqual(self.map.read_bytes(), self.scene.old[0])
        (self.folder / "elsewhere").rename(self.journal)
        self.assertEqual(self.read(self.map), self.scene.new[0])
        self.assertEqual(self.pair(), self.scene.new)

    def test_the_map_is_away(self) -> None:
        self.map.rename(self.folder / "elsewhere")
        with self.assertRaisesRegex(FileProblem, "cannot be found"):
            self.read(self.journal)

    def test_the_pending_file_is_damaged(self) -> None:
        data = bytearray(self.pending.read_bytes())
        data[len(data) // 2] ^= 1
        self.pending.write_bytes(data)
        self.assert_problem("damaged", self.map)
        self.assert_problem("damaged", self.journal)
        self.pending.write_bytes(b"")
        self.assert_problem("damaged", self.map)

    def test_the_note_is_missing(self) -> None:
        """Without the note the journal is not written to: the pending file could be anyone's."""
        self.note.unlink()
        self.assertEqual(self.read(self.map), self.scene.new[0])
        self.assertEqual(self.pair(), self.scene.old)

    def test_a_stranger_is_not_written(self) -> None:
        """A pending file that names a file of someone else does not reach it."""
        victim = self.folder / "victim"
        victim.write_bytes(b"mine")
        changes = (
            change_between(str(self.map), self.scene.old[0], self.scene.old[0]),
            change_between(str(victim), b"mine", b"yours"),
        )
        self.pending.write_bytes(encode_pending(Pending(changes)))
        self.read(self.map)
        ended = run_here(*self.scene.arguments(self.scene.work, self.scene.command))
        self.assertEqual(ended.code, 2)
        self.assertEqual(victim.read_bytes(), b"mine")

    def test_another_map_with_the_same_journal(self) -> None:
        """Editing a second map with this journal finishes the first map's edit before."""
        other = self.folder / "other.ocd"
        other.write_bytes(self.scene.new[0])
        ended = run_here("remove", other, self.journal, "--edit", 2, "--slot", 0)
        self.assertEqual(ended.code, 0, ended.wrote)
        self.assertEqual(self.map.read_bytes(), self.scene.new[0])
        records = layout.read_journal(self.journal.read_bytes())
        self.assertEqual(records, [(1, "add", 0), (2, "remove", 0)])

    def test_another_journal_with_the_same_map(self) -> None:
        other = self.folder / "other.journal"
        other.write_bytes(bytes(64))
        ended = run_here("remove", self.map, other, "--edit", 1, "--slot", 0)
        self.assertEqual(ended.code, 0, ended.wrote)
        self.assertEqual(self.journal.read_bytes(), self.scene.new[1])
        self.assertEqual(layout.read_journal(other.read_bytes()), [(1, "remove", 0)])

    def test_a_path_that_is_too_long(self) -> None:
        """The folder is moved so deep that the pending file is there and cannot be reached: the
        old map is not taken for the truth."""
        whole, rest = divmod(4_095 - len(f"{self.folder}/work/maps/city.ocd"), 201)
        deep = self.folder.joinpath(*["d" * 200] * whole, "d" * (rest - 1))
        os.makedirs(deep)
        self.scene.work.rename(deep / "work")
        self.map = deep / "work" / "maps" / "city.ocd"
        with self.assertRaisesRegex(FileProblem, "too long"):
            self.read(self.map)

    def test_hard_links(self) -> None:
        """A second name: read as it will be, but not written."""
        os.link(self.map, self.folder / "backup.ocd")
        self.assertEqual(self.read(self.map), self.scene.new[0])
        self.assertEqual(self.pair(), self.scene.old)


class Unfinished(CutTest):
    """What an edit leaves that was cut before it was done."""

    def test_the_next_edit_clears_it_away(self) -> None:
        scene = self.first_add()
        for chosen in range(1, scene.calls[CHANGING] + 1):
            scene.run(chosen, CHANGING, cut)
            left = [path.name for path in scene.work.rglob("*taffrail*")]
            if any(name.endswith(PENDING) for name in left):
                return
            an_edit(scene.work)
            self.assertEqual([path.name for path in scene.work.rglob("*taffrail*")], [])
        self.fail("never done")

    def test_a_note_that_is_left_is_no_hindrance(self) -> None:
        scene = self.first_add()
        scene.run(1, ["rename"], cut_after)
        self.assertTrue((scene.work / f"city.journal{PARTNER}").exists())
        self.assertEqual(scene.look_with(journal_then_map), scene.old)


class ManyAtOnce(ChildrenTest):
    """Processes that edit one map at the same time lose nothing."""

    def adds(self, first: int, count: int) -> Callable[[], None]:
        def work() -> None:
            for edit in range(first, first + count):
                ended = run_here("add", self.map, self.journal, "--edit", edit, self.object)
                assert ended.code == 0, ended.wrote

        return work

    def looks(self, count: int) -> Callable[[], None]:
        def work() -> None:
            for _ in range(count):
                for words in (["check", self.map], ["journal", self.journal]):
                    ended = run_here(*words)
                    assert ended.code == 0, ended.wrote

        return work

    def assert_complete(self, edits: int) -> None:
        records = layout.read_journal(self.journal.read_bytes())
        self.assertEqual(sorted(record.edit for record in records), list(range(1, edits + 1)))
        self.assertEqual(sorted(record.slot for record in records), list(range(edits)))
        slots = list(layout.all_slots(self.map.read_bytes()))
        self.assertEqual(sum(slot.state == "live" for slot in slots), edits)
        self.assertEqual(self.names(), ["bridge.object", "city.journal", "city.ocd"])

    def test_two_editors_and_a_reader(self) -> None:
        self.make_pair(records=100)
        works = [self.adds(1, 50), self.adds(51, 50), self.looks(50)]
        self.assert_all_end_well([self.start(work) for work in works])
        self.assert_complete(100)

    def test_two_real_commands(self) -> None:
        self.make_pair(records=40)
        for edit in range(1, 20, 2):
            both = [
                subprocess.Popen(
                    command_line("add", self.map, self.journal, "--edit", number, self.object),
                    env=environment(),
                    stdout=subprocess.DEVNULL,
                )
                for number in (edit, edit + 1)
            ]
            self.assertEqual([child.wait() for child in both], [0, 0])
        self.assert_complete(20)

    def test_the_same_edit_twice_at_once(self) -> None:
        """Two phones send one edit: it is done once."""
        self.make_pair(records=20)
        for edit in range(1, 11):
            self.assert_all_end_well([self.start(self.adds(edit, 1)) for _ in range(2)])
        self.assert_complete(10)

    def test_two_that_make_the_same_files(self) -> None:
        """One of them makes the pair, the other finds it there."""
        for count in range(10):
            names = (self.folder / f"{count}.ocd", self.folder / f"{count}.journal")
            codes = []

            def work() -> None:
                ended = run_here("new", names[0], "--journal", names[1], "--records", 4)
                os._exit(ended.code)

            children = [self.start(work) for _ in range(2)]
            for child in children:
                codes.append(os.WEXITSTATUS(os.waitpid(child, 0)[1]))
            self.assertEqual(sorted(codes), [0, 2])
            self.assertEqual([path.stat().st_size for path in names], [48, 64])

    def test_editors_that_are_killed(self) -> None:
        """One editor goes on while others are ended in the middle of their work."""
        self.make_pair(records=64)
        steady = self.start(self.adds(1, 30))
        chance = random.Random(7)
        for _ in range(15):
            other = self.start(self.adds(31, 1))
            time.sleep(chance.uniform(0, 0.05))
            os.kill(other, 9)
            os.waitpid(other, 0)
        self.assert_all_end_well([steady])
        self.adds(31, 1)()
        self.assert_complete(31)

    def test_one_journal_for_two_maps(self) -> None:
        """Locks are taken in one order, so nobody waits for ever."""
        self.make_pair(records=64)
        self.assertEqual(self.add_bridge(1).code, 0)
        other = self.folder / "another.ocd"
        shutil.copy(self.map, other)

        def toggles(path: Path, first: int) -> Callable[[], None]:
            def work() -> None:
                for edit in range(first, first + 20):
                    kind = "remove" if (edit - first) % 2 == 0 else "reinstate"
                    ended = run_here(kind, path, self.journal, "--edit", edit, "--slot", 0)
                    assert ended.code == 0, ended.wrote

            return work

        self.assert_all_end_well([self.start(toggles(self.map, 2)), self.start(toggles(other, 22))])
        self.assertEqual(len(layout.read_journal(self.journal.read_bytes())), 41)


class SlowFiles(Files):
    """A slow disk, so that whoever reads in a loop holds the lock for most of it."""

    def read(self, handle: int, size: int, at: int) -> bytes:
        time.sleep(0.02)
        return super().read(handle, size, at)


class NoTurnstile(Files):
    """A system without locks on bytes."""

    def lock_byte(self, handle: int, kind: int, at: int) -> None:
        raise OSError(errno.EINVAL, os.strerror(errno.EINVAL))


class Turns(ChildrenTest):
    """Whoever waits for a file gets it, however many use it in a loop."""

    LIMIT = 20.0  # seconds; whoever gets a turn waits for a small part of it

    def setUp(self) -> None:
        super().setUp()
        self.make_pair()
        self.wanted = [Wanted(str(path), MOST) for path in (self.map, self.journal)]

    def start_until_the_end(self, work: Callable[[], None]) -> None:
        child = self.start(work)
        self.addCleanup(os.waitpid, child, 0)
        self.addCleanup(os.kill, child, signal.SIGKILL)

    def wait_until(self, condition: Callable[[], bool]) -> None:
        deadline = time.monotonic() + self.LIMIT
        while not condition():
            self.assertLess(time.monotonic(), deadline)
            time.sleep(0.01)

    def reads_in_a_loop(self, begun: Path) -> Callable[[], None]:
        def work() -> None:
            while True:
                Store(SlowFiles()).read(self.wanted[0])
                begun.touch()

        return work

    def test_an_editor_among_readers(self) -> None:
        begun = [self.folder / f"reader-{number}" for number in range(8)]
        for path in begun:
            self.start_until_the_end(self.reads_in_a_loop(path))
        self.wait_until(lambda: all(path.exists() for path in begun))
        started = time.monotonic()
        with Store(wait=self.LIMIT).edit(*self.wanted) as group:
            group.save(*group.contents)
        self.assertLess(time.monotonic() - started, 1.0)

    def holding(self, kind: int) -> ContextManager[object]:
        """The map held in this way, without waiting for it."""
        return opened(Files(), [str(self.map)], kind, time.monotonic())

    def waits_and_holds(self, kind: int) -> None:
        with opened(Files(), [str(self.map)], kind, time.monotonic() + self.LIMIT):
            time.sleep(self.LIMIT)

    def someone_waits(self) -> bool:
        with open(self.map, "r+b") as file:
            try:
                Files().lock_byte(file.fileno(), fcntl.F_WRLCK, TURNSTILE)
            except BlockingIOError:
                return True
        return False

    def assert_next(self, other: int, mine: int) -> None:
        """Who holds the file cannot have it again before another who waits for it."""
        with self.holding(mine):
            self.start_until_the_end(lambda: self.waits_and_holds(other))
            self.wait_until(self.someone_waits)
        with self.assertRaises(Locked), self.holding(mine):
            pass

    def test_an_editor_comes_before_a_reader_who_has_had_a_turn(self) -> None:
        self.assert_next(EXCLUSIVE, SHARED)

    def test_a_reader_comes_before_an_editor_who_has_had_a_turn(self) -> None:
        self.assert_next(SHARED, EXCLUSIVE)

    def test_an_editor_comes_before_an_editor_who_has_had_a_turn(self) -> None:
        self.assert_next(EXCLUSIVE, EXCLUSIVE)

    def test_who_has_given_up_is_not_waited_for(self) -> None:
        with self.holding(SHARED):
            with self.assertRaises(Locked), self.holding(EXCLUSIVE):
                pass
            with self.holding(SHARED):
                pass

    def test_readers_read_together(self) -> None:
        with self.holding(SHARED), self.holding(SHARED):
            self.assertFalse(self.someone_waits())

    def test_a_system_without_a_turnstile(self) -> None:
        store = Store(NoTurnstile(), wait=0)
        with store.edit(*self.wanted) as group:
            group.save(*group.contents)
            with self.assertRaises(Locked):
                store.read(self.wanted[0])
        self.assertEqual(store.read(self.wanted[0]), self.map.read_bytes())


class Saving(FolderTest):
    def test_files_keep_what_they_are(self) -> None:
        self.make_pair()
        self.map.chmod(0o640)
        link = self.folder / "link.ocd"
        link.symlink_to(self.map.name)
        before = self.map.stat()
        ended = run_here("add", link, self.journal, "--edit", 1, self.object)
        self.assertEqual(ended.code, 0, ended.wrote)
        after = self.map.stat()
        self.assertTrue(link.is_symlink())
        self.assertEqual((after.st_ino, after.st_mode), (before.st_ino, before.st_mode))

    def test_a_file_never_gets_shorter(self) -> None:
        self.map.write_bytes(b"four")
        with Store().edit(Wanted(str(self.map), MOST)) as group:
            with self.assertRaisesRegex(ValueError, "shorter"):
                group.save(b"two")
        self.assertEqual(self.map.read_bytes(), b"four")

    def test_a_file_that_was_not_read_to_its_end(self) -> None:
        self.map.write_bytes(b"longer")
        with Store().edit(Wanted(str(self.map), 3, first_bytes_will_do=True)) as group:
            self.assertEqual(group.contents, [b"lon"])
            with self.assertRaisesRegex(FileProblem, "too long"):
                group.save(b"other")
        self.assertEqual(self.map.read_bytes(), b"longer")

    def test_two_saves_of_one_edit(self) -> None:
        self.map.write_bytes(b"one")
        with Store().edit(Wanted(str(self.map), MOST)) as group:
            group.save(b"two")
            group.save(b"three")
        self.assertEqual(self.map.read_bytes(), b"three")

    def test_pieces(self) -> None:
        old = bytes(10_000)
        new = bytearray(old) + b"tail"
        new[5_000] = 1
        change = change_between("x", old, bytes(new))
        self.assertEqual(change.pieces, ((5_000, b"\1"), (10_000, b"tail")))
        self.assertEqual(change.length, 10_004)
        self.assertEqual(change_between("x", old, old).pieces, ())

    def test_objects_of_every_size(self) -> None:
        """Pieces of any length come back as they were."""
        self.make_pair(version=8, records=8)
        for edit, count in enumerate((1, 2, 600, 32_768), start=1):
            self.object.write_bytes(object_bytes([(edit, edit)] * count))
            self.assertEqual(self.add_bridge(edit).code, 0)
        self.assertEqual(run("check", self.map).code, 0)


class TooLong(CutTest):
    """A file that is longer than it may be: its start is never taken for the whole."""

    def assert_too_long(self, wanted: Wanted) -> None:
        words = f"longer than {wanted.most:,} bytes"
        with self.assertRaisesRegex(FileProblem, words):
            Store().read(wanted)
        with self.assertRaisesRegex(FileProblem, words), Store().edit(wanted):
            self.fail("it was handed out")

    def test_a_map(self) -> None:
        wanted = Wanted(str(self.map), layout.MAP_LIMIT)
        self.map.write_bytes(layout.empty_map(8))
        os.truncate(self.map, layout.MAP_LIMIT)
        self.assertEqual(len(Store().read(wanted)), layout.MAP_LIMIT)
        os.truncate(self.map, layout.MAP_LIMIT + 1)
        self.assert_too_long(wanted)

    def test_a_journal(self) -> None:
        self.journal.write_bytes(bytes(layout.JOURNAL_LIMIT + 1))
        self.assert_too_long(Wanted(str(self.journal), layout.JOURNAL_LIMIT))

    def test_the_first_bytes_are_asked_for(self) -> None:
        self.map.write_bytes(b"longer")
        wanted = Wanted(str(self.map), 3, first_bytes_will_do=True)
        self.assertEqual(Store().read(wanted), b"lon")

    def test_a_map_that_an_edit_makes_too_long(self) -> None:
        """The edit was cut and cannot be finished by a reader."""
        scene = self.first_add()
        scene.run(2, ["rename"], cut_after)
        path = scene.work / "maps" / "city.ocd"
        path.chmod(0o444)
        wanted = Wanted(str(path), len(scene.new[0]))
        self.assertEqual(Store().read(wanted), scene.new[0])
        with self.assertRaisesRegex(FileProblem, "longer than"):
            Store().read(replace(wanted, most=wanted.most - 1))


class Names(FolderTest):
    """How a program may name the files."""

    def test_a_path(self) -> None:
        """A Path serves as a string does, and is told as one."""
        Store().create([(self.map, b"map"), (self.journal, b"journal")])
        wanted = Wanted(self.map, MOST)
        with Store().edit(wanted, Wanted(self.journal, MOST)) as group:
            group.save(b"Map and more", b"journal")
        self.assertEqual(Store().read(wanted), b"Map and more")
        for call in (
            lambda: Store().create([(self.map, b"")]),
            lambda: Store().read(replace(wanted, most=1)),
            lambda: Store().read(Wanted(Path(f"{self.map}{PENDING}"), MOST)),
            lambda: Store().read(Wanted(self.folder / "missing", MOST)),
        ):
            with self.assertRaises(FileProblem) as caught:
                call()
            self.assertTrue(str(caught.exception).startswith(f"{self.folder}/"))

    def test_the_name_of_no_file(self) -> None:
        """An empty name is not the folder, and with a slash behind it no file is meant."""
        self.map.write_bytes(b"map")
        for name, told in (
            ("", "the name of a file is empty"),
            (f"{self.map}/", "is the name of a folder, not of a file"),
            (f"{self.map}/.", "is the name of a folder, not of a file"),
        ):
            with self.subTest(name=name):
                with self.assertRaisesRegex(FileProblem, told):
                    Store().read(Wanted(name, MOST))
                with self.assertRaisesRegex(FileProblem, told):
                    Store().create([(self.journal, b"journal"), (name, b"map")])
        self.assertEqual(self.names(), ["bridge.object", "city.ocd"])


class OwnersRefused(Files):
    """A system that lets nobody give a file to a user, nor to a group where that is said."""

    def __init__(self, number: int, groups_too: bool) -> None:
        self.number = number
        self.groups_too = groups_too
        self.asked: List[Tuple[int, int]] = []

    def set_owner(self, handle: int, user: int, group: int) -> None:
        self.asked.append((user, group))
        if user != -1 or self.groups_too:
            raise OSError(self.number, os.strerror(self.number))
        super().set_owner(handle, user, group)


class SharedFiles(FolderTest):
    """Files of one user that others edit too."""

    OWNER, GUEST, GROUP = 64_001, 64_002, 64_003  # numbers that need no name

    def save_with(self, files: OwnersRefused) -> List[Tuple[int, int]]:
        """What is asked when a pair is saved: for the note, then for the pending file."""
        self.make_pair()
        wanted = [Wanted(str(name), MOST) for name in (self.map, self.journal)]
        with Store(files).edit(*wanted) as group:
            group.save(*group.contents)
        return files.asked

    def test_the_group_is_given_where_the_user_is_not(self) -> None:
        for number in (errno.EPERM, errno.EACCES, errno.EINVAL):
            asked = self.save_with(OwnersRefused(number, groups_too=False))
            about = self.map.stat()
            both = [(about.st_uid, about.st_gid), (-1, about.st_gid)]
            self.assertEqual(asked, both + both)

    def test_neither_can_be_given(self) -> None:
        """A user namespace does not know the owner (EINVAL), or one owner has all files."""
        for number in (errno.EPERM, errno.EACCES, errno.EINVAL):
            self.assertEqual(len(self.save_with(OwnersRefused(number, groups_too=True))), 4)

    def test_other_trouble_is_told(self) -> None:
        with self.assertRaisesRegex(FileProblem, "nothing was changed"):
            self.save_with(OwnersRefused(errno.EIO, groups_too=False))

    def become(self, user: int) -> Callable[[], None]:
        def work() -> None:
            os.setgroups([self.GROUP])
            os.setegid(user)
            os.seteuid(user)

        return work

    def test_two_users_of_one_group(self) -> None:
        """The guest's edit is cut; the owner finishes it and goes on."""
        if os.geteuid() != 0:
            self.skipTest("only an administrator can run commands as two other users")
        self.make_pair()
        for path, mode in ((self.folder, 0o770), (self.map, 0o660), (self.journal, 0o660)):
            os.chown(path, self.OWNER, self.GROUP)
            path.chmod(mode)
        self.object.chmod(0o644)
        taffrail.check(b"")  # loads the library, which those users may be unable to reach
        words = ["add", self.map, self.journal, "--edit", 1, self.object]
        files = CountingFiles(["rename"], 2, cut_after)
        self.assertTrue(run_in_child(words, files, self.become(self.GUEST)).cut)
        self.assertIn(f"{self.map.name}{PENDING}", self.names())
        words = ["remove", self.map, self.journal, "--edit", 2, "--slot", 0]
        ended = run_in_child(words, Files(), self.become(self.OWNER))
        self.assertEqual(ended.code, 0, ended.wrote)
        self.assertEqual(self.names(), ["bridge.object", "city.journal", "city.ocd"])


class SavingTwice(FolderTest):
    """A group is saved again after a save that failed. Nothing of the first save is lost."""

    ZERO, ONE, TWO = (b"map 0", b"journal 0"), (b"map 1", b"journal 1"), (b"map 2", b"journal 2")

    def begin(self) -> List[Wanted]:
        names = (self.map, self.journal)
        for name, content in zip(names, self.ZERO):
            name.write_bytes(content)
        return [Wanted(str(name), MOST) for name in names]

    def calls_of_a_save(self, name: str) -> range:
        """The calls of this name that a save makes, counted from the opening of the files."""
        files = CountingFiles([name], 0, broken)
        with Store(files).edit(*self.begin()) as group:
            before = files.calls
            group.save(*self.ONE)
            return range(before + 1, files.calls + 1)

    def save_twice(self, files: CountingFiles) -> bool:
        """Saves once, which fails, and then again. Whether the first was said to be done."""
        wanted = self.begin()
        with Store(files).edit(*wanted) as group:
            with self.assertRaises(FileProblem) as caught:
                group.save(*self.ONE)
            with self.assertRaisesRegex(FileProblem, "an earlier save .* failed"):
                group.save(*self.TWO)
        done = isinstance(caught.exception, DoneUnfinished)
        seen = tuple(Store(wait=0).read(one) for one in wanted)
        self.assertEqual(seen, self.ONE if done else self.ZERO)
        return done

    def assert_each_is_safe(self, name: str, done: int) -> None:
        """Each call of this name fails in turn, so many of them when the edit is done."""
        found = []
        for chosen in self.calls_of_a_save(name):
            with self.subTest(call=name, chosen=chosen):
                found.append(self.save_twice(CountingFiles([name], chosen, broken)))
        self.assertEqual(found, sorted(found))
        self.assertEqual(sum(found), done)

    def test_writes(self) -> None:
        self.assert_each_is_safe("write", 2)

    def test_syncs(self) -> None:
        """After the rename: of the folder, of the two files, and after each of two removals."""
        self.assert_each_is_safe("sync", 5)

    def test_removals(self) -> None:
        self.assert_each_is_safe("remove", 2)

    def test_what_comes_before_the_edit_is_done(self) -> None:
        for name in ("create", "rename", "reserve", "set_owner", "set_mode"):
            self.assert_each_is_safe(name, 0)

    def test_the_files_opened_again(self) -> None:
        """The next group has the first save's contents, and takes a save."""
        chosen = self.calls_of_a_save("write")[-1]
        self.save_twice(CountingFiles(["write"], chosen, broken))
        wanted = [Wanted(str(name), MOST) for name in (self.map, self.journal)]
        with Store(wait=0).edit(*wanted) as group:
            self.assertEqual(tuple(group.contents), self.ONE)
            group.save(*self.TWO)
        self.assertEqual((self.map.read_bytes(), self.journal.read_bytes()), self.TWO)


if __name__ == "__main__":
    unittest.main()
