"""The types of the package, as a program that uses it and mypy see them."""

from __future__ import annotations

import shutil
import subprocess
import tempfile
import unittest
from pathlib import Path

from support_host import PACKAGE_FOLDER

MYPY = shutil.which("mypy")

# What a typed program does with the package; mypy has to take every line.
PROGRAM = '''
from array import array
from mmap import mmap
from pathlib import Path
from typing import List

import taffrail
from taffrail.library import NativeLibrary
from taffrail.reasons import reason_of_check
from taffrail.store import Store, Wanted


def edited(view: memoryview, shared: mmap, numbers: "array[int]", own: bytearray) -> None:
    taffrail.remove(shared, numbers, 1, 0, used=48)
    taffrail.reinstate(numbers, shared, 1, 0, used=48)
    taffrail.add(view, own, 1, shared, used=48)
    taffrail.add(own, view, 1, numbers, used=48)


def judged(fixed: bytes, shared: mmap, numbers: "array[int]", slots: "array[int]") -> List[bool]:
    room = taffrail.room_for_add(shared) + taffrail.room_for_add(numbers)
    found = taffrail.search_into(shared, 0, 0, room, room, slots)
    return [bool(taffrail.check(fixed)), bool(taffrail.check(numbers)), bool(found)]


def length_after(own: bytearray, journal: bytearray) -> int:
    """Where a refusal is ruled out by its truth, the other answers' fields are there."""
    answer = taffrail.remove(own, journal, 1, 0, used=len(own))
    return answer.length if answer else 0


def why(own: bytes) -> str:
    answer = taffrail.check(own)
    if isinstance(answer, taffrail.Refused):
        return reason_of_check(answer, own)
    return ""


def stored(map_path: Path, journal_path: str) -> bytes:
    Store().create([(map_path, taffrail.empty_map(8)), (journal_path, b"")])
    with Store().edit(Wanted(map_path, 48), Wanted(journal_path, 0)) as pair:
        pair.save(*pair.contents)
    return Store().read(Wanted(map_path, 48))


def load(path: Path) -> NativeLibrary:
    return NativeLibrary(path)
'''


@unittest.skipIf(MYPY is None, "mypy is not installed")
class Types(unittest.TestCase):
    def assert_clean(self, *words: object) -> None:
        with tempfile.TemporaryDirectory() as folder:
            ended = subprocess.run(
                [str(MYPY), "--strict", "--cache-dir", folder, *map(str, words)],
                env={"MYPYPATH": str(PACKAGE_FOLDER)},
                capture_output=True,
                text=True,
                timeout=300,
                check=False,
            )
        self.assertEqual(ended.returncode, 0, ended.stdout + ended.stderr)

    def test_the_package(self) -> None:
        self.assert_clean(PACKAGE_FOLDER / "taffrail")

    def test_a_program_that_uses_it(self) -> None:
        with tempfile.TemporaryDirectory() as folder:
            program = Path(folder) / "program.py"
            program.write_text(PROGRAM)
            self.assert_clean(program)


if __name__ == "__main__":
    unittest.main()
