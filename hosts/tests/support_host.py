"""What the tests of the package and of the command line share.

The tests run with the real library. With TAFFRAIL_TEST_MODEL=1 the independent model answers
instead, in this process and in the commands that the tests start.
"""

from __future__ import annotations

import json
import os
import shutil
import struct
import subprocess
import sys
import tempfile
import unittest
from pathlib import Path
from typing import Any, Dict, List, NamedTuple, Optional, Sequence, Tuple

HERE = Path(__file__).resolve().parent
PACKAGE_FOLDER = HERE.parent / "python"
sys.path[:0] = [str(HERE), str(PACKAGE_FOLDER)]

import taffrail

MODEL = os.environ.get("TAFFRAIL_TEST_MODEL") == "1"
if MODEL:
    import support_model

    support_model.install()

OBJECT_FORM = struct.Struct("<hBBHH24x")
PAIR_FORM = struct.Struct("<2i")

# Maps of OCAD 9, 10 and 11.
LATER_BLOCK, LATER_BLOCK_SIZE = 48, 10_244  # where the small map has its index block
LATER_OBJECT_FORM = struct.Struct("<iB3xIH26x")  # Sym, type, nItem, nText
LATER_SLOT_FORM = struct.Struct("<7i2xB9x")  # rectangle, position, Len, Sym, status
NORMAL, HIDDEN, DELETED, UNDONE = 1, 2, 0, 3  # the status of a slot


def object_bytes(
    pairs: Sequence[Tuple[int, int]] = ((5, 5),), sym: int = 101, text: int = 0
) -> bytes:
    """An object of type 1 whose last ``text`` pairs are text; coordinates by value."""
    head = OBJECT_FORM.pack(sym, 1, 0, len(pairs) - text, text)
    return head + b"".join(PAIR_FORM.pack(256 * x, 256 * y) for x, y in pairs)


class Drawn(NamedTuple):
    """A point in a map of OCAD 9, 10 or 11, and the status of its slot. Len is the 48 bytes of
    the object, or it is 1 and counts its pairs."""

    sym: int = 101_000
    status: int = NORMAL
    at: Tuple[int, int] = (5, 5)
    len: int = 48


def later_map(version: int = 9, drawn: Sequence[Drawn] = (Drawn(),)) -> bytearray:
    """A map with these objects in its first slots. It has an index block at 48, the objects
    behind it, and in its header no setup and no info but any bytes where 6 to 8 have them."""
    data = bytearray(LATER_BLOCK + LATER_BLOCK_SIZE)
    struct.pack_into("<HBBH", data, 0, 3245, 0, 0xEE, version)
    struct.pack_into("<i16s", data, 12, LATER_BLOCK, b"\xee" * 16)
    for number, one in enumerate(drawn):
        sides = [256 * side for side in one.at]
        fields = (*sides, *sides, len(data), one.len, one.sym, one.status)
        LATER_SLOT_FORM.pack_into(data, later_slot(number), *fields)
        data += LATER_OBJECT_FORM.pack(one.sym, 1, 1, 0) + PAIR_FORM.pack(*sides)
    return data


def later_slot(number: int) -> int:
    """Where a slot of that map is."""
    return LATER_BLOCK + 4 + LATER_SLOT_FORM.size * number


def later_object(number: int) -> int:
    """Where the object of a slot of that map is."""
    return LATER_BLOCK + LATER_BLOCK_SIZE + 48 * number


class Ran(NamedTuple):
    """A command that has ended: its exit code and what it wrote."""

    code: int
    out: str
    err: str

    def json(self) -> Dict[str, Any]:
        found = json.loads(self.out)
        assert isinstance(found, dict)
        return found


def command_line(*arguments: object) -> List[str]:
    """The command as a user types it, or the model's stand-in for it."""
    if MODEL:
        start = [sys.executable, str(HERE / "support_model.py")]
    else:
        start = [sys.executable, "-m", "taffrail"]
    return start + [str(argument) for argument in arguments]


def environment() -> Dict[str, str]:
    return {**os.environ, "PYTHONPATH": str(PACKAGE_FOLDER), "PYTHONDONTWRITEBYTECODE": "1"}


def run(*arguments: object, given: bytes = b"", folder: Optional[Path] = None) -> Ran:
    """Runs a command with these bytes as standard input."""
    ended = subprocess.run(
        command_line(*arguments),
        input=given,
        capture_output=True,
        cwd=folder,
        env=environment(),
        timeout=120,
        check=False,
    )
    return Ran(ended.returncode, ended.stdout.decode(), ended.stderr.decode())


class FolderTest(unittest.TestCase):
    """A test with a folder of its own, a map's path, a journal's path and an object's."""

    def setUp(self) -> None:
        self.folder = Path(tempfile.mkdtemp(prefix="taffrail-test-")).resolve()
        self.addCleanup(shutil.rmtree, self.folder, ignore_errors=True)
        self.map = self.folder / "city.ocd"
        self.journal = self.folder / "city.journal"
        self.object = self.folder / "bridge.object"
        self.object.write_bytes(object_bytes())

    def make_pair(self, version: int = 7, records: int = 16) -> None:
        self.map.write_bytes(taffrail.empty_map(version))
        self.journal.write_bytes(taffrail.empty_journal(records))

    def add_bridge(self, edit: int = 1) -> Ran:
        return run("add", self.map, self.journal, "--edit", edit, self.object)

    def names(self) -> List[str]:
        return sorted(path.name for path in self.folder.iterdir())
