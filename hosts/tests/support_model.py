"""Puts the independent model in the library's place. Only tests use it.

Run as a program it is the command line, answered by the model:
``python3 support_model.py check MAP`` does what ``python3 -m taffrail check MAP`` does.
"""

from __future__ import annotations

import sys
from array import array
from pathlib import Path
from typing import Sequence

HERE = Path(__file__).resolve().parent
sys.path[:0] = [str(HERE), str(HERE.parent / "python")]

import model

from taffrail import cli, library
from taffrail.library import CheckAnswer, EditAnswer, Readable, SearchAnswer, Writable


class ModelLibrary:
    """The five calls, answered by the model on copies whose bytes are then put back."""

    def check(self, map_buffer: Readable, used: int) -> CheckAnswer:
        return CheckAnswer(*model.check(bytes(map_buffer), used))

    def search(
        self, map_buffer: Readable, used: int, window: Sequence[int], slots: library.SlotArray
    ) -> SearchAnswer:
        left, bottom, right, top = window
        got = model.search(bytes(map_buffer), used, left, bottom, right, top, list(slots))
        slots[:] = array("I", got.list_after)
        return SearchAnswer(got.number, got.place, got.count, got.blocks)

    def add(
        self, map_buffer: Writable, used: int, journal: Writable, edit: int, offered: Readable
    ) -> EditAnswer:
        got = model.add(bytes(map_buffer), used, bytes(journal), edit, bytes(offered))
        return put_back(got, map_buffer, journal)

    def remove(
        self, map_buffer: Writable, used: int, journal: Writable, edit: int, slot: int
    ) -> EditAnswer:
        got = model.remove(bytes(map_buffer), used, bytes(journal), edit, slot)
        return put_back(got, map_buffer, journal)

    def reinstate(
        self, map_buffer: Writable, used: int, journal: Writable, edit: int, slot: int
    ) -> EditAnswer:
        got = model.reinstate(bytes(map_buffer), used, bytes(journal), edit, slot)
        return put_back(got, map_buffer, journal)


def put_back(got: model.EditResult, map_buffer: Writable, journal: Writable) -> EditAnswer:
    memoryview(map_buffer)[:] = got.map_after
    memoryview(journal)[:] = got.journal_after
    return EditAnswer(got.number, got.place, got.before, got.slot, got.length)


def install() -> None:
    """From now on the model answers in this process."""
    library.use(ModelLibrary())


if __name__ == "__main__":
    install()
    cli.run()
