"""Opens files and locks them, several in one go.

The lock is flock on the file itself: shared for readers, exclusive for editors. It ends with
the process that holds it, however that ends.

The way to it goes through a turnstile, so that each gets a turn. The turnstile is a lock too,
on one byte far behind the file's end, shared and exclusive in the same way. Whoever waits for
the file holds it and is next: while an editor waits, no reader that comes later goes in, and
while readers wait, no later editor does. Only fairness depends on it, so it is done without
where the system has no such lock. It is one of the open file (an OFD lock), because another
kind would end with any other handle that the process has on the file.
"""

from __future__ import annotations

import fcntl
import os
import stat
import time
from contextlib import contextmanager, suppress
from dataclasses import dataclass
from typing import Callable, Dict, Iterator, List, Sequence

from .files import FileProblem, Files, Locked, file_problem

SHARED = fcntl.LOCK_SH
EXCLUSIVE = fcntl.LOCK_EX

TURNSTILE = 1 << 40  # the byte of a file that is its turnstile; no file in use is as long
TURN = {SHARED: fcntl.F_RDLCK, EXCLUSIVE: fcntl.F_WRLCK}

PAUSE = 0.005  # seconds between two tries
ANY_WRITE = 0o222  # the write permissions in a file's mode


@dataclass(frozen=True)
class Opened:
    """A file that is open and locked."""

    path: str
    handle: int


@contextmanager
def opened(
    files: Files, paths: Sequence[str], kind: int, deadline: float
) -> Iterator[List[Opened]]:
    """The files, open and locked until the end of the ``with`` block.

    Locks are taken in the order of the names, so that two processes never wait for each
    other. At the deadline (of time.monotonic) a file still held by another is Locked.
    """
    held: Dict[str, Opened] = {}
    try:
        for path in sorted(paths):
            held[path] = _open_and_lock(files, path, kind, deadline)
        yield [held[path] for path in paths]
    finally:
        for file in held.values():
            with suppress(OSError):  # what was written is on disk, so nothing is lost
                files.close(file.handle)


def _open_and_lock(files: Files, path: str, kind: int, deadline: float) -> Opened:
    while True:
        handle = _open(files, path, kind)
        try:
            _refuse_unfit(path, files.about(handle), kind)
            _lock(files, path, handle, kind, deadline)
            if _still_named(files, path, handle):
                return Opened(path, handle)
        except BaseException:
            files.close(handle)
            raise
        files.close(handle)  # another file has taken the name meanwhile


def _open(files: Files, path: str, kind: int) -> int:
    try:
        _refuse_unfit(path, files.about_path(path), kind)  # a device may act on being opened
        return files.open(path, os.O_RDWR if kind == EXCLUSIVE else os.O_RDONLY)
    except OSError as problem:
        raise file_problem(path, problem) from problem


def _refuse_unfit(path: str, about: os.stat_result, kind: int) -> None:
    if stat.S_ISDIR(about.st_mode):
        raise FileProblem(f"{path}: is a directory, not a plain file")
    if not stat.S_ISREG(about.st_mode):
        raise FileProblem(f"{path}: is not a plain file")
    if kind == SHARED:
        return
    if about.st_mode & ANY_WRITE == 0:  # an administrator could write it, and should not
        raise FileProblem(f"{path}: is read-only")
    if about.st_nlink > 1:
        raise FileProblem(f"{path}: has a second name (a hard link), so it is not edited")


def _lock(files: Files, path: str, handle: int, kind: int, deadline: float) -> None:
    """Through the turnstile to the lock. One that gives up on the way closes the handle, and
    so frees the turnstile."""
    _await(lambda: _enter(files, handle, kind), path, deadline)
    _await(lambda: files.lock(handle, kind), path, deadline)
    _leave(files, handle)


def _await(take: Callable[[], None], path: str, deadline: float) -> None:
    while True:
        try:
            return take()
        except BlockingIOError:
            if time.monotonic() >= deadline:
                raise Locked(f"{path}: is locked by another process") from None
        except OSError as problem:
            raise file_problem(path, problem) from problem
        time.sleep(PAUSE)


def _enter(files: Files, handle: int, kind: int) -> None:
    try:
        files.lock_byte(handle, TURN[kind], TURNSTILE)
    except BlockingIOError:
        raise
    except OSError:
        pass  # there is no turnstile here


def _leave(files: Files, handle: int) -> None:
    with suppress(OSError):
        files.lock_byte(handle, fcntl.F_UNLCK, TURNSTILE)


def _still_named(files: Files, path: str, handle: int) -> bool:
    try:
        return os.path.samestat(files.about_path(path), files.about(handle))
    except FileNotFoundError:
        return False
