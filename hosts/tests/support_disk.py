"""Disks with little room: one that is played, and a real one where the system grants it."""

from __future__ import annotations

import ctypes
import errno
import os
import resource
from contextlib import suppress
from pathlib import Path
from typing import Dict

from taffrail.files import Files

BLOCK = 4_096
PAGE = resource.getpagesize()  # the block of a disk in memory
NEW_USERS, NEW_MOUNTS = 0x1000_0000, 0x2_0000  # to unshare


def blocks(length: int) -> int:
    """The blocks that a file of this length takes."""
    return -(-length // BLOCK)


def failing(number: int) -> OSError:
    return OSError(number, os.strerror(number))


class SmallDisk(Files):
    """A disk with so many blocks left, which can reserve them for a file or not."""

    def __init__(self, left: int, can_reserve: bool) -> None:
        self.left = left
        self.can_reserve = can_reserve
        self.taken: Dict[int, int] = {}  # by the file's number

    def take(self, handle: int, end: int) -> None:
        """Gives the file its blocks up to this end."""
        had = self.blocks_of(handle)
        more = max(0, blocks(end) - had)
        if more > self.left:
            raise failing(errno.ENOSPC)
        self.left -= more
        self.taken[self.about(handle).st_ino] = had + more

    def blocks_of(self, handle: int) -> int:
        about = self.about(handle)
        return self.taken.get(about.st_ino, blocks(about.st_size))

    def write(self, handle: int, data: bytes, at: int) -> int:
        self.take(handle, at + len(data))
        return super().write(handle, data, at)

    def reserve(self, handle: int, at: int, size: int) -> None:
        if not self.can_reserve:
            raise failing(errno.EOPNOTSUPP)
        self.take(handle, at + size)

    def truncate(self, handle: int, length: int) -> None:
        self.left += self.blocks_of(handle) - blocks(length)
        super().truncate(handle, length)
        self.taken[self.about(handle).st_ino] = blocks(length)

    def remove(self, path: str) -> None:
        number = self.about_path(path).st_ino
        super().remove(path)
        self.left += self.taken.pop(number, 0)


def mount_small_disk(folder: Path, size: int) -> None:
    """Gives this process, and those that it starts, a real disk of this size in the folder.
    OSError where the system does not let it."""
    system = ctypes.CDLL(None, use_errno=True)
    ids = {"uid_map": f"0 {os.geteuid()} 1", "gid_map": f"0 {os.getegid()} 1"}
    if system.unshare(NEW_USERS | NEW_MOUNTS) != 0:
        raise failing(ctypes.get_errno())
    for name, text in {"setgroups": "deny", **ids}.items():
        Path("/proc/self", name).write_text(text)
    options = f"size={size}".encode()
    if system.mount(b"none", os.fsencode(folder), b"tmpfs", 0, options) != 0:
        raise failing(ctypes.get_errno())


def fill_disk(folder: Path, left: int) -> Path:
    """Writes a file that leaves so many bytes on the disk."""
    filler = folder / "filler"
    with open(filler, "wb", buffering=0) as file:
        with suppress(OSError):
            while True:
                file.write(bytes(PAGE))
        file.truncate(file.tell() - left)
    return filler
