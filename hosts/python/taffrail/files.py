"""The system calls that the store makes, and what is said to people when one fails."""

from __future__ import annotations

import ctypes
import errno
import fcntl
import os
import resource
import struct
from typing import List, Union

FilePath = Union[str, os.PathLike[str]]


class FileProblem(Exception):
    """A file cannot be used. The message says which one and why."""


class Locked(FileProblem):
    """Another process holds the file, and the wait is over."""


class DoneUnfinished(FileProblem):
    """The edit is done, but not all that follows is. The next command finishes it."""


WORDS = {
    errno.ENOENT: "no such file",
    errno.EISDIR: "is a directory, not a plain file",
    errno.EROFS: "is on a read-only file system",
}


def file_problem(path: FilePath, problem: OSError) -> FileProblem:
    """The problem that the system has with this file, in words."""
    said = WORDS.get(problem.errno or 0, problem.strerror or str(problem))
    return FileProblem(f"{path}: {said}")


def misnamed(path: FilePath) -> str:
    """What is wrong with the name of a file, if anything. The system would take away a slash
    at its end, and an empty name for the folder that it is in."""
    name = os.fspath(path)
    if not name:
        return "the name of a file is empty"
    if os.path.basename(name) in ("", os.curdir, os.pardir):
        return f"'{name}' is the name of a folder, not of a file"
    return ""


LONGEST_PATH = 4_095  # bytes; a path over that is refused, whatever there is at its end


def name_is_too_long(path: str, problem: OSError) -> bool:
    """Whether no file can be there, because a name in the path is longer than any may be."""
    return problem.errno == errno.ENAMETOOLONG and len(os.fsencode(path)) <= LONGEST_PATH


LOCK_FORM = struct.Struct("hhqqi4x")  # struct flock: kind, whence, start, length, owner

KEEP_SIZE = 1  # to fallocate: the file stays as long as it is, which posix_fallocate changes
_fallocate = ctypes.CDLL(None, use_errno=True).fallocate
_fallocate.argtypes = [ctypes.c_int, ctypes.c_int, ctypes.c_int64, ctypes.c_int64]


class Files:
    """Every system call of the store, one method each.

    A test replaces this object to end the process at any of them.
    """

    def real_path(self, path: FilePath) -> str:
        return os.path.realpath(path)

    def open(self, path: str, flags: int) -> int:
        return os.open(path, flags | os.O_CLOEXEC | os.O_NONBLOCK)

    def create(self, path: str, flags: int, mode: int) -> int:
        return os.open(path, flags | os.O_CREAT | os.O_CLOEXEC | os.O_NONBLOCK, mode)

    def close(self, handle: int) -> None:
        os.close(handle)

    def lock(self, handle: int, kind: int) -> None:
        fcntl.flock(handle, kind | fcntl.LOCK_NB)

    def lock_byte(self, handle: int, kind: int, at: int) -> None:
        fcntl.fcntl(handle, fcntl.F_OFD_SETLK, LOCK_FORM.pack(kind, os.SEEK_SET, at, 1, 0))

    def about(self, handle: int) -> os.stat_result:
        return os.fstat(handle)

    def about_path(self, path: str) -> os.stat_result:
        return os.stat(path)

    def read(self, handle: int, size: int, at: int) -> bytes:
        return os.pread(handle, size, at)

    def write(self, handle: int, data: bytes, at: int) -> int:
        return os.pwrite(handle, data, at)

    def size_limit(self) -> int:
        return resource.getrlimit(resource.RLIMIT_FSIZE)[0]

    def reserve(self, handle: int, at: int, size: int) -> None:
        while _fallocate(handle, KEEP_SIZE, at, size) != 0:
            number = ctypes.get_errno()
            if number != errno.EINTR:
                raise OSError(number, os.strerror(number))

    def truncate(self, handle: int, length: int) -> None:
        os.ftruncate(handle, length)

    def sync(self, handle: int) -> None:
        os.fsync(handle)

    def set_owner(self, handle: int, user: int, group: int) -> None:
        os.fchown(handle, user, group)

    def set_mode(self, handle: int, mode: int) -> None:
        os.fchmod(handle, mode)

    def rename(self, path: str, new_path: str) -> None:
        os.rename(path, new_path)

    def remove(self, path: str) -> None:
        os.unlink(path)


def read_up_to(files: Files, handle: int, most: int) -> bytes:
    """The file's bytes from its start, at most so many."""
    parts: List[bytes] = []
    at = 0
    while at < most:
        part = files.read(handle, most - at, at)
        if not part:
            break
        parts.append(part)
        at += len(part)
    return b"".join(parts)


def write_all(files: Files, handle: int, data: bytes, at: int) -> None:
    """Writes all the bytes from this place on."""
    written = 0
    while written < len(data):
        written += files.write(handle, data[written:], at + written)


NOT_RESERVED_HERE = (errno.EOPNOTSUPP, errno.ENOSYS, errno.EINVAL)


def reserve(files: Files, handle: int, at: int, size: int) -> bool:
    """Sees to it that these bytes can be written later, though the disk be full by then. No
    where the file system cannot promise that; OSError where there is no room."""
    limit = files.size_limit()  # of this process; some file systems ask for it too late
    if limit != resource.RLIM_INFINITY and at + size > limit:
        raise OSError(errno.EFBIG, os.strerror(errno.EFBIG))
    try:
        files.reserve(handle, at, size)
    except OSError as problem:
        if problem.errno not in NOT_RESERVED_HERE:
            raise
        return False
    return True


def discard(files: Files, path: str) -> None:
    """Removes the file of this name, if there is one."""
    try:
        files.remove(path)
    except FileNotFoundError:
        pass


def sync_folder_of(files: Files, path: str) -> None:
    """Brings to disk which names are in the folder that this file is in."""
    handle = files.open(os.path.dirname(path), os.O_RDONLY | os.O_DIRECTORY)
    try:
        files.sync(handle)
    finally:
        files.close(handle)
