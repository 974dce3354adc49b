"""Saves a map and its journal together or not at all, and keeps editors out of each other's way.

What is promised
----------------
* A process that is ended between any two system calls, or in the middle of a write, leaves
  the old pair or the new pair, as seen by the next command that opens either file. There is
  never a done edit without its record, nor a record without its edit.
* A power cut does the same, and an edit that was reported done stays done.
* Two processes that edit one map at once do so one after the other, and a reader sees a file
  as it is before an edit or after it. Whoever waits for a file gets a turn, however many use
  it in a loop.
* An edit for which the disk has no room changes nothing. What fails when an edit is done is
  DoneUnfinished, and the next command finishes the edit.
* Files keep their names, owners, modes and symbolic links, and they never get shorter.

How it is done
--------------
Two files cannot be changed in one step, so the step is taken with a third. An edit

1. locks the map and the journal, and reads them;
2. reserves room on the disk for what step 4 writes, and writes a *partner note*,
   JOURNAL.taffrail-partner, which says where the map is;
3. writes the new bytes of both files to MAP.taffrail-pending.part, and renames that to
   MAP.taffrail-pending. **From this rename on the edit is done**, before it nothing is;
4. writes the new bytes into the journal and the map themselves;
5. removes the pending file, then the partner note.

Every step is on disk (fsync) before the next begins. Whoever opens a file looks for a
pending file first, beside the file itself or, by way of the partner note, beside the map. If
there is one, an edit was cut after its third step, and steps 4 and 5 are done again; doing
them twice does no harm. A reader that may not write takes the pending bytes as the truth and
leaves the files alone. What an edit cut before the rename leaves behind counts for nothing,
and the next edit removes it.

The pending file holds, for each file, its path from the map's folder, the pieces to write,
and the length and SHA-256 of the whole file afterwards; and a SHA-256 of itself. The pieces
are only the bytes that change. It is carried out only where the result has that SHA-256, and
only on a file whose partner note leads back to it. So a pending file that meets another file
than its own (a backup put back, a map saved by another program) is refused with a message,
never mixed in.

What is assumed
---------------
* A file system with POSIX semantics: rename replaces a name in one step, and fsync on a file
  or a folder brings it to the disk. Local Linux file systems do.
* Room that is reserved (fallocate) stays reserved. Where a file system cannot reserve (NFS, or
  btrfs and ZFS for what is written over), an edit may be done for which there is no room then.
  Until there is, readers read what is true, and other edits are refused.
* All programs that write the files take the same lock (flock on the file itself), or don't
  run at the same time. Programs that read without it, such as a copy program, may see the
  middle of step 4; ``flock --shared MAP cp MAP elsewhere`` does not.
* The ``.taffrail-`` files are kept with their map and journal. A copy made after a cut, and
  without them, is a copy of files that no command has finished yet: run any command first
  (``check`` and ``journal`` will do), or copy them too. Whole folders may be moved as they are.
* Whoever may create files in the map's folder may be trusted with the map.
* A file has one name. One with hard links is read, but not edited: through the other name
  the pending file would not be found.
* A file is in one folder, the same for all who use it. One that is mounted by itself, as a
  single file into a container, is in two, and what waits in one of them is not seen from the
  other. Mount the whole folder.
* In a folder where only the owner of a file may remove it (a sticky one, as /tmp), what a cut
  edit left is cleared away by the user whose edit it was, by the folder's owner or by an
  administrator. Until then others read what is true, and their edits are refused.
* A name leaves room for the endings above, 22 bytes. A file with a longer one is read, but not
  edited. No map and no journal has a name with such an ending itself.
"""

from __future__ import annotations

import errno
import os
import stat
import time
from contextlib import contextmanager, suppress
from dataclasses import dataclass, replace
from typing import Callable, Iterable, Iterator, List, Optional, Sequence, Tuple

from .files import (
    DoneUnfinished,
    FilePath,
    FileProblem,
    Files,
    Locked,
    discard,
    file_problem,
    misnamed,
    name_is_too_long,
    read_up_to,
    reserve,
    sync_folder_of,
    write_all,
)
from .locks import EXCLUSIVE, SHARED, Opened, opened
from .pending import (
    Change,
    Pending,
    change_between,
    decode_note,
    decode_pending,
    digest_of,
    encode_note,
    encode_pending,
)

PENDING = ".taffrail-pending"  # beside the first file of a save: the new bytes of all
PARTNER = ".taffrail-partner"  # beside each other file of it: where the first one is
PART = ".part"  # added to either name while it is being written
OWN_ENDINGS = (PENDING, PARTNER, PENDING + PART, PARTNER + PART)

DEFAULT_WAIT = 60.0  # seconds to wait for a lock

BLOCK = 4_096  # bytes; a file takes room on the disk in whole blocks

SAME = -1  # the user that a file has already
MAY_NOT_GIVE = (errno.EPERM, errno.EACCES, errno.EINVAL)  # EINVAL: not known in this namespace


@dataclass(frozen=True)
class Wanted:
    """A file to open, and the most bytes that it may have. A longer one is a FileProblem,
    unless its first bytes will do."""

    path: FilePath
    most: int
    first_bytes_will_do: bool = False

    def of(self, contents: bytes) -> bytes:
        """What is wanted of a file. Of one that is too long the most and a byte are enough."""
        if len(contents) > self.most and not self.first_bytes_will_do:
            raise FileProblem(
                f"{self.path}: is longer than {self.most:,} bytes, the most that it may have"
            )
        return contents[: self.most]


Contents = Sequence[bytes]  # of each file of an edit


class Group:
    """The files of one edit, locked, with the bytes that they hold."""

    def __init__(self, contents: Contents, save: Callable[[Contents, Contents], None]) -> None:
        self.contents = contents
        self._save = save
        self._failed = False

    def save(self, *new: bytes) -> None:
        """Change all the files to these contents, given in the order of the files. Returns
        when that is on disk. A group takes no save after one that failed: that one may be
        done, and the contents here are those before it."""
        if self._failed:
            raise FileProblem(
                "an earlier save of these files failed and may be done; nothing more was"
                " changed. Open them again to go on"
            )
        self._failed = True
        self._save(self.contents, new)
        self._failed = False
        self.contents = new


class Store:
    """Reads, edits and creates files. ``wait`` is how many seconds to wait for a lock."""

    def __init__(self, files: Optional[Files] = None, wait: float = DEFAULT_WAIT) -> None:
        self._files = files if files is not None else Files()
        self._wait = wait

    def read(self, wanted: Wanted) -> bytes:
        """The whole contents of a file, after finishing an edit that was cut; or as they will
        be then, where it cannot be finished from here."""
        deadline = time.monotonic() + self._wait
        path = self._path_of(wanted.path)
        can_finish = True
        while True:
            with opened(self._files, [path], SHARED, deadline) as (file,):
                pending = self._pending_of(path)
                if pending is None:
                    return self._wanted(file, wanted)
                if not can_finish:
                    return wanted.of(self._outcome(file, pending.change_of(path)))
            can_finish = self._try_to_finish(pending)

    @contextmanager
    def edit(self, *wanted: Wanted) -> Iterator[Group]:
        """The files, locked until the end of the ``with`` block, for reading and saving."""
        deadline = time.monotonic() + self._wait
        paths = [self._path_of(one.path) for one in wanted]
        _refuse_twins(paths)
        while True:
            with opened(self._files, paths, EXCLUSIVE, deadline) as held:
                pending = self._pending_of_any(paths)
                if pending is None:
                    yield self._start(held, wanted)
                    return
            self._finish_first(pending, deadline)

    def create(self, files: Sequence[Tuple[FilePath, bytes]]) -> None:
        """Make new files with these contents, all or none. A file that is there and is not
        empty stays as it is, and that is a FileProblem. A cut may leave empty files; they
        are no hindrance to the next try."""
        paths = [self._path_of(path) for path, _ in files]
        _refuse_twins(paths)
        for path, _ in files:
            self._refuse_taken(path)
        made: List[str] = []
        try:
            for path, _ in files:
                self._make_empty(path, made)
            self._fill(files)
        except BaseException:
            self._unmake(made, paths)
            raise

    def _fill(self, files: Sequence[Tuple[FilePath, bytes]]) -> None:
        wanted = [Wanted(path, 1, first_bytes_will_do=True) for path, _ in files]
        with self.edit(*wanted) as group:
            for (path, _), found in zip(files, group.contents):
                if found:
                    raise FileProblem(f"{path}: exists already; nothing was changed")
            group.save(*[content for _, content in files])

    def _unmake(self, made: Sequence[str], paths: Sequence[str]) -> None:
        """Removes the empty files that a failed try at these paths has made. They stay where
        something is in one of the files or waits for it, or where another holds one."""
        with suppress(FileProblem, OSError):
            with opened(self._files, made, EXCLUSIVE, time.monotonic()):
                if self._pending_of_any(made) is None and not any(map(self._size_at, paths)):
                    for path in made:
                        discard(self._files, path)

    # Saving: steps 2 to 5.

    def _start(self, held: Sequence[Opened], wanted: Sequence[Wanted]) -> Group:
        """The edit's group, what earlier edits have left behind being out of the way."""
        self._discard_leftovers([file.path for file in held])
        contents = [self._wanted(file, one) for file, one in zip(held, wanted)]

        def save(old: Contents, new: Contents) -> None:
            self._save(held, old, new)

        return Group(contents, save)

    def _save(self, held: Sequence[Opened], old: Contents, new: Contents) -> None:
        for file, before in zip(held, old):
            self._refuse_unread(file, before)
        changes = [change_between(f.path, b, a) for f, b, a in zip(held, old, new)]
        pending = Pending(tuple(changes))
        self._commit(held, pending)
        try:
            self._carry_out(held, pending)
        except OSError as problem:
            raise DoneUnfinished(
                f"{held[0].path}: the edit is done, but the files could not be brought up to date"
                f" ({_told(problem)}); the next command finishes it"
            ) from problem

    def _commit(self, held: Sequence[Opened], pending: Pending) -> None:
        """Steps 2 and 3. The last call in here, a rename, makes the edit done. The folders
        have been brought to disk before it, so one that cannot be is no trouble after it."""
        first = held[0].path
        try:
            spare = self._reserve(held, pending)
            for file in held[1:]:
                self._put(file.path + PARTNER, encode_note(first, file.path), file)
            for path in _one_of_each_folder(pending.paths()):
                sync_folder_of(self._files, path)
            self._put(first + PENDING, encode_pending(pending), held[0], spare)
        except OSError as problem:
            self._withdraw(held, pending)
            raise FileProblem(
                f"{first}: cannot be saved ({_told(problem)}); nothing was changed"
            ) from problem

    def _reserve(self, held: Sequence[Opened], pending: Pending) -> int:
        """Reserves room for all that is written when the edit is done. Gives the bytes of room
        that the file system cannot reserve."""
        spare = 0
        for file, change in zip(held, pending.changes):
            for at, data in change.pieces:
                if not reserve(self._files, file.handle, at, len(data)):
                    spare += len(data) + BLOCK
        return spare

    def _carry_out(self, held: Sequence[Opened], pending: Pending) -> None:
        """Steps 4 and 5. The journal comes before the map, and in the map the end before the
        start: an object is there before a slot points to it."""
        sync_folder_of(self._files, held[0].path)  # the rename, also where another did it
        for file, change in reversed(list(zip(held, pending.changes))):
            for at, data in reversed(change.pieces):
                write_all(self._files, file.handle, data, at)
            self._files.sync(file.handle)
        self._remove(held[0].path + PENDING)
        for file in held[1:]:
            self._remove(file.path + PARTNER)

    def _put(self, path: str, data: bytes, beside: Opened, spare: int = 0) -> None:
        """Writes a whole file and gives it its name in one step. Before that it has been longer
        by the spare bytes, so there is room for as many."""
        part = path + PART
        discard(self._files, part)
        handle = self._files.create(part, os.O_WRONLY | os.O_EXCL, 0o600)
        try:
            self._give_access(handle, beside)
            write_all(self._files, handle, data + bytes(spare), 0)
            self._files.sync(handle)
            if spare > 0:
                self._files.truncate(handle, len(data))
                self._files.sync(handle)
        finally:
            self._files.close(handle)
        self._files.rename(part, path)

    def _give_access(self, handle: int, beside: Opened) -> None:
        """Whoever may use the file that this one lies beside may use this one."""
        about = self._files.about(beside.handle)
        if not self._give(handle, about.st_uid, about.st_gid):
            self._give(handle, SAME, about.st_gid)  # a user may not give files away
        with suppress(PermissionError):  # some file systems know one mode for all files
            self._files.set_mode(handle, stat.S_IMODE(about.st_mode) & 0o666)

    def _give(self, handle: int, user: int, group: int) -> bool:
        """Gives the file to this user and group; no where this process may not."""
        try:
            self._files.set_owner(handle, user, group)
        except OSError as problem:
            if problem.errno not in MAY_NOT_GIVE:
                raise
            return False
        return True

    def _withdraw(self, held: Sequence[Opened], pending: Pending) -> None:
        """Removes what a save that failed before the rename has left behind, reserved room
        too. What cannot be removed now does no harm; the next edit removes or uses it."""
        with suppress(FileProblem):
            self._discard_leftovers(pending.paths())
        for file, change in zip(held, pending.changes):
            with suppress(OSError):
                self._free_behind(file, change)

    def _free_behind(self, file: Opened, change: Change) -> None:
        """Frees what was reserved behind the end of a file that was to grow."""
        length = self._files.about(file.handle).st_size
        if change.length > length:
            self._files.truncate(file.handle, length)

    def _discard_leftovers(self, paths: Sequence[str]) -> None:
        """Removes what lies beside these files from saves that were never done."""
        for path in paths:
            for ending in (PENDING + PART, PARTNER + PART, PARTNER):
                try:
                    discard(self._files, path + ending)
                except OSError as problem:
                    raise _leftover_problem(path, ending, problem) from problem

    def _remove(self, path: str) -> None:
        discard(self._files, path)
        sync_folder_of(self._files, path)

    # Finishing an edit that was cut after the rename.

    def _try_to_finish(self, pending: Pending) -> bool:
        """Finishes without waiting; no where this process may not, or another is at it."""
        try:
            self._finish(pending, time.monotonic())
        except (FileProblem, OSError):
            return False
        return True

    def _finish_first(self, pending: Pending, deadline: float) -> None:
        try:
            self._finish(pending, deadline)
        except Locked:
            raise
        except FileProblem as problem:
            raise FileProblem(
                f"an edit that was cut has to be finished first, which fails: {problem}"
            ) from problem

    def _finish(self, pending: Pending, deadline: float) -> None:
        paths = pending.paths()
        with opened(self._files, paths, EXCLUSIVE, deadline) as held:
            if self._load_pending(paths[0]) != pending:
                return  # another process has finished it meanwhile
            for path in paths[1:]:
                self._refuse_stranger(path, paths[0])
            for file, change in zip(held, pending.changes):
                self._outcome(file, change)
            try:
                self._carry_out(held, pending)
            except OSError as problem:
                raise file_problem(paths[0] + PENDING, problem) from problem

    def _outcome(self, file: Opened, change: Change) -> bytes:
        """The file's contents with the change carried out; FileProblem where the change was
        made for other contents."""
        contents = bytearray(self._contents(file, change.length + 1))
        for at, data in change.pieces:
            contents[at : at + len(data)] = data
        outcome = bytes(contents)
        if digest_of(outcome) != change.digest:
            raise FileProblem(
                f"{file.path}: an edit of it that was cut waits in a {PENDING} file, but"
                " something else has changed it since. Put it back as it was, or move the"
                f" {PENDING} file away to go on without that edit"
            )
        return outcome

    def _refuse_stranger(self, path: str, first: str) -> None:
        """A pending file reaches another file only where its partner note leads back."""
        if self._load_note(path) != first:
            raise FileProblem(
                f"{first}{PENDING}: it is for {path} too, but no {PARTNER} file beside that"
                " one says so"
            )

    # Looking for one.

    def _pending_of_any(self, paths: Sequence[str]) -> Optional[Pending]:
        for path in paths:
            pending = self._pending_of(path)
            if pending is not None:
                return pending
        return None

    def _pending_of(self, path: str) -> Optional[Pending]:
        """The save of this file that waits to be finished, if there is one."""
        own = self._load_pending(path)
        if own is not None:
            return own
        first = self._load_note(path)
        if first is None:
            return None
        pending = self._load_pending(first)
        if pending is None or path not in pending.paths():
            return None  # the note is left from a save that was never done, or is finished
        return pending

    def _load_pending(self, first: str) -> Optional[Pending]:
        """The save whose pending file lies beside this file, with real paths."""
        data = self._load(first + PENDING)
        if data is None:
            return None
        try:
            found = decode_pending(data)
        except (ValueError, KeyError, TypeError) as problem:
            raise FileProblem(f"{first}{PENDING}: is damaged ({problem})") from problem
        changes = [replace(found.changes[0], path=first)]
        for change in found.changes[1:]:
            changes.append(replace(change, path=self._path_from(first, change.path)))
        return Pending(tuple(changes))

    def _load_note(self, path: str) -> Optional[str]:
        """The first file of the save that the partner note beside this file tells of."""
        data = self._load(path + PARTNER)
        if data is None:
            return None
        try:
            first = self._path_from(path, decode_note(data))
        except (ValueError, KeyError, TypeError) as problem:
            raise FileProblem(f"{path}{PARTNER}: is damaged ({problem})") from problem
        self._refuse_lost(path, first)
        return first

    def _path_from(self, path: str, other: str) -> str:
        """The real path of a file that is named as seen from the folder of this one."""
        return self._files.real_path(os.path.join(os.path.dirname(path), other))

    def _refuse_lost(self, path: str, first: str) -> None:
        """Without the first file nobody can tell whether the save was done."""
        try:
            self._files.about_path(first)
        except OSError as problem:
            raise FileProblem(
                f"{path}: was being saved together with {first}, which cannot be found"
                f" ({problem.strerror}). Put that back, or remove {path}{PARTNER} to use this"
                " file as it stands"
            ) from problem

    # Reading and making files.

    def _path_of(self, path: FilePath) -> str:
        """The real path of a map or a journal."""
        problem = misnamed(path)
        if problem:
            raise FileProblem(problem)
        real = self._files.real_path(path)
        if real.endswith(OWN_ENDINGS):
            raise FileProblem(
                f"{path}: names that end in {PENDING} or {PARTNER}, with or without {PART}, are"
                " for the files of a save; a map or a journal needs another name"
            )
        return real

    def _wanted(self, file: Opened, wanted: Wanted) -> bytes:
        return wanted.of(self._contents(file, wanted.most + 1))

    def _contents(self, file: Opened, most: int) -> bytes:
        try:
            return read_up_to(self._files, file.handle, most)
        except OSError as problem:
            raise file_problem(file.path, problem) from problem

    def _load(self, path: str) -> Optional[bytes]:
        """All of a pending file or a note; None where there is no such file."""
        try:
            handle = self._files.open(path, os.O_RDONLY | os.O_NOFOLLOW)
        except FileNotFoundError:
            return None
        except OSError as problem:
            if name_is_too_long(path, problem):
                return None
            raise file_problem(path, problem) from problem
        try:
            return read_up_to(self._files, handle, self._files.about(handle).st_size)
        except OSError as problem:
            raise file_problem(path, problem) from problem
        finally:
            self._files.close(handle)

    def _refuse_unread(self, file: Opened, old: bytes) -> None:
        """Only a file that was read to its end is saved."""
        if self._files.about(file.handle).st_size != len(old):
            raise FileProblem(f"{file.path}: is too long to be edited")

    def _refuse_taken(self, path: FilePath) -> None:
        real = self._files.real_path(path)
        try:
            self._files.about_path(os.path.dirname(real))
            size = self._size_at(real)
        except OSError as problem:
            raise file_problem(path, problem) from problem
        if size > 0:
            raise FileProblem(f"{path}: exists already; nothing was changed")

    def _size_at(self, path: str) -> int:
        """The size of the file of this name, 0 where there is none."""
        try:
            return self._files.about_path(path).st_size
        except FileNotFoundError:
            return 0

    def _make_empty(self, path: FilePath, made: List[str]) -> None:
        """Makes an empty file where there is none, and notes it; one that is there stays."""
        real = self._files.real_path(path)
        try:
            handle = self._files.create(real, os.O_WRONLY | os.O_EXCL, 0o666)
            made.append(real)
            self._files.close(handle)
            sync_folder_of(self._files, real)
        except FileExistsError:
            return  # opening it tells whether it is fit
        except OSError as problem:
            raise file_problem(path, problem) from problem


def _told(problem: OSError) -> str:
    if problem.filename is None:
        return problem.strerror or str(problem)
    return f"{problem.strerror}: {problem.filename}"


def _leftover_problem(path: str, ending: str, problem: OSError) -> FileProblem:
    if name_is_too_long(path + ending, problem):
        return FileProblem(
            f"{path}: the name is too long to be edited, because an edit makes a file with"
            f" {ending} behind it; nothing was changed"
        )
    return file_problem(path + ending, problem)


def _one_of_each_folder(paths: Sequence[str]) -> Iterable[str]:
    return {os.path.dirname(path): path for path in paths}.values()


def _refuse_twins(paths: Sequence[str]) -> None:
    if len(set(paths)) != len(paths):
        raise FileProblem(f"{paths[0]}: is named twice; map and journal are two files")
