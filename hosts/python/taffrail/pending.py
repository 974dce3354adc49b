"""What a save writes down before it changes a file: the pending file and the partner note.

Both have one form: a title line, a head in one line of JSON, a body of bytes, and the SHA-256
of all that. A pending file's head lists the files of the save, the first one being the file
that it lies beside; of each its path, the pieces to write, and the length and SHA-256 of the
whole file afterwards. The pieces' bytes are the body. A note's head has one path and no body.
"""

from __future__ import annotations

import hashlib
import json
import os
from dataclasses import dataclass
from typing import Any, Dict, List, Tuple

CHUNK = 4_096  # changes are looked for in pieces of this size
TITLE = b"taffrail saving 1\n"
DIGEST_SIZE = hashlib.sha256().digest_size

Piece = Tuple[int, bytes]  # where in the file, and what to write there


@dataclass(frozen=True)
class Change:
    """What a save makes of one file: the pieces to write, and what the whole is then."""

    path: str
    length: int
    digest: str
    pieces: Tuple[Piece, ...]


@dataclass(frozen=True)
class Pending:
    """A save of one or more files. The pending file lies beside the first."""

    changes: Tuple[Change, ...]

    def paths(self) -> List[str]:
        """The files of the save."""
        return [change.path for change in self.changes]

    def change_of(self, path: str) -> Change:
        """The change of one of them."""
        return next(change for change in self.changes if change.path == path)


def change_between(path: str, old: bytes, new: bytes) -> Change:
    """The change that makes new contents of old ones, which are not longer."""
    if len(new) < len(old):
        raise ValueError("a file never gets shorter")
    pieces: List[Piece] = []
    for at in range(0, len(old), CHUNK):
        end = min(at + CHUNK, len(old))
        if old[at:end] != new[at:end]:
            first, last = _span(old[at:end], new[at:end])
            pieces.append((at + first, new[at + first : at + last + 1]))
    if len(new) > len(old):
        pieces.append((len(old), new[len(old) :]))
    return Change(path, len(new), digest_of(new), tuple(pieces))


def _span(old: bytes, new: bytes) -> Tuple[int, int]:
    """The first and the last place where two runs of bytes differ, as they do."""
    places = [place for place, (a, b) in enumerate(zip(old, new)) if a != b]
    return places[0], places[-1]


def digest_of(data: bytes) -> str:
    """The SHA-256 of these bytes, in hexadecimal."""
    return hashlib.sha256(data).hexdigest()


def encode_pending(pending: Pending) -> bytes:
    """A pending file's bytes. Paths are kept as seen from the folder that it lies in."""
    folder = os.path.dirname(pending.changes[0].path)
    heads = []
    for change in pending.changes:
        heads.append(
            {
                "path": os.path.relpath(change.path, folder),
                "length": change.length,
                "sha256": change.digest,
                "pieces": [[at, len(data)] for at, data in change.pieces],
            }
        )
    body = b"".join(data for change in pending.changes for _, data in change.pieces)
    return seal({"files": heads}, body)


def decode_pending(data: bytes) -> Pending:
    """The save in a pending file, its paths as they are there. ValueError if it is damaged."""
    head, body = unseal(data)
    changes = []
    start = 0
    for one in head["files"]:
        pieces: List[Piece] = []
        for at, size in one["pieces"]:
            pieces.append((_count(at), body[start : start + _count(size)]))
            start += size
        length = _count(one["length"])
        changes.append(Change(str(one["path"]), length, str(one["sha256"]), tuple(pieces)))
    if not changes:
        raise ValueError("it names no file")
    return Pending(tuple(changes))


def _count(number: Any) -> int:
    if not isinstance(number, int) or number < 0:
        raise ValueError("a count in it is none")
    return number


def encode_note(first: str, path: str) -> bytes:
    """A partner note's bytes, for the file at path, whose save's first file is first."""
    return seal({"first": os.path.relpath(first, os.path.dirname(path))}, b"")


def decode_note(data: bytes) -> str:
    """The path of the first file, as seen from the note's folder."""
    head, _ = unseal(data)
    return str(head["first"])


def seal(head: Dict[str, Any], body: bytes) -> bytes:
    """A title, a head in one line of JSON, a body, and the SHA-256 of all that."""
    text = TITLE + json.dumps(head).encode("ascii") + b"\n" + body
    return text + hashlib.sha256(text).digest()


def unseal(data: bytes) -> Tuple[Dict[str, Any], bytes]:
    """Head and body again. ValueError where a byte is not what was sealed."""
    text, digest = data[:-DIGEST_SIZE], data[-DIGEST_SIZE:]
    if not text.startswith(TITLE) or hashlib.sha256(text).digest() != digest:
        raise ValueError("its checksum is wrong")
    line, _, body = text[len(TITLE) :].partition(b"\n")
    return json.loads(line), body
