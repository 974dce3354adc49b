"""The answers of the five calls, as small values that cannot be changed.

Every call answers with one of these. Two answers are equal when they are of the same kind
and hold the same numbers, so ``Done(0, 48)`` is not ``DoneBefore(0, 48)``. A refusal is false,
and every other answer is true, also one that found nothing.
"""

from __future__ import annotations

from dataclasses import dataclass
from typing import Dict, Literal, Tuple, Union

# The numbers that come back, each with the words that documents 01 and 02 give for it.
WORDS: Dict[int, str] = {
    1: "length under 48 or over the limit, or past the buffer",
    2: "mark",
    3: "version pair or file type",
    4: "setup, then info",
    5: "index block",
    6: "symbol block or record",
    7: "live slot, lowest number first",
    8: "window with left > right or bottom > top",
    9: "list shorter than the count",
    10: "offered object malformed",
    11: "new length over the buffer or 16,777,216",
    12: "slot missing or not in the state wanted, or reinstating refused",
    13: "journal malformed, or edit number 0",
    14: "number held by another edit",
    15: "journal full",
    17: "edit of a map of OCAD 9, 10 or 11",
}


@dataclass(frozen=True)
class Accepted:
    """The map is good."""


@dataclass(frozen=True)
class Found:
    """A search's answer: the slots found, ascending, and the index blocks walked."""

    slots: Tuple[int, ...]
    blocks: int


@dataclass(frozen=True)
class Listed:
    """A search's answer where the caller lent the list: how many entries of the list now
    hold a slot number, and the index blocks walked."""

    count: int
    blocks: int


@dataclass(frozen=True)
class Done:
    """The edit was done now. The map is the first ``length`` bytes of its buffer."""

    slot: int
    length: int


@dataclass(frozen=True)
class DoneBefore:
    """The journal holds this very edit already. No byte was changed."""

    slot: int
    length: int


@dataclass(frozen=True)
class Refused:
    """The call was refused and no lent byte was changed.

    ``number`` and ``place`` are those of documents 01 and 02, ``words`` say what the number
    means, and ``needed`` is the count that the list must have room for (number 9 alone, else 0).
    """

    number: int
    place: int
    words: str
    needed: int = 0

    def __bool__(self) -> Literal[False]:
        """A refusal is false, so that ``if check(m):`` asks whether the map is accepted."""
        return False

    def __str__(self) -> str:
        return f"refused {self.number} at {self.place}: {self.words}"


CheckResult = Union[Accepted, Refused]
SearchResult = Union[Found, Refused]
ListResult = Union[Listed, Refused]
EditResult = Union[Done, DoneBefore, Refused]


def refused(number: int, place: int = 0, needed: int = 0) -> Refused:
    """The refusal of this number, with the documents' words for it."""
    return Refused(number, place, WORDS[number], needed)
