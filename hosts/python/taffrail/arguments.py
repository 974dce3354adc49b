"""The words of a command: what each command takes, and what is said of words that do not fit."""

from __future__ import annotations

import argparse
import math
import re
from typing import Any, Callable, Mapping, NoReturn, Sequence

from .files import misnamed
from .layout import MOST_RECORDS, NINE_TO_ELEVEN, SIX_TO_EIGHT
from .reports import PROGRAM
from .store import DEFAULT_WAIT
from .wording import listed

JSON = "--json"
STANDARD_INPUT = "-"

NEW_VERSION = 8  # of a new map, unless another is asked for
OTHER_VERSIONS = listed(NINE_TO_ELEVEN.versions, "and")
NOT_MADE = f"; maps of OCAD {OTHER_VERSIONS} are checked, searched and shown, and not made"


class WrongUsage(Exception):
    """The words of a command do not go together. The usage, if any, is told before that."""

    def __init__(self, message: str, usage: str = "") -> None:
        super().__init__(message)
        self.usage = usage


class Parser(argparse.ArgumentParser):
    """Raises what is wrong with the words, so that it is reported as other problems are."""

    def error(self, message: str) -> NoReturn:
        command = self.prog[len(PROGRAM) :].strip()
        raise WrongUsage(f"{command}: {message}" if command else message, self.format_usage())


def wants_json(words: Sequence[str]) -> bool:
    """Whether words that do not go together ask for JSON, cut short or not."""
    parser = Parser(add_help=False)
    add_json(parser, False)
    try:
        return bool(parser.parse_known_args(words)[0].json)
    except WrongUsage:
        return True  # with something behind it that it does not take


# The parsers. ``run`` of the result is what the command is to run.


def make_parser(commands: Mapping[str, Callable[..., Any]]) -> Parser:
    """The parser of all commands, each with the function that runs it."""
    parser = Parser(
        prog=PROGRAM,
        description="OCAD maps: check, search and show those of OCAD 6 to 11, and edit those of"
        " 6, 7 and 8, under a journal of edits.",
        epilog="Exit codes: 0 done or done before, 1 refused, 2 usage or files, 3 done and then"
        " something failed, 130 interrupted.",
    )
    add_common(parser, json=False, wait=DEFAULT_WAIT)
    made = parser.add_subparsers(metavar="COMMAND", required=True)
    for name, run in commands.items():
        words = run.__doc__ or ""
        command = made.add_parser(name, help=words, description=words)
        command.set_defaults(run=run)
        # What stands before the command holds, unless it is said again behind it.
        add_common(command, json=argparse.SUPPRESS, wait=argparse.SUPPRESS)
        DESCRIPTIONS[name](command)
    return parser


def add_common(parser: argparse.ArgumentParser, *, json: object, wait: object) -> None:
    """What every command takes, before its name and behind it."""
    add_json(parser, json)
    waiting = parser.add_mutually_exclusive_group()
    waiting.add_argument(
        "--wait",
        type=seconds,
        default=wait,
        metavar="SECONDS",
        help=f"how long to wait for a locked file ({DEFAULT_WAIT})",
    )
    waiting.add_argument(
        "--no-wait",
        dest="wait",
        action="store_const",
        const=0.0,
        default=wait,
        help="do not wait for a locked file",
    )


def add_json(parser: argparse.ArgumentParser, default: object) -> None:
    parser.add_argument(
        JSON, action="store_true", default=default, help="answer in JSON, for scripts"
    )


def describe_new(new: argparse.ArgumentParser) -> None:
    new.add_argument("map", metavar="MAP", nargs="?", type=file_name, help="the map to write")
    new.add_argument(
        "--version",
        type=whole_number(min(SIX_TO_EIGHT.versions), max(SIX_TO_EIGHT.versions), NOT_MADE),
        metavar="|".join(map(str, SIX_TO_EIGHT.versions)),
        help=f"of the map ({NEW_VERSION})",
    )
    new.add_argument("--journal", metavar="FILE", type=file_name, help="a journal to write")
    new.add_argument(
        "--records",
        type=whole_number(0, MOST_RECORDS),
        metavar="N",
        help=f"how many edits the journal can hold ({MOST_RECORDS}, which is the most)",
    )


def describe_map(command: argparse.ArgumentParser) -> None:
    command.add_argument("map", metavar="MAP", type=file_name)


def describe_journal(command: argparse.ArgumentParser) -> None:
    command.add_argument("journal", metavar="JOURNAL", type=file_name)


def describe_search(find: argparse.ArgumentParser) -> None:
    describe_map(find)
    for name, letter in (("left", "L"), ("bottom", "B"), ("right", "R"), ("top", "T")):
        find.add_argument(name, metavar=letter, type=COORDINATE, help=f"{name}, in 0.01 mm")


def describe_add(made: argparse.ArgumentParser) -> None:
    describe_edit(made)
    made.add_argument(
        "object",
        metavar="FILE",
        type=file_name,
        help=f"the object's bytes; {STANDARD_INPUT} for standard input",
    )


def describe_slot_edit(made: argparse.ArgumentParser) -> None:
    describe_edit(made)
    made.add_argument("--slot", type=WORD, required=True, metavar="S", help="the slot number")


def describe_edit(made: argparse.ArgumentParser) -> None:
    describe_map(made)
    describe_journal(made)
    made.add_argument("--edit", type=WORD, required=True, metavar="N", help="the edit number")


def describe_show(show: argparse.ArgumentParser) -> None:
    describe_map(show)
    show.add_argument("--free", action="store_true", help="list free slots too")


DESCRIPTIONS: Mapping[str, Callable[[argparse.ArgumentParser], None]] = {
    "new": describe_new,
    "check": describe_map,
    "search": describe_search,
    "add": describe_add,
    "remove": describe_slot_edit,
    "reinstate": describe_slot_edit,
    "journal": describe_journal,
    "show": describe_show,
}


# The readers of single words.


def file_name(text: str) -> str:
    """A reader of the name of a file."""
    problem = misnamed(text)
    if problem:
        raise argparse.ArgumentTypeError(problem)
    return text


MOST_DIGITS = 20  # of a number that some word takes; Python reads only so many of any


def whole_number(lowest: int, highest: int, more: str = "") -> Callable[[str], int]:
    """A reader of whole numbers within these two, which may have more to say of the others."""

    def read(text: str) -> int:
        found = re.fullmatch("(-?)0*([0-9]+)", text)
        if not found:
            raise argparse.ArgumentTypeError(f"'{text}' is not a whole number")
        sign, digits = found.groups()
        if len(digits) > MOST_DIGITS or not lowest <= int(sign + digits) <= highest:
            raise argparse.ArgumentTypeError(f"{text} is not within {lowest} to {highest}{more}")
        return int(sign + digits)

    return read


def seconds(text: str) -> float:
    """A reader of a time to wait."""
    try:
        time = float(text)
    except ValueError:
        time = math.nan
    if not 0 <= time < math.inf:
        raise argparse.ArgumentTypeError(f"'{text}' is not a number of seconds")
    return time


WORD = whole_number(0, 2**32 - 1)
COORDINATE = whole_number(-(2**31), 2**31 - 1)
