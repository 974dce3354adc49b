"""The command line: ``python3 -m taffrail COMMAND ...`` on files.

Exit codes: 0 for done, done before, accepted, found and listed; 1 for refused; 2 for wrong
usage and for files that cannot be used; 3 for done where something failed afterwards; 130 for
an interrupt. With --json every command writes one JSON object to standard output, for refusals,
file problems and wrong usage too. Files are opened, locked and saved by the module ``store``; a
refusal writes nothing.
"""

from __future__ import annotations

import argparse
import io
import os
import sys
from contextlib import suppress
from typing import Callable, List, Optional, Sequence, Tuple

from . import layout
from .arguments import NEW_VERSION, STANDARD_INPUT, WrongUsage, make_parser, wants_json
from .calls import add, check, reinstate, remove, room_for_add, search
from .files import DoneUnfinished, FileProblem, Files, file_problem
from .layout import JOURNAL_LIMIT, MAP_LIMIT, MOST_RECORDS, OBJECT_LIMIT
from .library import LibraryError
from .output import complain, tell
from .reasons import Asked, nearly_full, reason_of_check, reason_of_edit, reason_of_search
from .reports import (
    DONE,
    INTERRUPTED,
    PROGRAM,
    Facts,
    Report,
    describe_map,
    describe_states,
    map_facts,
    report_done,
    report_problem,
    report_refused,
    report_unfinished,
    slot_lines,
    table,
    with_warning,
)
from .results import Done, EditResult, Refused, refused
from .store import Store, Wanted
from .wording import counted

OBJECT_MALFORMED = 10
JOURNAL_MALFORMED, JOURNAL_FULL = 13, 15  # the numbers from one to the other are about a journal


# The commands. Each takes the arguments and the store, and gives its report.


def run_new(given: argparse.Namespace, store: Store) -> Report:
    """Write an empty map (OCAD 6, 7 or 8), an empty journal, or both."""
    refuse_idle_words(given)
    facts: Facts = {"result": "new"}
    files: List[Tuple[str, bytes]] = []
    lines: List[str] = []
    if given.map is not None:
        version = NEW_VERSION if given.version is None else given.version
        content = layout.empty_map(version)
        files.append((given.map, content))
        facts.update(map=given.map, version=version, length=len(content))
        lines.append(f"new map {given.map}: OCAD {version}, {counted(len(content), 'byte')}")
    if given.journal is not None:
        records = MOST_RECORDS if given.records is None else given.records
        files.append((given.journal, layout.empty_journal(records)))
        facts.update(journal=given.journal, records=records)
        lines.append(f"new journal {given.journal}: room for {counted(records, 'edit')}")
    report = Report(DONE, facts, "\n".join(lines))
    return report_saved(report, lambda: store.create(files))


def run_check(given: argparse.Namespace, store: Store) -> Report:
    """Judge a map."""
    contents = read_map(given.map, store)
    answer = check(contents)
    if isinstance(answer, Refused):
        return report_bad_map(answer, given.map, contents)
    facts = {"result": "accepted", **map_facts(contents)}
    return Report(DONE, facts, f"accepted: {describe_map(contents)}")


def run_search(given: argparse.Namespace, store: Store) -> Report:
    """List the live slots that meet a window, hidden ones too."""
    contents = read_map(given.map, store)
    window = (given.left, given.bottom, given.right, given.top)
    answer = search(contents, *window)
    if isinstance(answer, Refused):
        reason = reason_of_search(answer, contents, window, os.path.basename(given.map))
        return report_refused(answer, given.map, reason)
    places = layout.block_places(contents)
    slots = [layout.slot_at(contents, places, number) for number in answer.slots]
    facts = {
        "result": "found",
        "count": len(slots),
        "blocks": answer.blocks,
        "slots": [slot._asdict() for slot in slots],
    }
    line = f"found {len(slots):,}, index blocks walked: {answer.blocks:,}"
    return Report(DONE, facts, "\n".join([line, *slot_lines(slots)]))


def run_add(given: argparse.Namespace, store: Store) -> Report:
    """Add an object from a file or from standard input (OCAD 6, 7 and 8)."""
    return run_edit(given, store, "add", offered=read_object(given.object))


def run_remove(given: argparse.Namespace, store: Store) -> Report:
    """Remove the object of a live slot (OCAD 6, 7 and 8)."""
    return run_edit(given, store, "remove", slot=given.slot)


def run_reinstate(given: argparse.Namespace, store: Store) -> Report:
    """Make an erased slot live again (OCAD 6, 7 and 8)."""
    return run_edit(given, store, "reinstate", slot=given.slot)


def run_journal(given: argparse.Namespace, store: Store) -> Report:
    """List the records of a journal."""
    contents = store.read(wanted_journal(given.journal))
    try:
        records = layout.read_journal(contents)
    except layout.JournalFault as fault:
        report = report_refused(refused(JOURNAL_MALFORMED), given.journal, str(fault))
        return report._replace(facts={**report.facts, "detail": str(fault)})
    size = len(contents) // layout.RECORD_SIZE
    facts = {
        "result": "listed",
        "used": len(records),
        "size": size,
        "records": [record._asdict() for record in records],
    }
    line = f"records in use: {len(records):,} of {size:,}"
    headings = ("record", "edit", "kind", "slot")
    rows = [(place, *record) for place, record in enumerate(records)]
    return Report(DONE, facts, "\n".join([line, *table(headings, rows)]))


def run_show(given: argparse.Namespace, store: Store) -> Report:
    """List the slots of a map, and say which are hidden."""
    contents = read_map(given.map, store)
    answer = check(contents)
    if isinstance(answer, Refused):
        return report_bad_map(answer, given.map, contents)
    counts = {"live": 0, "erased": 0, "free": 0}
    slots = []
    for slot in layout.all_slots(contents):
        counts[slot.state] += 1
        if given.free or slot.state != "free":
            slots.append(slot)
    hidden = sum(slot.hidden for slot in slots)
    facts: Facts = {
        "result": "shown",
        **map_facts(contents),
        **counts,
        "hidden": hidden,
        "slots": [slot._asdict() for slot in slots],
    }
    line = f"{describe_map(contents)}; slots: {describe_states(counts, hidden)}"
    return Report(DONE, facts, "\n".join([line, *slot_lines(slots)]))


COMMANDS = {
    "new": run_new,
    "check": run_check,
    "search": run_search,
    "add": run_add,
    "remove": run_remove,
    "reinstate": run_reinstate,
    "journal": run_journal,
    "show": run_show,
}


def run_edit(
    given: argparse.Namespace, store: Store, kind: str, slot: int = 0, offered: bytes = b""
) -> Report:
    """One edit on a pair of files, saved only where it was done now."""
    wanted = (Wanted(given.map, MAP_LIMIT), wanted_journal(given.journal))
    with store.edit(*wanted) as group:
        old_map, old_journal = group.contents
        asked = Asked(old_map, old_journal, given.edit, kind, slot, offered)
        map_buffer = bytearray(old_map) + bytes(room_for_add(offered) if kind == "add" else 0)
        journal = bytearray(old_journal)
        answer = call_edit(asked, map_buffer, journal)
        if isinstance(answer, Done):
            new_map, new_journal = bytes(map_buffer[: answer.length]), bytes(journal)
            report = warn_of_full(report_done(answer, given.edit), given, new_journal)
            return report_saved(report, lambda: group.save(new_map, new_journal))
    if isinstance(answer, Refused):
        reason = reason_of_edit(answer, asked, os.path.basename(given.map))
        return report_refused(answer, file_at_fault(answer, given), reason)
    return report_done(answer, given.edit)


def report_saved(report: Report, save: Callable[[], None]) -> Report:
    """Saves what the report says is done. That a save could not be finished is told with it."""
    try:
        save()
    except DoneUnfinished as problem:
        return report_unfinished(report, problem)
    return report


def call_edit(asked: Asked, map_buffer: bytearray, journal: bytearray) -> EditResult:
    """The library's answer to what is asked."""
    used = len(asked.map)
    if asked.kind == "add":
        return add(map_buffer, journal, asked.edit, asked.offered, used=used)
    call = remove if asked.kind == "remove" else reinstate
    return call(map_buffer, journal, asked.edit, asked.slot, used=used)


def file_at_fault(answer: Refused, given: argparse.Namespace) -> str:
    """The file of an edit that a refusal is about."""
    if answer.number == OBJECT_MALFORMED:
        return "standard input" if given.object == STANDARD_INPUT else str(given.object)
    of_journal = JOURNAL_MALFORMED <= answer.number <= JOURNAL_FULL
    return str(given.journal if of_journal else given.map)


def warn_of_full(report: Report, given: argparse.Namespace, journal: bytes) -> Report:
    """Says it where the edit has left its journal nearly full."""
    used, size = layout.used_records(journal), len(journal) // layout.RECORD_SIZE
    warning = nearly_full(used, size)
    return with_warning(report, given.journal, warning, records_left=size - used)


def report_bad_map(answer: Refused, path: str, contents: bytes) -> Report:
    reason = reason_of_check(answer, contents, os.path.basename(path))
    return report_refused(answer, path, reason)


# Reading what a command is given.


def refuse_idle_words(given: argparse.Namespace) -> None:
    """Says what is missing where words of ``new`` would go unused."""
    if given.map is None and given.journal is None:
        raise WrongUsage("new: name a map, or a journal with --journal, or both")
    if given.map is None and given.version is not None:
        raise WrongUsage("new: --version is for a map, and none is named")
    if given.journal is None and given.records is not None:
        raise WrongUsage("new: --records is for a journal, and none is named with --journal")


def read_map(path: str, store: Store) -> bytes:
    return store.read(Wanted(path, MAP_LIMIT))


def wanted_journal(path: str) -> Wanted:
    """One byte over the limit is enough for the library to refuse a journal."""
    return Wanted(path, JOURNAL_LIMIT + 1, first_bytes_will_do=True)


def read_object(path: str) -> bytes:
    """The offered bytes. One byte over the limit is enough for the library to refuse them."""
    most = OBJECT_LIMIT + 1
    if path == STANDARD_INPUT:
        if sys.stdin is None:
            raise FileProblem("standard input is closed")
        return read_input(most)
    try:
        with open(path, "rb") as file:
            return file.read(most)
    except OSError as problem:
        raise file_problem(path, problem) from problem


def read_input(most: int) -> bytes:
    """The bytes of standard input, which whoever shares it may have set not to wait."""
    with suppress(io.UnsupportedOperation):  # it may have no descriptor
        os.set_blocking(sys.stdin.fileno(), True)
    return sys.stdin.buffer.read(most)


# Running.


def main(arguments: Optional[Sequence[str]] = None, files: Optional[Files] = None) -> int:
    """Runs one command and gives its exit code. ``files`` makes the system calls."""
    words = sys.argv[1:] if arguments is None else list(arguments)
    try:
        given = make_parser(COMMANDS).parse_args(words)
    except WrongUsage as problem:
        return tell(report_problem(str(problem), problem.usage), wants_json(words))
    return tell(report_of(given, Store(files, given.wait)), given.json)


def report_of(given: argparse.Namespace, store: Store) -> Report:
    """Runs the command that is given."""
    try:
        report: Report = given.run(given, store)
    except WrongUsage as problem:
        return report_problem(str(problem), problem.usage)
    except (FileProblem, LibraryError) as problem:
        return report_problem(str(problem))
    except OSError as problem:
        return report_problem(f"{problem.filename or 'system'}: {problem.strerror}")
    return report


def run() -> None:
    """The program: ends the process with the exit code."""
    if isinstance(sys.stdout, io.TextIOWrapper):
        sys.stdout.reconfigure(errors="backslashreplace")  # file names may hold any byte
    try:
        code = main()
    except KeyboardInterrupt:
        complain(f"{PROGRAM}: interrupted; an edit is done wholly or not at all")
        code = INTERRUPTED
    sys.exit(code)
