"""What a command has to say: in JSON for scripts, and in plain text for people."""

from __future__ import annotations

from typing import Any, Dict, Iterable, List, Mapping, NamedTuple, Sequence, Union

from . import layout
from .files import DoneUnfinished
from .layout import Slot
from .results import Done, DoneBefore, Refused
from .wording import counted

PROGRAM = "taffrail"

DONE, REFUSED, UNUSABLE, FAILED_AFTERWARDS = 0, 1, 2, 3  # the exit codes
INTERRUPTED = 130

Facts = Dict[str, Any]


class Report(NamedTuple):
    """What a command has to say: its exit code, and the same in JSON and in plain text. A
    warning is for people, and stands among the facts too."""

    exit_code: int
    facts: Facts
    text: str
    warning: str = ""


def report_refused(answer: Refused, file: str, reason: str) -> Report:
    """A refusal on account of this file; without a reason the number's own words have to do."""
    facts: Facts = {
        "result": "refused",
        "number": answer.number,
        "place": answer.place,
        "words": answer.words,
        "file": file,
        "reason": reason or answer.words,
    }
    text = f"{file}: refused {answer.number} at {answer.place}: {facts['reason']}"
    return Report(REFUSED, facts, text)


def report_done(answer: Union[Done, DoneBefore], edit: int) -> Report:
    result = "done before" if isinstance(answer, DoneBefore) else "done"
    facts = {"result": result, "edit": edit, "slot": answer.slot, "length": answer.length}
    text = f"{result}: edit {edit}, slot {answer.slot}, map of {answer.length:,} bytes"
    return Report(DONE, facts, text)


def report_unfinished(report: Report, problem: DoneUnfinished) -> Report:
    """The report of what is done, and that the files could not be brought up to date."""
    result = f"{report.facts['result']} unfinished"
    facts = {**report.facts, "result": result, "message": str(problem)}
    text = f"{report.text}\n{PROGRAM}: {problem}"
    return report._replace(exit_code=FAILED_AFTERWARDS, facts=facts, text=text)


def says_done(report: Report) -> bool:
    """Whether the files hold what the command was to do, now or since before."""
    result: str = report.facts["result"]
    return result.startswith(("done", "new"))


def with_warning(report: Report, file: str, warning: str, **facts: Any) -> Report:
    """The report with a warning about this file, and what a script may want to know of it."""
    if not warning:
        return report
    told = f"{file}: {warning}"
    facts = {**report.facts, "warning": told, **facts}
    return report._replace(facts=facts, warning=f"{PROGRAM}: {told}")


def report_problem(message: str, before: str = "") -> Report:
    """A problem with files or words, told behind what comes before it for people."""
    facts = {"result": "unusable", "message": message}
    return Report(UNUSABLE, facts, f"{before}{PROGRAM}: {message}")


def map_facts(accepted_map: bytes) -> Facts:
    return {
        "version": layout.version_of(accepted_map),
        "length": len(accepted_map),
        "blocks": len(layout.block_places(accepted_map)),
    }


def describe_map(accepted_map: bytes) -> str:
    facts = map_facts(accepted_map)
    blocks = counted(facts["blocks"], "index block")
    return f"OCAD {facts['version']}, {counted(facts['length'], 'byte')}, {blocks}"


def describe_states(counts: Mapping[str, int], hidden: int) -> str:
    """How many slots are in each state; hidden ones are live."""
    told = {state: f"{count:,} {state}" for state, count in counts.items()}
    if hidden:
        told["live"] += f" ({hidden:,} hidden)"
    return ", ".join(told.values())


def slot_lines(slots: Sequence[Slot]) -> List[str]:
    headings = ("slot", "state", "Sym", "Len", "position", "left", "bottom", "right", "top")
    return table(headings, [slot_row(slot) for slot in slots])


def slot_row(slot: Slot) -> List[object]:
    number, state, *rest, hidden = slot
    return [number, f"{state}, hidden" if hidden else state, *rest]


def table(headings: Sequence[str], rows: Sequence[Iterable[Any]]) -> List[str]:
    """The lines of a table; no line at all where there is no row."""
    if not rows:
        return []
    texts = [list(headings)] + [[str(cell) for cell in row] for row in rows]
    widths = [max(len(text) for text in column) for column in zip(*texts)]
    return [
        "  ".join(text.rjust(width) for text, width in zip(line, widths)) for line in texts
    ]
