"""Writes reports to standard output and standard error, and copes where that cannot be done."""

from __future__ import annotations

import json
import os
import sys
from typing import TextIO

from .reports import DONE, FAILED_AFTERWARDS, PROGRAM, UNUSABLE, Report, says_done
from .wording import readable


def tell(report: Report, as_json: bool) -> int:
    """Writes the report, for people with its warning, and gives the exit code."""
    code = answer(report, as_json)
    if report.warning and not as_json:
        complain(report.warning)
    return code


def answer(report: Report, as_json: bool) -> int:
    """Writes the report, and gives the exit code that this leads to."""
    try:
        write(report, as_json)
    except BrokenPipeError:
        silence(sys.stdout)  # the reader has seen enough, as head does
    except OSError as problem:
        silence(sys.stdout)
        complain(f"{PROGRAM}: standard output: {problem.strerror}")
        return FAILED_AFTERWARDS if says_done(report) else UNUSABLE
    return report.exit_code


def write(report: Report, as_json: bool) -> None:
    """JSON goes to standard output; text does where all is well, else to standard error."""
    if as_json:
        # names of files stand in facts of their own, not in lists
        facts = {
            name: readable(fact) if isinstance(fact, str) else fact
            for name, fact in report.facts.items()
        }
        print(json.dumps(facts), flush=True)
    elif report.exit_code == DONE:
        print(readable(report.text), flush=True)
    else:
        complain(report.text)


def complain(text: str) -> None:
    """Says this on standard error. Where that cannot be written the exit code has to do."""
    if sys.stderr is None:
        return
    try:
        print(readable(text), file=sys.stderr, flush=True)
    except OSError:
        silence(sys.stderr)


def silence(stream: TextIO) -> None:
    """Lets what is still to be written go nowhere, so that Python ends without a complaint."""
    nowhere = os.open(os.devnull, os.O_WRONLY)
    os.dup2(nowhere, stream.fileno())
    os.close(nowhere)
