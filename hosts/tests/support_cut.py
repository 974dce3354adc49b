"""Ends a command at one of its system calls, or lets that call fail.

The command runs in a child of this process, with the library that this process uses. Every
call of ``Files`` is counted, or only those that change something.
"""

from __future__ import annotations

import errno
import io
import os
import signal
import sys
import traceback
from contextlib import redirect_stderr, redirect_stdout, suppress
from typing import Any, Callable, NamedTuple, Sequence

from taffrail import cli
from taffrail.files import Files

CHANGING = (
    "create",
    "write",
    "reserve",
    "truncate",
    "sync",
    "set_owner",
    "set_mode",
    "rename",
    "remove",
)
ALL = tuple(name for name in vars(Files) if not name.startswith("_"))

# What happens at the chosen call, in place of it: given the files, the name and what it takes.
Event = Callable[[Files, str, Sequence[Any]], None]


class CountingFiles(Files):
    """Lets something happen at the n-th call of the counted ones."""

    def __init__(self, counted: Sequence[str], chosen: int, event: Event) -> None:
        self.calls = 0
        for name in counted:
            setattr(self, name, self.counting(name, chosen, event))

    def counting(self, name: str, chosen: int, event: Event) -> Callable[..., Any]:
        call = getattr(super(), name)

        def counted(*given: Any) -> Any:
            self.calls += 1
            if self.calls == chosen:
                event(Files(), name, given)
            return call(*given)

        return counted


def cut(files: Files, name: str, given: Sequence[Any]) -> None:
    """The process is ended before the call."""
    os.kill(os.getpid(), signal.SIGKILL)


def cut_after(files: Files, name: str, given: Sequence[Any]) -> None:
    """The process is ended when the call has been made."""
    getattr(files, name)(*given)
    os.kill(os.getpid(), signal.SIGKILL)


def cut_in_the_middle(files: Files, name: str, given: Sequence[Any]) -> None:
    """The process is ended in the middle of a write, before any other call."""
    if name == "write":
        handle, data, at = given
        files.write(handle, data[: len(data) // 2], at)
    os.kill(os.getpid(), signal.SIGKILL)


def no_space(files: Files, name: str, given: Sequence[Any]) -> None:
    """The disk is full."""
    raise OSError(errno.ENOSPC, os.strerror(errno.ENOSPC))


def broken(files: Files, name: str, given: Sequence[Any]) -> None:
    """The disk does not answer."""
    raise OSError(errno.EIO, os.strerror(errno.EIO))


class Ended(NamedTuple):
    """How a child ended: by the cut, or with an exit code and what it wrote."""

    cut: bool
    code: int
    wrote: str


def nothing() -> None:
    """What a child does before the command, unless told otherwise."""


def run_in_child(
    arguments: Sequence[object], files: Files, before: Callable[[], None] = nothing
) -> Ended:
    """One command, in a child of this process that does something before it."""
    reading, writing = os.pipe()
    child = os.fork()
    if child == 0:
        os.close(reading)
        _child(arguments, files, writing, before)
    os.close(writing)
    with os.fdopen(reading) as pipe:
        wrote = pipe.read()
    _, status = os.waitpid(child, 0)
    if os.WIFSIGNALED(status):
        return Ended(True, -os.WTERMSIG(status), wrote)
    return Ended(False, os.WEXITSTATUS(status), wrote)


def _child(
    arguments: Sequence[object], files: Files, writing: int, before: Callable[[], None]
) -> None:
    code = 99  # a fault of the command or of this program
    said = io.StringIO()
    try:
        before()
        with redirect_stdout(said), redirect_stderr(said):
            code = cli.main([str(argument) for argument in arguments], files)
    except BaseException:
        said.write(traceback.format_exc())
    finally:
        with suppress(BrokenPipeError):  # whoever started it may have been ended
            os.write(writing, said.getvalue().encode())
        sys.stdout.flush()
        os._exit(code)


def run_here(*arguments: object) -> Ended:
    """One command in a child, with nothing happening to it."""
    return run_in_child(arguments, Files())


def count_calls(arguments: Sequence[object], counted: Sequence[str]) -> int:
    """How many of the counted calls this command makes when nothing happens to it."""
    files = CountingFiles(counted, 0, cut)
    said = io.StringIO()
    with redirect_stdout(said), redirect_stderr(said):
        code = cli.main([str(argument) for argument in arguments], files)
    assert code == 0, said.getvalue()
    return files.calls
