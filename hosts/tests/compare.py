"""Compares a library behind taffrail.h with the model, every lent byte after every call.

    python3 compare.py LIBRARY [--seed N] [--cases N] [--only N] [--program PATH] [--trace]
    python3 compare.py --self

First the worked cases of `vectors`, then generated cases, sweeps of damage over every field,
long runs of edits, and maps at the limits. `--self` puts the model itself behind the C
interface. It ends with 1 on the first difference, or if an answer came up too seldom, on maps
of 6 to 8 or on those of 9 to 11; fewer cases than 20,000 need not bring up every answer. If the
library crashes, `--trace` shows in which case.
"""

from __future__ import annotations

import argparse
import ctypes
import faulthandler
import struct
import subprocess
import sys
import time
import zlib
from collections import Counter
from random import Random, SystemRandom
from typing import Any, Callable, Mapping, Optional, Sequence

import generate
import model
import vectors
from generate import Case

POINTER, SIZE, U32, S32 = ctypes.c_void_p, ctypes.c_size_t, ctypes.c_uint32, ctypes.c_int32
MAP, JOURNAL, EDIT_OUT = (POINTER, SIZE, SIZE), (POINTER, SIZE), (POINTER,) * 4
PROTOTYPES: dict[str, tuple[Any, ...]] = {
    "check": (*MAP, POINTER),
    "search": (*MAP, S32, S32, S32, S32, POINTER, SIZE, POINTER, POINTER, POINTER),
    "add": (*MAP, *JOURNAL, U32, POINTER, SIZE, *EDIT_OUT),
    "remove": (*MAP, *JOURNAL, U32, U32, *EDIT_OUT),
    "reinstate": (*MAP, *JOURNAL, U32, U32, *EDIT_OUT),
}

Functions = Mapping[str, Callable[..., int]]

GUARD = bytes(range(0xA0, 0xE0))
CASES = 20_000  # unless another number is asked for
LEAST_HITS = 20  # of each answer in so many cases
FAMILIES = {False: "6 to 8", True: "9 to 11"}
WANTED = {  # the answers that have to come up in a family
    False: ("accepted", "searched", "done", "before", *map(str, range(1, 16))),
    True: ("accepted", "searched", "1", "2", "3", "5", "6", "7", "8", "9", "17"),
}
SWEPT = ((9, 0), (10, 3), (11, 8))  # versions and file types
RUNS, MANY_RUNS = 40, 2
PROGRAM_RUNS = 500
MOST_LINES = 20


class Difference(Exception):
    """What the library did otherwise than the model."""


class Lent:
    """Memory lent to the library, between guards."""

    def __init__(self, name: str) -> None:
        self.name = name
        self.memory = ctypes.create_string_buffer(1 << 17)
        self.base = 0
        self.data = b""

    def lend(self, data: bytes, shift: int) -> int:
        """The address of a copy of the bytes, off a multiple of 16 by the shift."""
        whole = GUARD + data + GUARD
        if len(whole) + 32 > len(self.memory):
            self.memory = ctypes.create_string_buffer(2 * len(whole))
        start = ctypes.addressof(self.memory)
        self.base = start + -start % 16 + shift
        self.data = data
        ctypes.memmove(self.base, whole, len(whole))
        return self.base + len(GUARD)

    def now(self) -> bytes:
        """The lent bytes as they are; no byte next to them may have changed."""
        whole = ctypes.string_at(self.base, len(self.data) + 2 * len(GUARD))
        end = len(GUARD) + len(self.data)
        if whole[: len(GUARD)] != GUARD or whole[end:] != GUARD:
            raise Difference(f"a byte outside the {self.name} was written")
        return whole[len(GUARD) : end]

    def unchanged(self) -> None:
        """A const buffer keeps every byte."""
        if self.now() != self.data:
            raise Difference(f"the {self.name} was written")


class Outs:
    """Out parameters, filled with rubbish before the call."""

    def __init__(self) -> None:
        self.memory = (U32 * 6)()
        self.rubbish = [0] * 6

    def addresses(self, count: int, turn: int) -> list[int]:
        """Where so many out parameters are."""
        self.rubbish = [(0x9E3779B1 * (turn + i + 1)) % 2**32 | 0x40000000 for i in range(6)]
        self.memory[:] = self.rubbish
        start = ctypes.addressof(self.memory)
        return [start + 4 * (1 + i) for i in range(count)]

    def values(self, count: int) -> list[int]:
        """What was written; the numbers beside keep their rubbish."""
        now = list(self.memory)
        if now[0] != self.rubbish[0] or now[count + 1 :] != self.rubbish[count + 1 :]:
            raise Difference("a byte outside the out parameters was written")
        return now[1 : count + 1]


class Library:
    """The calls of `model`, made through the C interface."""

    def __init__(self, functions: Functions, program: Optional[str] = None) -> None:
        self.functions = functions
        self.turn = 0
        self.map, self.journal = Lent("map"), Lent("journal")
        self.object, self.list = Lent("object"), Lent("list")
        self.outs = Outs()
        if program is not None:
            self.search_program = lambda read: run_program(program, read)

    def lend(self, lent: Lent, data: bytes, step: int = 1) -> tuple[int, int]:
        """A pointer and a length; the alignment changes from call to call."""
        return lent.lend(bytes(data), step * (self.turn % 4)), len(data)

    def out(self, count: int) -> list[int]:
        """Addresses of out parameters for the next call."""
        self.turn += 1
        return self.outs.addresses(count, self.turn)

    def check(self, map_buf: bytes, used: int) -> model.CheckResult:
        """taffrail_check."""
        out = self.out(1)
        number = self.functions["check"](*self.lend(self.map, map_buf), used, *out)
        self.map.unchanged()
        return model.CheckResult(number, *self.outs.values(1))

    def search(
        self,
        map_buf: bytes,
        used: int,
        left: int,
        bottom: int,
        right: int,
        top: int,
        list_entries: Sequence[int],
    ) -> model.SearchResult:
        """taffrail_search."""
        out, room = self.out(3), len(list_entries)
        form = f"={room}I"
        address, _ = self.lend(self.list, struct.pack(form, *list_entries), 4)
        lent_map = self.lend(self.map, map_buf)
        window = (left, bottom, right, top)
        number = self.functions["search"](*lent_map, used, *window, address, room, *out)
        self.map.unchanged()
        after = list(struct.unpack(form, self.list.now()))
        return model.SearchResult(number, *self.outs.values(3), after)

    def add(
        self, map_buf: bytes, used: int, journal: bytes, edit: int, obj: bytes
    ) -> model.EditResult:
        """taffrail_add."""
        result = self.edit("add", map_buf, used, journal, edit, self.lend(self.object, obj))
        self.object.unchanged()
        return result

    def remove(
        self, map_buf: bytes, used: int, journal: bytes, edit: int, at: int
    ) -> model.EditResult:
        """taffrail_remove."""
        return self.edit("remove", map_buf, used, journal, edit, (at,))

    def reinstate(
        self, map_buf: bytes, used: int, journal: bytes, edit: int, at: int
    ) -> model.EditResult:
        """taffrail_reinstate."""
        return self.edit("reinstate", map_buf, used, journal, edit, (at,))

    def edit(
        self,
        call: str,
        map_buf: bytes,
        used: int,
        journal: bytes,
        edit: int,
        last: tuple[int, ...],
    ) -> model.EditResult:
        """An edit; the last arguments are an object or a slot."""
        out = self.out(4)
        lent = *self.lend(self.map, map_buf), used, *self.lend(self.journal, journal)
        number = self.functions[call](*lent, edit, *last, *out)
        after = self.map.now(), self.journal.now()
        return model.EditResult(number, *self.outs.values(4), *after)


def run_program(path: str, read: bytes) -> bytes:
    """What the search program writes for what it reads."""
    return subprocess.run([path], input=read, stdout=subprocess.PIPE, check=False).stdout


def load(path: str) -> Functions:
    """The functions of a shared library, by the prototypes of taffrail.h."""
    library = ctypes.CDLL(path)
    functions: dict[str, Callable[..., int]] = {}
    for name, arguments in PROTOTYPES.items():
        function = getattr(library, f"taffrail_{name}")
        function.restype = U32
        function.argtypes = arguments
        functions[name] = function
    return functions


# The model behind the C interface.


def model_functions() -> Functions:
    """C functions that read what they are lent, ask the model and write it back."""
    behind = {
        "check": behind_check,
        "search": behind_search,
        "add": behind_add,
        "remove": lambda *given: behind_slot(model.remove, *given),
        "reinstate": lambda *given: behind_slot(model.reinstate, *given),
    }
    return {
        name: ctypes.CFUNCTYPE(U32, *arguments)(behind[name])
        for name, arguments in PROTOTYPES.items()
    }


def read_at(address: Optional[int], length: int) -> bytes:
    """The bytes at an address."""
    return ctypes.string_at(address or 0, length)


def write_out(addresses: Sequence[int], values: Sequence[int]) -> None:
    """Write out parameters."""
    for address, number in zip(addresses, values):
        U32.from_address(address).value = number


def behind_check(at: int, length: int, used: int, place: int) -> int:
    """taffrail_check by the model."""
    result = model.check(read_at(at, length), used)
    write_out([place], [result.place])
    return result.number


def behind_search(at: int, length: int, used: int, *rest: int) -> int:
    """taffrail_search by the model."""
    window, (entries, room), outs = rest[:4], rest[4:6], rest[6:]
    held = struct.unpack(f"={room}I", read_at(entries, 4 * room))
    result = model.search(read_at(at, length), used, *window, held)
    after = struct.pack(f"={room}I", *result.list_after)
    ctypes.memmove(entries, after, len(after))
    write_out(outs, result[1:4])
    return result.number


def behind_add(at: int, length: int, used: int, *rest: int) -> int:
    """taffrail_add by the model."""
    journal, journal_length, edit, offered, offered_length, *outs = rest
    lent = read_at(journal, journal_length), edit, read_at(offered, offered_length)
    result = model.add(read_at(at, length), used, *lent)
    return write_edit(at, journal, outs, result)


def behind_slot(
    call: Callable[..., model.EditResult], at: int, length: int, used: int, *rest: int
) -> int:
    """taffrail_remove and taffrail_reinstate by the model."""
    journal, journal_length, edit, slot, *outs = rest
    lent = read_at(journal, journal_length), edit, slot
    return write_edit(at, journal, outs, call(read_at(at, length), used, *lent))


def write_edit(at: int, journal: int, outs: Sequence[int], result: model.EditResult) -> int:
    """Write back what an edit left."""
    ctypes.memmove(at, result.map_after, len(result.map_after))
    ctypes.memmove(journal, result.journal_after, len(result.journal_after))
    write_out(outs, result[1:5])
    return result.number


# Comparing.


class Harness:
    """Runs cases on the library and the model, and counts the answers."""

    def __init__(self, lib: Library, seed: int, trace: bool) -> None:
        self.lib = lib
        self.seed = seed
        self.trace = trace
        self.counts: Counter[tuple[bool, str, str]] = Counter()

    def rng(self, label: str) -> Random:
        """A Random of its own for each part, so that a part can be run alone."""
        return Random(f"{self.seed} {label}")

    def compare(self, label: str, case: Case) -> Any:
        """The model's result, if the library's is the same."""
        if self.trace:
            print(label, case.call, case.note, flush=True)
        want = case.run(model)
        if case.valid and 1 <= want.number <= 7:
            raise Difference(dump(label, case, "the model refuses a map made good", want, want))
        try:
            got = case.run(self.lib)
        except Difference as difference:
            raise Difference(dump(label, case, str(difference), want, None)) from None
        if got != want:
            raise Difference(dump(label, case, "results differ", want, got))
        self.counts[case.new, case.call, answer(want)] += 1
        return want

    def cases(self, numbers: Sequence[int]) -> None:
        """Generated cases by number."""
        for number in numbers:
            label = f"case {number}"
            self.compare(label, generate.draw_case(self.rng(label)))

    def sweeps(self) -> int:
        """Every interesting number in every field, for each accepted version pair, and for one
        file type of each version from 9 to 11."""
        total = 0
        for version, section in generate.VERSIONS + SWEPT:
            name = f"sweep {version}/{section}"
            for case in generate.sweep(self.rng(name), version, section):
                self.compare(f"{name} {case.note}", case)
                total += 1
        return total

    def runs(self) -> int:
        """Long runs of edits."""
        total = 0
        for number in range(RUNS):
            name = f"run {number}"
            run = generate.Run(self.rng(name), number < MANY_RUNS)
            for step in range(run.steps):
                case = run.next()
                result = self.compare(f"{name} step {step}", case)
                if isinstance(result, model.EditResult):
                    run.took(case, result)
            total += run.steps
        return total

    def limits(self) -> int:
        """Maps at the limits of length and blocks."""
        total = 0
        for case in generate.limit_cases(self.rng("limits")):
            self.compare(f"limit {total}", case)
            total += 1
        return total

    def programs(self, count: int) -> int:
        """Generated maps through the search program, if it was given."""
        program = getattr(self.lib, "search_program", None)
        for number in range(count if program else 0):
            case = generate.draw_case(self.rng(f"case {number}"))
            read = model.WINDOW_FORM.pack(*case.window) + case.map_buf[: case.used]
            want, got = model.search_program(read), program(read)
            if want != got:
                what = f"program, case {number}: want {brief(want)}, got {brief(got)}"
                raise Difference(what)
        return count if program else 0

    def coverage(self) -> str:
        """How many cases there were for each call and answer, by family of versions."""
        lines = []
        for new, family in FAMILIES.items():
            parts = []
            for call in PROTOTYPES:
                here = {key[2]: n for key, n in self.counts.items() if key[:2] == (new, call)}
                told = " ".join(f"{name}:{here[name]}" for name in sorted(here, key=by_number))
                parts.append(f"{call} {told}")
            lines.append(f"coverage of {family}: " + " | ".join(parts))
        return "\n".join(lines)

    def seldom(self) -> list[str]:
        """The answers that came up too seldom in a family of versions."""
        few = []
        for new, family in FAMILIES.items():
            hits: Counter[str] = Counter()
            for (of, _, name), count in self.counts.items():
                hits[name] += count if of == new else 0
            few += [
                f"{name}:{hits[name]} on {family}"
                for name in WANTED[new]
                if hits[name] < LEAST_HITS
            ]
        return few


def by_number(name: str) -> tuple[int, str]:
    """Words first, then numbers in order."""
    return (int(name), "") if name.isdigit() else (0, name)


def answer(result: Any) -> str:
    """The answer's name: ""done before" is told apart from done"."""
    if result.number != 0:
        return str(result.number)
    if isinstance(result, model.CheckResult):
        return "accepted"
    if isinstance(result, model.SearchResult):
        return "searched"
    return "before" if result.before else "done"


def dump(label: str, case: Case, what: str, want: Any, got: Any) -> str:
    """All that is needed to see a difference, and to make it again."""
    lines = [f"DIFFERENT {label}: {what}"]
    lines += [f"  {name}: {brief(part)}" for name, part in case._asdict().items()]
    for name in want._fields:
        wanted = getattr(want, name)
        taken = "-" if got is None else getattr(got, name)
        if isinstance(wanted, bytes) and isinstance(taken, bytes):
            lines.append(f"  {name}: {brief_difference(wanted, taken)}")
        else:
            lines.append(f"  {name}: want {brief(wanted)}, got {brief(taken)}")
    return "\n".join(lines)


def brief(part: Any) -> str:
    """A value in one line; bytes by length, sum and their first ones."""
    if isinstance(part, bytes):
        return f"{len(part)} bytes, crc {zlib.crc32(part):08x}, {part[:64].hex()}"
    text = repr(part)
    return text if len(text) < 200 else text[:200] + "..."


def brief_difference(want: bytes, got: bytes) -> str:
    """Where two runs of bytes first differ."""
    if want == got:
        return "same"
    at = next(i for i, (a, b) in enumerate(zip(want, got)) if a != b)
    return f"from byte {at} want {want[at:at + 32].hex()}, got {got[at:at + 32].hex()}"


def arguments() -> argparse.Namespace:
    """The command line."""
    parser = argparse.ArgumentParser(description="Compare a library with the model.")
    parser.add_argument("library", nargs="?", help="a shared library with taffrail.h's calls")
    parser.add_argument("--self", dest="own", action="store_true", help="the model as library")
    parser.add_argument("--program", help="the search program, for its worked cases")
    parser.add_argument("--seed", type=int, default=SystemRandom().getrandbits(32))
    parser.add_argument("--cases", type=int, default=CASES)
    parser.add_argument("--only", type=int, help="one generated case alone")
    parser.add_argument("--trace", action="store_true", help="tell each case before it runs")
    given = parser.parse_args()
    if bool(given.library) == given.own:
        parser.error("give either a library or --self")
    return given


def compare_all(harness: Harness, cases: int) -> None:
    """The worked cases, then all that is generated."""
    wrong = vectors.run(harness.lib)
    print(f"vectors {vectors.count()}, wrong {len(wrong)}", flush=True)
    if wrong:
        raise Difference("\n".join(wrong[:MOST_LINES]))
    harness.cases(range(cases))
    swept, stepped, limits = harness.sweeps(), harness.runs(), harness.limits()
    programs = harness.programs(PROGRAM_RUNS)
    print(
        f"cases {cases}, sweeps {swept}, steps of runs {stepped}, limits {limits}, "
        f"programs {programs}"
    )


def main() -> int:
    """0 if the library and the model agree and every answer came up often enough."""
    given = arguments()
    faulthandler.enable()
    functions = model_functions() if given.own else load(given.library)
    harness = Harness(Library(functions, given.program), given.seed, given.trace)
    print(f"seed {given.seed}", flush=True)
    start = time.monotonic()
    try:
        if given.only is not None:
            harness.cases([given.only])
            print(harness.coverage())
            return 0
        compare_all(harness, given.cases)
    except Difference as difference:
        print(f"{difference}\n  again: --seed {given.seed} (--only N for case N)")
        return 1
    print(f"{harness.coverage()}\nseconds {time.monotonic() - start:.1f}")
    seldom = harness.seldom()
    if not seldom:
        return 0
    few = given.cases < CASES
    print(f"{'seldom, in so few cases' if few else 'too seldom'}: {', '.join(seldom)}")
    return 0 if few else 1


if __name__ == "__main__":
    sys.exit(main())
