#!/usr/bin/env python3
"""Finds the places in crates/*/src that docs/DESIGN-PASS.md counts, in the working tree or at a commit.

usage: tools/places.py [--at COMMIT] [--list POINT]

By itself it prints how many there are of each point. --list prints the places of one point, as FILE:LINE and what stands there. It goes by text: it finds what looks
like such a place, and a reader decides.
"""
import argparse
import collections
import re
import subprocess
from pathlib import Path

TYPES = {"u8", "u16", "u32", "u64", "usize", "i8", "i16", "i32", "i64", "bool"}
FAILS = {"Refused", "Bad", "Fault", "Malformed", "None"}
BITS = r"\b(256|65536|2147483648|4294967295|4294967296|9223372036854775808|18446744073709551615|16777619)\b"


def sources(commit):
    """The files, by name, of the working tree or of a commit."""
    if commit is None:
        return {str(p): p.read_text() for p in sorted(Path("crates").glob("*/src/**/*.rt"))}
    names = subprocess.run(["git", "ls-tree", "-r", "--name-only", commit, "crates"], capture_output=True, text=True, check=True).stdout.split()
    names = [n for n in names if re.fullmatch(r"crates/[^/]+/src/.*\.rt", n)]
    return {n: subprocess.run(["git", "show", f"{commit}:{n}"], capture_output=True, text=True, check=True).stdout for n in names}


class Function:
    """A function: where it stands, its parameters, clauses and body."""

    def __init__(self, file, line, name, parameters, clauses, body):
        self.file, self.line, self.name, self.parameters, self.clauses, self.body = file, line, name, parameters, clauses, body

    def at(self):
        return f"{self.file}:{self.line} {self.name}"


def closing(text, at, pair):
    """The place behind the bracket that closes the one at `at`."""
    depth = 0
    for i in range(at, len(text)):
        depth += (text[i] == pair[0]) - (text[i] == pair[1])
        if depth == 0:
            return i + 1
    return len(text)


def functions(file, text):
    for found in re.finditer(r"^[ ]*(?:pub(?:\([a-z]+\))? )?(?:extern \"C\" )?fn (\w+)[^(\n]*\(", text, re.M):
        opened = found.end() - 1
        shut = closing(text, opened, "()")
        parameters = [p.strip() for p in re.split(r",(?![^<\[(]*[>\])])", text[opened + 1 : shut - 1]) if p.strip()]
        start = re.compile(r"^[ ]*\{$|\{$", re.M).search(text, shut)
        # the body opens at the first brace alone on its line, or at the end of the line that has no clause
        at = shut
        while True:
            brace = text.find("{", at)
            if brace < 0:
                break
            line = text[text.rfind("\n", 0, brace) + 1 : text.find("\n", brace)]
            if re.match(r"\s*(requires|ensures)\b", line) or re.search(r"\b(requires|ensures)\b[^{]*\{", line):
                at = closing(text, brace, "{}")
                continue
            break
        if start is None or brace < 0:
            continue
        end = closing(text, brace, "{}")
        yield Function(file, text.count("\n", 0, found.start()) + 1, found.group(1), parameters, text[shut:brace], text[brace:end])


def shape(function):
    """The tokens of a function, with each name told by where it first stands, each number and each plain type by that it is one."""
    names = {}
    tokens = []
    code = re.sub(r"//[^\n]*", "", " ".join(function.parameters) + function.body)
    for token in re.findall(r"\w+|[^\s\w]", code):
        if token in TYPES:
            tokens.append("T")
        elif token[0].isdigit():
            tokens.append("N")
        elif token[0].isalpha() or token[0] == "_":
            tokens.append(str(names.setdefault(token, len(names))))
        elif token != ",":
            tokens.append(token)
    return tuple(tokens)


def lines(files, pattern):
    for file, text in files.items():
        for number, line in enumerate(text.split("\n"), 1):
            if re.search(pattern, line) and not line.strip().startswith(("ghost use", "requires", "ensures")):
                yield f"{file}:{number} {line.strip()}"


def code_lines(files, pattern):
    return (p for p in lines(files, pattern) if not p.split(" ", 1)[1].startswith("//"))


def count(files):
    every = [f for file, text in files.items() for f in functions(file, text)]
    places = collections.OrderedDict()

    own = []
    for file, text in files.items():
        for found in re.finditer(r"^(?:pub )?enum (\w+) \{", text, re.M):
            body = text[found.end() : closing(text, found.end() - 1, "{}")]
            if FAILS & set(re.findall(r"^    (\w+)", body, re.M)):
                own.append(f"{file}:{text.count(chr(10), 0, found.start()) + 1} enum {found.group(1)}")
    places["1 own enums of the shape of Option or Result"] = own
    places["1 values that stand for none (by the comment)"] = [
        p for p in lines(files, r"\b(0|64|256|zero)\b[^.]{0,40}\b(where none|where there is none|neither|where the map is too short|where it is too short|no map has|else 0)|else 0\b|, 0 where|, 64 where|, 256 where|0: neither")
        if p.split(" ", 1)[1].startswith("//")
    ]
    places["1 refusals by number"] = list(code_lines(files, r"\bnumber: \d|\brefused\(\d+\)|=> \d+,$"))
    places["1 kinds by number"] = list(code_lines(files, r"\bkind: u32\b|JournalRecord::(ADD|REMOVE|REINSTATE)|\bwhat (==|<)"))

    groups = collections.defaultdict(list)
    for f in every:
        if len(shape(f)) > 14:
            groups[shape(f)].append(f)
    places["2 functions of one shape"] = [f.at() for g in groups.values() if len(g) > 1 for f in g]

    places["3 loops by hand"] = list(code_lines(files, r"^\s*(while\b|loop\b)"))
    places["4 conversions by arithmetic"] = list(code_lines(files, BITS))
    places["4 tests in ladders (return false)"] = list(code_lines(files, r"\breturn false;"))

    facts = collections.defaultdict(list)
    for f in every:
        for clause in re.findall(r"requires (?:\w+ )?\{(.*?)\}\n", f.clauses, re.S):
            for fact in re.split(r" × (?![^(]*\))", " ".join(clause.split())):
                facts[fact.strip()].append(f)
    places["5 facts in three or more contracts"] = [f"{len(fs)} times: {fact}" for fact, fs in sorted(facts.items(), key=lambda x: -len(x[1])) if len(fs) >= 3]
    travels = collections.Counter()
    together = [("m: &[u8]", "used: usize"), ("m: &[u8]", "used: usize", "index: &[u32]"), ("map: &mut [u8]", "used: usize", "journal: &mut [u8]"), ("m: &[u8]", "order: &[u32]", "n: usize")]
    travel = []
    for group in together:
        for f in every:
            if set(group) <= set(f.parameters):
                travels[group] += 1
        if travels[group] >= 3:
            travel.append(f"{travels[group]} functions take ({', '.join(group)})")
    places["5 parameters that travel together"] = travel

    beside = []
    for f in every:
        slices = {p.split(":")[0].strip() for p in f.parameters if re.search(r"&(mut )?\[", p)}
        counts = {p.split(":")[0].strip() for p in f.parameters if p.endswith(": usize")}
        if any(c in counts and s in slices for c, s in re.findall(r"\((\w+) ≤ length (\w+)\.(?:now|old)\)", f.clauses)):
            beside.append(f.at())
    places["6 slices with a length beside"] = beside
    places["7 flags that choose the step"] = [f.at() for f in every if any(re.fullmatch(r"(wide: bool|kind: u32)", p) for p in f.parameters)]
    return places


def main():
    parser = argparse.ArgumentParser(description=__doc__, formatter_class=argparse.RawDescriptionHelpFormatter)
    parser.add_argument("--at", metavar="COMMIT")
    parser.add_argument("--list", metavar="POINT")
    given = parser.parse_args()
    for name, found in count(sources(given.at)).items():
        if given.list is None:
            print(f"{len(found):5}  {name}")
        elif name.startswith(given.list):
            print(f"-- {name}: {len(found)}")
            for place in found:
                print(place)


if __name__ == "__main__":
    main()
