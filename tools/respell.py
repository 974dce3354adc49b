#!/usr/bin/env python3
"""Brings the repository's own definitions and lemmas to the spelling of today's Rattle: words in snake case, types and modules in camel case.

usage: tools/respell.py        at the top, once, right after the kit's own script has turned the spelling of the language

It reads which names the files of specs/ and proofs/ declare, and respells each that has a capital inside a word that begins small. Names of Rust
source, exported names and texts are not touched. Must-fail edits get the same names, and those that the kit's script has given on its own.
"""

import os
import re
import subprocess

# Two names that would become one: the lemma, or the helper of one proof, makes room.
ROOM = {
    "add_done": "add_done_lem",
    "in_use": "in_use_lem",
    "is_free": "is_free_at",
    "record_of": "record_of_lem",
    "slot_added": "slot_added_lem",
    "table_meets": "table_meets_lem",
    "get_d_sets": "get_or-sets",
}
# Parts of a lemma's name that are names of the library, which have other names now.
LIBRARY = {"getD": "get_or", "leZ": "le_z", "toZ": "to_z"}
# Definitions that the kit's script has respelled; it reads no edit.
GIVEN = {
    "answerOf": "answer_of", "bitsOf": "bits_of", "bytesOf": "bytes_of", "cellAt": "cell_at", "cellOf": "cell_of", "countOf": "count_of",
    "endOf": "end_of", "entryAt": "entry_at", "firstOf": "first_of", "firstOr": "first_or", "foundAt": "found_at", "greaterOf": "greater_of",
    "inBlock": "in_block", "isHeld": "is_held", "isWide": "is_wide", "lastEnd": "last_end", "lenAt": "len_at", "lenOf": "len_of",
    "lengthOf": "length_of", "linkOf": "link_of", "linkSize": "link_size", "liveIn": "live_in", "numberOf": "number_of", "onesIn": "ones_in",
    "openedOf": "opened_of", "partOf": "part_of", "placeOf": "place_of", "rowAt": "row_at", "slotAt": "slot_at", "slotOf": "slot_of",
    "startOf": "start_of", "stateOf": "state_of", "u32At": "u32_at", "valueOf": "value_of",
}
WORD = re.compile(r"[^\s(){}\[\],;.:λ\"`|&!<>=*/+→≡≤×∷⊥~?#@◌]+")
DECLARED = re.compile(r"^\s*(?:(?:abbrev|unfoldable|private|pub|record|data)\s+)*([^\s:(){}\[\];,\"λ]+)\s*(?:\(|\{|:)(?!=)")
CAMEL = re.compile(r"^[a-z].*[A-Z]")


def part(p):
    if p in LIBRARY:
        return LIBRARY[p]
    return re.sub(r"([A-Z])", lambda m: "_" + m.group(1).lower(), p) if CAMEL.match(p) else p


def files(root, endings):
    for folder, dirs, names in os.walk(root):
        dirs[:] = sorted(d for d in dirs if d != "out")
        for n in sorted(names):
            if n.endswith(endings):
                yield os.path.join(folder, n)


def read(path):
    with open(path, encoding="utf-8", newline="") as f:
        return f.read()


def turn(path, names):
    text = read(path)
    new = WORD.sub(lambda m: names.get(m.group(0), m.group(0)), text)
    if new != text:
        with open(path, "w", encoding="utf-8", newline="") as f:
            f.write(new)


def main():
    top = subprocess.run(["git", "rev-parse", "--show-toplevel"], capture_output=True, text=True, check=True).stdout.strip()
    crates = os.path.join(top, "crates")
    for path in files(crates, ".antt"):
        turn(path, ROOM)
    declared = set()
    for path in files(crates, ".antt"):
        for line in read(path).splitlines():
            found = DECLARED.match(line)
            if found and not line.lstrip().startswith(("use ", "--", "mod ", "pub mod", "pub use")):
                declared.add(found.group(1))
    new = {n: "-".join(part(p) for p in n.split("-")) for n in declared}
    new = {n: to for n, to in new.items() if n != to}
    together = sorted(to for to in new.values() if to in declared)
    if together or len(set(new.values())) < len(new):
        raise SystemExit(f"names that fall together: {together}")
    for path in files(crates, (".antt", ".rt")):
        turn(path, new)
    for path in files(crates, ".edit"):
        turn(path, new | GIVEN)
    print(f"{len(new)} names respelled")


main()
