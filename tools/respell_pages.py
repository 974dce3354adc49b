#!/usr/bin/env python3
"""Brings the names in README.md and docs/ to the spelling that tools/respell.py and the kit's script gave them in the crates.

usage: tools/respell_pages.py LANDED      at the top; LANDED is a checkout as it was before those scripts

A word in backquotes that some file of LANDED's crates has, and none of today's, is respelled, if today's crates have the new spelling.
"""

import re
import subprocess
import sys
from pathlib import Path

# Lemmas whose new names do not follow from the old ones.
GIVEN = {"in-list": "in_list", "link-stays": "link_stays", "one-answer": "one_answer", "table-meets": "table_meets_lem"}
# These name the old spelling, or are of the other pages.
LEFT = {"docs/PORT.md"}
WORD = re.compile(r"[\w'′?-]+")
CAMEL = re.compile(r"^[a-z].*[A-Z]")


def words(top):
    files = [f for f in Path(top, "crates").rglob("*") if f.suffix in (".rt", ".antt", ".edit") and "out" not in f.parts]
    return {w for f in files for w in WORD.findall(f.read_text(encoding="utf-8"))}


def part(p):
    return re.sub(r"([A-Z])", lambda m: "_" + m[1].lower(), p) if CAMEL.match(p) else p


def main():
    old, new = words(sys.argv[1]), words(".")
    pages = subprocess.run(["git", "ls-files", "README.md", "docs/*.md"], capture_output=True, text=True, check=True).stdout.split()
    lost = set()

    def turned(found):
        word = found[0]
        if word not in old or word in new:
            return word
        to = GIVEN.get(word) or "-".join(map(part, word.split("-")))
        if to not in new:
            lost.add(word)
            return word
        return to

    for page in pages:
        if page in LEFT:
            continue
        text = Path(page).read_text(encoding="utf-8")
        # (code that stands over several lines has no backquotes inside)
        made = re.sub(r"`[^`\n]+`", lambda found: WORD.sub(turned, found[0]), text)
        if made != text:
            Path(page).write_text(made, encoding="utf-8")
            print(f"{page}: respelled")
    print("without a new name:", *sorted(lost) if lost else ["none"])


main()
