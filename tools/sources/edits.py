#!/usr/bin/env python3
"""Counts the wrong bodies, in the gate and beside it, and tells which don't fit their sources any more.

    tools/sources/edits.py       a line for each that is stale; the last line has the counts

An edit of crates/NAME/must-fail is tried by each gate, one of crates/NAME/edits by tools/proving/try_edits.py. Either has a
line `file:`, and pairs of lines `old:` and `new:`; each old text stands in that file just once, after the pairs before.
"""
import os
import re
import sys

import folders
from beginning import begin
from programs import CRATES, tell
from run_cases import contents

GATE, BESIDE = "must-fail", "edits"
LINE = re.compile(r"^(file|old|new): (.*)$", re.MULTILINE)


def edits_in(folder):
    """The crate, the name and the path of each edit that stands in folders of this name."""
    for crate in sorted(os.listdir(CRATES)):
        at = os.path.join(CRATES, crate, folder)
        for name in sorted(os.listdir(at)) if os.path.isdir(at) else []:
            if name.endswith(".edit"):
                yield crate, name, os.path.join(at, name)


def trouble_of(crate, told):
    """Why the text of an edit doesn't fit its sources; else None."""
    texts, file, old, pairs = {}, None, None, 0
    for word, text in LINE.findall(told):
        if word == "file":
            file, path = text, os.path.join(CRATES, crate, text)
            if not file.startswith("src/") or not os.path.isfile(path):
                return f"changes {file}, which isn't code of its crate"
            with open(path, encoding="utf-8") as code:
                texts.setdefault(file, code.read())
        elif word == "old":
            old = text
        elif file is None or old is None:
            return "has a new text before an old one"
        elif texts[file].count(old) != 1:
            return f"{file} has {texts[file].count(old)} times: {old}"
        else:
            texts[file], pairs = texts[file].replace(old, text), pairs + 1
    return None if pairs else "changes nothing"


def judged():
    """How many edits are in the gate and how many beside it, and a line for each that doesn't fit."""
    found = {folder: list(edits_in(folder)) for folder in (GATE, BESIDE)}
    wrong = [f"{crate}/{folder}/{name}: {trouble}" for folder, edits in found.items() for crate, name, path in edits
             if (trouble := trouble_of(crate, contents(path).decode()))]
    return [len(found[GATE]), len(found[BESIDE])], wrong


def main():
    begin(__doc__)
    (gate, beside), wrong = judged()
    return tell(wrong, f"{gate} edits in the gate and {beside} beside it, of which {len(wrong)} don't fit")


if __name__ == "__main__":
    sys.exit(main())
