#!/usr/bin/env python3
"""Tells which functions were dear to check, by the times at which the checks wrote their files into out/.

    tools/proving/dear.py [COUNT [CRATE ..]]     the 30 dearest functions and lemma files of all crates, if none is named

A check writes a file for each module as soon as that is checked, so the time since the file before is the module's.
The times are those of the clock: beside other work all are longer, and only their shares count. Of a function
`Lts` is the comparison of its ways out, and `Proof` its goals: the first falls if it has fewer ways out while it owns
large values, the second if its goals have answers.
"""
import collections
import os
import re
import sys

import folders
from beginning import begin
from programs import CRATES

# A longer time between two files is a pause between two checks.
MOST_SECONDS = 300
# What a check writes of each function.
KINDS = ("Proof", "Lts", "Code", "Statement", "Met", "Goals", "Answers", "Invariants", "Given", "Tie", "Reads", "Kinds",
         "Layout")
MODULE = re.compile(r"Rattle-(\w+)-(?:proofs|specs)\.(.+?)(?:\.decls)?\.oantt$")


def written(crate):
    """The files that checks of a crate left, with the times of their last change, the oldest first."""
    found = []
    for folder, _, names in os.walk(os.path.join(CRATES, crate, "out", "incremental")):
        found += [(os.stat(os.path.join(folder, name)).st_mtime, name) for name in names]
    return sorted(found)


def parted(crate, name):
    """The function or lemma file that a file is of, and its kind: "" for a lemma file and for other crates."""
    found = MODULE.match(name)
    if not found or found[1] != crate:
        return "other", ""
    path, _, last = found[2].rpartition(".")
    return (path, last) if last in KINDS else (found[2], "")


def seconds_of(crate):
    """The seconds of each function and lemma file of a crate, by kinds."""
    seconds = collections.defaultdict(collections.Counter)
    files = written(crate)
    for (before, _), (moment, name) in zip(files, files[1:]):
        if moment - before <= MOST_SECONDS:
            owner, kind = parted(crate, name)
            seconds[owner][kind] += moment - before
    return seconds


def main():
    begin(__doc__)
    if len(sys.argv) > 1 and not sys.argv[1].isdigit():
        sys.exit(__doc__.strip())
    count = int(sys.argv[1]) if len(sys.argv) > 1 else 30
    crates = sys.argv[2:] or sorted(os.listdir(CRATES))
    all_of = {(crate, owner): kinds for crate in crates for owner, kinds in seconds_of(crate).items()}
    by_kind = sum(all_of.values(), collections.Counter())
    print(f"{sum(by_kind.values()):.0f} s in all: " + ", ".join(
        f"{seconds:.0f} {kind or 'lemma files and others'}" for kind, seconds in by_kind.most_common(5)))
    dearest = sorted(all_of.items(), key=lambda item: -sum(item[1].values()))[:count]
    for (crate, owner), kinds in dearest:
        most = ", ".join(f"{kind} {seconds:.1f}" for kind, seconds in kinds.most_common(2) if kind)
        print(f"{sum(kinds.values()):8.1f}  {crate}  {owner}" + (f"  ({most})" if most else ""))
    return 0


if __name__ == "__main__":
    sys.exit(main())
