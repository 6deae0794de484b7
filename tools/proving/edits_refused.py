#!/usr/bin/env python3
"""Says where the prover refuses each must-fail edit of the named crates, by `rt must-fail`.

    tools/proving/edits_refused.py mu_text mu_grant            the edits that changed since the last time
    tools/proving/edits_refused.py --anew mu_text              all of them
    tools/proving/edits_refused.py --beside mu_top             those beside the gate, by tools/proving/try_edits.py

A line has the crate, the edit, and the function with the clause or the goal that isn't proved. The
edits at the end are refused only at a name, at the shape of a proof file or by a limit of the
prover: they don't show that a contract refuses the bug, so change their values and keep the names.
An answer in a proof file that no longer proves its goal counts as that goal.
"""
import os
import re
import subprocess
import sys

import folders
from beginning import begin
from programs import TOP
from telling import telling

TRIED = re.compile(r"must-fail (\w+)/([\w.-]+)\.edit: (.*)")
PLACE = re.compile(r"(?:note: )?(?:\./)?(src|proofs|specs)/(\S+?):(\d+):\d+: (.*)")
GOAL = re.compile(r"`([\w.-]+)`: ")
# What rt says if an answer doesn't prove the goal that it is for.
NOT_PROVED = re.compile(r"the two types|expected type|`omega`: the goal|`search`: no proof")
BESIDE = "--beside"
# What rt says of a refusal that tells nothing of a contract.
ONLY = {"only because a proof file names": "name", "only by a limit": "limit"}


def function_at(crate, name, line):
    """The function in which a line of a source stands."""
    path = os.path.join(TOP, "crates", crate, "src", name)
    with open(path, encoding="utf-8") as it:
        above = it.read().split("\n")[:line]
    found = [m[1] for m in (re.match(r"\s*(?:pub(?:\(\w+\))? )?(?:const )?fn (\w+)", row)
                            for row in above) if m]
    return found[-1] if found else "?"


def read_place(crate, told):
    """Where the refusal stands, and the kind of it: goal, shape, or none if it says nothing."""
    place = PLACE.search(told)
    if not place:
        return told, "unknown"
    part, name, line, said = place.groups()
    goal = GOAL.search(said)
    what = goal[1] if goal else said
    if part == "src":
        return f"{function_at(crate, name, int(line))}: {what} ({part}/{name}:{line})", "goal"
    folder = os.path.dirname(name).replace("/", "::") or name
    if goal and NOT_PROVED.search(said):
        return f"{folder}: {goal[1]} ({part}/{name}:{line})", "goal"
    return f"{folder}: {said} ({part}/{name}:{line})", "shape"


def read_edit(crate, told):
    """What became of an edit: where it was refused, and the kind of the refusal."""
    if not told.startswith("refused"):
        return told, "not refused"
    where, kind = read_place(crate, told)
    for words, other in ONLY.items():
        if words in told:
            kind = other
    return where, kind


def edits_of(words):
    """Runs the edits, and gives crate, edit, place and kind of each that was tried."""
    names = [word for word in words if word != BESIDE]
    tries = [os.path.join(TOP, "tools", "proving", "try_edits.py")] if BESIDE in words else ["rt", "must-fail"]
    with telling(lambda seconds: f"edits_refused: {' '.join(names)}: {seconds} s so far"):
        run = subprocess.run([*tries, *names], cwd=TOP, text=True, check=False, stdout=subprocess.PIPE,
                             stderr=subprocess.STDOUT)
    tried = [m.groups() for m in map(TRIED.search, run.stdout.split("\n")) if m]
    if not tried:
        print(run.stdout, end="")
    return [(crate, edit, *read_edit(crate, told)) for crate, edit, told in tried]


def main():
    begin(__doc__)
    if not [word for word in sys.argv[1:] if not word.startswith("-")]:
        print(__doc__, end="")
        return 1
    edits = edits_of(sys.argv[1:])
    for crate, edit, where, _ in edits:
        print(f"{crate} {edit}: {where}")
    weak = [it for it in edits if it[3] != "goal"]
    print(f"{len(edits)} edits, {len(weak)} of them refused otherwise than at a goal of a contract")
    for crate, edit, _, kind in weak:
        print(f"{kind}: {crate} {edit}")
    return 0


if __name__ == "__main__":
    sys.exit(main())
