#!/usr/bin/env python3
"""Tries the wrong bodies that stand beside the gate, crates/NAME/edits/*.edit, just as the gate tries its own.

    tools/proving/try_edits.py [NAME ..]       all crates that have such edits, if none is named

A crate with an edit in must-fail/ is proved once more by each `rt ci`, and each edit takes a run of its own. What
stands in edits/ costs the gate nothing: try it when its crate's code or contracts change, and all before a release. It
is the gate that tries them, over a copy of these crates and those below: what ./prove or it has proved isn't proved again.
"""
import os
import shutil
import sys
import tempfile

import folders
from beginning import begin
from edits import BESIDE, GATE
from programs import CRATES, crates_below, need_toolchain
from prove_once import gate_passes, write_copy


def with_edits():
    """The crates that have such edits."""
    return sorted(it for it in os.listdir(CRATES) if os.path.isdir(os.path.join(CRATES, it, BESIDE)))


def main():
    begin(__doc__)
    unknown = [name for name in sys.argv[1:] if name not in with_edits()]
    if unknown:
        print(f"try_edits: no edits beside the gate: {', '.join(unknown)}; there are those of {', '.join(with_edits())}")
        return 1
    need_toolchain("try_edits")
    names = sys.argv[1:] or with_edits()
    below = crates_below(names)
    with tempfile.TemporaryDirectory(prefix="mu-edits-") as room:
        write_copy(below, room)
        for name in names:
            shutil.copytree(os.path.join(CRATES, name, BESIDE), os.path.join(room, "crates", name, GATE))
        is_passed, log = gate_passes("try_edits", below, room)
        told = [line for line in log if " must-fail " in line]
        if is_passed:
            print("".join([*told, *log[-2:]]), end="")
        # The gate passes over an edit that can't be read.
        return 0 if is_passed and not any("BAD EDIT" in line for line in told) else 1


if __name__ == "__main__":
    sys.exit(main())
