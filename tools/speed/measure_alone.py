#!/usr/bin/env python3
"""Counts the instructions of a step of a replica that makes no access itself, beside those of a turn through a port.

    tools/speed/measure_alone.py

Builds tools/anchors/alone_speed.rs without proofs in a copy of crates/ (tools/unproved_build.py: some minutes), and counts
by `valgrind --tool=callgrind` over the job 3x1500 of tools/speed/measure_speed.py: 252,000 steps by turns over a port, by `next`
and `take`, and by `take_and_next`, with each access made on an array in the same program. All have to hand on as many
entries; each line tells the instructions of a step, start and access included.
"""
import os
import re
import shutil
import subprocess
import sys
import tempfile

import folders
from beginning import begin
from measure_speed import ROWS
from programs import TOP, need_toolchain

CRATE, STEPS = "alone_speed", 252_000
BELOW = "lone_replica lone_words mu_node mu_port mu_words mu_input mu_model mu_io mu_shell word_fabric"
KINDS = {"a turn through a port": 1, "next and take": 2, "take_and_next": 3}


def built(room):
    """The program, built in a copy."""
    for name in ("crates", "tools", "examples"):
        shutil.copytree(os.path.join(TOP, name), os.path.join(room, name), ignore=shutil.ignore_patterns("out", "__pycache__"))
    with open(os.path.join(TOP, "crates.txt"), encoding="utf-8") as told, \
            open(os.path.join(room, "crates.txt"), "w", encoding="utf-8") as written:
        written.write(f"{CRATE}: {BELOW}\n{told.read()}")
    sources = os.path.join(room, "crates", CRATE, "src")
    os.makedirs(sources)
    shutil.copy(os.path.join(TOP, "tools", "anchors", f"{CRATE}.rs"), os.path.join(sources, "main.rt"))
    program = os.path.join(room, CRATE)
    subprocess.run([os.path.join(room, "tools", "unproved_build.py"), program, CRATE], check=True, capture_output=True)
    return program


def main():
    begin(__doc__)
    need_toolchain("measure_alone")
    with tempfile.TemporaryDirectory(prefix="alone-") as room:
        program, job, ends = built(room), ROWS["3x1500"][1], set()
        for kind, words in KINDS.items():
            run = subprocess.run(["valgrind", "--tool=callgrind", f"--callgrind-out-file={room}/counted", program, *["x"] * words],
                                 input=job, capture_output=True, check=False)
            ends.add(run.returncode)
            count = int(re.search(rb"Collected : (\d+)", run.stderr)[1])
            print(f"{kind}: {count / STEPS:.0f}")
    if len(ends) > 1:
        print("measure_alone: the runs differ in how many entries they handed on")
    return int(len(ends) > 1)


if __name__ == "__main__":
    sys.exit(main())
