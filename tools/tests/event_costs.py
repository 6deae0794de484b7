#!/usr/bin/env python3
"""Compares what an event costs in a job with few commands and in one with many, or with few rows of a client and with
many, by instructions (`valgrind --tool=callgrind`): a cost that grows with what is known, or with the rows, fails.

    tools/tests/event_costs.py      the program that ./prove left, or an unproved build; the last line is
                                    `N passed, M failed`

No clause says so: contracts say which row is next, and not over how many it was looked for.
"""
import shutil
import subprocess
import sys

import folders
import trying
from beginning import begin
from measure_speed import counted, even, job
from programs import tell

JOBS = {
    "25 commands": job(3, even(25)),
    "100 commands": job(3, even(100)),
    "100 commands, most of one client": job(3, [1] * 10 + [90]),
}
# The cheaper one first, and how many times as much an event of the second may cost.
PAIRS = [("25 commands", "100 commands"), ("100 commands", "100 commands, most of one client")]
MOST_TIMES = 1.15


def cost(path, name):
    """The instructions of an event of a replay."""
    run = subprocess.run([path, "trace"], input=JOBS[name], stdout=subprocess.PIPE, stderr=subprocess.DEVNULL, check=False)
    return counted(path, "replay", JOBS[name])[0] / run.stdout.count(b" = ")


def trouble(few, many):
    """What is wrong with a pair of jobs and their costs, if anything is."""
    if many[1] <= MOST_TIMES * few[1]:
        return None
    return f"an event of {many[0]} takes {many[1]:.0f} instructions, of {few[0]} {few[1]:.0f}"


def tried(path_of):
    """How many pairs were compared, and what is wrong with them: none without valgrind."""
    path = path_of("mu")
    if not path or not shutil.which("valgrind"):
        return 0, []
    costs = {name: cost(path, name) for name in {it for pair in PAIRS for it in pair}}
    found = [trouble((few, costs[few]), (many, costs[many])) for few, many in PAIRS]
    return len(PAIRS), list(filter(None, found))


def main():
    begin(__doc__)
    count, wrong = tried(trying.program_of)
    return tell(wrong, f"{count - len(wrong)} passed, {len(wrong)} failed")


if __name__ == "__main__":
    sys.exit(main())
