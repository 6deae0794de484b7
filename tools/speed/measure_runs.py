#!/usr/bin/env python3
"""Compares programs by how `mu run` goes, side by side: how long, and whether all commands are done.

    tools/speed/measure_runs.py [--runs 9] [--rows 3x400 ..] [PROGRAM ..]

PROGRAM is out/bin/mu if none is named; name several that rest otherwise. For 1, 3, 5 and 7
replicas and 100, 400 and 1,500 commands, or the rows named, each program runs as often, one after the other in turn, so
that what else the machine does meets all alike. A row tells of each program the least and the middle
time of a command in nanoseconds, of the whole process, its start included, and of its threads alone: from when the
first is made until the last has ended (if there is a C compiler; of one replica there is none). It tells how many runs
had all commands in the longest log, the fewest entries that a longest log had, and how many processors the
run used in the middle. Above the table stand the processors, and the load of the machine before and
after.
"""
import argparse
import itertools
import os
import re
import resource
import statistics
import subprocess
import sys
import tempfile
import time

import folders
from measure_speed import TOP, even, job
from own_traces import preloaded

REPLICAS = (1, 3, 5, 7)
COMMANDS = (100, 400, 1500)
LIMIT_SECONDS = 300


def used():
    """The seconds of processors that ended runs have used."""
    usage = resource.getrusage(resource.RUSAGE_CHILDREN)
    return usage.ru_utime + usage.ru_stime


def alone(told):
    """How many seconds all threads took, by what tools/speed/spans.c told; None if there were none."""
    lines = told.split()
    return int(lines[-1]) / 1e9 if lines else None


class Run:
    """How a run went."""

    def __init__(self, program, given, loaded):
        start, before = time.monotonic(), used()
        done = subprocess.run([program, "run"], input=given, stdout=subprocess.PIPE, stderr=subprocess.PIPE, check=False,
                              timeout=LIMIT_SECONDS, env=dict(os.environ, LD_PRELOAD=loaded) if loaded else None)
        self.seconds = time.monotonic() - start
        self.cores = (used() - before) / self.seconds
        self.alone = alone(done.stderr) if loaded else None
        logs = re.findall(rb"^log \d+ entries (\d+)", done.stdout, re.MULTILINE)
        self.entries = max((int(count) for count in logs), default=0)


def cell(runs, commands):
    """What a row tells of one program."""
    finished = sum(run.entries == commands for run in runs)
    return (f"{least_and_middle([run.seconds for run in runs], commands)} | "
            f"{least_and_middle([run.alone for run in runs], commands)} | {finished} of {len(runs)} | "
            f"{min(run.entries for run in runs)} | {statistics.median(run.cores for run in runs):.1f}")


def least_and_middle(seconds, commands):
    """The least and the middle time of a command in nanoseconds, if it was taken."""
    if None in seconds:
        return " | "
    times = [1e9 * it / commands for it in seconds]
    return f"{min(times):,.0f} | {statistics.median(times):,.0f}"


def load():
    """The load of the machine over the last minute."""
    return f"{os.getloadavg()[0]:.1f}"


def row(text):
    """Replicas and commands, as 3x400."""
    replicas, commands = map(int, text.split("x"))
    return replicas, commands


def main():
    parser = argparse.ArgumentParser(description=__doc__.split("\n", maxsplit=1)[0])
    parser.add_argument("--runs", type=int, default=9)
    parser.add_argument("--rows", type=row, nargs="+", default=list(itertools.product(REPLICAS, COMMANDS)))
    parser.add_argument("programs", nargs="*", default=[os.path.join(TOP, "out", "bin", "mu")])
    given = parser.parse_args()
    print(f"{os.cpu_count()} processors, load {load()} before")
    told = " | ".join(["least", "middle", "threads: least", "middle", "finished", "entries", "cores"] * len(given.programs))
    print(f"| replicas | commands | {told} |", flush=True)
    with tempfile.TemporaryDirectory() as room:
        loaded = preloaded("spans", room)
        for replicas, commands in given.rows:
            text = job(replicas, even(commands))
            runs = [[Run(program, text, loaded) for program in given.programs] for _ in range(given.runs)]
            cells = " | ".join(cell(own, commands) for own in zip(*runs))
            print(f"| {replicas} | {commands} | {cells} |", flush=True)
    print(f"load {load()} after")
    return 0


if __name__ == "__main__":
    sys.exit(main())
