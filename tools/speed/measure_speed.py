#!/usr/bin/env python3
"""Counts the instructions of the built program for each event, and how long it takes.

    tools/speed/measure_speed.py [--program out/bin/mu] [--before PROGRAM] [--wall RUNS] [NAMES]

Of each job it tells the events, the instructions of the whole process and those of an event, as
`valgrind --tool=callgrind` counts them, which doesn't vary with the load of the machine. With
--before another program is counted beside it, and both have to write the same bytes. With --wall it
also tells the least time of RUNS runs, in milliseconds: a page fault, a write and a yield don't
show in instructions. NAMES are the rows to measure, all if none is named.
"""
import argparse
import os
import re
import subprocess
import sys
import tempfile
import time

import folders
from programs import TOP

RING, BUDGET = 64, 131071


def job(replicas, shares, version=1, batch=None, ring=RING, stops=(), budget=BUDGET, pauses=(), line="put k{0} {0}"):
    """A job of clients that send `put kK K`, or another line, with K counted over all commands as they come in turn.

    shares has the number of commands of each client, stops the replicas that stop and after how many steps, pauses
    those that pause, after how many steps and for how many rounds.
    """
    sent = [[] for _ in shares]
    count = 0
    while any(len(own) < share for own, share in zip(sent, shares)):
        for own, share in zip(sent, shares):
            if len(own) < share:
                own.append(line.format(count))
                count += 1
    lines = [f"mu {version}", f"replicas {replicas}", f"ring {ring}", f"budget {budget}"]
    lines += [f"batch {batch}"] if batch else []
    for client, own in enumerate(sent):
        lines += [f"client {client}", *own]
    script = [f"stop {replica} {steps}" for replica, steps in stops]
    script += [f"pause {replica} {steps} {rounds}" for replica, steps, rounds in pauses]
    lines += ["script", *script] if script else []
    return "\n".join([*lines, "end", ""]).encode()


def even(commands, clients=4):
    """How many commands each client has if they share them evenly."""
    return [(commands + clients - 1 - client) // clients for client in range(clients)]


# Each row: the command of the program, and the job. The first is the job of README.md.
ROWS = {
    "7x400": ("replay", job(7, even(400))),
    "3x1500": ("replay", job(3, even(1500))),
    "7x1500": ("replay", job(7, even(1500))),
    "1x1500": ("replay", job(1, even(1500))),
    "unequal": ("replay", job(3, [1] * 15 + [1485])),
    "sixteen": ("replay", job(3, even(1500, 16))),
    "3x400": ("replay", job(3, even(400))),
    "batches": ("replay", job(3, even(1500, 16), 2, 4)),
    "5x1000": ("replay", job(5, even(1000, 5))),
    "stopped": ("replay", job(5, even(1000, 5), ring=1024, stops=[(0, 500)])),
    "stopped few": ("replay", job(5, even(125, 5), ring=1024, stops=[(0, 500)])),
    "stops": ("replay", job(7, even(1490, 5), 2, 1, 1024, [(0, 500), (1, 4000), (2, 9000)])),
    "no majority": ("replay", job(5, even(900, 5), stops=[(2, 10), (3, 10), (4, 10)])),
    "trace": ("trace", job(7, even(400))),
    "check": ("check", None),
    "broken": ("check", None),
}


def long_trace():
    """The trace of tools/runs/long_trace.py."""
    done = subprocess.run([sys.executable, os.path.join(TOP, "tools", "runs", "long_trace.py")], check=True,
                          stdout=subprocess.PIPE, stderr=subprocess.DEVNULL)
    return done.stdout


def input_of(name):
    """What the program reads for a row.

    The trace that is broken has one event more, the first one, which isn't allowed: all lines are
    read, and no further event is judged. So it tells what reading takes alone.
    """
    command, given = ROWS[name]
    if command != "check":
        return given
    trace = long_trace()
    return trace if name == "check" else trace.replace(b"\nend\n", b"\nend\n0 drain = done\n", 1)


def events_of(name, program, given):
    """How many events a row is about."""
    if ROWS[name][0] == "check":
        return given.count(b" = ")
    done = subprocess.run([program, "trace"], input=given, stdout=subprocess.PIPE, check=False)
    return done.stdout.count(b" = ")


def ran(words, given):
    """Runs a command with its output in a file: what it wrote."""
    with tempfile.TemporaryFile() as read, tempfile.TemporaryFile() as written:
        read.write(given)
        read.seek(0)
        subprocess.run(words, stdin=read, stdout=written, stderr=subprocess.DEVNULL, check=False)
        written.seek(0)
        return written.read()


def counted(program, command, given):
    """The instructions of a run, and what it wrote."""
    with tempfile.TemporaryDirectory() as room:
        out = os.path.join(room, "counts")
        written = ran(["valgrind", "--tool=callgrind", f"--callgrind-out-file={out}", program, command], given)
        with open(out, encoding="utf-8", errors="replace") as counts:
            return int(re.search(r"^(?:summary|totals): (\d+)", counts.read(), re.MULTILINE)[1]), written


def least_time(program, command, given, runs):
    """The least time of some runs, in milliseconds."""
    best = float("inf")
    for _ in range(runs):
        start = time.monotonic()
        ran([program, command], given)
        best = min(best, time.monotonic() - start)
    return 1000 * best


def measure(name, programs, runs):
    """Prints the row of a job."""
    command, given = ROWS[name][0], input_of(name)
    events = events_of(name, programs[-1], given)
    outputs, cells = [], []
    for program in programs:
        instructions, written = counted(program, command, given)
        outputs.append(written)
        cells += [f"{instructions:,}", f"{instructions / events:.1f}"]
        if runs:
            cells.append(f"{least_time(program, command, given, runs):.0f} ms")
    same = "" if len(set(outputs)) == 1 else " | NOT THE SAME BYTES"
    print(f"| {name} | {command} | {events:,} | {' | '.join(cells)} |{same}", flush=True)
    return not same


def main():
    parser = argparse.ArgumentParser(description=__doc__.split("\n", maxsplit=1)[0])
    parser.add_argument("--program", default=os.path.join(TOP, "out", "bin", "mu"))
    parser.add_argument("--before")
    parser.add_argument("--wall", type=int, default=0)
    parser.add_argument("names", nargs="*", choices=[*ROWS, []], metavar="NAMES")
    given = parser.parse_args()
    programs = [given.before, given.program] if given.before else [given.program]
    alike = [measure(name, programs, given.wall) for name in given.names or ROWS]
    return 0 if all(alike) else 1


if __name__ == "__main__":
    sys.exit(main())
