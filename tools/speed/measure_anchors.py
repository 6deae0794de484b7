#!/usr/bin/env python3
"""Measures the built program beside plain Rust programs, and prints the tables of docs/MEASURED.md.

    tools/speed/measure_anchors.py [--program out/bin/mu] [--runs 9] [TABLES]     TABLES: one, many, run

The plain programs are in tools/anchors, and need rustc. plain_mu is the same protocol without proofs: it has
to write the same bytes as the built program (tools/accounts/second_program.py compares them). `keep` is its replay
with all events kept in a list; `read` reads a trace, and judges nothing. In locked_log the replicas share a
log and their stores under one lock; in rings a leader sends each command through a ring to each follower,
and waits for a majority.

Instructions are those of the whole process for each event, as `valgrind --tool=callgrind` counts them,
which doesn't vary with the load. Times are the least and the middle of the runs, of whole processes, which
take turns, so that what else the machine does meets all alike; with first rank (as by `chrt -f 1`) if that is
permitted. On threads the time of the threads alone stands beside it, from when the first is made until the last has
ended, if there is a C compiler. Of the anchors without Mu's protocol it is the time that they tell themselves, from the first
command to the last one applied; how long the others take without a command stands below their table. Above
the tables stand the processors and the load. `one` is the table of the commands that take no threads. `many` has
replays of jobs of many kinds: the instructions of an event, and the least time of a processor beside that of plain_mu,
which keeps its events too.
"""
import argparse
import itertools
import os
import re
import statistics
import subprocess
import sys
import tempfile
import time

import folders
from measure_runs import COMMANDS, REPLICAS, alone, load
from measure_speed import TOP, counted, even, events_of, input_of, job
from own_traces import preloaded
from second_program import build

NAMES = ("plain_mu", "locked_log", "rings")
# Each job: its row of tools/speed/measure_speed.py, its title, and the commands of the program and of plain_mu.
REPLAYS = ("replay", "replay", "keep")
JOBS = (
    ("7x400", "`replay`, 7 replicas, 400 commands", REPLAYS),
    ("7x1500", "7 and 1,500", REPLAYS),
    ("3x400", "3 and 400", REPLAYS),
    ("3x1500", "3 and 1,500", REPLAYS),
    ("sixteen", "3 and 1,500, from 16 clients", REPLAYS),
    ("unequal", "the same, 15 clients with one command and one with 1,485", REPLAYS),
    ("1x1500", "1 and 1,500", REPLAYS),
    ("batches", "version 2, batches of four, 3 and 1,500, from 16 clients", REPLAYS),
    ("trace", "`trace`, 7 and 400", ("trace", "trace")),
    ("check", "`check` of the trace of `tools/runs/long_trace.py`, 14.5 MB", ("check", "check")),
    ("broken", "the same read and not judged, since its first event isn't allowed", ("check", "read")),
)


# Replays of other kinds.
MANY = {
    **{f"a leader stopped, {commands:,}": job(5, even(commands, 5), ring=1024, stops=[(0, 500)])
       for commands in (125, 250, 500, 1000)},
    "three of seven stopped": job(7, even(1490, 5), 2, 1, 1024, [(0, 500), (1, 4000), (2, 9000)]),
    **{f"{count} pauses": job(3, even(400), pauses=[(place % 3, 100 + 60 * place, 5) for place in range(count)])
       for count in (10, 30, 100)},
    "no majority": job(5, even(900, 5), stops=[(2, 10), (3, 10), (4, 10)]),
    "two replicas": job(2, even(400)),
    "four replicas": job(4, even(900)),
    "six replicas": job(6, even(700)),
    "long texts": job(3, even(600), line="put " + "k" * 10 + "{0:04} " + "v" * 28 + "{0:04}"),
    "gets and swaps": job(5, even(400), line="swap a{0} v\nget b"),
    "a ring of 8": job(5, even(500), ring=8),
    "one command": job(7, even(1)),
    "a leader stopped at once": job(7, even(700), ring=1024, stops=[(0, 1)]),
    "two of five stopped, batches": job(5, even(900), 2, 4, stops=[(0, 2000), (3, 5000)]),
    "a leader away": job(3, even(900), ring=1024, pauses=[(0, 3000, 2000)]),
}


def take_first_rank():
    """Goes before all usual processes, with all that is started from here, if that is permitted."""
    try:
        os.sched_setscheduler(0, os.SCHED_FIFO, os.sched_param(1))
    except PermissionError:
        return "their usual rank"
    return "first rank, as by chrt -f 1"


# Runs a program from a process that is itself small, since what a child had before it became the program
# counts too: so the least that it tells is some 8 MB.
SMALL = "import os, sys; child = os.posix_spawn(sys.argv[1], sys.argv[1:], os.environ); " \
        "print(os.wait4(child, 0)[2].ru_maxrss, file=sys.stderr)"


def megabytes(words, given):
    """The most memory that a run has at a time."""
    done = subprocess.run([sys.executable, "-S", "-E", "-c", SMALL, *words], input=given, stdout=subprocess.DEVNULL,
                          stderr=subprocess.PIPE, check=False)
    return int(done.stderr.split()[-1]) / 1024


class Run:
    """One run of a program: its time, its processors, and what it wrote."""

    def __init__(self, words, given, loaded=None):
        kept = dict(os.environ, LD_PRELOAD=loaded) if loaded else None
        with tempfile.TemporaryFile() as read, tempfile.TemporaryFile() as written, tempfile.TemporaryFile() as told:
            read.write(given)
            read.seek(0)
            start = time.monotonic()
            child = subprocess.Popen(words, stdin=read, stdout=written, stderr=told, env=kept)
            usage = os.wait4(child.pid, 0)[2]
            self.seconds = time.monotonic() - start
            child.returncode = 0
            written.seek(0)
            self.output = written.read()
            told.seek(0)
            self.alone = alone(told.read()) if loaded else None
        self.cores = (usage.ru_utime + usage.ru_stime) / self.seconds


def runs_of(commands, given, count, loaded=None):
    """The runs of each command, which take turns."""
    turns = [[Run(words, given, loaded) for words in commands] for _ in range(count)]
    return [list(own) for own in zip(*turns)]


def least_and_middle(numbers, form):
    return f"{min(numbers):{form}} ({statistics.median(numbers):{form}})"


def measured(command, given, runs, events):
    """The instructions of an event, the times and the memory of a command."""
    times = least_and_middle([1000 * run.seconds for run in runs], ".1f")
    return f"{counted(*command, given)[0] / events:.0f} | {times} | {megabytes(command, given):.0f}"


def one_thread(paths, program, count):
    """The table of the commands that take no threads."""
    mu, plain = f"{os.path.basename(program)}: instructions", "plain_mu: instructions"
    told = ["job", "events", mu, "ms", "MB", plain, "ms", "MB", "with events kept: instructions", "ms", "MB"]
    print(f"| {' | '.join(told)} |\n{'|---' * len(told)}|", flush=True)
    for name, title, words in JOBS:
        given = input_of(name)
        commands = [[program if place == 0 else paths["plain_mu"], word] for place, word in enumerate(words)]
        runs = runs_of(commands, given, count)
        events = events_of(name, program, given)
        cells = [measured(command, given, own, events) for command, own in zip(commands, runs)]
        is_same = name == "broken" or len({own[0].output for own in runs}) == 1
        end = ("" if len(cells) == len(REPLAYS) else " | | |") + ("" if is_same else " NOT THE SAME BYTES")
        print(f"| {title} | {events:,} | {' | '.join(cells)} |{end}", flush=True)


def processor_seconds(words, given):
    """The time of a processor that a run takes."""
    with tempfile.TemporaryFile() as read:
        read.write(given)
        read.seek(0)
        child = subprocess.Popen(words, stdin=read, stdout=subprocess.DEVNULL, stderr=subprocess.DEVNULL)
        usage = os.wait4(child.pid, 0)[2]
        child.returncode = 0
        return usage.ru_utime + usage.ru_stime


def many_kinds(paths, program, count):
    """The table of replays of many kinds, those of `one` among them, and how the times compare in sum."""
    told = ["job", "events", "instructions", "with events kept", "ms", "with events kept", "times"]
    print(f"\n| {' | '.join(told)} |\n{'|---' * len(told)}|", flush=True)
    jobs = {title: input_of(name) for name, title, words in JOBS if words == REPLAYS}
    sums = [0, 0]
    for title, given in {**jobs, **MANY}.items():
        commands = [[program, "replay"], [paths["plain_mu"], "keep"]]
        traced = subprocess.run([program, "trace"], input=given, stdout=subprocess.PIPE, check=False).stdout
        instructions = [counted(*words, given)[0] / traced.count(b" = ") for words in commands]
        turns = [[processor_seconds(words, given) for words in commands] for _ in range(count)]
        least = [1000 * min(own) for own in zip(*turns)]
        sums = [sum(both) for both in zip(sums, least)]
        cells = [f"{instructions[0]:.0f}", f"{instructions[1]:.0f}", f"{least[0]:.1f}", f"{least[1]:.1f}",
                 f"{least[0] / least[1]:.2f}"]
        print(f"| {title} | {traced.count(b' = '):,} | {' | '.join(cells)} |", flush=True)
    print(f"\nin sum {sums[0] / sums[1]:.2f} times over {len(jobs) + len(MANY)} jobs", flush=True)


def time_of_threads(runs, commands):
    """The time of a command, of the whole process and of its threads alone, which one replica has none of."""
    whole = least_and_middle([1e9 * run.seconds / commands for run in runs], ",.0f")
    if None in [run.alone for run in runs]:
        return f"{whole} | "
    return f"{whole} | {least_and_middle([1e9 * run.alone / commands for run in runs], ',.0f')}"


def threads(paths, program, count):
    """The table of runs on threads."""
    told = ["replicas", "commands"]
    for name in (os.path.basename(program), "plain_mu"):
        told += [name, "its threads", "finished", "cores"]
    told += ["a log under one lock", "rings"]
    print(f"\n| {' | '.join(told)} |\n{'|---' * len(told)}|", flush=True)
    protocols = [[program, "run"], [paths["plain_mu"], "run"]]
    anchors = [[paths["locked_log"]], [paths["rings"]]]
    loaded = preloaded("spans", os.path.dirname(paths["plain_mu"]))
    for replicas, commands in itertools.product(REPLICAS, COMMANDS):
        own = runs_of(protocols + anchors, job(replicas, even(commands)), count, loaded)
        cells = []
        for runs in own[:2]:
            finished = sum(run.output.endswith(b"status 0\n") for run in runs)
            cores = statistics.median(run.cores for run in runs)
            cells.append(f"{time_of_threads(runs, commands)} | {finished} | {cores:.1f}")
        for runs in own[2:]:
            inside = [int(re.search(rb"\d+", run.output)[0]) / commands for run in runs]
            cells.append(least_and_middle(inside, ",.0f"))
        print(f"| {replicas} | {commands:,} | {' | '.join(cells)} |", flush=True)
    for replicas in REPLICAS:
        own = runs_of(protocols, job(replicas, even(0)), count)
        times = [least_and_middle([1000 * run.seconds for run in runs], ".1f") for runs in own]
        print(f"without a command, {replicas} replicas: {' and '.join(times)} milliseconds", flush=True)


TABLES = {"one": one_thread, "many": many_kinds, "run": threads}


def main():
    parser = argparse.ArgumentParser(description=__doc__.split("\n", maxsplit=1)[0])
    parser.add_argument("--program", default=os.path.join(TOP, "out", "bin", "mu"))
    parser.add_argument("--runs", type=int, default=9)
    parser.add_argument("tables", nargs="*", choices=[*TABLES, []], metavar="TABLES")
    given = parser.parse_args()
    with tempfile.TemporaryDirectory() as room:
        paths = {name: build(room, name) for name in NAMES}
        print(f"{os.cpu_count()} processors, load {load()} before; the programs have {take_first_rank()}; "
              f"{given.runs} runs of each")
        for name in given.tables or TABLES:
            TABLES[name](paths, given.program, given.runs)
        print(f"\nload {load()} after")
    return 0


if __name__ == "__main__":
    sys.exit(main())
