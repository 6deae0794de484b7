#!/usr/bin/env python3
"""Compares the built program with plain_mu of tools/anchors, the same protocol in plain Rust, byte for byte.

    tools/accounts/second_program.py [--program out/bin/mu] [--jobs 300] [--seed 1]

plain_mu has to print what the stored replays, traces and verdicts want, and the jobs of tools/runs/bound_jobs.py
and tools/runs/stop_jobs.py have to go well with it. Then both programs replay and trace random jobs of both
versions, by plain and by eager nodes, with stops and pauses, some of whose budgets or rings are too small; and
they judge each of these traces, whole and with a line dropped, repeated, moved or changed. It needs rustc, and a
built program for the random jobs.
"""
import argparse
import os
import random
import shutil
import subprocess
import sys
import tempfile

import folders
import run_cases
import trying
from bound_jobs import bound_cases
from judged_table import judged
from made_lists import broken
from operations import drawn
from programs import TOP
from stop_jobs import stop_cases

ANCHORS = os.path.join(TOP, "tools", "anchors")
SOURCES = {"plain_mu": "plain_mu/main.rs", "locked_log": "locked_log.rs", "rings": "rings.rs"}
STORED = ("replay", "trace", "more.table", "astray", "astray.table", "enough.table")
# The report and the trace of a replay by plain nodes, and by eager ones.
REPLAYS = ((["replay"], ["trace"]), (["eager"], ["eager", "trace"]))
REFUSED = 2
# How often each random trace is broken.
BROKEN = 6


def build(room, name):
    """Builds a plain program into a folder: its path."""
    if shutil.which("rustc") is None:
        sys.exit(f"{name}: rustc isn't found in PATH")
    path = os.path.join(room, name)
    options = ["--edition", "2021", "-O", "-C", "codegen-units=1", "-C", "panic=abort"]
    subprocess.run(["rustc", *options, "-o", path, os.path.join(ANCHORS, SOURCES[name])], check=True)
    return path


def command(chance):
    """A line of a command with few keys and texts, so that commands meet."""
    key, texts = chance.choice("abc"), ["0", "1", "long-text", "x" * 32]
    return drawn(chance, key, lambda _: chance.choice(texts))


def script(chance, replicas):
    """Stops of some replicas and pauses of some, which may be the same."""
    lines = [f"stop {r} {chance.randint(0, 900)}" for r in range(replicas) if chance.random() < 0.25]
    for r in range(replicas):
        steps = 0
        while chance.random() < 0.3:
            steps += chance.randint(1, 500)
            lines.append(f"pause {r} {steps} {chance.randint(1, 3000)}")
    chance.shuffle(lines)
    # the pauses of one replica stand in order of their steps
    return sorted(lines, key=lambda line: int(line.split()[2]))


def random_job(chance):
    """A job that ends well, or that runs out of steps or of room."""
    version, replicas = chance.randint(1, 2), chance.randint(1, 7)
    lines = [f"mu {version}", f"replicas {replicas}", f"ring {chance.choice([8, 9, 13, 32])}",
             f"budget {chance.choice([500, 3000, 30000])}"]
    lines += [f"batch {chance.randint(1, 4)}"] if version == 2 else []
    for client in range(chance.randint(0, 5)):
        lines += [f"client {client}", *(command(chance) for _ in range(chance.randint(0, 12)))]
    told = script(chance, replicas) if chance.random() < 0.8 else []
    return "\n".join([*lines, *(["script", *told] if told else []), "end", ""]).encode()


def printed(program, words, given):
    """What a program prints, and its status. What isn't in the grammar is told by the status alone."""
    done = subprocess.run([program, *words], input=given, stdout=subprocess.PIPE, stderr=subprocess.DEVNULL,
                          check=False)
    return (b"" if done.returncode == REFUSED else done.stdout), done.returncode


def are_same(programs, chance, given, report, told):
    """Whether both programs print the same report of a job, and the same of its trace, whole and broken."""
    first, second = programs
    trace, status = printed(first, told, given)
    lists = [trace, *(broken(chance, trace) for _ in range(BROKEN))]
    return (printed(second, told, given) == (trace, status)
            and printed(first, report, given) == printed(second, report, given)
            and all(printed(first, ["check"], events) == printed(second, ["check"], events) for events in lists))


def compare(programs, jobs, seed):
    """Of how many random jobs both programs tell the same; any other one is printed."""
    chance, same = random.Random(seed), 0
    for _ in range(jobs):
        given = random_job(chance)
        is_same = all([are_same(programs, chance, given, *words) for words in REPLAYS])
        is_same = is_same and len({printed(program, ["enough"], given) for program in programs}) == 1
        if not is_same:
            print(f"not the same of this job:\n{given.decode()}")
        same += is_same
    return same


def stored_cases():
    """The stored cases that plain_mu can run, and the judged traces."""
    cases = [case for place in STORED for case in run_cases.cases_at(os.path.join(TOP, "cases", place))]
    for name, trace, line in judged():
        if line.startswith((b"legal", b"illegal")):
            wanted = line.rstrip(b"\n") + b"\n"
            cases.append(trying.Case(name, ["check"], trace, wanted, run_cases.wanted_status(wanted)))
    # plain_mu reads right jobs only.
    return [case for case in cases if case.words[0] in ("replay", "eager", "trace", "check", "enough")
            and case.status != REFUSED]


def main():
    parser = argparse.ArgumentParser(description=__doc__.split("\n", maxsplit=1)[0])
    parser.add_argument("--program", default=os.path.join(TOP, "out", "bin", "mu"))
    parser.add_argument("--jobs", type=int, default=300)
    parser.add_argument("--seed", type=int, default=1)
    given = parser.parse_args()
    with tempfile.TemporaryDirectory() as room:
        plain, failed = build(room, "plain_mu"), 0
        for name, cases in (("stored", stored_cases()), ("at a bound", [*bound_cases(), *stop_cases()])):
            wrong = trying.troubles(cases, trying.run_cases(plain, cases))
            failed += len(wrong)
            print("\n".join([*wrong, f"{name}: {len(cases) - len(wrong)} passed, {len(wrong)} failed"]), flush=True)
        if given.jobs:
            same = compare((given.program, plain), given.jobs, given.seed)
            failed += given.jobs - same
            print(f"random: of {same} of {given.jobs} jobs what is enough, and by plain and by eager nodes report, "
                  f"trace and {1 + BROKEN} verdicts are the same")
    return 1 if failed else 0


if __name__ == "__main__":
    sys.exit(main())
