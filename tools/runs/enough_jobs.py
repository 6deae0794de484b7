#!/usr/bin/env python3
"""Runs random jobs with pauses and stops with exactly the budgets of docs/ALIVE.md: none may fail.

    tools/runs/enough_jobs.py [--jobs 20000] [--seed 1] [--workers 1]
    tools/runs/enough_jobs.py --program PROGRAM      another program than plain_mu, with the word `replay`

Jobs have one to seven replicas, both versions, rings that hold all entries or not, and no, some or many lines. Of
each the number is computed by which a replica has every command, and that by which each that isn't stopped has
finished (tools/accounts/bounds.py). With the first as its budget a job has to end with status 0; with one step more than the
second each replica that wasn't stopped has to finish. Jobs without a number, or with one above the greatest budget,
are counted. It needs rustc, without a program that is named.
"""
import argparse
import collections
import concurrent.futures
import random
import re
import subprocess
import sys
import tempfile

import folders
from astray_jobs import Report, pauses, stops
from bound_jobs import LEAST_RING, MOST_BUDGET
from bounds import Lines, NotPromised, committed_by, finished_by
from second_program import build

MOST_REPLICAS, MOST_BATCH, MOST_COMMANDS, MOST_RING = 7, 4, 24, 64
# How many jobs have a ring that holds all entries, have stops, and have pauses.
LARGE, STOPPED, PAUSED = 0.5, 0.6, 0.4


def random_job(chance):
    """A job with a budget that is still to be given."""
    version, replicas = chance.randint(1, 2), chance.randint(1, MOST_REPLICAS)
    commands, clients = chance.randint(0, MOST_COMMANDS), chance.randint(1, 3)
    large = max(LEAST_RING, commands + (2 * replicas if version == 2 else 0))
    ring = chance.choice((large, MOST_RING)) if chance.random() < LARGE else chance.randint(LEAST_RING, 14)
    lines = [f"mu {version}", f"replicas {replicas}", f"ring {ring}", "budget 1"]
    lines += [f"batch {chance.randint(1, MOST_BATCH)}"] if version == 2 else []
    for client in range(clients):
        own = [f"put k{k % 5} {k}" for k in range(client, commands, clients)]
        lines += [f"client {client}", *own] if own else []
    halts = stops(chance, replicas) if chance.random() < STOPPED else []
    halts += pauses(chance, replicas) if chance.random() < PAUSED else []
    return "\n".join([*lines, *(["script", *halts] if halts else []), "end", ""])


def with_budget(job, budget):
    return re.sub(r"^budget \d+$", f"budget {budget}", job, flags=re.MULTILINE)


def reported(program, job):
    """The report of a job, and its status."""
    done = subprocess.run([program, "replay"], input=job.encode(), stdout=subprocess.PIPE, check=False)
    return Report(done.stdout.decode(), done.returncode)


def each_finished(report):
    return all(end in ("finished", "stopped") for end in report.ends)


def judged(program, job):
    """What is true of a job, in a few words each; and what is wrong."""
    known, kinds, wrong = Lines(job), [], []
    for name, number, spared, is_right in (("every command", committed_by, 0, Report.has_all),
                                           ("each finishes", finished_by, 1, each_finished)):
        try:
            least = number(known) + spared
        except NotPromised:
            kinds.append(f"{name}: no number")
            continue
        if least > MOST_BUDGET:
            kinds.append(f"{name}: above the greatest budget")
        else:
            report = reported(program, with_budget(job, max(1, least)))
            kinds.append(f"{name}: so it is")
            if not is_right(report):
                wrong.append(f"{name}, budget {least}: {report.told()}\n{job}")
    return kinds, wrong


def main():
    parser = argparse.ArgumentParser(description=__doc__.split("\n", maxsplit=1)[0])
    parser.add_argument("--program")
    parser.add_argument("--jobs", type=int, default=20_000)
    parser.add_argument("--seed", type=int, default=1)
    parser.add_argument("--workers", type=int, default=1)
    given = parser.parse_args()
    chance, counts, failed = random.Random(given.seed), collections.Counter(), 0
    jobs = [random_job(chance) for _ in range(given.jobs)]
    with tempfile.TemporaryDirectory() as room, concurrent.futures.ThreadPoolExecutor(given.workers) as pool:
        program = given.program or build(room, "plain_mu")
        for kinds, wrong in pool.map(lambda job: judged(program, job), jobs):
            counts.update(kinds)
            failed += len(wrong)
            for text in wrong:
                print(text, flush=True)
    for what, count in counts.most_common():
        print(f"{count:6} {what}")
    print(f"enough_jobs: {given.jobs} jobs, seed {given.seed}, {failed} wrong")
    return 1 if failed else 0


if __name__ == "__main__":
    sys.exit(main())
