#!/usr/bin/env python3
"""Runs random jobs with pauses, after which a region may go astray (docs/ALIVE.md), with plain and eager replicas.

    tools/runs/astray_jobs.py [--jobs 20000] [--seed 1] [--workers 1] [--only eager|plain]
    tools/runs/astray_jobs.py --program PROGRAM      another program than plain_mu, with the words `eager` and `replay`
    tools/runs/astray_jobs.py JOB [JOB ..]           these jobs alone: the ends of their replicas, with both kinds

Jobs have two to seven replicas, both versions, rings that hold all entries or not, and one to three pauses; some
have stops of fewer than half, if the ring allows it. The budget is 16,000; if some command is then missing, the job
is run again with the greatest. With eager replicas each has to end with status 0, unless half of the replicas or
more were stopped or outrun. Plain ones are counted. It needs rustc, without a program that is named.
"""
import argparse
import collections
import concurrent.futures
import os
import random
import subprocess
import sys
import tempfile

import folders
from bound_jobs import LEAST_RING, MOST_BUDGET
from second_program import build

WORDS = {"eager": "eager", "plain": "replay"}
BUDGET, MOST_REPLICAS, MOST_BATCH = 16_000, 7, 4
# How many rings hold all entries, and how many jobs with a ring that serves them have stops.
LARGE, STOPPED = 0.4, 0.25
# Rounds of a pause: about those in which a replica is held to be failed, or any.
NEAR_FAILURE, ANY_ROUNDS = (600, 1_300), (1, 3_000)
GOES_ON = ("finished", "budget")


def pauses(chance, replicas):
    """The lines of one to three pauses, mostly of replica 0, whose absence changes the leader."""
    taken = collections.defaultdict(set)
    for _ in range(chance.randint(1, 3)):
        of = 0 if chance.random() < 0.6 else chance.randrange(replicas)
        taken[of].add(chance.choice((0, chance.randint(0, 60), chance.randint(0, 900))))
    for of in sorted(taken):
        for steps in sorted(taken[of]):
            yield f"pause {of} {steps} {chance.randint(*chance.choice((NEAR_FAILURE, ANY_ROUNDS)))}"


def stops(chance, replicas):
    """The lines of stops of fewer than half."""
    some = chance.sample(range(replicas), chance.randint(0, (replicas - 1) // 2))
    return [f"stop {of} {chance.randint(0, 900)}" for of in sorted(some)]


def random_job(chance):
    """A job with pauses."""
    version, replicas = chance.randint(1, 2), chance.randint(2, MOST_REPLICAS)
    commands, clients = chance.randint(4, 24), chance.randint(1, 3)
    large = max(LEAST_RING, commands + (2 * replicas if version == 2 else 0))
    ring = large if chance.random() < LARGE else chance.randint(LEAST_RING, 14)
    lines = [f"mu {version}", f"replicas {replicas}", f"ring {ring}", f"budget {BUDGET}"]
    lines += [f"batch {chance.randint(1, MOST_BATCH)}"] if version == 2 else []
    for client in range(clients):
        lines += [f"client {client}", *(f"put k{k % 5} {k}" for k in range(client, commands, clients))]
    may_stop = version == 2 or ring >= large
    halts = stops(chance, replicas) if may_stop and chance.random() < STOPPED else []
    return "\n".join([*lines, "script", *halts, *pauses(chance, replicas), "end", ""])


class Report:
    """How the replicas of a report ended, and its status."""

    def __init__(self, text, status):
        logs = [line.split() for line in text.split("\n") if line.startswith("log ")]
        self.ends, self.entries = [words[6] for words in logs], [int(words[3]) for words in logs]
        self.status = status

    def has_all(self):
        """Whether all commands are in the longest log."""
        return self.status == 0

    def lost_half(self):
        """Whether half of the replicas or more were stopped or outrun."""
        return 2 * sum(end not in GOES_ON for end in self.ends) >= len(self.ends)

    def kind(self):
        """What came of the job, in a few words."""
        if not self.has_all():
            return "hangs, though fewer than half were stopped or outrun" if not self.lost_half() else \
                "hangs: half or more were stopped or outrun"
        if "budget" not in self.ends:
            return "each that wasn't stopped or outrun finishes"
        if "finished" not in self.ends:
            return "all commands, but nobody finishes"
        if any(end == "budget" and count < max(self.entries) for end, count in zip(self.ends, self.entries)):
            return "one finishes while it holds another failed that goes on and never has all"
        return "all commands in each log, but some spend their budget"

    def told(self):
        """The ends, and how long the logs are."""
        ends = ", ".join(f"{of} {end} with {count}" for of, (end, count) in enumerate(zip(self.ends, self.entries)))
        return f"status {self.status}: {ends}"


def reported(program, kind, job):
    """The report of a job with replicas of this kind, with the greatest budget if the job's isn't enough."""
    done = subprocess.run([program, WORDS[kind]], input=job.encode(), stdout=subprocess.PIPE, check=False)
    longer = job.replace(f"\nbudget {BUDGET}\n", f"\nbudget {MOST_BUDGET}\n")
    if done.returncode != 0 and longer != job:
        return reported(program, kind, longer)
    return Report(done.stdout.decode(), done.returncode)


def count_kinds(program, given, kinds):
    """Runs the random jobs: how many of them hang with eager replicas."""
    chance, counts = random.Random(given.seed), {kind: collections.Counter() for kind in kinds}
    jobs = [random_job(chance) for _ in range(given.jobs)]
    hung = 0
    with concurrent.futures.ThreadPoolExecutor(given.workers) as pool:
        for kind in kinds:
            for job, report in zip(jobs, pool.map(lambda job, kind=kind: reported(program, kind, job), jobs)):
                counts[kind][report.kind()] += 1
                if kind == "eager" and not report.has_all() and not report.lost_half():
                    hung += 1
                    print(f"hangs with eager replicas, {report.told()}:\n{job}", flush=True)
    for kind in kinds:
        print(f"{kind}: {given.jobs} jobs, seed {given.seed}")
        for what, count in counts[kind].most_common():
            print(f"    {count:6} {what}")
    return hung


def tell_jobs(program, paths, kinds):
    """Tells what comes of these jobs."""
    for path in paths:
        with open(path, encoding="ascii") as given:
            job = given.read()
        for kind in kinds:
            report = reported(program, kind, job)
            print(f"{os.path.basename(path)}, {kind}: {report.kind()}\n    {report.told()}", flush=True)
    return 0


def main():
    parser = argparse.ArgumentParser(description=__doc__.split("\n", maxsplit=1)[0])
    parser.add_argument("jobs_given", nargs="*", metavar="JOB")
    parser.add_argument("--program")
    parser.add_argument("--jobs", type=int, default=20_000)
    parser.add_argument("--seed", type=int, default=1)
    parser.add_argument("--workers", type=int, default=1)
    parser.add_argument("--only", choices=sorted(WORDS))
    given = parser.parse_args()
    kinds = [given.only] if given.only else list(WORDS)
    with tempfile.TemporaryDirectory() as room:
        program = given.program or build(room, "plain_mu")
        if given.jobs_given:
            return tell_jobs(program, given.jobs_given, kinds)
        return 1 if count_kinds(program, given, kinds) else 0


if __name__ == "__main__":
    sys.exit(main())
