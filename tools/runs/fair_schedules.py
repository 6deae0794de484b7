#!/usr/bin/env python3
"""Lets plain_mu take its turns by random schedules that are fair from some moment on, and compares with the bound.

    tools/runs/fair_schedules.py [--schedules 10000] [--seed 1] [--workers 1]

Each schedule is wild for some turns, and then fair: a majority goes on, and each of these takes a step in any F steps
of the least of them, s; speeds are random and change. Replicas are eager, and rings hold all entries. tools/runs/fairness.py
computes of the events at which ratio and lag the others keep up with s, and whether they see it; then s has every
command within the bound, or the status is 1. Only schedules count in whose fair stretch s lacks a command at first.
It needs rustc.
"""
import argparse
import collections
import concurrent.futures
import random
import subprocess
import sys
import tempfile

import folders
import bounds
from bound_jobs import LEAST_RING, MOST_BUDGET
from fairness import Run, Stretch
from second_program import build

RATIOS = (2, 3, 5, 9, 17, 25)
MOST_REPLICAS, MOST_BATCH, COMMANDS, MOST_WILD = 7, 4, (4, 30), 6_000
# Of how many schedules the events are judged too.
JUDGED = 20


class Plan:
    """A job and its schedule."""

    def __init__(self, chance):
        version, self.replicas = chance.randint(1, 2), chance.randint(2, MOST_REPLICAS)
        batch = chance.randint(1, MOST_BATCH) if version == 2 else 1
        commands, clients = chance.randint(*COMMANDS), chance.randint(1, 3)
        self.ratio, self.wild = chance.choice(RATIOS), chance.randint(0, MOST_WILD)
        majority = self.replicas // 2 + 1
        self.going = sorted(chance.sample(range(self.replicas), chance.randint(majority, self.replicas)))
        bound = bounds.steps("steps_if_fair", version, self.replicas, batch, commands, self.ratio, 0)
        ring = max(LEAST_RING, commands + (2 * self.replicas if version == 2 else 0))
        lines = [f"mu {version}", f"replicas {self.replicas}", f"ring {ring}",
                 f"budget {min(MOST_BUDGET, self.wild + bound)}", *([f"batch {batch}"] if version == 2 else [])]
        for client in range(clients):
            lines += [f"client {client}", *(f"put k{k % 5} {k}" for k in range(client, commands, clients))]
        self.job, self.seed = "\n".join([*lines, "end", ""]), chance.randrange(1 << 32)

    def words(self):
        """What plain_mu is told of the schedule."""
        return ["schedule", str(self.seed), str(self.ratio), str(self.wild), "".join(map(str, self.going))]

    def told(self):
        """The schedule, to be made again."""
        return f"plain_mu {' '.join(self.words())}, of this job:\n{self.job}"


class Found:
    """What is found of the fair stretch of a schedule."""

    def __init__(self, program, plan, is_judged):
        self.plan = plan
        trace = printed(program, plan.words(), plan.job.encode())
        self.is_legal = not is_judged or printed(program, ["check"], trace).startswith(b"legal")
        run = Run(trace.decode())
        least, has_all_after = plan.going[0], run.has_all_after(plan.going[0])
        self.counts = len(run.lines) > plan.wild and (has_all_after is None or has_all_after > plan.wild)
        if not self.counts:
            return
        stretch = Stretch(run, plan.going, plan.wild, len(run.lines))
        self.needed, self.bound, self.length = stretch.needed(has_all_after), stretch.bound, stretch.length
        self.found, self.alive, self.is_short = stretch.found, stretch.alive, stretch.is_short()
        self.is_seen, self.refutes = stretch.is_seen(), stretch.refutes(self.needed)
        self.keeps_ratio = keeps_ratio(stretch, least, plan)

    def premise(self):
        """How the premise that the others see s comes to hold, if it does."""
        if self.found:
            return "each read of the beats of s finds a new one"
        if not self.alive:
            return "s is held failed after that many steps, so nothing is promised"
        if self.is_short:
            return "the stretch ends before another one takes `failing_steps`"
        return "nobody holds s failed after `failing_steps`"


def keeps_ratio(stretch, least, plan):
    """Whether each other one takes a step in any F steps of s, as the schedule has to have it."""
    return stretch.least == least and all(
        row < plan.ratio for other in stretch.others for row in stretch.steps_between(other))


def printed(program, words, given):
    """What a program prints."""
    return subprocess.run([program, *words], input=given, stdout=subprocess.PIPE, check=True).stdout


def found_of(job):
    """The same for a process of a pool."""
    return Found(*job)


def all_found(program, given, chance):
    """What is found of as many schedules as are asked for, and of those that don't count."""
    count = 0
    with concurrent.futures.ProcessPoolExecutor(given.workers) as pool:
        while count < given.schedules:
            plans = [Plan(chance) for _ in range(min(given.schedules, 200))]
            for at, found in enumerate(pool.map(found_of, [(program, it, at < JUDGED) for at, it in enumerate(plans)])):
                if count < given.schedules:
                    count += found.counts
                    yield found


def main():
    parser = argparse.ArgumentParser(description=__doc__.split("\n", maxsplit=1)[0])
    parser.add_argument("--schedules", type=int, default=10_000)
    parser.add_argument("--seed", type=int, default=1)
    parser.add_argument("--workers", type=int, default=1)
    given = parser.parse_args()
    premises, ends, most, wrong, drawn = collections.Counter(), collections.Counter(), {}, 0, 0
    with tempfile.TemporaryDirectory() as room:
        for found in all_found(build(room, "plain_mu"), given, random.Random(given.seed)):
            drawn += 1
            if not found.is_legal or found.counts and (found.refutes or not found.keeps_ratio):
                wrong += 1
                print(f"wrong: {found.plan.told()}", flush=True)
            if not found.counts:
                continue
            premises[found.premise()] += 1
            ends[found.is_seen, found.needed is not None] += 1
            if found.is_seen and found.needed is not None:
                part = found.needed / found.bound
                kind = found.plan.replicas
                most[kind] = max(most.get(kind, (0,)), (part, found.needed, found.bound, found.plan.ratio))
    print(f"{given.schedules} schedules, seed {given.seed} ({drawn} drawn; in the others s had every command before)")
    for what, count in premises.most_common():
        print(f"    {count:6} {what}")
    print(f"the premise held in {ends[True, True] + ends[True, False]}: in {ends[True, True]} s had every command in the "
          f"stretch, in {ends[True, False]} that ended before the bound")
    print(f"it didn't hold in {ends[False, True] + ends[False, False]}: in {ends[False, True]} s had every command")
    for replicas, (part, needed, bound, ratio) in sorted(most.items()):
        print(f"    {replicas} replicas: at most {part:.3f} of the bound, {needed} of {bound} steps, at F = {ratio}")
    print(f"{wrong} wrong")
    return 1 if wrong else 0


if __name__ == "__main__":
    sys.exit(main())
