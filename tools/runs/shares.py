#!/usr/bin/env python3
"""Measures which share of the bounds of docs/ALIVE.md random jobs take.

    tools/runs/shares.py [--jobs 60] [--seed 1]
    tools/runs/shares.py --program PROGRAM      another program than plain_mu, with the word `replay`

For each bound and three, five and seven replicas so many random jobs of that kind are made, of both versions if the
bound is of both. The least budget with which a job ends with status 0, or with which each replica that wasn't stopped
finishes, is found by halving; of its share of the bound the middle and the greatest are printed. It needs rustc,
without a program that is named.
"""
import argparse
import random
import statistics
import sys
import tempfile

import folders
from astray_jobs import Report
from bound_jobs import LEAST_RING, MOST_BUDGET
from bounds import Lines, committed_by, finished_by
from enough_jobs import each_finished, reported, with_budget
from second_program import build

REPLICAS, MOST_COMMANDS, MOST_STEPS, MOST_ROUNDS = (3, 5, 7), 24, 900, 1500
# Of each bound: its versions, whether the ring is large, which replicas stop, whether one pauses, and what is promised.
KINDS = {
    "steps_after_pauses": ((1, 2), True, "any", True, "committed"),
    "steps_enough": ((1, 2), True, "followers", False, "committed"),
    "steps_after": ((1, 2), True, "leader", False, "committed"),
    "steps_in_any_ring": ((1, 2), False, "none", False, "committed"),
    "steps_after_in_any_ring": ((2,), False, "any", False, "committed"),
    "finishing_steps": ((1, 2), True, "followers", False, "finished"),
    "finishing_after": ((1, 2), True, "leader", False, "finished"),
    "finishing_in_any_ring": ((1, 2), False, "none", False, "finished"),
    "finishing_after_in_any_ring": ((2,), False, "any", False, "finished"),
}
NUMBERS = {"committed": (committed_by, Report.has_all), "finished": (finished_by, each_finished)}


def stopped(chance, replicas, who):
    """Which replicas stop: fewer than half, with replica 0 for the leader, without it for followers."""
    most = (replicas - 1) // 2
    if who == "none":
        return []
    if who == "leader":
        return [0, *chance.sample(range(1, replicas), chance.randint(0, most - 1))]
    first = 1 if who == "followers" else 0
    return chance.sample(range(first, replicas), chance.randint(1 if who == "any" else 0, most))


def random_job(chance, replicas, kind):
    """A job of that kind, with a budget that is still to be given."""
    versions, large, who, pauses, _ = kind
    version, commands = chance.choice(versions), chance.randint(LEAST_RING + 2, MOST_COMMANDS)
    ring = commands + 2 * replicas * (version == 2) if large else LEAST_RING
    script = [f"stop {of} {chance.randint(0, MOST_STEPS)}" for of in sorted(stopped(chance, replicas, who))]
    if pauses:
        script.append(f"pause {chance.randrange(replicas)} {chance.randint(0, MOST_STEPS)} "
                      f"{chance.randint(1, MOST_ROUNDS)}")
    lines = [f"mu {version}", f"replicas {replicas}", f"ring {ring}", "budget 1"]
    lines += ["batch 1", "client 0"] if version == 2 else ["client 0"]
    lines += [f"put k{k % 5} {k}" for k in range(commands)]
    return "\n".join([*lines, *(["script", *script] if script else []), "end", ""])


def share(program, job, promise):
    """Which share of its bound a job takes."""
    number, is_right = NUMBERS[promise]
    most = number(Lines(job))
    if most >= MOST_BUDGET:
        return None
    low, high = 1, most + 1
    while low < high:
        middle = (low + high) // 2
        if is_right(reported(program, with_budget(job, middle))):
            high = middle
        else:
            low = middle + 1
    return low / most


def main():
    parser = argparse.ArgumentParser(description=__doc__.split("\n", maxsplit=1)[0])
    parser.add_argument("--program")
    parser.add_argument("--jobs", type=int, default=60)
    parser.add_argument("--seed", type=int, default=1)
    given = parser.parse_args()
    chance = random.Random(given.seed)
    with tempfile.TemporaryDirectory() as room:
        program = given.program or build(room, "plain_mu")
        for name, kind in KINDS.items():
            told = []
            for replicas in REPLICAS:
                jobs = (random_job(chance, replicas, kind) for _ in range(given.jobs))
                taken = [it for it in (share(program, job, kind[-1]) for job in jobs) if it is not None]
                told.append(f"{statistics.median(taken):.2f} {max(taken):.2f}")
            print(f"{name}: {', '.join(told)}", flush=True)
    return 0


if __name__ == "__main__":
    sys.exit(main())
