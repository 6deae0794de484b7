#!/usr/bin/env python3
"""Runs `replay` over jobs whose budget is exactly a bound of docs/ALIVE.md: each has to have status 0.

    tools/runs/bound_jobs.py               the proved program, or one unproved build for all jobs
    tools/runs/bound_jobs.py PROGRAM       a program that is named
    tools/runs/bound_jobs.py --write DIR   writes the jobs there instead

Each number of replicas and both versions: with a ring of 8, if nobody stops; and with the least ring
that holds all entries, and as many replicas stopped as leave a majority: followers at their first
step, while they grant, and later, or the leaders one after the other. Nothing of the program is used for this but its output: the bounds are reckoned
here, and each report is judged as tools/runs/run_trials.py does.
"""
import sys

import folders
import trying
from beginning import begin
from run_trials import Job, Wrong, check_report

LEAST_RING = 8
MOST_BUDGET = 131071
# How many commands, and how many a batch has at most in version 2.
COMMANDS = (2, 8, 40)
BATCHES = (1, 4)
CLIENTS = 2


def cycle(replicas):
    """A round of the cycle, in steps."""
    return 4 * replicas + 44


def calm(replicas, batch, positions):
    """`calm_steps`: what a leader takes at most until it knows this number of positions."""
    return (13 * replicas + 8 + 12 * batch) * (positions + 1) + 6 * replicas + 8 * replicas * positions


def steps_enough(replicas, batch, positions):
    """Where replica 0 goes on."""
    return 110 * replicas + 96 + 2 * calm(replicas, batch, positions)


def steps_after(replicas, batch, positions, least):
    """From the last stop of a replica below `least`, which goes on."""
    asking = 34 * replicas + 2
    last = 3 * asking + (least + 1) * 2 * cycle(replicas) + 2 + 2 * calm(replicas, batch, positions)
    return 15 * cycle(replicas) + last + (batch * positions + 1) * 2 * cycle(replicas)


def steps_in_any_ring(replicas, batch, positions):
    """If nobody stops, whatever the ring."""
    limit = 13 * replicas + 8 + 12 * batch
    paid = 6 * replicas + 8 * (replicas + 1) * positions
    gain = 2 * cycle(replicas) + 2
    settling = 110 * replicas + 96 + gain + 6 * (limit + paid) + 8 + 2 * (limit + paid)
    commit = 2 * replicas + gain + cycle(replicas) + 2 + 2 * limit
    return settling + positions * commit + (batch + 1) * positions * gain


def followers_stopped(replicas):
    """The last replicas, as many as leave a majority: at which steps they stop."""
    last = range(replicas - (replicas - 1) // 2, replicas)
    granting = 4 * replicas + 6
    ways = [{}, {q: 0 for q in last}, {q: granting + q for q in last}, {q: 400 * (q - last[0] + 1) for q in last}]
    return ways if last else ways[:1]


def leaders_stopped(replicas):
    """The first replicas: at once, as each asks or commits, and so late that the one before has led."""
    first = range((replicas - 1) // 2)
    turn = 16 * cycle(replicas) + 8 * replicas
    ways = [{q: 0 for q in first}, {q: turn * q + 9 for q in first}, {q: turn * q + 8 * replicas + 40 for q in first},
            {q: (turn + 90) * (q + 1) for q in first}]
    return ways if first else []


def written(version, replicas, batch, ring, budget, commands, stops):
    """The text of a job; None if no budget is as large."""
    if budget > MOST_BUDGET:
        return None
    lines = [f"mu {version}", f"replicas {replicas}", f"ring {ring}", f"budget {budget}"]
    if version == 2:
        lines.append(f"batch {batch}")
    for client in range(CLIENTS):
        lines.append(f"client {client}")
        lines += [f"put k{k % 5} {k}" for k in range(client, commands, CLIENTS)]
    if stops:
        lines += ["script", *(f"stop {q} {k}" for q, k in sorted(stops.items()))]
    return "\n".join([*lines, "end", ""])


def job(version, replicas, batch, commands, stops):
    """A job with a large ring, at its bound."""
    reserve = replicas if version == 2 else 0
    least = next(q for q in range(replicas) if q not in stops)
    if least == 0:
        budget = steps_enough(replicas, batch, commands + reserve)
    else:
        budget = max(stops[q] for q in range(least)) + steps_after(replicas, batch, commands + reserve, least)
    return written(version, replicas, batch, max(LEAST_RING, commands + 2 * reserve), budget, commands, stops)


def small_ring_job(version, replicas, batch, commands):
    """A job with the least ring, that nothing stops, at its bound."""
    reserve = replicas if version == 2 else 0
    budget = steps_in_any_ring(replicas, batch, commands + reserve)
    return written(version, replicas, batch, LEAST_RING, budget, commands, {})


class BoundCase(trying.Case):
    """A run whose report has to be right, with every command and status 0."""

    def trouble(self, answer):
        other = super().trouble(answer)
        if other is None:
            try:
                check_report(Job(self.given.decode()), answer.output.decode(), answer.status)
            except (Wrong, ValueError, IndexError) as wrong:
                return str(wrong)
        return other


def bound_cases():
    """A case for each job."""
    for version in (1, 2):
        for replicas in range(1, 8):
            for batch in BATCHES if version == 2 else BATCHES[:1]:
                for commands in COMMANDS:
                    name = f"at the bound: mu {version}, replicas {replicas}, batch {batch}, {commands} commands"
                    text = small_ring_job(version, replicas, batch, commands)
                    if text:
                        yield BoundCase(f"{name}, ring {LEAST_RING}", ["replay"], text.encode(), None, 0)
                    for number, stops in enumerate(followers_stopped(replicas) + leaders_stopped(replicas)):
                        text = job(version, replicas, batch, commands, stops)
                        if text:
                            yield BoundCase(f"{name}, stops {number}", ["replay"], text.encode(), None, 0)


if __name__ == "__main__":
    begin(__doc__)
    sys.exit(trying.run_or_write(sys.argv[1:], list(bound_cases()), "bound"))
