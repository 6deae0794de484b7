#!/usr/bin/env python3
"""Runs `replay` over jobs whose leaders or hosts are stopped at each step: each has to have status 0.

    tools/runs/stop_jobs.py               the proved program, or one unproved build for all jobs
    tools/runs/stop_jobs.py PROGRAM       a program that is named
    tools/runs/stop_jobs.py --write DIR   writes the jobs there instead

Each budget is exactly the bound of docs/ALIVE.md for leaders that stop. The families:

* replica 0 of `examples/put-and-get.job` stops after each of 0 to 400 steps;
* of five replicas 0 stops at each step of a short job, and 1 at a step of its taking over, which moves on
  by two; of seven also 2;
* of five or seven replicas 0 stops, and the last one, a host, at each step of the rounds in which it
  closes its region, drains it and grants it to replica 1;
* followers alone stop, and the budget is exactly the bound within which each other replica finishes: each
  has to end so, with all commands;
* the same with a ring of 8, if nobody stops;
* the same if leaders stop: after each of 0 to 400 steps of the worked job, and at each fourth step of the
  second and the third family;
* in version 2 with a ring of 8 and more commands than that: replica 0 of three stops at each fourth of 0 to
  400 steps, leaders and hosts as above, and followers. Each has to have all commands at the bound for that,
  and each other replica has to finish at the other one;
* the longest such jobs that the greatest budget is enough for.

tools/runs/bound_jobs.py reckons the other bounds, and the reports are judged as it does.
"""
import os
import re
import sys

import folders
import trying
from beginning import begin
from bound_jobs import (
    BATCHES, BoundCase, MOST_BUDGET, cycle, followers_stopped, steps_after, steps_enough, steps_in_any_ring, written)
from programs import EXAMPLES
from run_trials import Job, check_report

LAST_STOP = 400
SHORT_JOB_STEPS = 200
# A replica is held failed between 13 and 15 rounds after its last step; a grant follows in the next one.
ROUNDS_TO_FAIL = 13
ROUNDS_TO_GRANT = 17
COMMANDS = 2
FINISHED_COMMANDS = (2, 30)
RING = 8
# More commands than the least ring has places.
COMMANDS_AROUND = 12
# As many commands as the greatest budget is enough for, with a ring of 8 and these stops.
LONGEST_AROUND = ((3, {0: 100}, 166), (3, {2: 100}, 166), (5, {0: 100, 1: 1_200}, 124))


def worked_jobs(bound):
    """The worked job, whose replica 0 stops after each number of steps, and so much budget after that."""
    with open(os.path.join(EXAMPLES, "put-and-get.job"), encoding="utf-8") as given:
        text = given.read()
    for step in range(LAST_STOP + 1):
        bounded = re.sub(r"^budget \d+$", f"budget {step + bound}", text, flags=re.MULTILINE)
        yield f"worked job, stop 0 {step}", re.sub(r"^end$", f"script\nstop 0 {step}\nend", bounded, flags=re.MULTILINE)


def short_job(version, replicas, stops, commands=COMMANDS, batch=1, bound=None, ring=None):
    """A job with these stops: with a large ring, and at its bound if leaders stop, unless others are given."""
    reserve = replicas if version == 2 else 0
    if bound is None:
        least = next(q for q in range(replicas) if q not in stops)
        bound = max(stops[q] for q in range(least)) + steps_after(replicas, 1, commands + reserve, least)
    ring = ring or max(RING, commands + 2 * reserve)
    lines = [f"mu {version}", f"replicas {replicas}", f"ring {ring}", f"budget {bound}"]
    if version == 2:
        lines.append(f"batch {batch}")
    lines += ["client 0", *(f"put k{k % 3} {k}" for k in range(commands))]
    halts = [f"stop {q} {k}" for q, k in sorted(stops.items())]
    if halts:
        lines += ["script", *halts]
    return f"mu {version}, replicas {replicas}, batch {batch}, {', '.join(halts)}", "\n".join([*lines, "end", ""])


def leaders_in_turn(every=1):
    """Which replicas stop and when: one leader after another, at each step of the first one's job."""
    for version in (1, 2):
        for replicas in (5, 7):
            for step in range(0, SHORT_JOB_STEPS, every):
                stops, last = {}, step
                for leader in range((replicas - 1) // 2):
                    stops[leader] = last
                    last += ROUNDS_TO_FAIL * cycle(replicas) + 2 * step
                yield version, replicas, stops


def hosts_while_granting(every=1):
    """The leader, and a host at each step of the rounds in which it grants to the next."""
    for version in (1, 2):
        for replicas in (5, 7):
            first, last = ROUNDS_TO_FAIL * cycle(replicas), ROUNDS_TO_GRANT * cycle(replicas)
            for step in range(first, last, every):
                yield version, replicas, {0: SHORT_JOB_STEPS // 2, replicas - 1: SHORT_JOB_STEPS // 2 + step}


def spreading(replicas, batch, positions):
    """The steps in which what the leader has applied reaches all, with their heads, and each has read the heads."""
    bringing = 19 * replicas + 8 + 12 * batch + 8 * (replicas + 1) * positions
    following = 3 * cycle(replicas) + ((batch + 1) * positions + 1) * 2 * cycle(replicas)
    return 6 * bringing + 8 + following + 2 + replicas * cycle(replicas)


def finishing_steps(replicas, batch, positions, known):
    """If replica 0 goes on and knows all then: more steps than these are enough for each that goes on to finish."""
    return known(replicas, batch, positions) + 2 * cycle(replicas) + 2 + spreading(replicas, batch, positions)


def finishing_after(replicas, batch, positions, least):
    """The same from the last stop of a replica below `least`, which goes on; it fetches rows meanwhile."""
    fetching = (batch * positions + 1) * 2 * cycle(replicas)
    return steps_after(replicas, batch, positions, least) - fetching + spreading(replicas, batch, positions)


def steps_in_small_rings(replicas, batch, positions, least):
    """In version 2, in any ring, from the last stop of any replica until `least` has every row."""
    limit = 13 * replicas + 8 + 12 * batch
    paid = 6 * replicas + 8 * (replicas + 1) * positions
    gain = 2 * cycle(replicas) + 2
    opening = 3 * (34 * replicas + 2) + (least + 1) * 2 * cycle(replicas) + 2 + 2 * (replicas + 2)
    entry = 4 * limit + gain + cycle(replicas) + 2
    gains = (batch + 1) * positions + 1
    return 15 * cycle(replicas) + opening + positions * entry + gains * gain + 4 * paid


def finishing_in_small_rings(replicas, batch, positions, least):
    """And until each that goes on has finished: one step more than these is enough."""
    return steps_in_small_rings(replicas, batch, positions, least) + spreading(replicas, batch, positions) + 1


class FinishCase(BoundCase):
    """A run in which each replica without a stop has to finish with all commands."""

    def trouble(self, answer):
        other = super().trouble(answer)
        if other is not None:
            return other
        job = Job(self.given.decode())
        for log in check_report(job, answer.output.decode(), answer.status).logs:
            if log.replica not in job.stops and (log.end != "finished" or len(log.commands()) != job.commands()):
                return f"replica {log.replica} is {log.end} with {len(log.commands())} commands"
        return None


def finishing_jobs():
    """Followers stop, or none; the budget is one above the bound until each other has finished."""
    for version in (1, 2):
        for replicas in range(1, 8):
            for batch in BATCHES if version == 2 else BATCHES[:1]:
                for commands in FINISHED_COMMANDS:
                    for stops in followers_stopped(replicas):
                        reserve = replicas if version == 2 else 0
                        last = max(stops.values(), default=0) + 15 * cycle(replicas) + 1
                        bound = max(finishing_steps(replicas, batch, commands + reserve, steps_enough) + 1, last)
                        if bound <= MOST_BUDGET:
                            yield short_job(version, replicas, stops, commands, batch, bound)


def finishing_in_any_ring():
    """Nobody stops, and the ring is the least."""
    for version in (1, 2):
        for replicas in range(1, 8):
            for batch in BATCHES if version == 2 else BATCHES[:1]:
                for commands in FINISHED_COMMANDS:
                    positions = commands + (replicas if version == 2 else 0)
                    bound = finishing_steps(replicas, batch, positions, steps_in_any_ring) + 1
                    text = written(version, replicas, batch, RING, bound, commands, {})
                    if text:
                        yield f"mu {version}, replicas {replicas}, batch {batch}, {commands} commands, ring {RING}", text


def leaders_stop():
    """Leaders or hosts stop, at the bound for all commands."""
    yield from worked_jobs(steps_after(3, 1, COMMANDS, 1))
    for stops in (*leaders_in_turn(), *hosts_while_granting()):
        yield short_job(*stops)


def finishing_after_leaders():
    """Leaders or hosts stop, and the budget is one above the bound until each other has finished."""
    yield from worked_jobs(finishing_after(3, 1, COMMANDS, 1) + 1)
    for version, replicas, stops in (*leaders_in_turn(4), *hosts_while_granting(4)):
        positions = COMMANDS + (replicas if version == 2 else 0)
        least = next(q for q in range(replicas) if q not in stops)
        bound = max(stops[q] for q in range(least)) + finishing_after(replicas, 1, positions, least) + 1
        yield short_job(version, replicas, stops, bound=max(bound, max(stops.values()) + 15 * cycle(replicas) + 1))


def stops_in_small_rings(every):
    """Which replicas of how many stop and when, and how long a batch is."""
    for step in range(0, LAST_STOP + 1, every):
        yield 3, BATCHES[step // every % len(BATCHES)], {0: step}
    for version, replicas, stops in (*leaders_in_turn(every), *hosts_while_granting(every)):
        if version == 2:
            yield replicas, BATCHES[0], stops
    for replicas in range(3, 8):
        for stops in followers_stopped(replicas):
            if stops:
                yield replicas, BATCHES[0], stops


def small_rings(bound, every):
    """Version 2, a ring of 8 and more commands than that, at a bound counted from the last stop of any replica."""
    for replicas, batch, stops in stops_in_small_rings(every):
        least = next(q for q in range(replicas) if q not in stops)
        budget = max(stops.values()) + bound(replicas, batch, COMMANDS_AROUND + replicas, least)
        if budget <= MOST_BUDGET:
            name, text = short_job(2, replicas, stops, COMMANDS_AROUND, batch, budget, RING)
            yield f"{name}, ring {RING}", text


def longest_in_small_rings():
    """The longest jobs of version 2 with one command in a batch and a ring of 8, at the bound for all commands."""
    for replicas, stops, commands in LONGEST_AROUND:
        least = next(q for q in range(replicas) if q not in stops)
        budget = max(stops.values()) + steps_in_small_rings(replicas, 1, commands + replicas, least)
        name, text = short_job(2, replicas, stops, commands, 1, budget, RING)
        yield f"{name}, {commands} commands, ring {RING}", text


def stop_cases():
    """A case for each job."""
    for name, text in longest_in_small_rings():
        yield BoundCase(name, ["replay"], text.encode(), None, 0)
    for name, text in small_rings(steps_in_small_rings, 4):
        yield BoundCase(name, ["replay"], text.encode(), None, 0)
    for name, text in small_rings(finishing_in_small_rings, 8):
        yield FinishCase(f"each finishes: {name}", ["replay"], text.encode(), None, 0)
    for name, text in leaders_stop():
        yield BoundCase(name, ["replay"], text.encode(), None, 0)
    for family in (finishing_jobs, finishing_in_any_ring, finishing_after_leaders):
        for name, text in family():
            yield FinishCase(f"each finishes: {name}", ["replay"], text.encode(), None, 0)


if __name__ == "__main__":
    begin(__doc__)
    sys.exit(trying.run_or_write(sys.argv[1:], list(stop_cases()), "stop"))
