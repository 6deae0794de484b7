#!/usr/bin/env python3
"""Tells from where on a run was fair, how fair, and how the bound for fair runs compares (docs/ALIVE.md).

    tools/runs/fairness.py TRACE [TRACE ..]               traces of runs, in the stretch by which most is promised
    tools/runs/fairness.py --going 0,2 --from 900 TRACE   these go on, from this event on

A trace has the events in the order in which they were made. In a stretch of them some replicas, a majority, go on,
and the others make no event. Of the least of those, s, it is told at which ratio and lag the others keep up with it
(k steps in any stretch in which s takes ratio k + lag), by which the bound is least; whether they see it; and the
steps of s after which it has every command, beside the bound. The definitions are in `crates/mu_alive/specs`
and `crates/mu_cluster/specs` (`KeepsUp`, `FindsBeats`, `HoldAlive`, `steps_if_fair`); bounds are computed from them.
The status is 1 if a run refutes the law.
"""
import argparse
import re
import sys

import folders
import bounds
from account import FAILED_BELOW, MOST_POINTS, ALIVE_ABOVE, WORDS, Job, Region, Replica
from programs import tell
from run_cases import contents

READ_BEAT = re.compile(r"^(\d) readbeat (\d) = (\d+)$")
# What teaches a replica something of the log or of rows.
TEACHING = ("ask", "fence", "min", "enter", "putmin", "look", "putslot", "fuo", "writerow", "readrow")
# How many moments after which a replica has come back are tried, those with the longest absence.
MOST_MOMENTS = 20


class Run:
    """The job of a trace, its events, who made each, and what reads of beats found."""

    def __init__(self, text):
        head, _, tail = text.partition("\nend\n")
        self.job = Job.of(head.split("\n"))
        self.lines = [line for line in tail.split("\n") if line not in ("", "end")]
        self.makers = "".join([line[:1] for line in self.lines])
        self.reads = []
        for place, line in enumerate(self.lines):
            if " readbeat " in line:
                by, of, count = READ_BEAT.match(line).groups()
                self.reads.append((place, int(by), int(of), int(count)))
        self.bound_job = bounds.job_of(self.job.version, self.job.replicas, self.job.batch, len(self.job.rows))

    def bound(self, name, *values):
        """A bound of this name for the job."""
        return bounds.bound(name, self.bound_job, *values)

    def is_large(self):
        """Whether the ring has a place for each entry."""
        return len(self.job.rows) + 2 * self.job.reserve <= self.job.ring

    def steps(self, by, first, last):
        """How many steps a replica takes from one event up to another."""
        return self.makers.count(str(by), first, last)

    def has_all_after(self, by):
        """How many events there are when a replica knows and has applied every command; None if it never has."""
        replica, home, missing = Replica(self.job, by, set()), Region(self.job.replicas), len(self.job.rows)
        counted = 0
        if missing == 0:
            return 0
        begins = tuple(f"{by} {verb} " for verb in TEACHING)
        for place, line in enumerate(self.lines):
            if not line.startswith(begins):
                continue
            verb, *words = line[2:].split(" ")
            middle = words.index("=")
            told = [int(word) if word.isdigit() else word for word in words]
            replica.take(verb, told[:middle], tuple(told[middle + 1:]), home)
            missing -= sum(len(self.job.rows_of(value)) for value in replica.known[counted:])
            counted = len(replica.known)
            is_last_word = verb in ("readrow", "writerow") and told[1] == WORDS - 1
            if missing == 0 and (is_last_word or verb in ("look", "putslot")):
                if replica.applied() == counted:
                    return place + 1
        return None


def places_of(makers, by):
    """The events that a replica made."""
    maker = str(by)
    return [place for place, other in enumerate(makers) if other == maker]


class Score:
    """The score of a replica, by reads of its beats."""

    def __init__(self):
        self.points, self.is_alive, self.last = MOST_POINTS, True, 0

    def read(self, count):
        """Takes note of a read."""
        points = self.points + 1 if count != self.last else self.points - 1
        self.points, self.last = min(MOST_POINTS, max(0, points)), count
        self.is_alive = self.points >= FAILED_BELOW and (self.is_alive or self.points > ALIVE_ABOVE)


class Stretch:
    """Events of a run, from the first up to the last, in which some replicas go on and the others make none."""

    def __init__(self, run, going, first, last):
        self.run, self.going, self.first, self.last = run, sorted(going), first, last
        self.least = self.going[0]
        self.others = self.going[1:]
        self.length = run.steps(self.least, first, last)
        self.ratio, self.lag, self.bound = self.fairness()
        self.settled = {other: self.settling(other) for other in self.others}
        self.found, self.alive = self.unfound() is None, self.held_failed() is None

    def fairness(self):
        """The ratio and the lag by which the bound is least, and that bound."""
        between = [self.steps_between(other) for other in self.others]
        best, ratio, slope = None, 1, self.run.bound("steps_if_fair", 1, 0) - self.run.bound("steps_if_fair", 0, 0)
        while best is None or ratio * slope < best[0]:
            lag = max((least_lag(rows, ratio) for rows in between), default=0)
            best = min(best or (sys.maxsize,), (self.run.bound("steps_if_fair", ratio, lag), ratio, lag))
            ratio += 1
        return best[1], best[2], best[0]

    def steps_between(self, other):
        """How many steps the least takes before each step of another one, since the one before, and after the last."""
        rest = "".join(str(by) for by in range(self.run.job.replicas) if by not in (self.least, other)).encode()
        kept = self.run.makers[self.first:self.last].encode().translate(None, rest)
        return [len(row) for row in kept.split(str(other).encode())]

    def unfound(self):
        """The first read of the beats of the least in the stretch that finds what the one before found, if any."""
        last = {}
        for place, by, of, count in self.run.reads:
            if of == self.least and by in self.others and self.first <= place < self.last:
                if last.get(by) == count:
                    return place
                last[by] = count
        return None

    def held_failed(self):
        """The first moment at which the least counts as failed once it mustn't, if there is one."""
        moments = [self.failed_by(other) for other in self.others if self.settled[other] is not None]
        return min((moment for moment in moments if moment is not None), default=None)

    def failed_by(self, other):
        """The first moment from when it has settled on at which another one holds the least failed, if any."""
        settled, score, states = self.settled[other], Score(), []
        for place, by, of, count in self.run.reads:
            if by == other and of == self.least and place < self.last:
                score.read(count)
                states.append((place, score.is_alive))
        before = [is_alive for place, is_alive in states if place <= settled]
        if before and not before[-1]:
            return settled
        return next((place for place, is_alive in states if place > settled and not is_alive), None)

    def settling(self, other):
        """The event by which another one has taken `failing_steps` in the stretch; None if it never has."""
        failing = self.run.bound("failing_steps")
        made = places_of(self.run.makers[self.first:self.last], other)
        return self.first + made[failing - 1] if len(made) >= failing else None

    def is_seen(self):
        """Whether the others see the least."""
        return self.found or self.alive

    def is_short(self):
        """Whether no other one takes as many steps as have to pass before it mustn't hold the least failed."""
        return all(self.settled[other] is None for other in self.others)

    def needed(self, has_all_after):
        """The steps of the least in the stretch until it has every command; None if it hasn't by its end."""
        if has_all_after is None or has_all_after > self.last:
            return None
        return self.run.steps(self.least, self.first, max(self.first, has_all_after))

    def refutes(self, needed):
        """Whether the premises hold and the law doesn't."""
        is_within = needed is not None and needed <= self.bound
        return self.run.is_large() and self.is_seen() and self.length >= self.bound and not is_within


def least_lag(rows, ratio):
    """The least lag with which one keeps up at a ratio, by the steps of the least between its own."""
    longest = max(rows)
    if longest <= ratio:
        return max(0, longest - ratio + 1)
    most = here = 0
    for row in rows:
        here += row - ratio
        if here < 0:
            here = 0
        elif here > most:
            most = here
    return most + 1


def going_in(run, first, last):
    """Those that go on in a window, and up to where: the ones that make an event there, until one makes its last."""
    going = [by for by in range(run.job.replicas) if run.steps(by, first, last)]
    return going, min([last, *(run.makers.rfind(str(by)) + 1 for by in going)])


def absences(run):
    """From where to where each replica makes no event for the longest time."""
    for by in range(run.job.replicas):
        places = [-1, *places_of(run.makers, by), len(run.makers)]
        yield max(((before + 1, after) for before, after in zip(places, places[1:])), key=lambda it: it[1] - it[0])


def comebacks(run, going, first, last):
    """Moments at which one that goes on makes an event after it made none for long."""
    moments = []
    for by in going:
        before = first
        for place in places_of(run.makers[:last], by):
            if place >= first:
                moments.append((place - before, place))
                before = place
    longest = run.bound("cycle") * len(going)
    return [place for absence, place in sorted(moments, reverse=True)[:MOST_MOMENTS] if absence > longest]


def windows(run):
    """The stretches that are looked at: the whole run, while each one is away, and from each comeback on."""
    for first, end in [(0, len(run.makers)), *absences(run)]:
        going, last = going_in(run, first, end)
        for moment in [first, *comebacks(run, going, first, last)]:
            still = [by for by in going if run.steps(by, moment, last)]
            if len(still) >= run.job.majority:
                yield still, moment, last


def fairest(run):
    """The stretch in which s gets every command and the law promises that soonest; else the longest."""
    has_all = [run.has_all_after(by) for by in range(run.job.replicas)]

    def order(stretch):
        after, before = has_all[stretch.least], run.steps(stretch.least, 0, stretch.first)
        gets_all = after is not None and stretch.first < after <= stretch.last
        if gets_all and stretch.is_seen():
            return 0, before + stretch.bound
        return 1, stretch.first - stretch.last

    return min((Stretch(run, *window) for window in windows(run)), key=order)


def listed(names):
    """Names in a row."""
    return ", ".join(names)


def told(stretch):
    """What is told of a stretch, in lines."""
    run, s = stretch.run, stretch.least
    silent = [str(by) for by in range(run.job.replicas) if by not in stretch.going]
    after = run.has_all_after(s)
    needed = stretch.needed(after)
    yield (f"from event {stretch.first} up to {stretch.last} of {len(run.lines)} {listed(map(str, stretch.going))} go on"
           f"{', without ' + listed(silent) if silent else ''}; {s} takes {stretch.length} steps")
    yield f"they keep up with {s} at the ratio {stretch.ratio} with a lag of {stretch.lag}"
    unfound, failed = stretch.unfound(), stretch.held_failed()
    yield (f"each read of its beats finds a new one: "
           f"{'yes' if unfound is None else f'no, not at event {unfound}'}")
    yield (f"nobody holds it failed after {run.bound('failing_steps')} steps: "
           f"{'yes' if failed is None else f'no, not at event {failed}'}")
    yield f"the ring has a place for each entry: {'yes' if run.is_large() else 'no'}"
    if needed is None:
        has = "it doesn't have every command by the end"
    elif after is not None and after <= stretch.first:
        has = "it had every command before"
    else:
        has = f"it had every command after {needed}"
    yield f"bound: {stretch.bound} steps of {s}; {has}"
    if stretch.refutes(needed):
        yield "the law is refuted"


def main():
    parser = argparse.ArgumentParser(description=__doc__.split("\n", maxsplit=1)[0])
    parser.add_argument("traces", nargs="+", metavar="TRACE")
    parser.add_argument("--going", help="the ids of those that go on, with commas")
    parser.add_argument("--from", dest="first", type=int, help="the event from which on they do")
    given = parser.parse_args()
    refuted = []
    for path in given.traces:
        run = Run(contents(path).decode())
        if given.going or given.first is not None:
            going, last = going_in(run, given.first or 0, len(run.makers))
            if given.going:
                going = [int(by) for by in given.going.split(",")]
                last = min(run.makers.rfind(str(by)) + 1 for by in going)
            others = [run.makers.rfind(str(by), 0, last) + 1 for by in range(run.job.replicas) if by not in going]
            stretch = Stretch(run, going, max([given.first or 0, *others]), last)
        else:
            stretch = fairest(run)
        lines = list(told(stretch))
        print(f"{path}:", *lines, sep="\n    ")
        refuted += [path] if "refuted" in lines[-1] else []
    return tell([], f"{len(given.traces)} runs, {len(refuted)} refute the law") if not refuted else \
        tell(refuted, f"{len(refuted)} runs refute the law")


if __name__ == "__main__":
    sys.exit(main())
