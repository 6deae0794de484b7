#!/usr/bin/env python3
"""Evaluates the premises of each clause by which a run stays alive, over the events of a run (docs/ALIVE.md).

    tools/runs/premises.py TRACE [TRACE ..]   tells of each trace which premises hold, and whether what follows does
    tools/runs/premises.py                    runs the examples: for each clause a run that meets every premise, and for
                                              each premise one that doesn't

A clause whose premises no run meets promises nothing. The clauses are `lives` (its parts `committed` and `finished`)
and `leads` of a replay, and `lives_if_fair` of a run. Bounds are computed from their definitions, and what a replica
knows and has applied by an account of its own. The status is 1 if a run refutes a clause or an example isn't one.
"""
import sys

import folders
import bounds
import trying
from account import Region, Replica
from beginning import begin
from bounds import NotPromised
from fairness import Run, Stretch, going_in
from programs import tell
from run_cases import contents


class Evaluated:
    """The premises of a clause with whether each holds, and whether what follows from them does."""

    def __init__(self, clause, premises, follows):
        self.clause, self.premises, self.follows = clause, premises, follows

    def unmet(self):
        """The premises that don't hold."""
        return [what for what, holds in self.premises if not holds]

    def is_refuted(self):
        """Whether every premise holds, and what follows doesn't."""
        return not self.unmet() and not self.follows

    def told(self):
        """What is told of it, in lines."""
        yield f"{self.clause}: {'every premise holds' if not self.unmet() else 'not every premise holds'}"
        for what, holds in self.premises:
            yield f"    {'holds' if holds else 'fails'}: {what}"
        yield f"    what follows {'holds' if self.follows else 'fails'}"


class Events:
    """The events of a whole trace, its job and script."""

    def __init__(self, text):
        self.run, self.lines = Run(text), bounds.Lines(text.partition("\nend\n")[0])
        self.replicas = range(self.run.job.replicas)
        self.steps = [self.run.makers.count(str(by)) for by in self.replicas]

    def steps_until_all(self, by):
        """After how many of its own steps a replica has every command; None if it never has."""
        after = self.run.has_all_after(by)
        return None if after is None else self.run.steps(by, 0, after)

    def is_stopped(self, by):
        """Whether a line stops the replica before it ends otherwise."""
        return by in self.lines.stops and self.steps[by] == self.lines.stops[by]

    def has_finished(self, by):
        """Whether the replica has every command and ended by neither a line nor its budget, in a large ring."""
        is_cut = self.is_stopped(by) or self.steps[by] == self.run.job.budget
        return not is_cut and self.steps_until_all(by) is not None

    def has_over(self, by):
        """Whether a leadership of the replica was ever over."""
        replica, home = Replica(self.run.job, by, set()), Region(self.run.job.replicas)
        for line in self.run.lines:
            if line[0] == str(by):
                verb, *words = line[2:].split(" ")
                middle = words.index("=")
                told = [int(word) if word.isdigit() else word for word in words]
                replica.take(verb, told[:middle], tuple(told[middle + 1:]), home)
                if replica.now is not None and replica.now.over:
                    return True
        return False


def number_of(number, lines):
    """A number that a job promises, if it does."""
    try:
        return number(lines)
    except NotPromised:
        return None


def committed(events):
    """`lives.committed`: one has every command within the job's number of its steps."""
    number = number_of(bounds.committed_by, events.lines)
    until = [steps for steps in map(events.steps_until_all, events.replicas) if steps is not None]
    return Evaluated("lives.committed", [
        ("the job has a number", number is not None),
        ("its budget is at least that", number is not None and number <= events.run.job.budget),
    ], number is not None and any(steps <= number for steps in until))


def finished(events):
    """`lives.finished`: each that wasn't stopped finishes within the job's number of its steps."""
    number = number_of(bounds.finished_by, events.lines)
    going = [by for by in events.replicas if not events.is_stopped(by)]
    return Evaluated("lives.finished", [
        ("the job has a number", number is not None),
        ("its budget is above that", number is not None and number < events.run.job.budget),
    ], number is not None and all(events.has_finished(by) and events.steps[by] <= number for by in going))


def leads(events):
    """`leads`: no leadership is ever over."""
    return Evaluated("leads", [("no line pauses", not events.lines.pauses)],
                     not any(map(events.has_over, events.replicas)))


def lasts_to_end(events, stretch):
    """Whether s has the budget for the bound, isn't stopped, and ends with the stretch or another has finished."""
    s, run = stretch.least, events.run
    is_last = run.steps(s, stretch.last, len(run.makers)) == 0
    is_going = not events.is_stopped(s) and (is_last or any(map(events.has_finished, events.replicas)))
    return is_going and run.steps(s, 0, stretch.first) + stretch.bound <= run.job.budget


def lives_if_fair(events):
    """`lives_if_fair`, in the stretch from the first event on until one of those that make events makes its last."""
    run = events.run
    going, last = going_in(run, 0, len(run.makers))
    stretch = Stretch(run, going, 0, last)
    return Evaluated("lives_if_fair", [
        ("a majority goes on", len(going) >= run.job.majority),
        ("they see s", stretch.is_seen()),
        ("the ring has a place for each entry", run.is_large()),
        ("s takes `steps_if_fair` steps, or has the budget for them and the stretch lasts to the end",
         stretch.length >= stretch.bound or lasts_to_end(events, stretch)),
    ], any(events.steps_until_all(by) is not None for by in events.replicas))


# The clauses, each with who makes the events of which it speaks.
OF_REPLAY, OF_RUN = (committed, finished, leads), (lives_if_fair,)


class Example(trying.Case):
    """A job, the clause, and the premises that its run doesn't meet."""

    def __init__(self, name, clause, given, unmet=()):
        words = ["eager", "trace"] if clause in OF_RUN else ["trace"]
        super().__init__(f"premises: {name}", words, given.encode())
        self.clause, self.unmet = clause, list(unmet)

    def trouble(self, answer):
        wrong = super().trouble(answer)
        if wrong:
            return wrong
        found = self.clause(Events(answer.output.decode()))
        if found.is_refuted():
            return f"refutes {found.clause}"
        return None if found.unmet() == self.unmet else f"doesn't meet {found.unmet()}, not {self.unmet}"


def job(replicas, ring, budget, script=(), version=1):
    """A job with six commands of two clients."""
    commands = [f"client {client}\nput k{client} 1\nget k0\nput k1 2" for client in (0, 1)]
    script = ["script", *script] if script else []
    return "\n".join([f"mu {version}", f"replicas {replicas}", f"ring {ring}", f"budget {budget}",
                      *(["batch 2"] if version == 2 else []), *commands, *script, "end", ""])


NO_NUMBER, NO_BUDGET = "the job has a number", "its budget is at least that"
BELOW = "its budget is above that"
ENOUGH = "s takes `steps_if_fair` steps, or has the budget for them and the stretch lasts to the end"


def examples():
    """For each clause runs that meet every premise, and for each premise one that doesn't."""
    half = ["stop 0 200", "stop 1 200"]
    pause = ["pause 1 40 300"]
    return [
        Example("a large ring", committed, job(3, 8, 20_000)),
        Example("a large ring and a stopped leader", committed, job(3, 8, 20_000, ["stop 0 200"])),
        Example("a large ring and a pause", committed, job(3, 8, 20_000, pause)),
        Example("a large ring, version 2", committed, job(3, 12, 20_000, ["stop 0 200"], 2)),
        Example("a small ring, version 2", committed, job(3, 8, 20_000, ["stop 0 200"], 2)),
        Example("half are stopped", committed, job(3, 8, 20_000, half), [NO_NUMBER, NO_BUDGET]),
        Example("a budget below the number", committed, job(3, 8, 1_000), [NO_BUDGET]),
        Example("each finishes", finished, job(3, 8, 20_000)),
        Example("each that isn't stopped finishes", finished, job(5, 8, 30_000, half)),
        Example("each finishes in a small ring", finished, job(3, 8, 20_000, ["stop 2 100"], 2)),
        Example("a pause", finished, job(3, 8, 20_000, pause), [NO_NUMBER, BELOW]),
        Example("a budget below the number for finishing", finished, job(3, 8, 2_000), [BELOW]),
        Example("no pause", leads, job(3, 8, 20_000, ["stop 0 200"])),
        Example("a pause of the leader", leads, job(3, 8, 20_000, ["pause 0 200 2000"]), ["no line pauses"]),
        Example("a fair run", lives_if_fair, job(3, 8, 20_000)),
        Example("a fair run of a majority", lives_if_fair, job(5, 8, 20_000, ["stop 3 0", "stop 4 0"])),
        Example("a fair run, version 2", lives_if_fair, job(7, 24, 40_000, ["stop 6 0"], 2)),
        Example("too few go on", lives_if_fair, job(3, 8, 20_000, ["stop 0 0", "stop 1 0"]), ["a majority goes on"]),
        Example("a small ring", lives_if_fair, job(3, 8, 40_000, (), 2), ["the ring has a place for each entry"]),
        Example("a budget below the bound", lives_if_fair, job(3, 8, 3_000), [ENOUGH]),
    ]


def told_of(path):
    """Tells of a trace; whether it refutes a clause."""
    events = Events(contents(path).decode())
    print(f"{path}:")
    found = [clause(events) for clause in (*OF_REPLAY, *OF_RUN)]
    for one in found:
        print(*(f"    {line}" for line in one.told()), sep="\n")
    return any(one.is_refuted() for one in found)


def main():
    begin(__doc__)
    if not sys.argv[1:]:
        return trying.run_or_write([], examples(), "premises")
    refuted = [path for path in sys.argv[1:] if told_of(path)]
    return tell(refuted, f"{len(refuted)} of {len(sys.argv) - 1} runs refute a clause")


if __name__ == "__main__":
    sys.exit(main())
