#!/usr/bin/env python3
"""Takes random moments of traces, and compares what `mu tell` says of the trace cut there, and what `mu show`
says of the whole one, with an account of its own.

    tools/accounts/moments.py TRACE [TRACE ..]             1,000 moments in all, by the proved program or an unproved build
    tools/accounts/moments.py --count N TRACE [TRACE ..]   N moments

It shares nothing with the program: what a region holds, what a replica knows, has applied, committed and
replied, what its leadership has come to, and how it has ended so far, is computed anew from the events
(tools/accounts/account.py), as docs/PROTOCOL.md and docs/FORMATS.md say.
"""
import os
import random
import sys

import folders
import programs
import trying
from account import MARKS, PAYLOADS, Job
from beginning import begin
from operations import reply_to
from second_judge import Steps

# Of the same traces the same moments are taken.
SEED = 40


class Trace:
    """The job, and the events as lines."""

    def __init__(self, text):
        lines = text.split("\n")
        end = lines.index("end")
        self.head = lines[:end + 1]
        self.job = Job.of(lines[:end])
        # No other line of a job begins so.
        stops = (line.split(" ") for line in lines[:end] if line.startswith("stop "))
        self.stops = {int(replica): int(steps) for _, replica, steps in stops}
        self.events = [line for line in lines[end + 1:] if line not in ("", "end")]

    def cut(self, count):
        """The trace of the first `count` events."""
        return "\n".join([*self.head, *self.events[:count], "end", ""])


def region_lines(p, region, ring):
    """What is shown of a region: of its log the entries that a look finds, which the ring still holds."""
    yield f"region {p} fence {' '.join(map(str, region.fence()))}"
    yield f"region {p} min {region.minimum} fuo {region.fuo} head {region.head} beats {region.beats}"
    for w, asks in enumerate(region.asks):
        if asks:
            yield f"region {p} asks of {w}: {asks}"
    for i in range(max(0, len(region.log) - ring), len(region.log)):
        number, value = region.log[i]
        yield f"region {p} log {i} entry {number} {value}"


class Moment:
    """What each region holds and each replica has come to after some events."""

    def __init__(self, trace):
        self.trace, self.job = trace, trace.job
        self.steps = Steps(trace.job)
        self.replicas, self.regions = self.steps.replicas, self.steps.memory.regions
        self.taken = 0

    def take_to(self, count):
        """Takes the events up to there, which have to be legal."""
        broken = self.steps.first_break(self.trace.events[self.taken:count])
        if broken:
            raise SystemExit(f"event {self.taken + broken[0]} may not come: {broken[1]}")
        self.taken = count

    def log(self, r):
        """What a replica has applied: what it knows, up to the first entry that it lacks a word of."""
        return self.replicas[r].known[:self.replicas[r].applied()]

    def has_finished(self, r):
        """Whether it applied all commands, and each other one did too, or is failed."""
        replica, entries, rows = self.replicas[r], 0, 0
        for value in self.log(r):
            if rows == len(self.job.rows):
                break
            entries, rows = entries + 1, rows + len(self.job.rows_of(value))
        others = [q for q in range(self.job.replicas) if q != r and not replica.failed(q)]
        heads = [self.regions[r].head, *(replica.heads.get(q, -1) for q in others)]
        return rows == len(self.job.rows) and min(heads) >= entries

    def end(self, r):
        """How a replica has ended so far."""
        replica = self.replicas[r]
        if self.trace.stops.get(r) == replica.steps:
            return "stopped"
        if replica.steps == self.job.budget:
            return "budget"
        if replica.outrun:
            return "outrun {} {}".format(*replica.outrun)
        return "finished" if self.has_finished(r) else "running"

    def leadership(self, r):
        """What the last leadership of a replica has come to."""
        replica = self.replicas[r]
        if not replica.begun:
            return "none"
        if replica.now.over:
            return "over"
        return "begun" if replica.now.number is None else f"number {replica.now.number}"

    def replica_lines(self, r):
        """What is shown of a replica."""
        replica, others = self.replicas[r], [q for q in range(self.job.replicas) if q != r]
        names = next(q for q in range(r + 1) if q == r or not replica.failed(q))
        yield (f"replica {r} steps {replica.steps} known {len(replica.known)} applied {len(self.log(r))} "
               f"names {names}")
        yield f"replica {r} leadership {self.leadership(r)}"
        yield from (f"replica {r} member {p}" for p in sorted(replica.now.members))
        yield from (f"replica {r} failed {q}" for q in others if replica.failed(q))
        yield from (f"replica {r} knows {i} value {value}" for i, value in enumerate(replica.known))

    def shown(self):
        """What is shown of the moment."""
        lines = [f"after {self.taken} of {len(self.trace.events)}"]
        for p, region in enumerate(self.regions):
            lines += region_lines(p, region, self.job.ring)
        for r in range(self.job.replicas):
            lines += self.replica_lines(r)
        return "\n".join([*lines, ""])

    def commands(self, value):
        """The client, the number and the text of each command of an entry; a mark has none."""
        for row in self.job.rows_of(value):
            client, number = self.job.of_row[row]
            yield client, number, self.job.clients[client][number - 1]

    def entry_lines(self, i, value):
        """The lines of an entry of a log."""
        commands = [f"{i} {client}.{number} {text}" for client, number, text in self.commands(value)]
        return commands or [f"{i} gone {value % PAYLOADS - MARKS}"]

    def told(self):
        """The report, and its status."""
        logs = [self.log(r) for r in range(self.job.replicas)]
        lines = [f"report {self.job.version}"]
        for r, log in enumerate(logs):
            lines.append(f"log {r} entries {len(log)} commits {self.replicas[r].commits} {self.end(r)}")
            lines += [line for i, value in enumerate(log) for line in self.entry_lines(i, value)]
        commands = [command for value in max(logs, key=len) for command in self.commands(value)]
        store = {}
        lines.append(f"replies {len(commands)}")
        lines += [f"{client}.{number} {reply_to(store, command)}" for client, number, command in commands]
        status = 0 if len(commands) == len(self.job.rows) else 3
        return "\n".join([*lines, f"status {status}", ""]), status


def cases_of(trace, name, counts):
    """Two cases for each of these moments: what is told and what is shown."""
    moment, cases, whole = Moment(trace), [], trace.cut(len(trace.events)).encode()
    for count in sorted(counts):
        moment.take_to(count)
        told, status = moment.told()
        cases.append(trying.Case(f"{name}, {count} events", ["tell"], trace.cut(count).encode(), told.encode(), status))
        cases.append(trying.Case(f"{name}, show {count}", ["show", str(count)], whole, moment.shown().encode(), 0))
    return cases


def moments_of(paths, count):
    """`count` random moments of the traces, with what has to be told of each."""
    chance, traces = random.Random(SEED), []
    for path in paths:
        with open(path, encoding="ascii") as source:
            traces.append((os.path.basename(path), Trace(source.read())))
    counts = [[] for _ in traces]
    for at in range(count):
        counts[at % len(traces)].append(chance.randint(0, len(traces[at % len(traces)][1].events)))
    return [case for (name, trace), them in zip(traces, counts) for case in cases_of(trace, name, them)]


def main():
    begin(__doc__)
    count, paths = 1000, sys.argv[1:]
    if paths[:1] == ["--count"]:
        count, paths = int(paths[1]), paths[2:]
    if not paths:
        raise SystemExit(__doc__)
    cases = moments_of(paths, count)
    programs.need_toolchain("moments.py")
    wrong = trying.troubles(cases, trying.answers_of("mu", cases))
    for trouble in wrong:
        print(trouble)
    print(f"{len(cases) - len(wrong)} of {len(cases)} right: each moment is told and shown")
    sys.exit(1 if wrong else 0)


if __name__ == "__main__":
    main()
