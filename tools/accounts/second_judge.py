#!/usr/bin/env python3
"""A second judge of traces, which shares nothing with the program: an account of docs/PROTOCOL.md of its own.

    tools/accounts/second_judge.py              compares it with all stored verdicts
    tools/accounts/second_judge.py TRACE ..     judges traces: legal, or where they break and by which point of docs/WHY.md

tools/accounts/account.py says what steps find and what a replica knows, tools/accounts/allowed.py which step may come.
"""
import os
import sys

import folders
from account import Job, Memory, Replica
from allowed import broken
from beginning import begin
from judged_table import judged
from programs import EXAMPLES, TOP, tell
from run_cases import contents, stored_cases, stored_traces

# What a cause begins with if the step may come and finds something else.
WRONG_ANSWER = "wrong answer: "


class Steps:
    """The events of a list, and what they come to, with a rule left out or with all."""

    def __init__(self, job, left_out=None):
        self.job, self.left_out = job, {left_out}
        self.memory = Memory(self.job, self.left_out)
        self.replicas = [Replica(self.job, r, self.left_out) for r in range(self.job.replicas)]
        self.events, self.wrong = [], []

    def step(self, by, verb, *words):
        """Makes a step, and notes if it isn't allowed: what it finds."""
        replica, home = self.replicas[by], self.memory.regions[by]
        point = broken(replica, home, verb, words, self.left_out)
        if point:
            self.wrong.append(f"{len(self.events)} breaks {point}")
        answer = self.memory.made(replica, verb, words)
        replica.take(verb, words, answer, home)
        self.events.append(" ".join(map(str, (by, verb, *words, "=", *answer))))
        return answer

    def first_break(self, events):
        """The first event that may not come or finds something else, and why; None if there is none."""
        for index, event in enumerate(events):
            by, verb, *words = (int(word) if word.isdigit() else word for word in event.split(" = ")[0].split(" "))
            words = tuple(words)
            if by >= self.job.replicas:
                return index, "NoReplica"
            point = broken(self.replicas[by], self.memory.regions[by], verb, words, self.left_out)
            if point:
                return index, point
            self.step(by, verb, *words)
            if self.events[-1] != event:
                return index, WRONG_ANSWER + self.events[-1]
        return None


def first_break(text):
    """Where a trace breaks, and why; None if it is legal."""
    job, events = text.split("\nend\n", 1)
    lines = [line for line in events.split("\n") if line not in ("", "end")]
    return Steps(Job.of(job.split("\n"))).first_break(lines)


def stored():
    """The name, the trace and the verdict of each trace that is stored: where it breaks, or None."""
    for name, trace, line in judged():
        if line.startswith((b"legal", b"illegal")):
            yield name, trace.decode(), None if line.startswith(b"legal") else int(line.split()[1])
    for case in stored_cases(EXAMPLES):
        if case.name.endswith(".trace"):
            yield case.name, case.given.decode(), None if b"illegal" not in case.wanted else int(case.wanted.split()[1])
    for folder in ("trace", "astray"):
        for name, trace in stored_traces(os.path.join(TOP, "cases", folder)):
            yield name, trace.decode(), None


def compared():
    """How many stored verdicts there are, and from which this judge differs."""
    count, wrong = 0, []
    for name, trace, verdict in stored():
        count += 1
        found = first_break(trace)
        if (found and found[0]) != verdict:
            wrong.append(f"{name}: {found or 'legal'}, and {verdict} is stored")
    return count, wrong


def main():
    begin(__doc__)
    if sys.argv[1:]:
        for path in sys.argv[1:]:
            print(f"{path}:", first_break(contents(path).decode()) or "legal")
        return 0
    count, wrong = compared()
    return tell(wrong, f"{count} verdicts, {len(wrong)} differ")


if __name__ == "__main__":
    sys.exit(main())
