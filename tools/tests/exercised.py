#!/usr/bin/env python3
"""Tells what a run exercised, of what its judgement rests on: `legal` says only that what happened was allowed.

    tools/tests/exercised.py TRACE ..     of each trace a line with how often each of these occurred, and what didn't;
                                          of several also one of all. What never occurred is untested
    tools/tests/exercised.py              compares itself with plain counts over the traces of examples/

    leaders          replicas that put an entry
    leaderships      in which an entry was put
    aborts           leaderships that got a number and then were over: a put missed, an enter was lost, a changed
                     fence or a greater minimum was read
    late writes      puts and enters after their region was closed or granted on, or after another put a greater
                     number somewhere: they came to nothing, or did no harm
    adopted          positions where a leader put an entry that its looks showed, which it didn't know
    caught up        entries put once more at a region, at a position that the leader knew
    drained          puts that a host drained before they came: they missed
    marks            marks that were put
    reused           positions put into a place of the ring that had another position before
    batches          entries of more than one command
    pending          replicas that had not applied all that another had, at the end
    got              commands with a line `got J`, of all

A trace may have lines of what clients saw. An illegal one is counted up to the event that breaks it. Steps are
gone through by tools/accounts/account.py, which shares nothing with the program. The status is 1 if a plain count differs.
"""
import collections
import os
import re
import sys

import folders
from account import MARKS, PAYLOADS, Job
from beginning import begin
from programs import EXAMPLES, tell
from run_cases import contents
from stored import names
from second_judge import Steps

# What is counted, in this order.
COUNTED = ["leaders", "leaderships", "aborts", "late writes", "adopted", "caught up", "drained", "marks", "reused",
           "batches", "pending"]
SEEN = re.compile(r"got \d+|\d+ told ")


class Run:
    """A trace, and what occurred in it."""

    def __init__(self, text):
        head, _, tail = text.partition("\nend\n")
        self.job = Job.of(head.split("\n"))
        lines = [line for line in tail.split("\n") if line not in ("", "end")]
        self.events = [line for line in lines if not SEEN.match(line)]
        self.got = len({line for line in lines if line.startswith("got ")})
        self.counts, self.leading = collections.Counter(), set()
        self.reused, self.adopted = set(), set()
        # How many leaderships each replica has begun, and which of all are over.
        self.begun, self.over = [0] * self.job.replicas, set()
        self.broken = None

    def count(self):
        """Goes through the events; the run itself."""
        steps = Steps(self.job)
        for line in self.events:
            by, verb, *words = line.split(" = ")[0].split(" ")
            by, words = int(by), tuple(int(it) if it.isdigit() else it for it in words)
            before = self.before(steps, by, verb, words) if by < self.job.replicas else None
            self.broken = steps.first_break([line])
            if self.broken:
                self.broken = len(steps.events), self.broken[1]
                break
            self.take(steps, by, verb, words, line.split(" = ")[1], before)
        self.at_the_end(steps)
        return self

    def before(self, steps, by, verb, words):
        """Whether a put or an enter is late, and whether its replica knows the position that it puts."""
        me, late = steps.replicas[by], False
        if verb in ("enter", "putmin", "putslot") and words[0] < self.job.replicas:
            region, noted = steps.memory.regions[words[0]], me.noted.get(words[0])
            late = region.closing or region.grant != noted or me.now.number is not None and any(
                other.largest > me.now.number for other in steps.replicas)
        return late, verb == "putslot" and words[1] < len(me.known)

    def take(self, steps, by, verb, words, answer, before):
        """Counts an event that was allowed."""
        me, (late, knew) = steps.replicas[by], before
        self.begun[by] += verb == "ask" and words[0] == 0
        self.counts["late writes"] += late
        self.counts["drained"] += answer == "missed"
        if me.now.over and me.now.number is not None:
            self.over.add((by, self.begun[by]))
        if verb == "putslot":
            self.leading.add((by, self.begun[by]))
            if answer == "done":
                self.put(me, words, knew)

    def put(self, me, words, knew):
        """Counts an entry that landed."""
        region, position, _, value = words
        self.counts["caught up"] += knew
        if position >= self.job.ring:
            self.reused.add(position)
        if not knew and me.seen_entry(position):
            self.adopted.add((me.me, self.begun[me.me], position))
        if region == me.me and not knew:
            self.counts["marks"] += self.job.version == 2 and value % PAYLOADS >= MARKS
            self.counts["batches"] += len(self.job.rows_of(value)) > 1

    def at_the_end(self, steps):
        self.counts["leaders"] = len({by for by, _ in self.leading})
        self.counts["leaderships"] = len(self.leading)
        self.counts["aborts"] = len(self.over)
        self.counts["adopted"], self.counts["reused"] = len(self.adopted), len(self.reused)
        applied = [replica.applied() for replica in steps.replicas]
        self.counts["pending"] = sum(it < max(applied) for it in applied)


def told(counts, got, rows):
    """What occurred, and what didn't, in words."""
    there = [f"{name} {counts[name]}" for name in COUNTED if counts[name]]
    missing = [name for name in COUNTED if not counts[name]]
    return "; ".join([", ".join([*there, f"got {got} of {rows}"]),
                      *(["untested: " + ", ".join(missing)] if missing else [])])


def plain_troubles():
    """What of the traces of examples/ is counted otherwise than their lines say; and how many counts there are."""
    tried, wrong = 0, []
    for name in names(EXAMPLES):
        if not name.endswith((".trace", ".list")):
            continue
        text = contents(os.path.join(EXAMPLES, name)).decode()
        run = Run(text).count()
        if run.broken:
            continue
        puts = re.findall(r"^(\d) putslot \d (\d+) \d+ \d+ = (\w+)$", text, re.M)
        plain = {"drained": len(re.findall(r" = missed$", text, re.M)), "leaders": len({by for by, _, _ in puts}),
                 "reused": len({i for _, i, answer in puts if answer == "done" and int(i) >= run.job.ring})}
        for count, wanted in plain.items():
            tried += 1
            if run.counts[count] != wanted:
                wrong.append(f"examples/{name}: {count} {run.counts[count]}, and {wanted} by its lines")
        lost = len(re.findall(r" = (?:missed|lost .*)$", text, re.M))
        tried += 1
        if run.counts["late writes"] < lost:
            wrong.append(f"examples/{name}: {run.counts['late writes']} late writes, and {lost} came to nothing")
    return tried, wrong


def main():
    begin(__doc__)
    if not sys.argv[1:]:
        tried, wrong = plain_troubles()
        return tell(wrong, f"exercised: {tried} counts, {len(wrong)} differ")
    whole, got, rows = collections.Counter(), 0, 0
    for path in sys.argv[1:]:
        run = Run(contents(path).decode()).count()
        if run.broken:
            print(f"{path}: illegal {run.broken[0]}, {run.broken[1]}; up to there:")
        print(f"{path}: {told(run.counts, run.got, len(run.job.rows))}")
        whole, got, rows = whole + run.counts, got + run.got, rows + len(run.job.rows)
    if len(sys.argv) > 2:
        print(f"together: {told(whole, got, rows)}")
    return 0


if __name__ == "__main__":
    sys.exit(main())
