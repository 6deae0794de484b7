#!/usr/bin/env python3
"""A second judge of traces with lines of what clients see (`got J`, `R told J = REPLY`), which shares nothing with the
program: `./mu attest` has to say the same.

    tools/accounts/second_attest.py TRACE ..      judges such traces
    tools/accounts/second_attest.py               shows the cases of ./test: lines put into two traces, and what is said of each

It goes through the steps as tools/accounts/second_judge.py does, and has a store of its own (tools/accounts/operations.py).
"""
import os
import re
import sys

import folders
import trying
from account import Job
from beginning import begin
from operations import reply_to
from programs import EXAMPLES, TOP
from run_cases import contents, wanted_status
from second_judge import Steps

# The status of what is wrong.
ILLEGAL = 7
NUMBER, TEXT = "(0|[1-9][0-9]{0,19})", "[!-~]{1,64}"
GOT = re.compile(f"got {NUMBER}")
TOLD = re.compile(f"{NUMBER} told {NUMBER} = (done|none|value {TEXT}|kept {TEXT})")
# What changes nothing that rests on it in version 1.
IDLE = re.compile(r"\d+ (beat|readbeat \d+) = .*|\d+ head \d+ = 0")


class Refused(Exception):
    """The line that leaves the grammar, and the cause."""


def item_of(job, line, number):
    """What a line says: a command that was got, a reply that was told, or an event."""
    got, told = GOT.fullmatch(line), TOLD.fullmatch(line)
    if got and int(got[1]) < len(job.rows):
        return "got", int(got[1])
    if told and int(told[1]) < job.replicas and int(told[2]) < len(job.rows):
        return "told", int(told[1]), int(told[2]), told[3]
    if re.match("got |[0-9]+ told ", line) or not re.fullmatch(r"\d+ [a-z]+( \S+)* = \S+( \S+)*", line):
        raise Refused(number, 13)
    return "event", line


def items_of(job, lines, number):
    """The items of the lines behind the job, with the number of the line of each."""
    items = []
    for line in lines:
        if line == "end":
            if lines[len(items) + 1:]:
                raise Refused(number + 1, 12)
            return items
        items.append((number, item_of(job, line, number)))
        number += 1
    raise Refused(number, 11)


def log_rows(replica):
    """The rows of what a replica has applied."""
    return [row for value in replica.known[:replica.applied()] for row in replica.job.rows_of(value)]


def reply_of(job, replica, row):
    """The store's reply to the command of a row over what a replica has applied; None if it isn't there."""
    store, rows = {}, log_rows(replica)
    for other in rows:
        client, number = job.of_row[other]
        reply = reply_to(store, job.clients[client][number - 1])
        if other == row:
            return reply
    return None


class Attested:
    """A list of items, judged one by one."""

    def __init__(self, job):
        self.job, self.steps, self.got, self.put, self.told = job, Steps(job), set(), set(), 0

    def wrong_event(self, event):
        """What is wrong with an event; None if nothing is."""
        verb, *words = event.split(" = ")[0].split(" ")[1:]
        before = len(self.steps.events)
        found = Steps.first_break(self.steps, [event])
        if found:
            return found[1]
        if verb == "putslot":
            self.put.update(self.job.rows_of(int(words[3])))
        assert len(self.steps.events) == before + 1
        return None

    def wrong(self, item):
        """What is wrong with an item; None if nothing is."""
        kind, *values = item
        if kind == "event":
            return self.wrong_event(values[0])
        if kind == "got":
            row = values[0]
            if row in self.got:
                return f"not allowed: row {row} was got before"
            if row in self.put:
                return f"not allowed: an entry with row {row} was put before"
            self.got.add(row)
            return None
        by, row, reply = values
        right = reply_of(self.job, self.steps.replicas[by], row)
        if right is None:
            return f"not allowed: replica {by} has not applied row {row}"
        if right != reply:
            return f"wrong reply: expected {right}"
        if row not in self.got:
            return f"not allowed: row {row} was never got"
        self.told += 1
        return None


def words_of(item):
    """An item as a line."""
    kind, *values = item
    if kind == "told":
        return "{} told {} = {}".format(*values)
    return values[0] if kind == "event" else f"got {values[0]}"


def attested(text):
    """What is said of a trace, and whether the last line is whole: of an event it says only which point it breaks."""
    lines = text.split("\n")
    lines = lines[:-1] if lines[-1] == "" else lines
    first = lines.index("end") + 1 if "end" in lines else len(lines)
    job = Job.of(lines[:first - 1])
    try:
        items = items_of(job, lines[first:], first + 1)
    except Refused as refused:
        return "refused line {} cause {}\n".format(*refused.args), True
    judge = Attested(job)
    for number, item in items:
        before = len(judge.steps.events)
        wrong = judge.wrong(item)
        if wrong:
            place = f"illegal after {before} at line {number}\n{words_of(item)}\n"
            return (place, False) if item[0] == "event" else (f"{place}{wrong}\n", True)
    return f"legal {len(judge.steps.events)} got {len(judge.got)} told {judge.told}\n", True


def without_idle(text):
    """A trace without the steps on which nothing rests."""
    return "\n".join(line for line in text.split("\n") if not IDLE.fullmatch(line))


def put_into(text, *lines):
    """A trace with lines put into it, each before the event of this index."""
    job, events = text.split("\nend\n", 1)
    events = events.split("\n")
    for index, line in sorted(lines, key=lambda pair: -pair[0]):
        events.insert(index, line)
    return "\n".join([job, "end", *events])


def places(text):
    """Where the rows of a trace are first put, and where each replica has applied each: by index of the event after it."""
    job, events = text.split("\nend\n", 1)
    job, put, applied = Job.of(job.split("\n")), {}, {}
    steps = Steps(job)
    for index, event in enumerate(line for line in events.split("\n") if line not in ("", "end")):
        assert steps.first_break([event]) is None, (index, event)
        verb, *words = event.split(" = ")[0].split(" ")[1:]
        if verb == "putslot":
            for row in job.rows_of(int(words[3])):
                put.setdefault(row, index)
        for replica in steps.replicas:
            for row in log_rows(replica):
                applied.setdefault((replica.me, row), index + 1)
    return put, applied, len(steps.events)


def cases():
    """Traces with lines in them, by name."""
    small = without_idle(contents(os.path.join(EXAMPLES, "put-and-get.trace")).decode())
    put, applied, count = places(small)
    leader, other = applied[0, 0], applied[1, 0]
    yield "nothing", small
    yield "all", put_into(small, (0, "got 0"), (0, "got 1"), (leader, "0 told 0 = done"), (applied[0, 1], "0 told 1 = value 5"))
    yield "at_once", put_into(small, (put[0], "got 0"), (put[1], "got 1"), (other, "1 told 0 = done"))
    yield "got_late", put_into(small, (put[0] + 1, "got 0"))
    yield "got_late_second", put_into(small, (0, "got 0"), (put[1] + 1, "got 1"))
    yield "got_twice", put_into(small, (0, "got 1"), (5, "got 1"))
    yield "got_twice_late", put_into(small, (0, "got 0"), (put[0] + 1, "got 0"))
    yield "told_never_got", put_into(small, (leader, "0 told 0 = done"))
    yield "told_never_got_second", put_into(small, (0, "got 0"), (leader, "0 told 0 = done"), (count, "2 told 1 = value 5"))
    yield "told_early", put_into(small, (leader - 1, "0 told 0 = done"))
    yield "told_early_second", put_into(small, (applied[2, 1] - 1, "2 told 1 = value 5"))
    yield "told_late", put_into(small, (0, "got 0"), (count, "0 told 0 = done"), (count, "2 told 0 = done"), (count, "2 told 0 = done"))
    yield "told_elsewhere", put_into(small, (leader, "1 told 0 = done"))
    yield "told_first", put_into(small, (0, "0 told 0 = done"))
    yield "told_value", put_into(small, (count, "1 told 1 = value 6"))
    yield "told_none", put_into(small, (count, "1 told 1 = none"))
    yield "told_kept", put_into(small, (count, "1 told 1 = kept 5"))
    yield "told_done", put_into(small, (count, "1 told 1 = done"))
    yield "told_value_of_put", put_into(small, (count, "1 told 0 = value 5"))
    yield "told_before_got", put_into(small, (leader, "0 told 0 = done"), (count, "got 0"))
    yield "event_after_flaw", put_into(small, (0, "0 told 0 = done"), (3, "0 grant 0 = done"))
    yield "event_breaks", put_into(small, (0, "got 0"), (1, "0 grant 0 = done"))
    yield "event_answer", put_into(small, (2, "got 0"), (2, "0 fence 0 = fence 0 1 open none"))
    for name, line in (("row", "got 2"), ("no_row", "got"), ("two_rows", "got 0 1"), ("zero", "got 00"), ("upper", "Got 0"),
                       ("space", "got 0 "), ("named", "got 0.1"), ("minus", "got -1"), ("long", "got 65536"),
                       ("replica", "3 told 0 = done"), ("told_row", "0 told 2 = done"), ("no_reply", "0 told 0 ="),
                       ("bare", "0 told 0"), ("ok", "0 told 0 = ok"), ("no_value", "0 told 1 = value"),
                       ("two_values", "0 told 1 = value 5 6"), ("done_more", "0 told 0 = done 5"),
                       ("no_equals", "0 told 0 done"), ("long_value", "0 told 1 = value " + "x" * 65),
                       ("accent", "0 told 1 = value \u00e9"), ("empty", ""), ("comment", "# got 0"),
                       ("by_name", "replica0 told 0 = done")):
        yield "line_" + name, put_into(small, (3, line))
    yield "line_after_flaw", put_into(small, (0, "0 told 0 = done"), (4, "got 9"))
    yield "no_end", put_into(small, (0, "got 0")).replace("\nend\n", "\nEND\n", 1).replace("end\n", "").replace("END", "end")
    yield "line_after_end", put_into(small, (0, "got 0")) + "got 1\n"
    yield "got_before_job", "got 0\n" + small
    yield "got_in_job", small.replace("get a\n", "get a\ngot 0\n", 1)
    yield from longer_cases()


def cut(text, count):
    """The first events of a trace."""
    job, events = text.split("\nend\n", 1)
    return "\n".join([job, "end", *events.split("\n")[:count], "end", ""])


def longer_cases():
    """The same of a job with batches and several clients."""
    whole = contents(os.path.join(TOP, "cases", "trace", "v2_001.stdout")).decode()
    put, applied, count = places(whole)
    judge = Attested(Job.of(whole.split("\nend\n", 1)[0].split("\n")))
    assert judge.steps.first_break(whole.split("\nend\n", 1)[1].split("\n")[:count]) is None
    right = {row: reply_of(judge.job, judge.steps.replicas[0], row) for row in put}
    got = [(put[row], f"got {row}") for row in sorted(put)]
    told = [(at, f"{r} told {row} = {right[row]}") for (r, row), at in sorted(applied.items())]
    yield "batches", put_into(whole, *got, *told)
    short, end = cut(whole, 420), 420
    yield "batches_late", put_into(short, (put[1] + 1, "got 1"))
    yield "batches_early", put_into(short, (applied[1, 1] - 1, f"1 told 1 = {right[1]}"))
    yield "batches_other", put_into(short, (end, f"0 told 4 = {right[4]}"), (end, "0 told 3 = done"))
    yield "batches_later", put_into(short, (end, f"1 told 4 = {right[4]}"))
    yield "batches_never_put", put_into(short, (end, "got 5"), (end, "got 11"))


# What is said of a job that leaves the grammar, by hand.
JOBS = {"got_before_job": "refused line 1 cause 1\n", "got_in_job": "refused line 8 cause 6\n"}


def expected(name, text):
    """What has to be said of a case."""
    return (JOBS[name], True) if name in JOBS else attested(text)


def attest_cases():
    """The cases: what `mu attest` has to print of each, or, where an event breaks the list, how that begins."""
    made = []
    for name, text in filter(lambda it: it[1], cases()):
        said, whole = expected(name, text)
        kind = trying.Case if whole else trying.BeginningCase
        made.append(kind(f"attest {name}", ["attest"], text.encode(), said.encode(), wanted_status(said.encode()) if whole else ILLEGAL))
    return made


def main():
    begin(__doc__)
    if sys.argv[1:]:
        for path in sys.argv[1:]:
            print(f"{path}:", attested(contents(path).decode())[0], end="")
        return 0
    for case in attest_cases():
        print(f"{case.name}: {case.wanted.decode()}", end="")
    return 0


if __name__ == "__main__":
    sys.exit(main())
