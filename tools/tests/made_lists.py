#!/usr/bin/env python3
"""Lists of events that are made from legal ones: each has an event dropped, repeated, moved or changed.

    tools/tests/made_lists.py [MU]     the program that ./prove left, or an unproved build, if none is named

What `check` has to print of them says the second judge (tools/accounts/second_judge.py), which shares nothing with the program.
The legal ones are those that are stored: judged traces, examples, and traces of an independent program. ./test calls it.
"""
import os
import random
import sys

import folders
import second_judge
import trying
from judged_table import judged
from programs import EXAMPLES, TOP
from run_cases import stored_cases, stored_traces, wanted_status

# How many lists are made of each legal one, and how many events it has at least.
MADE_OF_EACH, LEAST_EVENTS = 8, 20
SEED = 1
# What the second judge says of such a line, which the grammar refuses.
NO_REPLICA = "NoReplica"
KINDS = ("dropped", "repeated", "moved", "changed")


def broken(chance, trace):
    """The trace with one of its events dropped, repeated, moved behind the next ones, or changed."""
    lines = trace.decode().split("\n")
    first = lines.index("end") + 1
    if len(lines) - first < 4:
        return trace
    at = chance.randrange(first, len(lines) - 3)
    line = lines.pop(at)
    kind = chance.choice(KINDS)
    if kind == "repeated":
        lines[at:at] = [line, line]
    elif kind == "moved":
        lines.insert(min(at + chance.randint(1, 9), len(lines) - 2), line)
    elif kind == "changed":
        words = line.split(" ")
        numbers = [place for place, word in enumerate(words) if word.isdigit()]
        place = chance.choice(numbers)
        words[place] = str(max(0, int(words[place]) + chance.choice((-1, 1))))
        lines.insert(at, " ".join(words))
    return "\n".join(lines).encode()


def legal_lists():
    """The stored lists that an independent program says to be legal: their names and texts."""
    yield from ((name, trace) for name, trace, line in judged() if line.startswith(b"legal"))
    for case in stored_cases(EXAMPLES):
        if case.name.endswith(".trace") and case.wanted.startswith(b"legal"):
            yield case.name, case.given
    yield from stored_traces(os.path.join(TOP, "cases", "trace"))


def verdict(trace):
    """What `check` prints of a list, as the second judge says; None if a line names a replica that isn't there."""
    found = second_judge.first_break(trace)
    if found is None:
        return f"legal {len(trace.split(chr(10) + 'end' + chr(10), 1)[1].split(chr(10))) - 2}\n"
    index, cause = found
    if cause == NO_REPLICA:
        return None
    said = cause.removeprefix(second_judge.WRONG_ANSWER)
    return f"illegal {index} " + ("not allowed" if said == cause else "expected " + said.split(" = ")[1]) + "\n"


def made_lists():
    """The cases."""
    chance = random.Random(SEED)
    for name, trace in legal_lists():
        if trace.count(b"\n") < LEAST_EVENTS:
            continue
        made = (broken(chance, trace) for _ in range(MADE_OF_EACH))
        for number, (given, told) in enumerate((it, verdict(it.decode())) for it in made):
            if told is not None:
                wanted = told.encode()
                yield trying.Case(f"{name}, broken {number}", ["check"], given, wanted, wanted_status(wanted))


def main():
    cases = list(made_lists())
    answers = trying.run_cases(sys.argv[1], cases) if sys.argv[1:] else trying.answers_of("mu", cases)
    wrong = trying.troubles(cases, answers)
    print(*wrong, sep="\n", end="\n" if wrong else "")
    print(f"made_lists: {len(cases)} lists, {len(wrong)} wrong")
    return min(len(wrong), 1)


if __name__ == "__main__":
    sys.exit(main())
