#!/usr/bin/env python3
"""Cases of `mu` that are made by a rule: prefixes of a job, inputs at a limit, and replicas that stop anywhere.

    tools/tests/made_cases.py [MU]     the program that ./prove left, or an unproved build, if none is named

What is wanted is worked out by hand: where a prefix leaves the grammar and why, and of a stop that the others finish
with all commands and that of two logs one begins the other.
"""
import os
import re
import sys

import folders
import trying
from beginning import begin
from programs import TOP
from run_cases import table_cases

# The settings of version 1 for one replica, a ring of 8 and 100 steps: four lines.
HEAD = b"mu 1\nreplicas 1\nring 8\nbudget 100\n"
# Lengths of prefixes of the job of two clients: from each on, up to the next one, the line and the cause.
PREFIXES = [(0, 1, 11), (1, 1, 1), (4, 2, 11), (6, 2, 2), (15, 3, 11), (17, 3, 3), (22, 4, 11), (24, 4, 4), (31, 5, 11),
            (37, 5, 6), (42, 5, 5), (44, 6, 11), (46, 6, 6), (51, 6, 8), (52, 7, 11), (54, 7, 6), (57, 7, 7), (58, 8, 11),
            (60, 8, 6), (67, 8, 8), (68, 9, 11), (70, 9, 6), (75, 9, 5), (77, 10, 11), (79, 10, 6), (84, 10, 8),
            (85, 11, 11), (87, 11, 6), (93, 11, 8), (94, 12, 11), (96, 12, 6), (103, 12, 8), (104, 13, 11), (106, 13, 6)]
# How long the job is without its last line feed: then it is read.
JOB_LENGTH = 108
MOST_BYTES, MOST_COMMANDS = 1_048_576, 1_500
# Steps after which replicas stop: the last is above those that a replica makes.
MOST_STEPS = 400
REPLICAS, COMMANDS = 3, 6
# Jobs of which the whole run is long: seven replicas and the most commands of four clients, and how many steps each
# replica makes then, as an independent program counts them.
LARGEST_REPLICAS, LARGEST_CLIENTS, LARGEST_STEPS = 7, 4, 120_887
# Sessions in which a region goes astray: how many replicas, for how many rounds the first one pauses, and how many commands
# follow, more than the ring of a session has places.
ASTRAY_SESSIONS = [(5, 1_000, 1_034), (3, 1_076, 1_045)]
USAGE, REFUSED, UNFINISHED, TOO_LONG = 1, 2, 3, 8


def two_clients():
    """The job of two clients with six commands, and the report on it."""
    cases = table_cases(os.path.join(TOP, "cases", "reports.table"))
    return next(case for case in cases if case.name == "reports.table/two_clients")


def refused(name, given, line, cause):
    return trying.Case(name, ["replay"], given, b"refused line %d cause %d\n" % (line, cause), REFUSED)


def prefixes():
    """Every prefix of a job: refused with its line and cause, up to the whole of it."""
    whole, told = two_clients(), None
    for length in range(JOB_LENGTH):
        told = next(((line, cause) for first, line, cause in PREFIXES if first == length), told)
        yield refused(f"the first {length} bytes of a job", whole.given[:length], *told)
    yield trying.Case("a job without its last line feed", ["replay"], whole.given[:JOB_LENGTH], whole.wanted, 0)


def at_limits():
    """Inputs at a limit, and one above it."""
    commands = HEAD + b"client 0\n" + b"get a\n" * MOST_COMMANDS
    yield trying.BeginningCase("the most commands", ["replay"], commands + b"end\n", b"report 1\n", UNFINISHED)
    yield refused("a command too many", commands + b"get a\n", 1_506, 9)
    pauses = HEAD + b"script\n" + b"".join(b"pause 0 %d 1\n" % steps for steps in range(10, 110))
    yield trying.BeginningCase("the most pauses", ["replay"], pauses + b"end\n", b"report 1\n", 0)
    yield refused("a pause too many", pauses + b"pause 0 110 1\nend\n", 106, 9)
    yield refused("the form is judged before the count", pauses + b"pause 0 109 1\nend\n", 106, 10)
    yield refused("a million empty lines", b"\n" * MOST_BYTES, 1, 1)
    yield trying.BeginningCase("an empty number", ["bulk", ""], b"", b"usage: mu replay, ", USAGE)
    yield trying.Case("a byte too many", ["replay"], b"\n" * (MOST_BYTES + 1), b"too long\n", TOO_LONG)
    line = b"put a 5\n"
    session = line + b"x" * (MOST_BYTES - len(line))
    yield trying.BeginningCase("the longest session", ["serve", "1"], session,
                               b"0.1 done\nrefused line 2 cause 17\nreport 2\n", 0)
    yield trying.Case("a byte too many in a session", ["serve", "1"], session + b"x", b"0.1 done\ntoo long\n", TOO_LONG)


class StopsCase(trying.Case):
    """A replay in which some replicas stop after so many steps: how its logs may look."""

    def __init__(self, stopped, steps):
        script = "script\n" + "".join(f"stop {replica} {steps}\n" for replica in stopped) + "end\n"
        given = two_clients().given[:-len(b"end\n")] + script.encode()
        super().__init__(f"{stopped} stop after {steps}", ["replay"], given, None, 0 if len(stopped) == 1 else None)
        self.stopped = stopped

    def trouble(self, answer):
        return super().trouble(answer) or self.trouble_of_logs(answer)

    def trouble_of_logs(self, answer):
        """What is wrong with the logs of a report."""
        logs = {int(replica): (end, entries.split("\n")[:-1]) for replica, end, entries in re.findall(
            r"^log (\d) entries \d+ commits \d+ (\w+).*\n((?:\d+ .*\n)*)", answer.output.decode(), re.MULTILINE)}
        if len(logs) != REPLICAS or answer.status not in (0, UNFINISHED):
            return f"has {len(logs)} logs and status {answer.status}"
        entries = [logs[replica][1] for replica in range(REPLICAS)]
        agree = all(one == other[:len(one)] or other == one[:len(other)] for one in entries for other in entries)
        if not agree:
            return "has two logs of which neither begins the other"
        if len(self.stopped) == 1:
            others = [logs[replica] for replica in range(REPLICAS) if replica not in self.stopped]
            if any((end, len(entries)) != ("finished", COMMANDS) for end, entries in others):
                return f"the others end with {others}"
        return None


def stops():
    """The leader, a follower, or two replicas stop after each number of steps."""
    return [StopsCase(stopped, steps) for stopped in ([0], [1], [2], [0, 1]) for steps in range(MOST_STEPS + 1)]


def fullest_session():
    """A session with a command too many: each other one is answered, and that one is refused."""
    replies = b"".join(b"0.%d none\n" % number for number in range(1, MOST_COMMANDS + 1))
    return trying.BeginningCase("a command too many in a session", ["serve", "1"], b"get a\n" * (MOST_COMMANDS + 1),
                                replies + b"refused line %d cause 9\nreport 2\n" % (MOST_COMMANDS + 1), 0)


def astray_sessions():
    """Sessions in which the first replica pauses before any command: each command is answered."""
    for replicas, rounds, commands in ASTRAY_SESSIONS:
        lines = b"pause 0 %d\n" % rounds + b"".join(b"put b %d\n" % number for number in range(commands))
        replies = b"".join(b"0.%d done\n" % number for number in range(1, commands + 1))
        yield trying.BeginningCase(f"a pause of {rounds} rounds before {commands} commands", ["serve", str(replicas)], lines,
                                   b"replica 0 pauses for %d rounds\n" % rounds + replies + b"report 2\n", 0)


class LargestCase(trying.Case):
    """The trace of the largest job: how many steps each replica made."""

    def __init__(self):
        clients = [f"client {client}\n" + "".join(f"put k{k} {k}\n" for k in range(client, MOST_COMMANDS, LARGEST_CLIENTS))
                   for client in range(LARGEST_CLIENTS)]
        head = f"mu 1\nreplicas {LARGEST_REPLICAS}\nring 64\nbudget 131071\n"
        super().__init__("the largest job", ["trace"], f"{head}{''.join(clients)}end\n".encode(), None, 0)

    def trouble(self, answer):
        steps = [len(re.findall(rb"^%d [a-z]" % replica, answer.output, re.MULTILINE)) for replica in range(LARGEST_REPLICAS)]
        wrong = None if steps == [LARGEST_STEPS] * LARGEST_REPLICAS else f"the replicas make {steps} steps"
        return super().trouble(answer) or wrong


def made_cases():
    """All but the largest job and the longest sessions, which take up to a minute each without the proved program."""
    return [*prefixes(), *at_limits(), *stops()]


def main():
    begin(__doc__)
    return trying.run_or_write(sys.argv[1:], [*made_cases(), fullest_session(), *astray_sessions(), LargestCase()], "made")


if __name__ == "__main__":
    sys.exit(main())
