#!/usr/bin/env python3
"""Runs the built program within bounds of memory and of time: what a proof says nothing of.

    tools/tests/cost_bounds.py [PROGRAM]              a line for each run that wants more than its bound
    tools/tests/cost_bounds.py --measure [PROGRAM]    what each run needs

The program is that which ./prove left in out/bin/ if none is named. A bound is one of the whole address
space, so it counts what is taken and never touched too. Commands with threads have none: each thread
takes an address space of its own. A proof says that a table is large enough; of most it says nothing
about how much larger it is. Nor does it say that a table is of use: one that sends a leader to the wrong
row makes it search all rows, and it finds the right one. Times are compared with each other alone, since
machines differ and are busy.
"""
import os
import resource
import subprocess
import sys

import folders
from beginning import begin
from measure_speed import even, input_of, job
from programs import BIN, NO_ANSWER

# Jobs with so few steps that their lists of events are short: then stores and books are much of their memory.
FEW_STEPS = {
    "7x1500, few steps": job(7, even(1500), budget=1000),
    "1x1500, few steps": job(1, even(1500), budget=1000),
}
# Of each run the words, the input (a row of tools/speed/measure_speed.py or one of few steps, or none), and its bound in
# kB: less than 4 % above what it needed on 1 December 2026, so that stores of twice the size are above it. A book of
# twice the size takes 2 % more of its run, so this bound is 1 % above. A change that needs more for a reason measures
# anew, and so does one that needs less.
RUNS = [
    (["replay"], "7x1500", 25_300),
    (["replay"], "3x1500", 13_500),
    (["replay"], "7x1500, few steps", 10_550),
    (["book"], "1x1500, few steps", 5_505),
    (["bulk", "1500"], None, 12_350),
    (["trace"], "7x400", 20_500),
    (["check"], "check", 77_500),
]
# Two rows of which the first takes less time than the other, and how many times that it may take. If
# leaders search all rows for a client's next batch, the first of them takes about three times as many
# instructions; so do the others if leaders go over all that they know at each of their steps.
COMPARED = [
    ("unequal", "7x1500", 1.5),
    ("stopped", "5x1000", 1.5),
    ("stops", "7x1500", 1.5),
]
# A row is run this often, and the least time is taken.
TIMED_RUNS = 7
KILOBYTE = 1024
# The most that is tried, in kB.
MOST = 1 << 20
# How many bounds there are.
COUNT = len(RUNS) + len(COMPARED)


def ends(program, words, given, most):
    """Whether the program ends with a report within `most` kB."""
    def limit():
        resource.setrlimit(resource.RLIMIT_AS, (most * KILOBYTE, most * KILOBYTE))
    done = subprocess.run([program, *words], input=given, stdout=subprocess.DEVNULL, stderr=subprocess.DEVNULL,
                          preexec_fn=limit, check=False)
    return done.returncode in (0, 3)


def least(program, words, given):
    """The least number of kB within which the program ends."""
    low, high = 0, MOST
    while high - low > 1:
        middle = (low + high) // 2
        low, high = (low, middle) if ends(program, words, given, middle) else (middle, high)
    return high


def seconds(program, row):
    """The least processor time of some runs of `replay` over a row."""
    given, times = input_of(row), []
    for _ in range(TIMED_RUNS):
        before = resource.getrusage(resource.RUSAGE_CHILDREN)
        subprocess.run([program, "replay"], input=given, stdout=subprocess.DEVNULL, check=False)
        after = resource.getrusage(resource.RUSAGE_CHILDREN)
        times.append(after.ru_utime + after.ru_stime - before.ru_utime - before.ru_stime)
    return min(times)


def given_to(row):
    """What the program reads for a row."""
    return FEW_STEPS.get(row) or (input_of(row) if row else b"")


def troubles(program):
    """A line for each run that wants more than its bound."""
    wrong = [f"{' '.join(words)} over {row}: more than {most} kB" for words, row, most in RUNS
             if not ends(program, words, given_to(row), most)]
    return wrong + [f"replay over {row}: more than {most} times the time of {other}" for row, other, most in COMPARED
                    if seconds(program, row) > most * seconds(program, other)]


def main():
    begin(__doc__)
    words = sys.argv[1:]
    measures = words[:1] == ["--measure"]
    program = (words[measures:] or [os.path.join(BIN, "mu")])[0]
    if not os.access(program, os.X_OK):
        print(f"no program at {program}: ./prove builds it", file=sys.stderr)
        return NO_ANSWER
    if measures:
        for command, row, most in RUNS:
            print(f"{' '.join(command)} over {row}: {least(program, command, given_to(row))} kB, bound {most} kB")
        for row, other, most in COMPARED:
            print(f"replay over {row}: {seconds(program, row):.3f} s, over {other}: {seconds(program, other):.3f} s, "
                  f"bound {most} times")
        return 0
    wrong = troubles(program)
    print(*wrong, f"{COUNT - len(wrong)} passed, {len(wrong)} failed", sep="\n")
    return 1 if wrong else 0


if __name__ == "__main__":
    sys.exit(main())
