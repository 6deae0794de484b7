#!/usr/bin/env python3
"""Talks with `mu serve` line by line: each line has to be answered before the next is given.

    tools/tests/talks.py [MU [TABLE]]      the program that ./prove left, or an unproved build; the cases of cases/serve.table

Of each case of the table the lines are given one at a time, each only once the answer to the one before has begun.
What is told in the end has to be what the table says. The last line is `N passed, M failed`.
"""
import os
import select
import subprocess
import sys
import time

import folders
import trying
from beginning import begin
from programs import TOP, tell
from run_cases import table_cases

TABLE = os.path.join(TOP, "cases", "serve.table")
# How long nothing comes of a pipe that doesn't block, in seconds; what comes then, and how its answer begins.
LATE_SECONDS, LATE, ANSWERED = 1, b"put a 5\n", b"0.1 done\n"
# How long an answer may take, in seconds, and how many bytes are read at once.
MOST_SECONDS, PIECE = 60, 65_536


class Unanswered(Exception):
    """A line that wasn't answered in time."""


def heard(process):
    """What the program writes next; nothing at its end."""
    ready, _, _ = select.select([process.stdout], [], [], MOST_SECONDS)
    if not ready:
        raise Unanswered
    return os.read(process.stdout.fileno(), PIECE)


def talk(program, case):
    """The status and the output of a talk over the lines of a case."""
    output = b""
    with subprocess.Popen([program, *case.words], stdin=subprocess.PIPE, stdout=subprocess.PIPE,
                          stderr=subprocess.DEVNULL, bufsize=0) as process:
        try:
            for line in case.given.splitlines(keepends=True):
                process.stdin.write(line)
                # A last line without its end is one only at the end of the input.
                if line.endswith(b"\n"):
                    output += heard(process)
            process.stdin.close()
            while piece := heard(process):
                output += piece
            return process.wait(MOST_SECONDS), output
        except Unanswered:
            process.kill()
            raise


def trouble_of(program, case):
    """What is wrong with the talk over a case, or nothing."""
    try:
        status, output = talk(program, case)
    except Unanswered:
        return f"{case.name}: a line isn't answered before the next is given"
    answer = trying.Answer("ended", status, output, [])
    trouble = case.trouble(answer)
    return f"{case.name}: {trouble}" if trouble else None


def tried(program, table=TABLE):
    """How many talks were held over the cases of a table, and what is wrong with them."""
    cases = table_cases(table)
    return len(cases), [trouble for trouble in (trouble_of(program, case) for case in cases) if trouble]


def late_troubles(launcher=os.path.join(TOP, "mu")):
    """What is wrong with a session that the launcher holds over pipes that don't block, whose line comes late."""
    reading, writing = os.pipe()
    answers, out = os.pipe()
    for end in (reading, out):
        os.set_blocking(end, False)
    with subprocess.Popen([launcher, "serve", "3"], stdin=reading, stdout=out, stderr=subprocess.DEVNULL) as process:
        for end in (reading, out):
            os.close(end)
        time.sleep(LATE_SECONDS)
        try:
            os.write(writing, LATE)
        except BrokenPipeError:
            pass
        os.close(writing)
        with os.fdopen(answers, "rb") as told:
            output = told.read()
    right = process.returncode == 0 and output.startswith(ANSWERED)
    return [] if right else [f"pipes that don't block: status {process.returncode}, {output[:40]}"]


def main():
    begin(__doc__)
    given = sys.argv[1:]
    count, wrong = tried(given[0] if given else trying.program_of("mu"), *given[1:2])
    return tell(wrong, f"{count - len(wrong)} passed, {len(wrong)} failed")


if __name__ == "__main__":
    sys.exit(main())
