#!/usr/bin/env python3
"""Runs programs whose input can't be read, at once or after some bytes, or whose output can't be written: each has to
say so, with its status.

    tools/tests/faults.py      the programs that ./prove left, or unproved builds; the last line is `N passed, M failed`
"""
import os
import resource
import signal
import subprocess
import sys
import tempfile
import tty

import folders
import trying
from beginning import begin
from programs import EXAMPLES, tell
from run_cases import contents

READ_FAULT, WRITE_FAULT = 4, 5
# How much is read before a read fails.
FIRST_BYTES = 16
# Two traces, of which the first is legal.
TWO_TRACES = b"mu 1\nreplicas 3\nring 8\nbudget 100\nend\nend\n\n---\nmu 1\nreplicas 8\n"
FIRST_LINE = b"legal 0\n"
# A session of one line, which isn't whole after the first bytes.
A_LONG_LINE = b"put key a-long-value\n"
# Each program with words of a run and an input; what it prints if it can't read; and what of its output is written
# before the first write that fails, if a file takes so many bytes.
RUNS = [("mu", ["replay"], "put-and-get.job", b"read fault\n", b""),
        ("mu", ["trace"], "put-and-get.job", b"read fault\n", b""),
        ("mu", ["check"], "late-exchange.trace", b"read fault\n", b""),
        ("mu", ["serve", "3"], A_LONG_LINE, b"read fault\n", b""),
        ("mu_draw", [], "late-exchange.trace", b"read fault\n", b""),
        ("mu_draw", ["0", "3"], "late-exchange.trace", b"read fault\n", b""),
        ("judge_traces", [], TWO_TRACES, b"", FIRST_LINE)]


def broken_input(given):
    """A file of which some bytes can be read, and then no more: a terminal that nobody holds."""
    reader, writer = os.openpty()
    tty.setraw(writer)
    os.write(writer, given)
    os.close(writer)
    return reader


def with_room(count):
    """Lets a program write no more than so many bytes into a file."""
    def limit():
        signal.signal(signal.SIGXFSZ, signal.SIG_IGN)
        resource.setrlimit(resource.RLIMIT_FSIZE, (count, count))

    return limit


def ran(words, source, **how):
    """The status and the output of a run over an opened source."""
    with tempfile.TemporaryFile() as out:
        done = subprocess.run(words, stdin=source, stdout=out, stderr=subprocess.DEVNULL, check=False,
                              timeout=trying.MOST_SECONDS, **how)
        out.seek(0)
        return done.returncode, out.read()


def troubles_of(path, name, words, given, unread, first):
    """How many ways a run of a program was disturbed, and in which it answers otherwise than it has to."""
    given = given if isinstance(given, bytes) else contents(os.path.join(EXAMPLES, given))
    folder, cut = os.open(EXAMPLES, os.O_RDONLY), broken_input(given[:FIRST_BYTES])
    try:
        found = [("a folder as its input", ran([path, *words], folder), (READ_FAULT, unread)),
                 ("an input that breaks off", ran([path, *words], cut), (READ_FAULT, unread))]
    finally:
        os.close(folder)
        os.close(cut)
    with tempfile.TemporaryFile() as source, open("/dev/full", "wb") as full:
        source.write(given)
        source.seek(0)
        found.append(("no room for its output", ran([path, *words], source, preexec_fn=with_room(len(first))),
                      (WRITE_FAULT, first)))
        source.seek(0)
        status = subprocess.run([path, *words], stdin=source, stdout=full, stderr=subprocess.DEVNULL, check=False).returncode
        found.append(("a full device", (status, b""), (WRITE_FAULT, b"")))
    title = " ".join([name, *words])
    return len(found), [f"{title} with {what}: {told}, not {wanted}" for what, told, wanted in found if told != wanted]


def tried(path_of):
    """The same of all runs of the programs that there are."""
    count, wrong = 0, []
    for name, *run in RUNS:
        path = path_of(name)
        if path:
            more, found = troubles_of(path, name, *run)
            count, wrong = count + more, wrong + found
    return count, wrong


def main():
    begin(__doc__)
    count, wrong = tried(trying.program_of)
    return tell(wrong, f"{count - len(wrong)} passed, {len(wrong)} failed")


if __name__ == "__main__":
    sys.exit(main())
