#!/usr/bin/env python3
"""Runs `mu` and counts its system calls. Over a large input and into a large output it reads in pieces of 64 KiB and
writes in pieces of 32 KiB, not byte by byte, line by line or event by event; `mu serve` reads a file in pieces of 4 KiB.
The threads of `mu run` yield for each round
of a pause, and sleep while nothing gets done, but not long (if there is a C compiler: a C file is loaded that counts).

    tools/tests/system_calls.py      the program that ./prove left, or an unproved build; the last line is
                                     `N passed, M failed`

No clause says so: a contract speaks of the bytes that were read and written, and a source or a sink may take fewer than it
is handed; and that a yield or a sleep was asked of the system no contract can say.
"""
import os
import subprocess
import sys
import tempfile

import folders
import trying
from beginning import begin
from own_traces import preloaded
from programs import tell

READ_PIECE, WRITE_PIECE, SESSION_PIECE = 65_536, 32_768, 4_096
# Of both together: what a process needs beside its pieces (it begins, looks for its words and its end), and what ends a piece
# early.
BESIDE = 40
COMMANDS_OF_JOB = 400
PAUSE_ROUNDS = 5_000
PAUSED_JOB = b"mu 1\nreplicas 1\nring 8\nbudget 1000\nclient 0\nput a 5\nscript\npause 0 2 %d\nend\n" % PAUSE_ROUNDS
# From its eighth idle cycle on it sleeps in each cycle; if it slept for milliseconds in place of microseconds, it wouldn't
# end in time.
LEAST_SLEEPS, REST_SECONDS = 100, 60
LONELY_JOB = b"mu 1\nreplicas 2\nring 8\nbudget 10000\nclient 0\nput a 5\nscript\nstop 1 0\nend\n"
# How many runs are counted, if there is a C compiler.
COUNT = 7
SESSION = b"client 1\n" * 3_000
JOB = ("mu 1\nreplicas 3\nring 64\nbudget 131071\nclient 0\n" + "put key value\n" * COMMANDS_OF_JOB + "end\n").encode()


def counted(words, given):
    """The output of a run, and how often it read and wrote."""
    with tempfile.TemporaryFile() as source, tempfile.TemporaryFile() as out:
        source.write(given)
        source.seek(0)
        run = subprocess.Popen(words, stdin=source, stdout=out, stderr=subprocess.DEVNULL)
        # It has ended, and isn't waited for: so its figures are still there.
        os.waitid(os.P_PID, run.pid, os.WEXITED | os.WNOWAIT)
        with open(f"/proc/{run.pid}/io", encoding="ascii") as figures:
            found = dict(line.split(": ") for line in figures.read().splitlines())
        run.wait()
        out.seek(0)
        return out.read(), int(found["syscr"]), int(found["syscw"])


def trouble(words, given, output, reads, writes):
    """What is wrong with a run, if anything is."""
    most_reads = len(given) // READ_PIECE + BESIDE
    most_writes = len(output) // WRITE_PIECE + BESIDE
    if reads > most_reads or writes > most_writes:
        return (f"{' '.join(words[1:])}: {reads} reads of {len(given)} bytes and {writes} writes of {len(output)}, "
                f"at most {most_reads} and {most_writes}")
    return None


def session_trouble(path):
    """What is wrong with the reads of a session, if anything is."""
    _, reads, _ = counted([path, "serve", "3"], SESSION)
    most = len(SESSION) // SESSION_PIECE + BESIDE
    return f"serve: {reads} reads of {len(SESSION)} bytes, at most {most}" if reads > most else None


def rests(path, given, loaded):
    """How often the threads of a run yielded and slept, if it ended in time."""
    try:
        run = subprocess.run([path, "run"], input=given, stdout=subprocess.DEVNULL, stderr=subprocess.PIPE, check=False,
                             timeout=REST_SECONDS, env=dict(os.environ, LD_PRELOAD=loaded))
    except subprocess.TimeoutExpired:
        return 0, 0
    return run.stderr.count(b"y"), run.stderr.count(b"s")


def rest_troubles(path, loaded):
    """What is wrong with the rests of a pause, and of a replica whose others have stopped, if anything is."""
    yields, _ = rests(path, PAUSED_JOB, loaded)
    _, sleeps = rests(path, LONELY_JOB, loaded)
    return [None if yields >= PAUSE_ROUNDS else f"mu run: {yields} yields in a pause of {PAUSE_ROUNDS} rounds",
            None if sleeps >= LEAST_SLEEPS else f"mu run: {sleeps} sleeps of a replica without a majority"]


def tried(path_of):
    """How many runs were counted, and what is wrong with them."""
    path = path_of("mu")
    if not path:
        return 0, []
    trace, *calls = counted([path, "trace"], JOB)
    found = [trouble([path, "trace"], JOB, trace, *calls)]
    for words, given in (["check"], trace), (["tell"], trace), (["replay"], JOB):
        found.append(trouble([path, *words], given, *counted([path, *words], given)))
    found.append(session_trouble(path))
    with tempfile.TemporaryDirectory() as room:
        loaded = preloaded("rests", room)
        if loaded:
            found += rest_troubles(path, loaded)
    return len(found), list(filter(None, found))


def main():
    begin(__doc__)
    count, wrong = tried(trying.program_of)
    return tell(wrong, f"{count - len(wrong)} passed, {len(wrong)} failed")


if __name__ == "__main__":
    sys.exit(main())
