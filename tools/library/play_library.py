#!/usr/bin/env python3
"""Plays with the library for C as nobody should: calls in any order, and words that nobody wrote.

    tools/library/play_library.py                        1,000,000 calls, and 10,000 runs with a stray word
    tools/library/play_library.py CALLS RUNS [SEED]

Calls (tools/library/calls/) go to judges, engines, replicas, rests and servers that are there or not, with wrong numbers and lines
and any room: under the sanitizers of addresses and of undefined behaviour, and a twentieth under valgrind. Nothing may change after
a refusal, nothing be lost, nothing be reported. Replicas on threads (tools/library/threads.c) run under the thread sanitizer: no race
is reported, and no two tell different things. Into each run of replicas over an array (tools/library/strays.c) one word is written
from outside: what `take` refuses has to be just what docs/ALONE.md says, and what became of the run is counted.

The library is out/libmu.a, as ./library leaves it, or that of the folder $LIBMU_AT. One that isn't proved has checks; one of
these that fails ends its run by a signal, which is counted too.
"""
import os
import re
import shutil
import subprocess
import sys
import tempfile
from collections import Counter

import folders
from beginning import begin
from own_traces import c_compiler
from programs import TOP, tell

HERE = os.path.join(TOP, "tools", "library")
ARCHIVE = os.path.join(os.path.abspath(os.environ.get("LIBMU_AT", os.path.join(TOP, "out"))), "libmu.a")
WARNINGS = ["-std=c11", "-Wall", "-Wextra", "-Wconversion", "-Wno-format-nonliteral", "-Werror", "-I", os.path.join(TOP, "c")]
SANITIZED = ["-O1", "-g", "-fsanitize=address,undefined", "-fno-sanitize-recover=all"]
CALLS, RUNS = 1_000_000, 10_000
# Under valgrind a call takes some thirty times as long.
WATCHED_PART = 20
# One run on threads for so many calls.
CALLS_A_RUN = 5_000
# How a run with a stray word may end.
ENDS = re.compile(rb"(\w+) (\d+)[,;]")
FAULTS = re.compile(rb"refused: (\d+), and refused that are to be taken: (\d+)")
# So many runs are made by one process.
CHUNK = 100


def built(folder, name, words, sources):
    """A program over the library; None if the compiler lacks what these words ask for."""
    path = os.path.join(folder, name)
    made = subprocess.run([c_compiler(), *WARNINGS, *words, *sources, ARCHIVE, "-o", path], capture_output=True, check=False)
    return path if made.returncode == 0 else None


def fault_of(words, what):
    """What is wrong with a run of the player of calls; or None."""
    done = subprocess.run(words, capture_output=True, text=True, check=False)
    if done.returncode == 0:
        return None
    lines = [line for line in (done.stderr + done.stdout).splitlines() if line.strip()]
    found = [line for line in lines if "rror" in line or line.startswith("calls:")] or lines[-1:] or [""]
    return f"{what}: status {done.returncode}: {found[0][:200]}"


def calls_played(folder, calls, seed):
    """How many ways were tried, what was wrong, and what is left out here."""
    wrong, left, tried = [], [], 0
    sources = sorted(it.path for it in os.scandir(os.path.join(HERE, "calls")) if it.name.endswith(".c"))
    watched = built(folder, "calls_watched", SANITIZED, sources)
    plain = built(folder, "calls", ["-O1", "-g"], sources)
    if plain is None:
        return 1, ["tools/library/calls doesn't compile"], []
    if watched:
        tried += 1
        wrong.append(fault_of([watched, str(calls), str(seed)], f"{calls} calls with sanitizers"))
    else:
        left.append("calls with sanitizers, which the compiler lacks")
    if shutil.which("valgrind"):
        tried += 1
        few = calls // WATCHED_PART
        words = ["valgrind", "--quiet", "--leak-check=full", "--error-exitcode=9", plain, str(few), str(seed + 1)]
        wrong.append(fault_of(words, f"{few} calls under valgrind"))
    else:
        left.append("calls under valgrind, which isn't here")
    return tried, [it for it in wrong if it], left


def threads_played(folder, runs, seed):
    """How many ways were tried, what was wrong, and what is left out here."""
    words = ["-O1", "-g", "-pthread", "-fsanitize=thread", "-I", os.path.join(TOP, "c", "shared")]
    program = built(folder, "threads", words, [os.path.join(HERE, "threads.c")])
    if program is None:
        return 0, [], ["replicas on threads with the thread sanitizer, which the compiler lacks"]
    fault = fault_of([program, str(runs), str(seed)], f"{runs} runs on threads")
    return 1, [fault] if fault else [], []


def strays_played(folder, runs, seed):
    """How the runs with a stray word ended, and in how many words `take` and the page differ."""
    program, ends, faults = built(folder, "strays", ["-O2"], [os.path.join(HERE, "strays.c")]), Counter(), 0
    if program is None:
        return ends, 1
    todo = [(first, min(CHUNK, seed + runs - first)) for first in range(seed, seed + runs, CHUNK)]
    while todo:
        first, count = todo.pop()
        done = subprocess.run([program, str(count), str(first)], capture_output=True, check=False)
        if done.returncode < 0 and count > 1:
            todo += [(first, count // 2), (first + count // 2, count - count // 2)]
        elif done.returncode < 0:
            ends["a failing check"] += 1
        else:
            ends.update({name.decode(): int(number) for name, number in ENDS.findall(done.stdout)})
            faults += sum(map(int, FAULTS.search(done.stdout).groups()))
    return ends, faults


def played(calls, runs, seed=1):
    """How much was tried, what was wrong, what is left out here, and how the runs with a stray word ended."""
    with tempfile.TemporaryDirectory(prefix="played-") as folder:
        tried, wrong, left = calls_played(folder, calls, seed)
        more, races, missing = threads_played(folder, max(1, calls // CALLS_A_RUN), seed)
        ends, faults = strays_played(folder, runs, seed)
    tried, wrong, left = tried + more, wrong + races, left + missing
    if faults:
        wrong.append(f"{faults} stray words were taken or refused otherwise than docs/ALONE.md says, from seed {seed}")
    return tried + 1, wrong, left, ends


def main():
    begin(__doc__)
    if c_compiler() is None or not os.path.exists(ARCHIVE):
        print(f"play_library: there is no C compiler, or no {ARCHIVE}: ./library builds it")
        return 1
    calls, runs, seed = [*map(int, sys.argv[1:]), *(CALLS, RUNS, 1)[len(sys.argv) - 1:]]
    tried, wrong, left, ends = played(calls, runs, seed)
    for it in left:
        print(f"left out: {it}")
    told = ", ".join(f"{name} {number}" for name, number in sorted(ends.items()))
    print(f"{runs} runs with a stray word from seed {seed}: {told}")
    return tell(wrong, f"{tried - len(wrong)} of {tried} as they should be: {calls} calls, and {runs} runs with a stray word")


if __name__ == "__main__":
    sys.exit(main())
