#!/usr/bin/env python3
"""Compares how long a command takes by threads, by processes and over a network, in turn.

    tools/speed/measure_processes.py ROUNDS REPLICASxCOMMANDS [fifo] PROGRAM ..

A PROGRAM is out/c/mu_processes, out/c/mu_fabric (or what is compiled of the same sources over another library), or out/bin/mu,
whose `run` has threads. Each runs ROUNDS times, one after the other, so that what else the machine does meets all alike: with
`fifo` at real-time rank. Told are the least and the middle microseconds a command, from when the first replica goes (or its
thread is made) until all have ended, and how many runs had every command.
"""
import os
import re
import statistics
import subprocess
import sys
import tempfile

import folders
from beginning import begin
from measure_speed import even, job
from own_traces import preloaded

WENT = re.compile(rb"^moment \d went at ([\d.]+) ended at ([\d.]+)", re.MULTILINE)


def microseconds(program, path, loaded, first):
    """How long a run took, and whether it has every command."""
    is_threads = os.path.basename(program) == "mu"
    words = [program, "run"] if is_threads else [program, path, "moments"]
    with open(path, "rb") as given:
        more = {"env": dict(os.environ, LD_PRELOAD=loaded), "stdin": given} if is_threads else {"stdin": subprocess.DEVNULL}
        done = subprocess.run([*first, *words], capture_output=True, check=False, **more)
    if is_threads:
        return int(done.stderr.split()[-1]) / 1e3, done.returncode == 0
    spans = [(float(went), float(ended)) for went, ended in WENT.findall(done.stderr)]
    return max(it[1] for it in spans) - min(it[0] for it in spans), done.returncode == 0


def main():
    begin(__doc__)
    if len(sys.argv) < 4:
        print(__doc__)
        return 2
    rounds, (replicas, commands) = int(sys.argv[1]), map(int, sys.argv[2].split("x"))
    programs = [os.path.abspath(it) for it in sys.argv[3:] if it != "fifo"]
    first = ["chrt", "-f", "1"] if "fifo" in sys.argv[3:] else []
    times, whole = {it: [] for it in programs}, dict.fromkeys(programs, 0)
    with tempfile.TemporaryDirectory(prefix="measured-") as room:
        path, loaded = os.path.join(room, "job"), preloaded("spans", room)
        with open(path, "wb") as out:
            out.write(job(replicas, even(commands)))
        for _ in range(rounds):
            for program in programs:
                took, is_whole = microseconds(program, path, loaded, first)
                times[program].append(took / commands)
                whole[program] += is_whole
    for program in programs:
        print(f"{os.path.relpath(program)}: least {min(times[program]):.2f}, middle {statistics.median(times[program]):.2f}; "
              f"{whole[program]} of {rounds} whole")
    print(f"load {os.getloadavg()[0]:.1f}")
    return 0


if __name__ == "__main__":
    sys.exit(main())
