#!/usr/bin/env python3
"""Measures how long it takes until another replica commits after `kill -9` of the leader.

    tools/speed/measure_failover.py PROGRAM REPLICAS KILLS [fifo] [WORDS ..]

PROGRAM is ./mu_processes, ./mu_fabric or what they run. The leader of a job of 800 commands (60 over a network) is killed
once a random number of entries is decided. Told are microseconds from the kill until another replica first asks to be
granted, and until the put by which another's first entry is committed: least, 10 %, middle, 90 %, 99 %, most. Runs in
which somebody else had asked before the kill are left out, and counted. With `fifo` all run at real-time rank.
"""
import os
import random
import re
import subprocess
import sys
import tempfile

import folders
from beginning import begin

MOMENT = re.compile(r"moment (\d) (\w+)(?: (\d+))? at ([\d.]+)(?: put at ([\d.]+))?")


def job_of(replicas, commands):
    lines = ["mu 2", f"replicas {replicas}", "ring 64", "budget 131071", "batch 1"]
    for client in range(4):
        lines += [f"client {client}", *(f"put k{k % 7} v{k}" for k in range(commands // 4))]
    return "\n".join([*lines, "end", ""])


def times_of(moments):
    """From the kill to the first ask of another, and to the put of its first commit; None if it can't be told."""
    found = [(int(who), what, float(at), float(put or 0)) for who, what, _, at, put in MOMENT.findall(moments)]
    kills = [(who, at) for who, what, at, _ in found if what == "killed"]
    if not kills:
        return "not killed"
    killed, began = kills[0]
    asks = [at for who, what, at, _ in found if what == "asks" and who != killed]
    puts = [put for who, what, _, put in found if what == "raises" and who != killed and put > began]
    if any(at < began for at in asks):
        return "asked before"
    return (min(asks) - began, min(puts) - began) if asks and puts else "no commit"


def part(values, percent):
    return sorted(values)[min(len(values) - 1, len(values) * percent // 100)]


def main():
    begin(__doc__)
    if len(sys.argv) < 4:
        print(__doc__)
        return 2
    program, replicas, kills, words = os.path.abspath(sys.argv[1]), int(sys.argv[2]), int(sys.argv[3]), sys.argv[4:]
    is_fifo, is_fabric = "fifo" in words, "fabric" in os.path.basename(program)
    words = [word for word in words if word != "fifo"]
    commands, draw, told, left, unfinished = (60 if is_fabric else 800), random.Random(1), [], {}, 0
    with tempfile.TemporaryDirectory(prefix="failover-") as room:
        job = os.path.join(room, "job")
        with open(job, "w", encoding="ascii") as out:
            out.write(job_of(replicas, commands))
        while len(told) < kills and sum(left.values()) < 2 * kills + 20:
            when = draw.randint(commands // 16, commands * 5 // 8)
            command = [*(["chrt", "-f", "1"] if is_fifo else []), program, job, "kill", f"leader@#{when}", "moments", *words]
            done = subprocess.run(command, capture_output=True, text=True, check=False)
            unfinished += done.returncode != 0
            times = times_of(done.stderr)
            if isinstance(times, str):
                left[times] = left.get(times, 0) + 1
            else:
                told.append(times)
    for name, values in zip(("asks", "commits"), zip(*told)):
        print(f"{name}: " + ", ".join(f"{part(values, percent):,.0f}" for percent in (0, 10, 50, 90, 99, 100)))
    print(f"{len(told)} kills; left out: {left or 'none'}; not all commands done: {unfinished}")
    return 0


if __name__ == "__main__":
    sys.exit(main())
