#!/usr/bin/env python3
"""Runs random jobs by processes, kills, stops and loses some, and checks each report and trace by itself.

    tools/processes/try_processes.py mu_processes COUNT [SEED]      a process for each replica, over a mapping
    tools/processes/try_processes.py sessions COUNT [SEED]          the same, live: each command waits for the reply before it
    tools/processes/try_processes.py mu_fabric COUNT [SEED]         over libfabric; in some runs a memory is killed too

A report is judged as tools/runs/run_trials.py judges those of threads: logs, batches, sessions, and the replies of a store of
its own over the longest log. A half of the runs is traced: `mu check` has to find the list of
events legal, and what `mu tell` makes of it has to be the report. Of a replica that was killed, outrun, spent its budget
or got no answer `tell` has at least the entries of the report: what it had read whole it may have been about to apply.
`./test` makes sixty such runs; some thousand take an hour. $PROGRAM is run in place of ./NAME, as one with sanitizers, and
$MU in place of ./mu.
"""
import os
import random
import re
import select
import subprocess
import sys
import tempfile
import time
from collections import Counter

import folders
import trying
from beginning import begin
from operations import drawn
from programs import TOP
from run_trials import Job, Store, Wrong, check_report

KINDS = ("mu_processes", "sessions", "mu_fabric")
# How long a run may take, in seconds, on a machine that is busy otherwise.
LONGEST = 240
# A replica that was killed, as the moments tell.
KILLED = re.compile(r"^moment (\d) killed", re.MULTILINE)
# The ends of a replica that didn't go on to the last entry.
SHORT_ENDS = ("stopped", "outrun", "budget", "unanswered")


class Setting:
    """What is drawn differently for each kind of runs."""

    def __init__(self, name, most=300):
        self.name, self.is_fabric = name, name == "mu_fabric"
        self.path = os.environ.get("PROGRAM") or os.path.join(TOP, "mu_fabric" if self.is_fabric else "mu_processes")
        self.replicas = [3, 5] if self.is_fabric else [3, 5, 7]
        self.sizes = [size for size in ([20, 60] if self.is_fabric else [20, 60, 120, 300]) if size <= most]
        self.lengths = [5, 10] if most < 100 else [5, 20, 40]
        # An access over a network takes some thirty times as long.
        self.slower = 30 if self.is_fabric else 1


def drawn_job(draw, setting, replicas):
    """A job with random operations on few keys: its text, and how many commands it has."""
    version, clients, count = draw.choice([1, 2]), draw.randint(1, 8), draw.choice(setting.sizes)
    ring = draw.choice([512, 1024]) if version == 1 else draw.choice([16, 32, 64, 512])
    lines = [f"mu {version}", f"replicas {replicas}", f"ring {ring}", "budget 131071"]
    if version == 2:
        lines.append(f"batch {draw.randint(1, 4)}")
    for client in range(clients):
        lines.append(f"client {client}")
        for k in range(count // clients):
            key = f"k{draw.randrange(5)}"
            lines.append(drawn(draw, key, lambda is_last, k=k: f"v{k if is_last else draw.randrange(9)}"))
    return "\n".join(lines + ["end", ""]), count // clients * clients


def drawn_plan(draw, setting, replicas, count):
    """Kills of fewer than half, stops of any, and over a network in some runs the loss of a memory."""
    def when():
        return f"#{draw.randint(1, count)}" if draw.random() < 0.5 else str(draw.randint(0, 12000) * setting.slower)

    killed = draw.sample(range(replicas), draw.randint(0, (replicas - 1) // 2))
    deeds = []
    for one in killed:
        who = "leader" if one == killed[0] and draw.random() < 0.5 else one
        deeds.append(("kill", f"{who}@{when()}"))
    for _ in range(draw.randint(0, 2)):
        who = "leader" if draw.random() < 0.5 else draw.randrange(replicas)
        lasts = draw.choice([500, 3000, 12000, 40000]) * min(setting.slower, 10)
        deeds.append(("stop", f"{who}@{when()}+{lasts}"))
    if setting.is_fabric and draw.random() < 0.15:
        deeds.append(("lose", f"{draw.randrange(replicas)}@#{draw.randint(1, 15)}"))
    draw.shuffle(deeds)
    return [word for deed in deeds for word in deed]


def fault_in(report, status, text, killed):
    """What is wrong with a report of this job, of which these replicas were killed; or None."""
    job = Job(text)
    job.stops = dict.fromkeys(map(int, killed))
    job.ends.append("unanswered")
    try:
        check_report(job, report, status, lambda log: log.end != "stopped")
    except (Wrong, ValueError, IndexError) as wrong:
        return str(wrong)
    return None


def blocks(report):
    """The logs of a report by replica, and the replies, with their heads."""
    made, into = {}, []
    for line in report.splitlines():
        if line.startswith("log "):
            into = made[line.split(" ")[1]] = []
        elif line.startswith("replies "):
            into = made["replies"] = []
        into.append(line)
    return made


def fault_in_trace(trace, report, mu):
    """What is wrong with a trace; or None. `mu` runs the program by words and an input."""
    said = mu(["check"], trace)
    if not said.startswith("legal "):
        return f"check: {said[:200]}"
    theirs, ours = blocks(mu(["tell"], trace)), blocks(report)
    for name, lines in ours.items():
        if name == "replies":
            is_same = len(theirs[name]) < len(lines) or theirs[name][1:len(lines) - 1] == lines[1:-1]
        elif lines[0].split(" ")[6] in SHORT_ENDS:
            is_same = theirs[name][1:len(lines)] == lines[1:]
        else:
            is_same = theirs[name] == lines
        if not is_same:
            return f"tell: {lines[0]}, and not {theirs[name][0]}"
    return None


def counted(seen, report, moments, replicas):
    seen[f"replicas {replicas}"] += 1
    for line in report.splitlines():
        words = line.split(" ")
        if words[0] == "log":
            seen["ended " + words[6]] += 1
        seen["marks"] += words[1:2] == ["gone"]
    for words in map(str.split, moments.splitlines()):
        if words[:1] == ["moment"]:
            seen["killed"] += words[2:3] == ["killed"]
            seen["stopped for a while"] += words[2:3] == ["stopped"]
            seen["memories lost"] += words[2:4] == ["memory", "lost"]
        seen["accesses cut off"] += int(words[1]) if words[2:4] == ["accesses", "were"] else 0


def one(setting, seed, room, seen, mu):
    """One run: what is wrong; or None."""
    draw = random.Random(seed)
    replicas = draw.choice(setting.replicas)
    text, count = drawn_job(draw, setting, replicas)
    plan = drawn_plan(draw, setting, replicas, count)
    job, trace = os.path.join(room, "job"), os.path.join(room, "trace")
    with open(job, "w", encoding="ascii") as out:
        out.write(text)
    is_traced = draw.random() < 0.5
    words = [setting.path, job, *plan, "moments", *draw.choice([[], ["nap", "2048"], ["nap", "64"]])]
    words += ["trace", trace] if is_traced else []
    try:
        done = subprocess.run(words, capture_output=True, text=True, check=False, timeout=LONGEST)
    except subprocess.TimeoutExpired:
        return f"no end within {LONGEST} s: {' '.join(words[2:])}"
    if done.returncode not in (0, 3):
        return f"status {done.returncode} by {' '.join(words[2:])}: {done.stderr[-300:]}"
    counted(seen, done.stdout, done.stderr, replicas)
    seen[f"status {done.returncode}"] += 1
    seen["traced"] += is_traced
    if " unanswered\n" in done.stdout and "lose" not in plan:
        return f"an access without an answer by {' '.join(words[2:])}: {done.stderr[:300]}"
    fault = fault_in(done.stdout, done.returncode, text, KILLED.findall(done.stderr))
    if fault or not is_traced:
        return fault and f"{fault}, by {' '.join(words[2:])}"
    with open(trace, encoding="ascii") as read:
        return fault_in_trace(read.read(), done.stdout, mu)


def answer_of(process, line):
    """Gives a session a line: what it answers to it."""
    process.stdin.write(line + "\n")
    process.stdin.flush()
    is_there, _, _ = select.select([process.stdout], [], [], LONGEST)
    return process.stdout.readline().rstrip("\n") if is_there else f"nothing within {LONGEST} s"


def held(process, draw, replicas, lines, killed):
    """Gives a session its commands, each once the reply before is there, and kills a minority: what is wrong; or None."""
    store, due = Store(), {draw.randrange(len(lines)) for _ in range((replicas - 1) // 2)}
    for number, line in enumerate(lines, 1):
        if number in due:
            said = answer_of(process, f"kill {draw.choice(['leader', draw.randrange(replicas)])}")
            killed.add(said.split(" ")[1])
        said, wanted = answer_of(process, line), f"0.{number} {store.reply(line)}"
        if said != wanted:
            return f"{line} is answered by {said}, and not {wanted}"
        time.sleep(draw.choice([0, 0, 0.02]))
    return None


def one_session(setting, seed, room, seen, mu):
    """A session: what is wrong; or None."""
    draw = random.Random(seed)
    replicas, killed, trace = draw.choice([3, 5]), set(), os.path.join(room, "trace")
    lines = [drawn(draw, f"k{draw.randrange(4)}", lambda is_last, k=k: f"v{k if is_last else draw.randrange(4)}")
             for k in range(draw.choice(setting.lengths))]
    is_traced = draw.random() < 0.5
    words = [setting.path, "serve", str(replicas), "moments", *(["trace", trace] if is_traced else [])]
    with subprocess.Popen(words, stdin=subprocess.PIPE, stdout=subprocess.PIPE, stderr=subprocess.PIPE, text=True) as process:
        fault = held(process, draw, replicas, lines, killed)
        try:
            report, told = process.communicate(timeout=LONGEST)
        except subprocess.TimeoutExpired:
            process.kill()
            return f"no end within {LONGEST} s"
    counted(seen, report, told, replicas)
    seen["traced"] += is_traced
    text = "\n".join(["mu 2", f"replicas {replicas}", "ring 1024", "budget 131071", "batch 1", "client 0", *lines, "end", ""])
    fault = fault or fault_in(report, process.returncode, text, killed)
    if fault or not is_traced:
        return fault
    with open(trace, encoding="ascii") as read:
        return fault_in_trace(read.read(), report, mu)


def mu_by(path):
    """Runs `mu` of this path, by words and an input: what it says."""
    def run(words, given):
        done = subprocess.run([path, *words], input=given, capture_output=True, text=True, check=False)
        return done.stdout
    return run


def tried(name, count, seed=1, mu_path=None, say=None, most=300):
    """Makes so many runs, of jobs of at most so many commands: what is wrong, and what was seen."""
    setting, wrong, seen = Setting(name, most), [], Counter()
    mu = mu_by(mu_path or os.path.join(TOP, "mu"))
    with tempfile.TemporaryDirectory(prefix="processes-") as room:
        for k in range(seed, seed + count):
            fault = (one_session if name == "sessions" else one)(setting, k, room, seen, mu)
            if fault:
                wrong.append(f"{name}, seed {k}: {fault}")
            if say:
                say(k - seed + 1, fault)
    return wrong, seen


def main():
    begin(__doc__)
    if len(sys.argv) < 3 or sys.argv[1] not in KINDS:
        print(__doc__)
        return 2
    count, seed, began = int(sys.argv[2]), int(sys.argv[3]) if len(sys.argv) > 3 else 1, time.monotonic()

    def say(number, fault):
        if fault or number % 20 == 0:
            print(f"{number} runs, {time.monotonic() - began:.0f} s{': ' + fault if fault else ''}", flush=True)

    wrong, seen = tried(sys.argv[1], count, seed, os.environ.get("MU") or trying.program_of("mu"), say)
    told = ", ".join(f"{what} {number}" for what, number in sorted(seen.items()))
    print(*wrong, sep="\n", end="\n" if wrong else "")
    print(f"{count} runs from seed {seed}: {len(wrong)} wrong; {told}; {time.monotonic() - began:.0f} s")
    return 1 if wrong else 0


if __name__ == "__main__":
    sys.exit(main())
