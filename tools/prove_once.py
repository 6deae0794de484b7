#!/usr/bin/env python3
"""Proves and builds crates by the merge gate itself, over a copy without must-fail edits: what passes is kept for
`rt ci` on this machine, which then proves none of it again.

    tools/prove_once.py CRATE ..       these crates and those below them

`rt` keeps what it proved by the checksums of what it read, and an edit is no part of these. ./prove and ./library
prove so; what a check in a crate's folder keeps is another thing, and starts from nothing after them.
"""
import contextlib
import os
import re
import shutil
import signal
import subprocess
import sys
import tempfile
import threading
import time

from beginning import begin
from programs import CRATES, TOP, crates_below, need_toolchain, sources_sum
from telling import telling

PARTS = ("src", "specs", "proofs", "data")
FILES = ("stdin", "stdout", "args", "status")
# What the gate says of a crate.
PROVED_LINE = re.compile(r"rt: (\w+) proved$")
KEPT_LINE = re.compile(r"rt: (\w+) is kept: ")
# What is read before the first line of a crate takes about as long as so many lines.
LINES_BEFORE = 100
# Before one of so many lines is proved, what they took says little about the others.
LINES_A_TOLD_ONE = 20
# How many processors a crate makes use of that nothing is proved beside.
LANES_ALONE = 2
# How many jobs the gate runs at once; else it chooses.
JOBS = "RT_JOBS"


def write_copy(crates, room):
    """A copy of these crates alone, as a repository of its own, without edits."""
    for crate in crates:
        at, to = os.path.join(CRATES, crate), os.path.join(room, "crates", crate)
        os.makedirs(to)
        for part in filter(lambda it: os.path.isdir(os.path.join(at, it)), PARTS):
            shutil.copytree(os.path.join(at, part), os.path.join(to, part))
        for name in filter(lambda it: os.path.isfile(os.path.join(at, it)), FILES):
            shutil.copy(os.path.join(at, name), to)
    shutil.copy(os.path.join(TOP, "HANDLES"), room)
    with open(os.path.join(TOP, "crates.txt"), encoding="utf-8") as lines, \
            open(os.path.join(room, "crates.txt"), "w", encoding="utf-8") as out:
        out.writelines(line for line in lines if line[:1] not in "#\n" and line.replace(":", " ").split()[0] in crates)
    # It is the top of a repository.
    os.mkdir(os.path.join(room, ".git"))


def count_of_lines(crate):
    """How long a crate is, with what is read before its first line."""
    count = LINES_BEFORE
    for part in PARTS:
        for folder, _, names in os.walk(os.path.join(CRATES, crate, part)):
            for name in filter(lambda it: it.endswith((".rt", ".antt")), names):
                with open(os.path.join(folder, name), "rb") as source:
                    count += source.read().count(b"\n")
    return count


class Progress:
    """How far a run is, and how long it may still take, by what it has proved so far."""

    def __init__(self, name, below, lanes):
        self.name, self.below, self.lanes = name, below, lanes
        self.lines = {crate: count_of_lines(crate) for crate in below}
        self.proved, self.kept, self.began = set(), set(), time.monotonic()

    def left(self):
        return set(self.below) - self.proved - self.kept

    def longest_way(self, crates):
        """The lines of the longest chain of these crates, each upon the one before."""
        ways = {}

        def way(crate):
            if crate not in ways:
                ways[crate] = (crate in crates) * self.lines[crate] + max(map(way, self.below[crate]), default=0)
            return ways[crate]

        return max(map(way, self.below), default=0)

    def estimate(self):
        """About how long what is left takes, if anything of this run tells."""
        left, done = self.left(), sum(map(self.lines.get, self.proved))
        ahead = sum(map(self.lines.get, left))
        if not left or done * LINES_A_TOLD_ONE < done + ahead:
            return ""
        seconds_a_line = (time.monotonic() - self.began) * min(self.lanes, len(self.below)) / done
        lines = max(ahead / self.lanes, self.longest_way(left) / min(self.lanes, LANES_ALONE))
        minutes = seconds_a_line * lines / 60
        return f", about {minutes:.0f} minutes" if minutes >= 1.5 else ", about a minute"

    def told(self):
        """How many crates are done, how many are left, and for how long."""
        kept = f" and {len(self.kept)} kept" if self.kept else ""
        return f"{len(self.proved)} of {len(self.below)} crates proved{kept}; {len(self.left())} left{self.estimate()}"

    def take(self, line):
        """Takes a line of the gate's, and says so if it ends a crate."""
        for found, crates, word in ((PROVED_LINE.match(line), self.proved, "proved"),
                                    (KEPT_LINE.match(line), self.kept, "kept from an earlier run")):
            if found and found[1] in self.below:
                crates.add(found[1])
                seconds = time.monotonic() - self.began
                print(f"{self.name}: {found[1]} {word} after {seconds:.0f} s; {self.told()}", flush=True)

    def line(self, seconds):
        return f"{self.name}: {seconds} s so far; {self.told()}"


def lanes_of(at_once):
    return at_once or len(os.sched_getaffinity(0))


@contextlib.contextmanager
def ended_with(run):
    """Ends a run of rt with us, however that is."""
    def end(number, _):
        sys.exit(128 + number)

    is_main = threading.current_thread() is threading.main_thread()
    before = signal.signal(signal.SIGTERM, end) if is_main else None
    try:
        yield
    finally:
        if run.poll() is None:
            os.killpg(run.pid, signal.SIGTERM)
            run.wait()
        if is_main:
            signal.signal(signal.SIGTERM, before)


def gate_passes(name, below, room, at_once=None, is_printed=True):
    """Runs the gate over a copy: whether it passes, and the lines that it said, which may be printed if it doesn't."""
    environment = {**os.environ, **({JOBS: str(at_once)} if at_once else {})}
    progress, log = Progress(name, below, lanes_of(at_once)), []
    with subprocess.Popen(["rt", "ci"], cwd=room, stdout=subprocess.PIPE, stderr=subprocess.STDOUT, text=True,
                          errors="replace", env=environment, start_new_session=True) as run, \
            ended_with(run), telling(progress.line):
        for line in run.stdout:
            log.append(line)
            progress.take(line.rstrip())
        run.wait()
    if run.returncode and is_printed:
        print("".join(log), end="")
    return run.returncode == 0, log


@contextlib.contextmanager
def proved(name, names, at_once=None):
    """Proves these crates and all below them, at most so many at once: the folder of their copies with what was built
    in each crate's out/, or None if something isn't proved or a source changed meanwhile."""
    before, below = sources_sum(), crates_below(names)
    with tempfile.TemporaryDirectory(prefix="mu-proofs-") as room:
        write_copy(below, room)
        print(f"{name}: {len(below)} crates to prove, unless an earlier run on this machine kept them", flush=True)
        is_passed, _ = gate_passes(name, below, room, at_once)
        if not is_passed:
            print(f"{name}: not proved; nothing is run as proved")
        elif sources_sum() != before:
            print(f"{name}: a source changed meanwhile; run it again")
            is_passed = False
        yield os.path.join(room, "crates") if is_passed else None


def at_once_asked(name, words):
    """Whether the words ask for something, and how many crates at a time: as many as the gate chooses, if none is said."""
    if len(words) > 1 or not all(word.isdigit() and int(word) > 0 for word in words):
        print(f"usage: ./{name}, ./{name} CRATES_AT_ONCE")
        return False, None
    return True, int(words[0]) if words else None


def main():
    begin(__doc__)
    names = sys.argv[1:]
    if not names or not all(os.path.isdir(os.path.join(CRATES, it)) for it in names):
        print(__doc__.split("\n\n")[1])
        return 1
    need_toolchain("prove_once")
    with proved("prove_once", names) as crates:
        return 0 if crates else 1


if __name__ == "__main__":
    sys.exit(main())
