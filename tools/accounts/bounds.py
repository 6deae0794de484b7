#!/usr/bin/env python3
"""The bounds of docs/ALIVE.md, computed from their definitions in the sources.

    tools/accounts/bounds.py < JOB       prints what `mu enough` prints of the job
    tools/accounts/bounds.py JOB         the same

A definition is a sum: `name c x = ..` over numbers, `c.replicas`, `c.width` and other such definitions. What a
case of a job is, is told here once more.
"""
import os
import re
import sys

import folders
from beginning import begin
from operations import OPERATIONS
from programs import TOP

FILES = ("mu_model/specs/Bounds.antt", "mu_pace/specs/Watches.antt", "mu_alive/specs", "mu_enough/specs",
         "mu_cluster/specs")
DEFINITION = re.compile(r"^abbrev pub (\w+) : Config (?:→ ℕ )*→ ℕ\n\1 c ?([\w ]*) =([^\n]*\n(?:    [^\n]*\n)*)",
                        re.M)
TOKEN = re.compile(r"\d+|[\w.]+|[-+*()]")
MOST_BUDGET = 131_071


def texts():
    """The text of each file of definitions."""
    for name in FILES:
        path = os.path.join(TOP, "crates", name)
        paths = sorted(os.path.join(path, it) for it in os.listdir(path)) if os.path.isdir(path) else [path]
        for it in paths:
            if it.endswith(".antt"):
                with open(it, encoding="utf-8") as text:
                    yield text.read()


# What each definition is called with besides the configuration, and its sum.
DEFINITIONS = {name: (arguments.split(), TOKEN.findall(body))
               for text in texts() for name, arguments, body in DEFINITION.findall(text)}


class Sum:
    """Reads the words of a sum and computes it, with these names known."""

    def __init__(self, words, job, names):
        self.words, self.job, self.names = list(words), job, names

    def next(self):
        return self.words[0] if self.words else ""

    def sum(self):
        result = self.product()
        while self.next() in ("+", "-"):
            sign = self.words.pop(0)
            other = self.product()
            result = result + other if sign == "+" else max(0, result - other)
        return result

    def product(self):
        result = self.call()
        while self.next() == "*":
            self.words.pop(0)
            result *= self.call()
        return result

    def call(self):
        """A number, a name, or a definition with what it is called with."""
        word = self.words.pop(0)
        if word == "(":
            result = self.sum()
            self.words.pop(0)
            return result
        if word.isdigit():
            return int(word)
        if word.startswith("c."):
            return self.job[word[2:]]
        if self.next() == "c":
            self.words.pop(0)
            if word in self.job:
                return self.job[word]
            return bound(word, self.job, *[self.call() for _ in DEFINITIONS[word][0]])
        return self.names[word]


def bound(name, job, *values):
    """The bound of this name. A job has `replicas`, `width`, and its counts of rows and of reserved positions."""
    arguments, words = DEFINITIONS[name]
    return Sum(words, job, dict(zip(arguments, values))).sum()


def job_of(version, replicas, width, commands):
    """What the bounds need to know of a job."""
    return {"replicas": replicas, "width": width, "row_count": commands,
            "reserve": replicas if version == 2 else 0}


def steps(name, version, replicas, width, commands, *values):
    """The bound of this name for such a job."""
    return bound(name, job_of(version, replicas, width, commands), *values)


class Lines:
    """The settings, the commands and the script of a job that is in the grammar."""

    def __init__(self, text):
        self.settings, self.stops, self.pauses, self.commands = {"batch": 1}, {}, [], 0
        script = False
        for words in (line.split(" ") for line in text.split("\n")):
            if script and words[0] == "stop":
                self.stops[int(words[1])] = int(words[2])
            elif script and words[0] == "pause":
                self.pauses.append(tuple(map(int, words[1:])))
            elif words[0] in ("mu", "replicas", "ring", "budget", "batch"):
                self.settings[words[0]] = int(words[1])
            script = script or words == ["script"]
            self.commands += words[0] in OPERATIONS
        self.version, self.replicas = self.settings["mu"], self.settings["replicas"]
        self.job = job_of(self.version, self.replicas, self.settings["batch"], self.commands)
        self.large_ring = self.commands + 2 * self.job["reserve"]
        self.is_roomy = self.large_ring <= self.settings["ring"]
        self.last_stop = max(self.stops.values(), default=0)
        self.left = [r for r in range(self.replicas) if r not in self.stops]

    def bound(self, name, *values):
        return bound(name, self.job, *values)

    def last_below(self):
        """The last stop of a replica below the least that goes on."""
        return max((steps for r, steps in self.stops.items() if r < self.left[0]), default=0)

    def disturbed_until(self):
        """The rounds after which no line disturbs a replay."""
        paused = [sum(rounds for q, _, rounds in self.pauses if q == r) for r in range(self.replicas)]
        return max([self.last_stop, *(steps for _, steps, _ in self.pauses)]) + max(paused) + 1


class NotPromised(Exception):
    """Why there is no number."""


def committed_by(lines):
    """The number of `committed_by` of mu_enough."""
    if 2 * len(lines.left) <= lines.replicas:
        raise NotPromised("lines stop half of the replicas or more")
    if lines.pauses and not lines.is_roomy:
        raise NotPromised(f"a line pauses a replica, and the ring is below {lines.large_ring}")
    if lines.pauses:
        return lines.disturbed_until() + lines.bound("steps_after_pauses")
    if lines.is_roomy:
        least = lines.left[0]
        return lines.last_below() + lines.bound("steps_after", least) if least else lines.bound("steps_enough")
    if not lines.stops:
        return lines.bound("steps_in_any_ring")
    if lines.version == 1:
        raise NotPromised(f"a line stops a replica in version 1, and the ring is below {lines.large_ring}")
    return lines.last_stop + lines.bound("steps_after_in_any_ring", lines.left[0])


def finished_by(lines):
    """That of `finished_by`."""
    if 2 * len(lines.left) <= lines.replicas:
        raise NotPromised("lines stop half of the replicas or more")
    if lines.pauses:
        raise NotPromised("a line pauses a replica")
    least = lines.left[0]
    if lines.is_roomy:
        led = lines.last_below() + lines.bound("finishing_after", least) if least else lines.bound("finishing_steps")
        return max(led, lines.last_stop + lines.bound("failing_steps"))
    if not lines.stops:
        return lines.bound("finishing_in_any_ring")
    if lines.version == 1:
        raise NotPromised(f"a line stops a replica in version 1, and the ring is below {lines.large_ring}")
    return lines.last_stop + lines.bound("finishing_after_in_any_ring", least)


def told(text):
    """What `mu enough` prints of a job."""
    lines, out = Lines(text), []
    budget = lines.settings["budget"]
    for what, number, most in (("committed", committed_by, budget), ("finished", finished_by, budget - 1)):
        try:
            step = number(lines)
        except NotPromised as why:
            out.append(f"{what}: not promised, {why}\n")
        else:
            shown = f", budget {budget} is shown" if step <= most else f" with such a budget, {budget} isn't shown"
            out.append(f"{what} by step {step}{shown} to be enough\n")
    return "".join(out)


def main():
    begin(__doc__)
    if sys.argv[1:]:
        with open(sys.argv[1], encoding="utf-8") as job:
            text = job.read()
    else:
        text = sys.stdin.read()
    print(told(text), end="")


if __name__ == "__main__":
    main()
