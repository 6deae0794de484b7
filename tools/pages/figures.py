#!/usr/bin/env python3
"""Checks the figures of the pages that follow from the sources: bounds, limits, and how many things there are.

    tools/pages/figures.py      prints what is stale; the last line is `figures: N right, N stale`

The table and the formulas of docs/ALIVE.md are computed from the definitions of the bounds, limits are the
constants of the crates, and counts are those of what is stored or run. What was measured is checked by nobody.
The status is 1 if something is stale.
"""
import functools
import itertools
import os
import re
import sys

import folders
import bound_jobs
import edits
import made_cases
import programs
import stop_jobs
from beginning import begin
from bounds import DEFINITIONS, MOST_BUDGET, steps
from programs import TOP

CONSTANT = re.compile(r"^pub const (\w+): \w+ = ([\d_]+);", re.M)
# The columns of the table of bounds: how many replicas, and the least that goes on at worst.
COLUMNS = ((3, 1), (5, 2), (7, 3))


def contents(path):
    with open(os.path.join(TOP, path), encoding="utf-8") as text:
        return text.read()


def constant(crate, name):
    """A public constant of a crate."""
    folder = os.path.join(TOP, "crates", crate, "src")
    for file in sorted(os.listdir(folder)):
        for found, value in CONSTANT.findall(contents(os.path.join(folder, file))):
            if found == name:
                return int(value)
    raise SystemExit(f"figures.py: {crate} has no constant {name}")


def cases_of(path, data):
    """How many cases a type of definitions has."""
    body = re.search(rf"^pub data {data} .*\n((?:  .*\n)+)", contents(os.path.join("crates", path)), re.M).group(1)
    return len(re.findall(r"^  \w+ :", body, re.M))


@functools.lru_cache(None)
def jobs_at_bounds(tool):
    """How many jobs a tool runs."""
    return len(list({"bound_jobs": bound_jobs.bound_cases, "stop_jobs": stop_jobs.stop_cases}[tool]()))


# Each: a page, a pattern whose groups are figures, and what they have to be.
STATED = [
    ("README.md", r"up to seven replicas and the commands of up to (\d+) clients",
     lambda: [constant("mu_input", "MOST_CLIENTS")]),
    ("README.md", r"all commands, at most ([\d,]+), before", lambda: [constant("mu_input", "MOST_COMMANDS")]),
    ("docs/FORMATS.md", r"k from (\d+) to ([\d,]+) places of a log",
     lambda: [constant("mu_input", "LEAST_RING"), constant("mu_input", "MOST_RING")]),
    ("docs/FORMATS.md", r"b from 1 to ([\d,]+) steps of one replica", lambda: [constant("mu_input", "MOST_STEPS")]),
    ("docs/FORMATS.md", r"m from 1 to (\d+) commands of a batch", lambda: [constant("mu_input", "MOST_WIDTH")]),
    ("docs/FORMATS.md", r"c is at most (\d+)", lambda: [constant("mu_input", "MOST_CLIENTS") - 1]),
    ("docs/FORMATS.md", r"the key: 1 to (\d+) bytes from (\d+) to (\d+)",
     lambda: [constant("kv_store", it) for it in ("KEY_BYTES", "FIRST_BYTE", "LAST_BYTE")]),
    ("docs/FORMATS.md", r"the texts: 1 to (\d+) bytes from \d+ to \d+, and 1 to (\d+) for both of `cas`",
     lambda: [constant("kv_store", it) for it in ("TEXT_BYTES", "CAS_TEXT_BYTES")]),
    ("docs/FORMATS.md", r"at most ([\d,]+) commands \|", lambda: [constant("mu_input", "MOST_COMMANDS")]),
    ("docs/FORMATS.md", r"at most (\d+) lines of the script", lambda: [constant("mu_input", "MOST_SCRIPT_LINES")]),
    ("docs/FORMATS.md", r"passed over for m rounds, 1 to ([\d,]+)", lambda: [constant("mu_input", "MOST_ROUNDS")]),
    ("docs/FORMATS.md", r"read at most ([\d,]+) bytes, `check`, `why`, `tell` and `show` at most ([\d,]+)",
     lambda: [constant("mu_top", "INPUT_LIMIT"), constant("mu_input", "TRACE_LIMIT")]),
    ("docs/FORMATS.md", r"its N is from 0 to ([\d,]+), that of `show N` from 0 to ([\d,]+)",
     lambda: [constant("mu_input", "MOST_COMMANDS"), constant("mu_top", "MOST_SHOWN")]),
    ("docs/FORMATS.md", r"with batches of one command, a ring of ([\d,]+) places and ([\d,]+) steps a replica",
     lambda: [constant("mu_input", "MOST_RING"), constant("mu_input", "MOST_STEPS")]),
    ("docs/FORMATS.md", r"there is none after ([\d,]+) rounds", lambda: [constant("mu_serve", "WAIT_ROUNDS")]),
    ("docs/FORMATS.md", r"At the end of the input ([\d,]+) more rounds", lambda: [constant("mu_serve", "CLOSING_ROUNDS")]),
    ("docs/FORMATS.md", r"the input has more than ([\d,]+) bytes", lambda: [constant("mu_serve", "SESSION_LIMIT")]),
    ("docs/FORMATS.md", r"Cause 17 is a line of (\d+) bytes", lambda: [constant("mu_text", "LINE_BYTES")]),
    ("docs/DECISIONS.md", r"`serve` waits ([\d,]+) rounds", lambda: [constant("mu_serve", "WAIT_ROUNDS")]),
    ("docs/FORMATS.md", r"`mu_draw` reads a trace of at most ([\d,]+) bytes",
     lambda: [constant("mu_input", "TRACE_LIMIT")]),
    ("docs/PROVED.md", r"([\d,]+) units high", lambda: [32_767]),
    ("docs/PROTOCOL.md", r"has (\d+) lists of events that break one rule each",
     lambda: [sum(it.endswith(".trace") for it in os.listdir(os.path.join(TOP, "examples", "rules")))]),
    ("docs/PACE.md", r"(\d+) go on, (\d+) copy or learn, by (\d+) a region joins",
     lambda: [cases_of("mu_pace/specs/Weights.antt", it) for it in ("GoesOn", "Copies", "Joins")]),
    ("docs/WORKING.md", r"There are (\d+) edits in the gate and (\d+) beside it", lambda: edits.judged()[0]),
    ("docs/MEASURED.md", r"cases and ([\d,]+) more that are made by a rule", lambda: [len(made_cases.made_cases())]),
    ("docs/WORKING.md", r"runs `replay` over ([\d,]+) jobs whose budget is exactly",
     lambda: [jobs_at_bounds("bound_jobs")]),
    ("docs/WORKING.md", r"runs `replay` over ([\d,]+) jobs at exactly a bound",
     lambda: [jobs_at_bounds("stop_jobs")]),
    ("docs/MEASURED.md", r"([\d,]+) jobs at a bound",
     lambda: [jobs_at_bounds("bound_jobs") + jobs_at_bounds("stop_jobs")]),
    ("docs/MEASURED.md", r"([\d,]+) jobs of `tools/runs/bound_jobs.py`", lambda: [jobs_at_bounds("bound_jobs")]),
    ("docs/MEASURED.md", r"`tools/runs/stop_jobs.py` runs ([\d,]+) jobs", lambda: [jobs_at_bounds("stop_jobs")]),
    ("docs/MEASURED.md", r"(\d+) in `cases/replay` and \d+ in `cases/more.table`",
     lambda: [sum(name.startswith("v") and name.endswith(".stdout")
                  for name in os.listdir(os.path.join(TOP, "cases", "replay")))]),
    ("docs/MEASURED.md", r"(\d+) judged traces in `crates/judge_traces/stdin`",
     lambda: [sum(name.startswith("check/") for name in contents("cases/judged.names").split("\n"))]),
    # What ALIVE and PACE say of three replicas.
    ("docs/ALIVE.md", r"enough for ([\d,]+) commands by `steps_enough`, ([\d,]+) by `steps_in_any_ring`, "
                      r"([\d,]+) by `finishing_steps` and ([\d,]+) by `finishing_in_any_ring`",
     lambda: [most(it) for it in ("steps_enough", "steps_in_any_ring", "finishing_steps", "finishing_in_any_ring")]),
    ("docs/ALIVE.md", r"status is 0 up to N = ([\d,]+), and that each replica finishes up to N = ([\d,]+)",
     lambda: [most("steps_in_any_ring"), most("finishing_in_any_ring")]),
    ("docs/ALIVE.md", r"a budget of 100,000; ([\d,]+) is enough", lambda: [steps("steps_enough", 1, 3, 1, 2)]),
    ("docs/ALIVE.md", r"`stop 0 200` and `pause 1 40 300`: its number is ([\d,]+)",
     lambda: [200 + 300 + 1 + steps("steps_after_pauses", 1, 3, 1, 2)]),
    ("docs/PACE.md", r"56 steps of each a command. The bound that is proved pays for ([\d,]+)",
     lambda: [steps("steps_enough", 1, 3, 1, 1) - steps("steps_enough", 1, 3, 1, 0)]),
    ("docs/PACE.md", r"a budget of ([\d,]+) steps is enough for 2 commands, ([\d,]+) for 10, ([\d,]+) for 100",
     lambda: [steps("steps_enough", 1, 3, 1, commands) for commands in (2, 10, 100)]),
    ("docs/PACE.md", r"if only replica 0 is stopped, ([\d,]+), ([\d,]+) and ([\d,]+) after its last step",
     lambda: [steps("steps_after", 1, 3, 1, commands, 1) for commands in (2, 10, 100)]),
]


def number(text):
    """The number that a cell begins with; None if it has none."""
    found = re.match(r"[\d,]+", text)
    return int(found.group().replace(",", "")) if found else None


def stated():
    """Each figure that is stated in a sentence: where, what stands there and what has to."""
    for page, pattern, wanted in STATED:
        found = re.findall(pattern, contents(page))
        if not found:
            yield f"{page}: `{pattern}`", "nothing", wanted()
        for groups in found:
            figures = [number(it) for it in ([groups] if isinstance(groups, str) else groups)]
            yield f"{page}: `{pattern}`", figures, wanted()


def fixed(name, version, replicas, s, commands=0):
    """A bound for so many commands, with one command in a batch."""
    return steps(name, version, replicas, 1, commands, *given(name, s, 1, 1))


def most(name):
    """For how many commands of three replicas, in version 1, the greatest budget is enough by a bound."""
    spared = 1 if name.startswith("finishing") else 0
    commands = 0
    while fixed(name, 1, 3, 1, commands + 1) + spared <= MOST_BUDGET:
        commands += 1
    return commands


def table_of_bounds():
    """Each cell of the table of bounds: the fixed steps in version 1 and in version 2, and what a command adds."""
    for line in contents("docs/ALIVE.md").split("\n"):
        cells = [it.strip() for it in line.strip("|").split("|")]
        name = re.search(r"`(\w+)`$", cells[1]) if len(cells) == 5 else None
        if name and name.group(1) in DEFINITIONS:
            name = name.group(1)
            versions = (2,) if "after_in_any_ring" in name else (1, 2)
            for (replicas, s), cell in zip(COLUMNS, cells[2:]):
                wanted = [fixed(name, it, replicas, s) for it in versions]
                wanted.append(fixed(name, 2, replicas, s, 1) - fixed(name, 2, replicas, s))
                found = [number(it) for it in re.split(r" [/+] ", cell)]
                yield from ((f"docs/ALIVE.md: {name} of {replicas}", *it)
                            for it in itertools.zip_longest(found, wanted))


class Formula:
    """A sum of a page, in which a product is written without a sign."""

    def __init__(self, text, names):
        self.words, self.names = re.findall(r"\d+|\w+|[+()]", text), names

    def sum(self):
        result = self.product()
        while self.words and self.words[0] == "+":
            self.words.pop(0)
            result += self.product()
        return result

    def product(self):
        result = 1
        while self.words and self.words[0] not in "+)":
            word = self.words.pop(0)
            if word == "(":
                result *= self.sum()
                self.words.pop(0)
            else:
                result *= int(word) if word.isdigit() else self.names(word)
        return result


def given(name, s, ratio, lag):
    """What a bound is of besides the job: a replica, or the ratio and the lag at which others keep up."""
    arguments = DEFINITIONS[name][0]
    return [ratio, lag] if len(arguments) == 2 else [s] * len(arguments)


def formulas():
    """Each formula of docs/ALIVE.md, for a few jobs."""
    for name, body in re.findall(r"^    (\w+) += (.*(?:\n {9,}\+ .*)*)", contents("docs/ALIVE.md"), re.M):
        if name not in DEFINITIONS:
            yield f"docs/ALIVE.md: {name}", "a formula", "no definition"
            continue
        stand, wanted = [], []
        for replicas, width, commands, s, f, d in ((3, 1, 2, 1, 1, 1), (5, 4, 17, 2, 3, 0), (7, 3, 100, 3, 16, 500)):
            def value(word, job=(1, replicas, width, commands),
                      known=dict(n=replicas, w=width, K=commands, s=s, f=f, d=d)):
                return known[word] if word in known else steps(word, *job, *given(word, s, f, d))
            stand.append(Formula(body, value).sum())
            wanted.append(value(name))
        yield f"docs/ALIVE.md: {name}, for three jobs", stand, wanted


def judged():
    """How many figures are right, and which are stale."""
    found = [*stated(), *table_of_bounds(), *formulas()]
    stale = [f"{where}: {stands}, and {wanted} is right" for where, stands, wanted in found if stands != wanted]
    return len(found) - len(stale), stale


def main():
    begin(__doc__)
    right, stale = judged()
    return programs.tell(stale, f"figures: {right} right, {len(stale)} stale")


if __name__ == "__main__":
    sys.exit(main())
