#!/usr/bin/env python3
"""Plants bugs into bodies at random, and tells which of them the contracts let through.

    tools/proving/plants.py CRATE ..                    20 bugs in each of these crates, one a function at most
    tools/proving/plants.py --count 40 --seed 7 CRATE   so many, others with another seed

A bug changes one line: it turns a comparison, an `and` or a truth value, moves a number by one, drops a call or an
assignment, or answers nothing. The gate tries them, over a copy of these crates and those below, as it tries its own
edits; so what it or ./prove has proved isn't proved again. One that comes through is a contract to strengthen, unless
the code means the same with it, or differs in memory or time alone.
"""
import argparse
import os
import random
import re
import tempfile

import folders
from beginning import begin
from edits import GATE
from programs import CRATES, crates_below, need_toolchain
from prove_once import gate_passes, write_copy

HEAD = re.compile(r"^(\s*)(?:pub(?:\(crate\))? )?fn (\w+)")
# What is turned into what, with a word for it.
TURNS = [(" == ", " != ", "equal"), (" != ", " == ", "differs"), (" < ", " <= ", "below"), (" <= ", " < ", "at_most"),
         (" && ", " || ", "and"), (" || ", " && ", "or"), ("true", "false", "true"), ("false", "true", "false"),
         ("!self", "self", "not"), (" = 0;", " = 1;", "zero"), (" 0..", " 1..", "from")]
NUMBER = re.compile(r"(?<![\w.\[])(\d+)(?=[,); ]|$)")
CALL = re.compile(r"^(?!let|return)[\w.]+\.?\w*\(.*\);$")
ASSIGNMENT = re.compile(r"^(?!let)[\w.]+ [+\-|]?= .*;$")
# What the gate says of an edit.
ANSWER = re.compile(r"must-fail (\w+)/([\w.]+): (refused|NOT REFUSED|BAD EDIT|NOT TRIED)")
# How many bugs are planted in a crate, if nobody says so.
BUGS = 20


def bodies(lines):
    """The name of each function, and the places of the lines of its body."""
    at = 0
    while at < len(lines):
        head = HEAD.match(lines[at])
        if head:
            opened = next((k for k in range(at, len(lines)) if lines[k] == head[1] + "{"), len(lines))
            closed = next((k for k in range(at, len(lines)) if lines[k] == head[1] + "}"), len(lines))
            if opened < closed < len(lines):
                yield head[2], range(opened + 1, closed)
                at = closed
        at += 1


def bugs_of(line):
    """Each bug of a line: a word for it, and the line with it."""
    for old, new, word in TURNS:
        if old in line and (not old.isalpha() or re.search(rf"\b{old}\b", line)):
            yield word, line.replace(old, new, 1)
    for found in NUMBER.finditer(line):
        yield "number", f"{line[:found.start()]}{int(found[1]) + 1}{line[found.end():]}"
    if CALL.match(line):
        yield "dropped", "{}"
    if ASSIGNMENT.match(line):
        yield "unassigned", "{}"
    arm = re.match(r"^(.*=> )?Some\(.*\)(,?)$", line)
    if arm and (arm[1] or not arm[2]):
        yield "nothing", f"{arm[1] or ''}None{arm[2]}"


def plants_in(crate):
    """Of each function with a body that can be changed: its file, its name, and its bugs."""
    for folder, _, files in os.walk(os.path.join(CRATES, crate, "src")):
        for file in sorted(files):
            path = os.path.join(folder, file)
            with open(path, encoding="utf-8") as code:
                lines = code.read().splitlines()
            for name, places in bodies(lines):
                texts = [lines[k].strip() for k in places if not lines[k].strip().startswith("//")]
                bugs = [(text, *bug) for text in texts if sum(text in line for line in lines) == 1 for bug in bugs_of(text)]
                if bugs:
                    yield os.path.relpath(path, os.path.join(CRATES, crate)), name, bugs


def write_plants(crate, room, count, chance):
    """Writes this many bugs of a crate as edits of its copy; how many there are."""
    picked = list(plants_in(crate))
    chance.shuffle(picked)
    folder = os.path.join(room, "crates", crate, GATE)
    os.makedirs(folder)
    for number, (file, name, bugs) in enumerate(picked[:count]):
        old, word, new = chance.choice(bugs)
        with open(os.path.join(folder, f"{number:02}_{name}_{word}.edit"), "w", encoding="utf-8") as out:
            out.write(f"file: {file}\nold: {old}\nnew: {new}\n")
    return min(count, len(picked))


def main():
    begin(__doc__)
    asked = argparse.ArgumentParser(usage=__doc__.split("\n\n")[1])
    asked.add_argument("crates", nargs="+")
    asked.add_argument("--count", type=int, default=BUGS)
    asked.add_argument("--seed", type=int, default=1)
    words = asked.parse_args()
    need_toolchain("plants")
    below, chance = crates_below(words.crates), random.Random(words.seed)
    with tempfile.TemporaryDirectory(prefix="mu-plants-") as room:
        write_copy(below, room)
        count = sum(write_plants(crate, room, words.count, chance) for crate in words.crates)
        _, log = gate_passes("plants", below, room, is_printed=False)
        answers = [found for line in log if (found := ANSWER.search(line))]
        if not answers:
            print("".join(log), end="")
            return 1
        through = [(it[1], it[2]) for it in answers if it[3] == "NOT REFUSED"]
        for crate, name in through:
            with open(os.path.join(room, "crates", crate, GATE, name), encoding="utf-8") as bug:
                print(f"{crate} {name}\n{bug.read()}", end="")
        untold = sum(it[3] in ("BAD EDIT", "NOT TRIED") for it in answers)
        print(f"plants: {count} planted, {len(through)} came through, {untold} don't compile or weren't tried")
    return 1 if through else 0


if __name__ == "__main__":
    raise SystemExit(main())
