#!/usr/bin/env python3
"""Whether each thin line of a picture, whom a replica names, says at each drawn step what holds then.

    tools/tests/drawn_names.py                         the drawings of tools/accounts/picture_cases.py, which ./test
                                                       compares with those of mu_draw, of all stored legal traces:
                                                       whole and from the middle on, in brief and not; whom a
                                                       replica names is computed by tools/accounts/account.py
    tools/tests/drawn_names.py MU_DRAW MU [TRACE ..]   these or the stored traces, drawn by this program; at the first,
                                                       the last and two other rows whom each names is what `mu show`
                                                       says

The status is 1 if a line lies.
"""
import random
import re
import subprocess
import sys

import folders
import picture_cases
from account import Job
from beginning import begin
from programs import tell
from run_cases import contents
from second_judge import Steps, stored

BAR = re.compile(r"<rect class='(w|o\d)' x='(\d+)' y='\d+' width='(3|24)' height='100%'/>")
STEP = re.compile(r"<g><title>step (\d+), ")
NAMES = re.compile(r"^replica (\d) steps .* names (\d)$", re.M)
# How many rows `mu show` is asked of, besides the first and the last.
OTHERS = 2


def lines_drawn(drawing):
    """After the opening, and after each row of a step: that step, or None, and whom the line of each lane names."""
    named, step = {}, None
    for line in drawing.split("\n"):
        if found := STEP.match(line):
            yield step, dict(named)
            step = int(found[1])
        elif bar := BAR.match(line):
            kind, x, width = bar[1], int(bar[2]), bar[3]
            lane = (x - picture_cases.lane(0) + (7 if width == "3" else 8)) // 160
            if width == "3":
                named[lane] = int(kind[1:])
            elif kind == "w":
                named.pop(lane, None)
    yield step, dict(named)


def named_after(text):
    """Whom each replica names after each event, and before the first."""
    job, events = text.split("\nend\n", 1)
    job = Job.of(job.split("\n"))
    steps = Steps(job)

    def named(r):
        return next(q for q in range(r + 1) if q == r or not steps.replicas[r].failed(q))
    found = [list(map(named, range(job.replicas)))]
    for line in events.split("\n"):
        if line in ("", "end"):
            continue
        by, verb, *words = line.split(" = ")[0].split(" ")
        steps.step(int(by), verb, *(int(it) if it.isdigit() else it for it in words))
        now = list(found[-1])
        now[int(by)] = named(int(by))
        found.append(now)
    return found


def lies(drawing, first, named_at):
    """The rows where a line names another than holds then: the step, the lane, whom it names, and who is right."""
    for step, lines in lines_drawn(drawing):
        right = named_at(first if step is None else step + 1)
        for lane, named in sorted(lines.items()):
            if right[lane] != named:
                yield f"{'the opening' if step is None else f'step {step}'}: lane {lane} names {named}, and {right[lane]} is right"
                return


def plain_troubles():
    """How many drawings of stored traces there are, and which lie."""
    tried, wrong = 0, []
    for name, text, verdict in stored():
        if verdict is not None:
            continue
        named = named_after(text)
        count = len(named) - 1
        for part in ((), (count // 2, 9999999)):
            for brief in (False, True):
                tried += 1
                drawing = picture_cases.drawn(text, *part, brief=brief)
                wrong += [f"{name}{', in brief' if brief else ''}: {it}"
                          for it in lies(drawing, min(part[0], count) if part else 0, lambda n: named[n])]
    return tried, wrong


def shown_names(program, text, events):
    """Whom each replica names after so many events, as `mu show` says."""
    told = subprocess.run([program, "show", str(events)], input=text, capture_output=True, text=True, check=False).stdout
    return {int(by): int(named) for by, named in NAMES.findall(told)}


def troubles_of(draw, show, name, text):
    """What the drawing of a program in brief says otherwise than `mu show`."""
    drawing = subprocess.run([draw, "brief"], input=text, capture_output=True, text=True, check=False).stdout
    rows = [it for it, _ in lines_drawn(drawing)]
    chance = random.Random(name)
    asked = {rows[0], rows[-1], *chance.sample(rows, min(OTHERS, len(rows)))}
    for step, lines in lines_drawn(drawing):
        if step in asked:
            right = shown_names(show, text, 0 if step is None else step + 1)
            yield from (f"{name}: step {step}: lane {lane} names {named}, and `mu show` says {right.get(lane)}"
                        for lane, named in sorted(lines.items()) if right.get(lane) != named)


def main():
    begin(__doc__)
    if len(sys.argv) < 3:
        tried, wrong = plain_troubles()
        return tell(wrong, f"drawn names: {tried} drawings, {len(wrong)} lie")
    draw, show, *paths = sys.argv[1:]
    traces = [(it, contents(it).decode()) for it in paths] or [
        (name, text) for name, text, verdict in stored() if verdict is None]
    wrong = [it for name, text in traces for it in troubles_of(draw, show, name, text)]
    return tell(wrong, f"drawn names: {len(traces)} traces, {len(wrong)} lie")


if __name__ == "__main__":
    sys.exit(main())
