#!/usr/bin/env python3
"""Runs the jobs of examples/scenes, and compares their drawings with the stored ones.

    tools/pictures/scenes.py MU             with `mu trace` of this program, drawn by tools/accounts/picture_cases.py
    tools/pictures/scenes.py MU MU_DRAW     drawn by this program too
    tools/pictures/scenes.py --write MU     stores the drawings of tools/accounts/picture_cases.py

Some are drawn with the nodes of a run too, by `mu eager trace`.
"""

import os
import subprocess
import sys

import folders
import picture_cases
from beginning import begin
from programs import EXAMPLES

SCENES = os.path.join(EXAMPLES, "scenes")
# The jobs that are drawn with the nodes of a run too.
EAGER_TOO = {"astray.job"}
# Statuses of what was told: of a run with all commands, or without some.
TOLD = (0, 3)


def output_of(words, given):
    """What a program prints, as text."""
    done = subprocess.run(words, input=given, capture_output=True, text=True, check=False)
    if done.returncode not in TOLD:
        sys.exit(f"{' '.join(words)}: status {done.returncode}")
    return done.stdout


def scenes():
    """The path of each job, the words by which its trace is made, and the path of the stored drawing."""
    for name in sorted(os.listdir(SCENES)):
        if name.endswith(".job"):
            path = os.path.join(SCENES, name)
            yield path, ["trace"], path.replace(".job", ".svg")
            if name in EAGER_TOO:
                yield path, ["eager", "trace"], path.replace(".job", "-eager.svg")


def main():
    """Compares each scene, or stores its drawing."""
    begin(__doc__)
    programs = [word for word in sys.argv[1:] if word != "--write"]
    if not programs:
        print(__doc__.split("\n\n")[1], file=sys.stderr)
        sys.exit(2)
    drawn = wrong = 0
    for path, words, stored in scenes():
        with open(path, encoding="ascii") as file:
            trace = output_of([programs[0], *words], file.read())
        drawing = picture_cases.drawn(trace)
        drawn += 1
        if "--write" in sys.argv:
            with open(stored, "w", encoding="ascii") as file:
                file.write(drawing)
            continue
        with open(stored, encoding="ascii") as file:
            is_same = file.read() == drawing
        if not is_same or len(programs) > 1 and output_of([programs[1]], trace) != drawing:
            wrong += 1
            print("differs:", stored)
    print(drawn, "scenes,", wrong, "wrong")
    sys.exit(wrong > 0)


if __name__ == "__main__":
    main()
