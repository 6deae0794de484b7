#!/usr/bin/env python3
"""Writes the judged traces, or shows one: the input and the wanted output of crates/judge_traces.

    tools/tests/judged_table.py TRACES JOBS MORE..     writes the input, the output and the names
    tools/tests/judged_table.py --case LINE            shows the name, the trace and the wanted line

TRACES, JOBS and MORE are folders of cases: a trace or a job in a file NAME, `check` in NAME.args, and
what an independent program says of it in NAME.stdout. The input gets them, byte for byte, with the
separator of crates/judge_traces/src/main.rt between two; the output gets one line for each, and
cases/judged.names its name. The lines are those of the cases, never the program's own. Of the cases that are given
most are left out: a long list that breaks is cut behind the event that breaks it, which leaves its line, and those that
are long still are left out, but for some legal ones, of which tools/tests/made_lists.py makes others. A job that is
refused for a line after its `end` is left out: events may follow there in a trace (such jobs stand in
cases/refusals.table). What stands last shows how an input is cut into traces.
"""

import pathlib
import sys

import folders
from beginning import begin
from programs import TOP as TOP_PATH

TOP = pathlib.Path(TOP_PATH)
INPUT = TOP / "crates" / "judge_traces" / "stdin"
OUTPUT = TOP / "crates" / "judge_traces" / "stdout"
NAMES = TOP / "cases" / "judged.names"
SEPARATOR = b"\n---\n"
AFTER_END = b" cause 12\n"
# The most lines of a trace, and those legal ones that have more.
MOST_LINES = 250
LONG = {"check/legal003", "check/legal010", "check/rivals016", "check/rivals030"}
# Traces between which the input is cut at the first separator, and only there: the first of the two has a line feed of
# its own at its end, which the separator follows, and the last is the rest of the input.
NO_TRACE, NOTHING = b"refused line 1 cause 1\n", b"refused line 1 cause 11\n"
CUT = [("cut/two-first", b"mu 1\nreplicas 3\nring 8\nbudget 100\nend\nend\n", b"legal 0\n"),
       ("cut/two-second", b"mu 1\nreplicas 8\n", b"refused line 2 cause 2\n"),
       ("cut/end-and-feed", b"end\n", NO_TRACE), ("cut/settings", b"mu 1\n", b"refused line 2 cause 11\n"),
       ("cut/end", b"end", NO_TRACE), ("cut/nothing", b"", NOTHING), ("cut/separator-without-feed", b"---\n", NO_TRACE),
       ("cut/a", b"a", NO_TRACE), ("cut/b", b"b", NO_TRACE), ("cut/c", b"c", NO_TRACE),
       ("cut/separator-unended", b"end\n---", NO_TRACE)]


def shortened(trace, line):
    """A trace without the events behind the one that breaks it, if it is long."""
    if trace.count(b"\n") <= MOST_LINES or not line.startswith(b"illegal"):
        return trace
    lines = trace.split(b"\n")
    return b"\n".join([*lines[:lines.index(b"end") + 2 + int(line.split()[1])], b"end", b""])


def cases(folder):
    """The names of a folder's cases, with their traces and the lines on them: those that aren't too long."""
    folder = pathlib.Path(folder)
    for line in sorted(folder.glob("*.stdout")):
        if line.with_suffix(".args").read_bytes().split() == [b"check"]:
            name, told = f"{folder.name}/{line.stem}", line.read_bytes()
            trace = shortened(line.with_suffix("").read_bytes(), told)
            if trace.count(b"\n") <= MOST_LINES or name in LONG:
                yield name, trace, told


def judged():
    """The name, the trace and the wanted line of each case of the table."""
    names = NAMES.read_text(encoding="ascii").splitlines()
    return zip(names, INPUT.read_bytes().split(SEPARATOR), OUTPUT.read_bytes().splitlines(keepends=True))


def write(traces_folder, jobs_folder, more):
    jobs = [case for case in cases(jobs_folder) if not case[2].endswith(AFTER_END)]
    others = [case for folder in more for case in cases(folder)]
    names, traces, lines = zip(*cases(traces_folder), *jobs, *others, *CUT)
    joined = SEPARATOR.join(traces)
    if joined.split(SEPARATOR) != list(traces):
        sys.exit("a trace holds the separator")
    if any(line.count(b"\n") != 1 or not line.endswith(b"\n") for line in lines):
        sys.exit("a case has not one line")
    INPUT.write_bytes(joined)
    OUTPUT.write_bytes(b"".join(lines))
    NAMES.write_text("".join(name + "\n" for name in names), encoding="ascii")


def show(line):
    name, trace, wanted = list(judged())[line - 1]
    sys.stdout.buffer.write(f"case {name}\n".encode() + trace + b"\nwanted: " + wanted)


def main():
    begin(__doc__)
    if len(sys.argv) == 3 and sys.argv[1] == "--case" and sys.argv[2].isdigit():
        show(int(sys.argv[2]))
    elif len(sys.argv) < 3 or sys.argv[1].startswith("-"):
        sys.exit(__doc__.split("\n\n")[1])
    else:
        write(sys.argv[1], sys.argv[2], sys.argv[3:])


if __name__ == "__main__":
    main()
