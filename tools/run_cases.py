#!/usr/bin/env python3
"""Runs the program mu over stored cases, and names each case that differs.

    tools/run_cases.py CASES [CASES..]             the proved program, or one unproved build for all cases
    tools/run_cases.py PROGRAM CASES [CASES..]     a program that is named

CASES is a folder or a table. In a folder a case NAME is a file NAME with the input, NAME.args with the
words, one a line, and NAME.stdout with what has to be printed; if there is a file NAME.told, it is what
`tell` has to print of NAME.stdout, a trace. Of each the checksum alone may be stored (tools/stored.py). A table is a file NAME.table. A case of
it is a line `case NAME WORD`, the input, and a line `prints` with what has to be printed below it, or
`begins` or `ends` with what that has to begin or to end with, or `prints sha256 SUM` with its checksum. A
backslash before that word says that the last line of the input has no line feed. The status that is wanted
stands behind that, as `status S`, or is that of the last line, `status S`, or of what is said: usage 1,
refused 2, illegal 7. The input may be that of an earlier case NAME of the table, by `like NAME`, with lines
of it changed: `N= LINE` stands in place of its line N, `N+ LINE` before it, and `N-` leaves it out.
"""
import os
import re
import sys

import programs
import trying
from beginning import begin
from stored import contents, is_made, names, rule_of, stands
from telling import telling

# The line of a table between an input and what is printed of it.
TOLD_LINE = re.compile(rb"^(\\?)(prints|begins|ends)(?: sha256 ([0-9a-f]+))?(?: status (\d))?(?:\n|\Z)", re.MULTILINE)
CHANGE = re.compile(rb"(\d+)([=+-]) ?(.*)")
STATUS_OF = {b"usage:": 1, b"refused": 2, b"illegal": 7, b"legal": 0}


def wanted_status(text):
    """The status that belongs to what is printed; None if the text doesn't tell."""
    last = text.rstrip(b"\n").rsplit(b"\n", 1)[-1]
    if last.startswith(b"status "):
        return int(last.split()[1])
    return STATUS_OF.get(text.split(b" ", 1)[0], None)


def stored_case(title, path):
    """A case of a folder. Where the checksum of what has to be printed is stored, that is compared."""
    words = contents(path + ".args").decode().split()
    if is_made(path + ".stdout"):
        rule = rule_of(path + ".stdout")
        return trying.SummedCase(title, words, contents(path), rule.summed, rule.status)
    wanted = contents(path + ".stdout")
    return trying.Case(title, words, contents(path), wanted, wanted_status(wanted))


def stored_cases(folder):
    """The cases of a folder, by name."""
    cases = []
    for name in names(folder):
        path = os.path.join(folder, name)
        if stands(path + ".args") and stands(path + ".stdout"):
            title = os.path.join(os.path.basename(os.path.normpath(folder)), name)
            cases.append(stored_case(title, path))
            if stands(path + ".told"):
                told = contents(path + ".told")
                cases.append(trying.Case(f"{title}, told", ["tell"], contents(path + ".stdout"), told, wanted_status(told)))
    return cases


def stored_traces(folder):
    """The names of the cases of a folder that print a trace, with that trace."""
    for name in names(folder):
        path = os.path.join(folder, name)
        if stands(path + ".args") and contents(path + ".args").split()[-1:] == [b"trace"]:
            trace = contents(path + ".stdout")
            if trace.startswith(b"mu"):
                yield os.path.join(os.path.basename(os.path.normpath(folder)), name), trace


def changed(given, changes):
    """An input with some of its lines changed."""
    before, instead = {}, {}
    for change in changes:
        number, kind, line = CHANGE.fullmatch(change).groups()
        if kind == b"+":
            before.setdefault(int(number), []).append(line)
        else:
            instead[int(number)] = [line] if kind == b"=" else []
    return b"\n".join(it for number, line in enumerate(given.split(b"\n"), 1)
                      for it in (*before.get(number, ()), *instead.get(number, [line])))


def table_case(name, text, others=()):
    """A case of a table, from its first line on; its input may be like that of another."""
    head, rest = text.split(b"\n", 1)
    told = TOLD_LINE.search(rest)
    given, wanted = rest[:told.start()], rest[told.end():]
    title, *words = head.decode().split(" ")
    if given.startswith(b"like "):
        base, *changes = given.split(b"\n")[:-1]
        given = changed(next(it.given for it in others if it.name == f"{name}/{base[5:].decode()}"), changes)
    summed, status = (told[at].decode() if told[at] else None for at in (3, 4))
    case = {b"prints": trying.Case, b"begins": trying.BeginningCase, b"ends": trying.EndingCase}[told[2]]
    made = [f"{name}/{title}", words, given[:-1] if told[1] else given]
    status = wanted_status(wanted) if status is None else int(status)
    return trying.SummedCase(*made, summed, status) if summed else case(*made, wanted, status)


def table_cases(path):
    """The cases of a table."""
    name, (_, *texts) = os.path.basename(path), re.split(rb"^case ", contents(path), flags=re.MULTILINE)
    cases = []
    for text in texts:
        cases.append(table_case(name, text, cases))
    return cases


def cases_at(path):
    """The cases of a table or a folder."""
    return table_cases(path) if path.endswith(".table") else stored_cases(path)


def main():
    begin(__doc__)
    given = sys.argv[1:]
    is_program = given and not os.path.isdir(given[0]) and not given[0].endswith(".table")
    program = given.pop(0) if is_program else None
    cases = [case for path in given for case in cases_at(path)]
    if not cases:
        print(__doc__.split("\n\n")[1], "\n\nno case is named", file=sys.stderr)
        return 2
    if program is None:
        programs.need_toolchain("run_cases.py")
    try:
        with telling(lambda seconds: f"run_cases.py: {len(cases)} cases: {seconds} s so far"):
            answers = trying.run_cases(program, cases) if program else trying.answers_of("mu", cases)
    except (OSError, trying.NotBuilt) as cause:
        print(f"run_cases.py: {cause}", file=sys.stderr)
        return programs.NO_ANSWER
    wrong = trying.troubles(cases, answers)
    return programs.tell(wrong, f"{len(cases) - len(wrong)} passed, {len(wrong)} failed")


if __name__ == "__main__":
    sys.exit(main())
