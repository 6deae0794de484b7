#!/usr/bin/env python3
"""Refuses each allocation of each command in turn: `no memory` is said exactly if one was refused.

    tools/tests/refused_memory.py [MU [MU_DRAW]]     those that ./prove left in out/bin/ if none is named

Want of memory is the one answer that the proofs leave free, so nothing may hide behind it. A run of each
command over a short input is repeated with its first allocation refused, then with its second, up to one
beyond its last. Each has to end with status 6 and `no memory`, a session after the answers to its first lines, and
the last as it does by itself. The first
allocations are those of the words of the command line: without them nothing is printed. Commands with
threads may answer as usual if the memory of a thread was refused: then they go on without it.

It needs a C compiler, for the library that lets calls fail (tools/runs/hostile.c).
"""
import os
import shutil
import sys
import tempfile

import folders
import run_hostile
from beginning import begin
from programs import BIN, CRATE_OF, EXAMPLES, NO_ANSWER

# The status and the text of a program that had no memory.
NO_MEMORY, SAID = 6, b"no memory\n"
# Each command of each program, with an example to run it over; check and why also over an illegal list.
COMMANDS = [
    ("mu", ["replay"], "put-and-get.job"), ("mu", ["run"], "put-and-get.job"), ("mu", ["trace"], "put-and-get.job"),
    ("mu", ["eager"], "put-and-get.job"), ("mu", ["eager", "trace"], "put-and-get.job"),
    ("mu", ["enough"], "put-and-get.job"),
    ("mu", ["check"], "late-exchange.trace"), ("mu", ["check"], "grant-before-drain.trace"),
    ("mu", ["why"], "late-exchange.trace"), ("mu", ["why"], "grant-before-drain.trace"),
    ("mu", ["tell"], "late-exchange.trace"), ("mu", ["attest"], "attested.list"), ("mu", ["show", "20"], "late-exchange.trace"), ("mu", ["bulk", "3"], None),
    ("mu", ["live", "2"], "put-and-get.job"), ("mu", ["desk"], "put-and-get.job"), ("mu", ["book"], "order-book.job"),
    ("mu", ["serve", "3"], "leader-stops.lines"),
    ("mu_draw", [], "late-exchange.trace"), ("mu_draw", [], "grant-before-drain.trace"),
    ("mu_draw", ["brief"], "late-exchange.trace"),
]
# No command makes fewer allocations, but for one that runs nothing: with none refused nothing would be tested.
LEAST_REFUSED, LEAST_OF_FEW = 50, 8
MAKES_FEW = ["enough"]
# The command that answers lines before all memory is had.
SESSION = "serve"


def runs_of(trials, words, given):
    """The status and the text of a run by itself, then with each allocation refused in turn, up to one beyond
    the last; and whether one was refused."""
    yield (*trials.run(words, given)[:2], False)
    refused, call = True, 0
    while refused:
        call += 1
        status, text, refused = trials.run(words, given, kind="alloc", call=call)
        yield status, text, refused


def is_said(words, due, text):
    """Whether a text says that there was no memory: nothing but that, but for the first answers of a session."""
    first = text[:-len(SAID)]
    return text.endswith(SAID) and (first == b"" or (words[0] == SESSION and due.may_begin(first)))


def is_right(words, due, run, is_silent):
    """Whether a run is right, if `due` is the answer without a refusal. `is_silent` tells whether the words of
    the command line weren't there so far."""
    status, text, refused = run
    if status != NO_MEMORY:
        return due.permits(status, text) and (not refused or words[:1] in run_hostile.THREADED)
    return refused and (is_said(words, due, text) or (text == b"" and is_silent))


def trouble(words, given, runs):
    """The first of such runs that isn't right, in a few words; else None."""
    due, is_silent, count = None, True, 0
    for status, text, refused in runs:
        due = due or run_hostile.Answer(words, given, status, text)
        if not is_right(words, due, (status, text, refused), is_silent):
            return f"status {status} and {text[:40]!r}, {f'allocation {count} refused' if refused else 'none refused'}"
        is_silent = is_silent and (text == b"" or not refused)
        count += 1
    least = LEAST_OF_FEW if words == MAKES_FEW else LEAST_REFUSED
    return None if count > least else f"{count} runs in all"


def troubles(paths):
    """A line for each command that isn't right; the paths of the programs by name."""
    wrong = []
    with tempfile.TemporaryDirectory() as folder:
        for name, words, example in COMMANDS:
            given = b""
            if example:
                with open(os.path.join(EXAMPLES, example), "rb") as text:
                    given = text.read()
            told = trouble(words, given, runs_of(run_hostile.Trials(paths[name], folder), words, given))
            if told:
                wrong.append(" ".join([name, *words, "over", example or "nothing"]) + ": " + told)
    return wrong


def main():
    begin(__doc__)
    paths = dict(zip(CRATE_OF, sys.argv[1:] + [os.path.join(BIN, name) for name in CRATE_OF][len(sys.argv) - 1:]))
    if shutil.which("cc") is None or not all(os.access(path, os.X_OK) for path in paths.values()):
        print("needs a C compiler, and the programs that ./prove builds", file=sys.stderr)
        return NO_ANSWER
    wrong = troubles(paths)
    print(*wrong, f"{len(COMMANDS) - len(wrong)} passed, {len(wrong)} failed", sep="\n")
    return 1 if wrong else 0


if __name__ == "__main__":
    sys.exit(main())
