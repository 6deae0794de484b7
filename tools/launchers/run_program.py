#!/usr/bin/env python3
"""Runs a program of this repository: run_program.py NAME WORDS..

It is the one that ./prove left, if it proved just these sources; else a build that nothing has
proved, which it says in one line on standard error.
"""
import os
import signal
import subprocess
import sys

import folders
import programs
import unproved
from telling import telling

# What is said of a run that didn't end, by the word that `rt try` has for it.
TOLD_OF = {
    "fault": "the unproved build met the fault above",
    "differs": "two unproved builds differ, as told above",
    "none": "these sources don't build, for the cause above",
}


def say(name, text):
    print(f"{name}: {text}", file=sys.stderr, flush=True)


def cause_of(lines):
    """Why `rt try` says that it has no answer: of its two runs the compiled one counts."""
    found = [line.partition("no-answer: ") for line in lines if "no-answer: " in line]
    checked = [cause for head, _, cause in found if head.startswith("checked")]
    return (checked or [cause for _, _, cause in found] or ["rt doesn't say why"])[0]


def run_unproved(name, words):
    """Runs an unproved build; its status, or that of no answer."""
    programs.need_toolchain(name)
    if not unproved.kept(name):
        say(name, "these sources aren't proved here: building without proofs, once, in about a minute (./prove proves)")
    if unproved.kept(name) or unproved.built(name):
        runner = os.path.join(os.path.dirname(os.path.abspath(__file__)), "run_unproved")
        signal.signal(signal.SIGPIPE, signal.SIG_DFL)
        os.execv(runner, [runner, name, *words])
    # rt says why nothing is built, or builds and runs it for this once.
    with telling(lambda seconds: f"{name}: rt try builds and runs it: {seconds} s so far"):
        done = subprocess.run(["rt", "try", "--", *words], stderr=subprocess.PIPE, check=False,
                              cwd=os.path.join(programs.CRATES, programs.CRATE_OF[name]))
    lines = done.stderr.decode(errors="replace").splitlines()
    state = lines[-1].split()[0][4:] if lines and lines[-1].startswith("run=") else None
    if state == "ended":
        return done.returncode
    if state == "no-answer":
        say(name, f"the unproved build gave no answer: {cause_of(lines)}. "
                  "The program that ./prove builds has no such limit")
        return programs.NO_ANSWER
    for line in lines:
        print(line, file=sys.stderr)
    say(name, TOLD_OF.get(state, f"rt try broke off with status {done.returncode}: memory may be short"))
    return programs.NO_ANSWER


def main():
    name, words = sys.argv[1], sys.argv[2:]
    path = programs.proved_program(name)
    if path:
        # Python ignores this signal, and what it starts would inherit that.
        signal.signal(signal.SIGPIPE, signal.SIG_DFL)
        os.execv(path, [path, *words])
    return run_unproved(name, words)


if __name__ == "__main__":
    sys.exit(main())
