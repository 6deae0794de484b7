#!/usr/bin/env python3
"""Compares a change with the row of docs/WORKING.md by which it was made (How to add).

    tools/pages/additions.py ROW [FROM]     ROW is how the row begins, as "an operation"; FROM is a commit, or else HEAD:
                                            what changed since, committed or not

Prints the files that changed though the row doesn't name them, and those that it names and that stayed as they were,
unless they stand in a sentence that begins with a condition (`Only for ..`, `If ..`). The last line is
`additions: N files, N not named, N stayed`. A file of a crate is named if the crate stands in the row and the file,
its name or a folder above it does; any other by its path, its name or a folder. The status is 1 if one isn't named.
"""
import re
import subprocess
import sys

import folders
from beginning import begin
from pages import contents
from programs import TOP

# How a sentence ends, and how one begins whose files don't always change.
END, WHEN = re.compile(r"(?<=[.)]) (?=[A-Z`])"), re.compile(r"Only |If |For |Then ")
ENDINGS = (".rt", ".antt", ".md", ".py", ".table", ".txt", ".bash", ".rs", ".c", ".h", "/")


def row_of(begins):
    """The second cell of the row that begins so."""
    rows = re.findall(r"^\| (.*?) \| (.*) \|$", contents("docs/WORKING.md").split("\n## How to add\n")[1], re.M)
    found = [touched for title, touched in rows if title.startswith(begins)]
    if len(found) != 1:
        sys.exit(f"additions.py: {len(found)} rows begin with: {begins}; these are there: {', '.join(it for it, _ in rows[1:])}")
    return found[0]


def names_in(text):
    """What stands between backquotes."""
    return re.findall(r"`([^`]+)`", text)


def changed_since(commit):
    """The files that differ from a commit, and those that are new."""
    def told(*words):
        return subprocess.run(["git", *words], cwd=TOP, capture_output=True, text=True, check=True).stdout.split("\n")
    return sorted({it for it in told("diff", "--name-only", commit) + told("ls-files", "--others", "--exclude-standard") if it})


def is_named(path, names):
    """Whether a row that has these names names a file."""
    parts = path.split("/")
    if parts[0] == "crates":
        if parts[1] not in {re.split(r"[/:]", it)[0] for it in names}:
            return False
        path, parts = "/".join(parts[2:]), parts[2:]
    ways = {path, parts[-1], "/".join(parts[-2:]), *("/".join(parts[:k]) + "/" for k in range(1, len(parts)))}
    return any(it in ways or it.endswith("/" + path) for it in names)


def always(row):
    """The files that a row names in sentences without a condition."""
    for sentence in END.split(row):
        if not WHEN.match(sentence):
            yield from (it for it in names_in(sentence) if it.endswith(ENDINGS))


def main():
    begin(__doc__)
    if len(sys.argv) not in (2, 3):
        print(__doc__.split("\n\n")[1])
        return 2
    row = row_of(sys.argv[1])
    changed, names = changed_since((sys.argv[2:] or ["HEAD"])[0]), names_in(row)
    unnamed = [f"not named: {it}" for it in changed if not is_named(it, names)]
    stayed = [f"stayed: {it}" for it in sorted(set(always(row)))
              if not any(path.endswith("/" + it) or path == it or it.endswith("/") and f"/{it}" in path for path in changed)]
    print(*unnamed, *stayed, f"additions: {len(changed)} files, {len(unnamed)} not named, {len(stayed)} stayed", sep="\n")
    return 1 if unnamed else 0


if __name__ == "__main__":
    sys.exit(main())
