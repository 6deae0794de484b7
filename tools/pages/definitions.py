#!/usr/bin/env python3
"""Makes out/DEFINITIONS.md, the list of terms with their files, from the first lines of the files of definitions.

    tools/pages/definitions.py            writes the list
    tools/pages/definitions.py --check    prints which file has no row; the last line is `definitions: N rows, N wrong`

A file of definitions (specs/ of each crate, but for the crates of tests) begins with a comment that
names its terms and says in one sentence what they are:

    -- history, part, prefix: the list with the newest event first; the events of one replica, in order; ..

Each paragraph of that form is a row of the list. What else the comment says begins with a capital
letter, stands after an empty line `--`, and isn't taken over. If no paragraph names terms, the row has
the name of the file in words, and the first sentence of the comment. The status is 1 if a file
begins with no comment.
"""
import os
import re
import sys

import folders
import programs
from beginning import begin
from programs import CRATES, TOP

PAGE = os.path.join(TOP, "out", "DEFINITIONS.md")
# The crates of tests, whose definitions serve only them.
TESTS = "worked_"
# A row: the terms, and after the first colon what they are.
ROW = re.compile(r"(?P<terms>[a-z][a-z0-9 ,()'-]*): (?P<sentence>.+)\.")
HEAD = """# Definitions

A *history* is a list of events with the newest first; contracts cite the history of a list. The crates come from the ground up, and in a crate each file after those that it cites. `tools/pages/definitions.py` makes this list: a row is the first comment of its file. `docs/READING.md` tells how such a file is read.

| term | in one sentence | file |
|---|---|---|
"""


def text_of(path):
    with open(path, encoding="utf-8") as text:
        return text.read()


def crates():
    """The crates of definitions, from the ground up."""
    names = re.findall(r"^(\w+).*:", text_of(os.path.join(TOP, "crates.txt")), re.MULTILINE)
    return [name for name in reversed(names) if not name.startswith(TESTS)]


def files_of(crate):
    """The files of a crate's definitions, each after those that it cites."""
    folder = os.path.join(CRATES, crate, "specs")
    if not os.path.isdir(folder):
        return []
    texts = {name.removesuffix(".antt"): text_of(os.path.join(folder, name))
             for name in sorted(os.listdir(folder)) if name.endswith(".antt") and name != "Lib.antt"}
    cites = rf"^(?:pub )?use Rattle\.{crate}\.specs\.(\w+)\."
    order = []

    def add(name):
        if name in texts and name not in order and name not in under_way:
            under_way.add(name)
            for cited in sorted(re.findall(cites, texts[name], re.MULTILINE)):
                add(cited)
            order.append(name)

    under_way = set()
    for name in texts:
        add(name)
    return [(f"{crate}/specs/{name}.antt", texts[name]) for name in order]


def paragraphs(text):
    """The paragraphs of the comment with which a file begins."""
    comment = re.match(r"(?:--.*\n)*", text).group(0)
    lines = [line.removeprefix("--").strip() for line in comment.splitlines()]
    return [" ".join(it.split("\n")) for it in "\n".join(lines).split("\n\n")]


def unnamed_row(path, comment):
    """The row of a file that names no terms, if it says something: its name, and its first sentence."""
    words = re.findall("[A-Z][a-z0-9]*", os.path.basename(path))
    sentence = comment.split(". ")[0].removesuffix(".")
    return [(" ".join(words).lower(), sentence[0].lower() + sentence[1:])] if sentence else []


def rows():
    """For each file its path and its rows, which are terms and a sentence."""
    for crate in crates():
        for path, text in files_of(crate):
            said = paragraphs(text)
            found = [ROW.fullmatch(it) for it in said]
            yield path, [it.group("terms", "sentence") for it in found if it] or unnamed_row(path, said[0])


def page(all_rows):
    lines = [f"| {terms} | {sentence} | `{path}` |\n" for path, them in all_rows for terms, sentence in them]
    return HEAD + "".join(lines)


def judged():
    """How many rows the list has, and which file has none."""
    all_rows = list(rows())
    silent = [f"crates/{path}: no comment says what it defines" for path, them in all_rows if not them]
    return sum(len(them) for _, them in all_rows), silent


def main():
    begin(__doc__)
    if sys.argv[1:] not in ([], ["--check"]):
        print("usage: tools/pages/definitions.py [--check]")
        return 1
    if not sys.argv[1:]:
        os.makedirs(os.path.dirname(PAGE), exist_ok=True)
        with open(PAGE, "w", encoding="utf-8") as out:
            out.write(page(rows()))
    count, silent = judged()
    return programs.tell(silent, f"definitions: {count} rows, {len(silent)} wrong")


if __name__ == "__main__":
    sys.exit(main())
