#!/usr/bin/env python3
"""Checks that each clause that docs/PROVED.md and docs/LAWS.md name is one of the function that it names, and that each name
that tells its crate and file stands there.

    tools/pages/clauses.py      prints what is stale; the last line is `clauses: N right, N stale`

The second column of its tables names what carries a claim, as `f`, `Type::g`: `clause`, `other` (`Definition`).
A clause is one of the `ensures` of a function of this name; of a type or a record it is a call or a part. A name may
begin with its place: `crate::file::f` (`crate::f` in src/lib.rt), `crate.File.Definition`.

On all pages a link whose text is names, as [`f`: `clause`](crates/x/src/f.rt) or [`Definition`](crates/x/specs/D.antt),
has to lead to the file where they stand. In the lists of the sections that promise (PROMISES) each sentence has such
a link, unless it says what isn't promised, or explains the one before. The status is 1 if something is stale.
"""
import collections
import functools
import os
import re
import sys

import folders
import programs
from beginning import begin
from programs import CRATES, TOP

PAGES = ("docs/PROVED.md", "docs/LAWS.md")
BEGINS_TYPE = re.compile(r"(?:impl(?:<.*?>)? (?:[\w<>, ]+ for )?|pub record |pub trait )(\w+)")
BEGINS_CALL = re.compile(r"\s*(?:pub(?:\([^)]*\))? )?(?:unsafe )?(?:extern \"C\" )?fn (\w+)")
CLAUSE = re.compile(r"\s*ensures (\w+) \{")
PART = re.compile(r"  pub (\w+) :")
# A link whose text is names.
LINK = re.compile(r"\[((?:`[^`\]]+`(?:: |, )?)+)\]\(([^)\s]+\.(?:rt|antt))\)")
# The sections that promise, and how a sentence begins or ends that needs no clause: it promises nothing, explains what
# stands before it, or is what a check of the whole crate says.
PROMISES = {"README.md": "What is proved", "docs/ENGINE.md": "What it promises", "docs/ALIVE.md": "What is promised"}
NEEDS_NONE = re.compile(r"Nothing is |None is |That is: |.*\(the check of each crate\)")
# Where a sentence ends: before a capital, a sign of code or a bold word.
SENTENCE = re.compile(r"(?<=[.!?])\s+(?=[A-Z`*\[])")
# How a source begins a function or a type, and a file of definitions a definition.
IN_CODE, IN_SPECS = r"\b(?:fn|struct|enum|trait) {}\b", r"^(?:abbrev )?pub (?:record |data )?{}\b"


def parts_of(text):
    """What a source says of each function, type and record: its clauses, calls or parts."""
    owner = call = None
    for line in text.split("\n"):
        if begins := BEGINS_TYPE.match(line):
            owner = begins.group(1)
        elif begins := BEGINS_CALL.match(line):
            call = begins.group(1)
            if line.startswith(" "):
                yield owner, call
        elif clause := CLAUSE.match(line):
            yield call, clause.group(1)
            yield f"{owner}::{call}", clause.group(1)
        elif part := PART.match(line):
            yield owner, part.group(1)


def known():
    """Each name of the sources with its clauses, calls or parts."""
    found = collections.defaultdict(set)
    for folder, below, names in os.walk(CRATES):
        below[:] = [it for it in below if it != "out"]
        for name in names:
            if name.endswith(".rt") or (name.endswith(".antt") and os.path.basename(folder) == "specs"):
                with open(os.path.join(folder, name), encoding="utf-8") as text:
                    for owner, part in parts_of(text.read()):
                        found[owner].add(part)
    return found


@functools.lru_cache(None)
def source(*path):
    """A file below crates/; nothing if there is none."""
    try:
        with open(os.path.join(CRATES, *path), encoding="utf-8") as text:
            return text.read()
    except OSError:
        return ""


def place_of(name):
    """Where a name that begins with its crate says that it stands: the file and the rest of the name. None if it
    doesn't begin so."""
    crate, *rest = re.split(r"::|\.", name)
    if not rest or not os.path.isdir(os.path.join(CRATES, crate)):
        return None
    if "." in name:
        return (crate, "specs", rest[0] + ".antt"), rest[1:]
    if len(rest) > 1 and source(crate, "src", rest[0] + ".rt"):
        return (crate, "src", rest[0] + ".rt"), rest[1:]
    return (crate, "src", "lib.rt"), rest


def stands(name):
    """Whether a name stands where it says."""
    path, rest = place_of(name)
    begins = (IN_SPECS if path[1] == "specs" else IN_CODE).format(rest[-1] if rest else "")
    return bool(rest) and bool(re.search(begins, source(*path), re.M))


def short(name):
    """A name without its place."""
    place = place_of(name)
    return "::".join(place[1]) if place else name


def carriers(line):
    """The second column of a row of a table."""
    cells = [it.strip() for it in line.strip().strip("|").split(" | ")]
    return cells[1] if line.startswith("| ") and len(cells) > 1 else ""


def placed_in(line):
    """The names of a row that begin with their place."""
    return [it for it in re.findall(r"`([^`]+)`", carriers(line)) if place_of(it)]


def named_in(line):
    """What a row of a table names: pairs of a function, type or record and one of its clauses, calls or parts."""
    for piece in carriers(line).split(";"):
        owners, colon, parts = re.sub(r"\([^)]*\)", "", piece).replace("::", "@").partition(":")
        if colon:
            for owner in re.findall(r"`([^`]+)`", owners):
                yield from ((short(owner.replace("@", "::")), part) for part in re.findall(r"`([^`]+)`", parts))


def is_named(text, name, is_code):
    """Whether a source has a function, a type or a definition of this name, or a definition a part."""
    ways = [IN_CODE] if is_code else [IN_SPECS, r"^  pub {} :"]
    return any(re.search(way.format(name), text, re.M) for way in ways)


def unlinked_names(text, words, is_code):
    """The names of a link that its file doesn't have: of `f`: `a`, `b` the last are clauses of f, parts or calls."""
    owner, colon, rest = words.partition(": ")
    names = re.findall(r"`([^`]+)`", words)
    if not colon:
        return [it for it in names if not is_named(text, it.split("::")[-1], is_code)]
    owner = owner.strip("`").split("::")[-1]
    parts = [part for of, part in parts_of(text) if of == owner]
    return [] if is_named(text, owner, is_code) and set(names[1:]) <= set(parts) else names


def linked():
    """How many links of the pages lead to the names that they tell, and which don't."""
    right, stale = 0, []
    for page in ["README.md", *("docs/" + it for it in sorted(os.listdir(os.path.join(TOP, "docs"))))]:
        with open(os.path.join(TOP, page), encoding="utf-8") as lines:
            for number, line in enumerate(lines, 1):
                for words, path in LINK.findall(line):
                    at = os.path.normpath(os.path.join(TOP, os.path.dirname(page), path))
                    text = source(os.path.relpath(at, CRATES))
                    missing = unlinked_names(text, words, path.endswith(".rt"))
                    right += not missing
                    stale += [f"{page}:{number}: {path} has no {', '.join(missing)}"] if missing else []
    return right, stale


def promising(page, section):
    """The sentences in the lists of a section."""
    with open(os.path.join(TOP, page), encoding="utf-8") as text:
        body = text.read().split(f"\n## {section}\n")[1].split("\n## ")[0]
    for item in re.findall(r"^ *- (.*(?:\n +(?! *- ).*)*)", body, re.M):
        bold = re.sub(r"^\*\*[^*]*[.]\*\* ", "", item)
        yield from SENTENCE.split(bold)


def without_clause():
    """The sentences that promise and have no link to a clause."""
    for page, section in PROMISES.items():
        sentences = list(promising(page, section))
        if not sentences:
            yield f"{page}: {section} promises nothing"
        yield from (f"{page}: no clause: {it}" for it in sentences if not LINK.search(it) and not NEEDS_NONE.match(it))


def judged():
    """How many clauses stand as the pages say, and which doesn't."""
    parts, (right, stale) = known(), linked()
    stale += without_clause()
    for page in PAGES:
        with open(os.path.join(TOP, page), encoding="utf-8") as lines:
            for number, line in enumerate(lines, 1):
                named = [(f"`{owner}` has no `{part}`", part in parts[owner]) for owner, part in named_in(line)]
                named += [(f"`{name}` doesn't stand there", stands(name)) for name in placed_in(line)]
                right += sum(good for _, good in named)
                stale += [f"{page}:{number}: {what}" for what, good in named if not good]
    return right, stale


def main():
    begin(__doc__)
    right, stale = judged()
    return programs.tell(stale, f"clauses: {right} right, {len(stale)} stale")


if __name__ == "__main__":
    sys.exit(main())
