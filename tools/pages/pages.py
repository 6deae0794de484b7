#!/usr/bin/env python3
"""Checks what the pages name: each path stands, each name is in some source, each link leads somewhere;
that pages keep their budgets, that each command and each tool has its help, that each crate is on the map, and that the
reasons of `mu why` have the words that are defined.

    tools/pages/pages.py        prints what is stale; the last line is `pages: N named, N stale`

What stands between backquotes in README.md, docs/ and the README.md of crates is checked: a path from the top, from crates/, or
from the crate named before it; a name of code or of a definition. Words of the formats (lower case,
without `_`) and commands are no names. The status is 1 if something is stale.
"""
import functools
import os
import re
import sys

import folders
import programs
from beginning import begin
from programs import TOP

ENDINGS = (".rt", ".antt", ".md", ".py", ".job", ".trace", ".list", ".svg", ".table", ".edit", ".txt", ".h", ".c")
FOLDERS = ("crates", "examples", "cases", "tools", "docs")
SKIPPED = {"out", ".git"}
# A name of code: two words joined by `_`, or two capitals with small letters between.
NAME = re.compile(r"[A-Za-z][A-Za-z0-9]*(_[A-Za-z0-9]+)+|([A-Z][a-z0-9]+){2,}")
PATH = re.compile(r"[\w.-]+(/[\w.-]+)+/?|[\w-]+\.(rt|antt|md|py|job|trace|svg|table|edit|txt)")
# Names of the toolchain and of the system, which stand in no source of ours.
FOREIGN = {"sched_yield", "NoMemory", "BTreeMap", "BTreeMaps", "crossbeam_utils", "left_right"}

# The words of a reason: its clause in the definition, the text that this names, and each value in its place.
REASON_CLAUSE = re.compile(r"^told_of \(?Reason\.(\w+)[^=\n]*=(.*\n(?:(?!told_of|\n).*\n)*)", re.MULTILINE)
TEXT = re.compile(r'^const (\w+): &\[u8\] =\s*b"([^"]*)";', re.MULTILINE)
TEXT_NAME = re.compile(r"\b[A-Z][A-Z_]+\b")
# Where a text goes on in the next line.
NEXT_LINE = re.compile(r"\\\n\s*")
VALUE = re.compile(r"Value\.\w+ (\w+)")
# In a row of two sentences: what stands between the first and the end of the second.
OTHER_END = "; or, if it has none, in place of the last words: "

# The budgets of docs/WORKING.md: the most words of a page, and of all together.
MOST_WORDS, MOST_IN_README, MOST_IN_SUM = 3_600, 1_900, 40_000
WORD = re.compile(r"\S*\w\S*")
# How a tool heeds `--help`. What a launcher starts never gets it: the launcher answers.
HELPS, LAUNCHED = re.compile(r"begin\(__doc__\)|ArgumentParser|\"--help\""), "tools/launchers/run_program.py"


def files():
    """Every file of ours, by its path from the top."""
    for folder, below, names in os.walk(TOP):
        below[:] = [it for it in below if it not in SKIPPED]
        for name in names:
            yield os.path.relpath(os.path.join(folder, name), TOP)


def crate_pages():
    """The pages of crates, which have no budget."""
    for crate in sorted(os.listdir(os.path.join(TOP, "crates"))):
        if os.path.exists(os.path.join(TOP, "crates", crate, "README.md")):
            yield f"crates/{crate}/README.md"


def pages():
    yield "README.md"
    for name in sorted(os.listdir(os.path.join(TOP, "docs"))):
        if name.endswith(".md"):
            yield "docs/" + name


def words_of_sources(paths):
    """Every word that stands in code, definitions, proofs, tools or tables, and each file's name."""
    words = set(FOREIGN)
    for path in paths:
        words |= set(re.findall(r"[A-Za-z_][A-Za-z0-9_]*", path))
        if path.endswith((".rt", ".antt", ".py", ".edit", ".txt", ".names", ".h", ".c")) or "." not in path:
            with open(os.path.join(TOP, path), encoding="utf-8", errors="replace") as text:
                words |= set(re.findall(r"[A-Za-z_][A-Za-z0-9_]*", text.read()))
    return words


def stands(path, known):
    """Whether a path stands, from the top, from crates/ or below some crate."""
    path = path.rstrip("/")
    return any(it in known for it in (path, "crates/" + path)) or any(
        it.endswith("/" + path) for it in known)


def names_in(line):
    """What a line of a page names: paths and names of code, without what a command writes or a user brings."""
    for piece in re.findall(r"`([^`]+)`", line):
        for word in re.sub(r">\s*\S+|<\s*[^\s/]+(?=\s|$)", "", piece).split():
            word = word.strip(",;:()<>|[]\"'")
            if word.startswith(("out/", "/", "./out", "-")):
                continue
            word = word.removeprefix("./")
            if PATH.fullmatch(word) and (word.endswith(ENDINGS) or word.split("/")[0] in FOLDERS):
                yield word, True
            else:
                yield from ((it, False) for it in re.split(r"[^A-Za-z0-9_]+", word) if NAME.fullmatch(it))


@functools.lru_cache(None)
def headings(page):
    """The headings of a page, as links name them: in small letters, spaces as `-`, other signs left out."""
    with open(os.path.join(TOP, page), encoding="utf-8") as text:
        found = re.findall(r"^#+ (.+)$", text.read(), re.MULTILINE)
    return {re.sub(r"[^\w -]", "", it.lower()).replace(" ", "-") for it in found}


def leads(page, link, known):
    """Whether a link of a page leads to a file, and to a heading of it if it names one."""
    path, _, heading = link.partition("#")
    at = os.path.normpath(os.path.join(os.path.dirname(page), path)) if path else page
    return at in known and (not heading or heading in headings(at))


def words_of(text):
    """How many words a page has: the bars and rules of its tables are none."""
    return len(WORD.findall(text))


def contents(page):
    with open(os.path.join(TOP, page), encoding="utf-8") as text:
        return text.read()


def too_long():
    """The pages that are longer than they may be, and all together if they are."""
    whole = {page: words_of(contents(page)) for page in pages()}
    for page, words in whole.items():
        most = MOST_IN_README if page == "README.md" else MOST_WORDS
        if words > most:
            yield f"{page}: {words} words, at most {most} are wanted"
    if sum(whole.values()) > MOST_IN_SUM:
        yield f"all pages: {sum(whole.values())} words, at most {MOST_IN_SUM} are wanted"


def off_the_map():
    """The crates that docs/MAP.md has neither in its picture nor among the tests."""
    with open(os.path.join(TOP, "crates.txt"), encoding="utf-8") as crates:
        names = re.findall(r"^(\w+)[^:\n]*:", crates.read(), re.MULTILINE)
    with open(os.path.join(TOP, "docs", "MAP.md"), encoding="utf-8") as text:
        lines = re.findall(r"^      \w+|^Tests: .*", text.read(), re.MULTILINE)
    there = set(re.findall(r"\w+", " ".join(lines)))
    return [f"docs/MAP.md: the crate {name} isn't there" for name in names if name not in there]


def without_help():
    """The commands of the usage lines of which the help of ./mu and ./mu_draw says nothing."""
    launcher, told = (os.path.join(TOP, "tools", "launchers", name) for name in ("run_program", "program_help.bash"))
    with open(launcher, encoding="utf-8") as usage, open(told, encoding="utf-8") as text:
        forms, lines = re.findall(r'echo "usage: (.*)"', usage.read()), text.read()
    for form in ", ".join(forms).split(", "):
        if not re.search(rf"^    {form.removeprefix('mu ')}( |$)", lines, re.MULTILINE):
            yield f"tools/launchers/program_help.bash: {form} isn't there"


def tools_without_help():
    """The tools that can be started and don't say with `--help` what they do."""
    for folder, _, names in os.walk(os.path.join(TOP, "tools")):
        for path in (os.path.relpath(os.path.join(folder, it), TOP) for it in sorted(names) if it.endswith(".py")):
            if path != LAUNCHED and os.access(os.path.join(TOP, path), os.X_OK) and not HELPS.search(contents(path)):
                yield f"{path}: --help isn't heeded"


def defined_reasons():
    """The sentences of each reason of `mu why`, from their definition, each value in italics."""
    sentences = {}
    texts = {name: NEXT_LINE.sub("", text) for name, text in TEXT.findall(contents("crates/mu_model/src/wording.rt"))}
    for reason, body in REASON_CLAUSE.findall(contents("crates/mu_model/specs/Points.antt")):
        words = texts[TEXT_NAME.search(body)[0]].replace("#", "*{}*")
        sentences.setdefault(reason, []).append(words.format(*VALUE.findall(body)))
    return sentences


def told_reasons(page):
    """Those that a page tells, in its table of words."""
    table = page.split("## Their words\n")[1].split("\n## ")[0]
    sentences = {}
    for reason, cell in re.findall(r"^\| (\w+) \| (.*) \|$", table, re.MULTILINE)[1:]:
        first, _, end = cell.partition(OTHER_END)
        sentences[reason] = [first, first.rpartition(": ")[0] + ": " + end] if end else [first]
    return sentences


def other_words():
    """The reasons of which docs/WHY.md tells other words than those that are defined."""
    defined, told = defined_reasons(), told_reasons(contents("docs/WHY.md"))
    for reason in sorted(set(defined) | set(told)):
        if defined.get(reason) != told.get(reason):
            yield f"docs/WHY.md: {reason}: {told.get(reason)}, and {defined.get(reason)} is defined"


def judged():
    """How many things the pages name, and where one is stale."""
    paths = list(files())
    known = set(paths)
    for path in paths:
        while "/" in path:
            path = path.rsplit("/", 1)[0]
            known.add(path)
    words = words_of_sources(it for it in paths if not it.startswith("docs/"))
    named, stale = 0, []
    for page in [*pages(), *crate_pages()]:
        with open(os.path.join(TOP, page), encoding="utf-8") as text:
            for number, line in enumerate(text, 1):
                found = [(it, stands(it, known) if is_path else it in words) for it, is_path in names_in(line)]
                found += [(it, leads(page, it, known)) for it in re.findall(r"\]\(([^) ]+)\)", line)
                          if not it.startswith("http")]
                named += len(found)
                stale += [f"{page}:{number}: {it}" for it, good in found if not good]
    return named, stale + list(too_long()) + list(without_help()) + list(tools_without_help()) + off_the_map() + list(other_words())


def main():
    begin(__doc__)
    named, stale = judged()
    return programs.tell(stale, f"pages: {named} named, {len(stale)} stale")


if __name__ == "__main__":
    sys.exit(main())
