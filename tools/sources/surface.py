#!/usr/bin/env python3
"""Prints what a crate shows to other crates and no other crate uses, what is cited or imported for nothing, and
where want of memory is said without an allocator's error.

    tools/sources/surface.py        a line for each; the last line is `surface: N shown, N unused, N hidden, N uncited, N idle,
                                    N made up`

Looked at are lemma files (`pub mod` in proofs/Lib.antt, used by an import of the file), and what
src/lib.rt shows of other crates (`pub use other::..`, used by an import of the name from this crate). A
lemma file that is `mod` but that another crate imports is hidden, and that crate won't be proved. A lemma
or a definition in a lemma file is cited if its name stands in that file beside its own lines, or if another
source imports it from that file; proofs of goals are cited by the prover, and examples by nobody. A ghost
name is idle if a source imports it and doesn't have each of its words or signs beside its imports.

Want of memory may come in place of any answer, and no contract can say that it comes only if an allocation
failed, since the error of an allocator is a value that anybody can write. So nobody may: outside of contracts
`AllocError`, `AllocFailed` and `NoMemory` stand only as types, in patterns, and in the arm of a match on want of
memory (`Err(NoMemory) => Said::NoMemory`, `Err(Refusal::NoMemory) => Err(NoMemory)`), and a variant
`X::NoMemory` is also made by a function that is given such an error (`fn from(_failed: AllocError)`), or by the
functions of MADE_UP. What is made elsewhere is made up. Tests say what they expect, so the crates `worked_` aren't looked at.

The status is 1 if something is unused, hidden, uncited, idle or made up, but for what LEFT names; it is 1 too if LEFT
names what isn't there any more.
"""
import os
import re
import sys

import folders
from beginning import begin
from programs import TOP

CRATES = os.path.join(TOP, "crates")
LEMMA_FILE = re.compile(r"Rattle\.(\w+)\.proofs\.(\w+)")
# Files of proofs whose names the prover looks for, or that are examples.
OTHER_PROOFS = ("Answers.antt", "Invariants.antt", "Measures.antt", "Proof.antt", "Examples.antt")
LEMMA = re.compile(r"^(?:pub )?(?:abbrev )?(?:pub )?(?:record )?([A-Za-z_][\w'-]*) [:({]", re.MULTILINE)
IMPORTED = re.compile(r"Rattle\.(\w+)\.proofs\.(\w+)\.\{([^}]*)\}")
NAMED = re.compile(r"(\w+)::proofs::(\w+)::([\w-]+)")
GHOST_USE = re.compile(r"^ghost use [^{;]+\{([^}]*)\};\n", re.MULTILINE)
WORD = re.compile(r"[A-Za-z_][\w'-]*")
NAMES = re.compile(r"\b(\w+)::(\{[^}]*\}|\w+)")
# Functions that say want of memory for another reason: no memory has as many bytes as were asked for; the
# system says that the words of the command line can't be had, but not as an allocator does.
MADE_UP = {("mu_io", "read_all"), ("mu_drawing", "unread_output"), ("mu_top", "end_without_words")}
# What is left as it is until its crate is proved anew for another reason.
LEFT = set()
# What is no code: comments, texts, ghost items, and imports; and where a clause begins.
NO_CODE = re.compile(r'//[^\n]*|b?"(?:[^"\\]|\\(?s:.))*"|b?\'(?:[^\'\\\n]|\\[^\n]{1,4})\'|\bghost use [^;]*;|\b(?:pub )?use [^;]*;')
CLAUSE = re.compile(r"\b(?:(?:requires|ensures)\*?(?: \w+)? \{|ghost [\w ]+(?: =|:) \{)")
HEADER = re.compile(r"\b(?:fn|impl|enum)\b[^{;]*")
REFUSAL = re.compile(r"(?<![\w:])((?:\w+::)*)(AllocError|AllocFailed|NoMemory)\b(?!\s*>|<|::from\b)")
# What stands behind a pattern, and before what an arm on want of memory answers.
IN_PATTERN = re.compile(r"[\s)]*(?:\|[^=;]*)?=(?!=)")
IN_ARM = re.compile(r"(?:^|[{,}])\s*[^{},;|]*\b(?:AllocError|NoMemory)\)*\s*=>\s*(?:return )?[\w:(]*$")
GIVEN = re.compile(r":\s*(?:AllocError|AllocFailed<\w+>|NoMemory)\s*[,)]")
IMPORTS = re.compile(r"^(?:pub )?use ([^;]*);", re.MULTILINE)
RENAMED = re.compile(r"^(?!ghost )[^\n]*\b(?:Alloc(?:Error|Failed) as (?!NoMemory\b)|NoMemory as )\w+", re.MULTILINE)


def sources(crate):
    """The path and the text of every source of a crate."""
    for folder, below, names in os.walk(os.path.join(CRATES, crate)):
        below[:] = [it for it in below if it != "out"]
        for name in sorted(names):
            if name.endswith((".rt", ".antt", ".edit")):
                path = os.path.join(folder, name)
                with open(path, encoding="utf-8") as text:
                    yield path, text.read()


def texts(crate):
    """The text of every source of a crate."""
    return (text for _, text in sources(crate))


def contents(crate, *path):
    try:
        with open(os.path.join(CRATES, crate, *path), encoding="utf-8") as text:
            return text.read()
    except FileNotFoundError:
        return ""


def used_by(crates):
    """Which crates import each lemma file, and each name from each crate."""
    used = {}
    for crate in crates:
        for text in texts(crate):
            for owner, lemmas in LEMMA_FILE.findall(text):
                used.setdefault((owner, lemmas), set()).add(crate)
            for owner, names in NAMES.findall(text):
                for name in re.findall(r"\w+", names):
                    used.setdefault((owner, name), set()).add(crate)
    return used


def shown(crate):
    """What a crate shows to others: its lemma files, and names of other crates."""
    for name in re.findall(r"^pub mod (\w+)", contents(crate, "proofs", "Lib.antt"), re.MULTILINE):
        yield name, f"crates/{crate}/proofs/{name}.antt"
    for owner, names in re.findall(r"^pub use (\w+)::(\{[^}]*\}|\w+)", contents(crate, "src", "lib.rt"), re.MULTILINE):
        if os.path.isdir(os.path.join(CRATES, owner)):
            for name in re.findall(r"\w+", names):
                yield name, f"crates/{crate}/src/lib.rt: {owner}::{name}"


def hidden(crate):
    """Its lemma files that are for the crate itself."""
    for name in re.findall(r"^mod (\w+)", contents(crate, "proofs", "Lib.antt"), re.MULTILINE):
        yield name, f"crates/{crate}/proofs/{name}.antt: hidden, but imported"


def cited_beside(text, name):
    """Whether a name stands in a text outside the lines of its own declaration."""
    own = rf"(?ms)^(?:pub )?(?:abbrev )?(?:pub )?(?:record )?{re.escape(name)}(?![\w'-]).*?(?=^\S)"
    return name in WORD.findall(re.sub(own, "", text + "\nend"))


def imported(crate, text):
    """The lemmas that a source of a crate imports, each with its crate and its file."""
    for owner, lemmas, names in IMPORTED.findall(text):
        for name in names.split(","):
            yield owner, lemmas, name.split(" as ")[0].strip()
    for owner, lemmas, name in NAMED.findall(text):
        yield crate if owner == "crate" else owner, lemmas, name


def uncited(crates):
    """Lemmas that nothing cites."""
    cited = {it for crate in crates for text in texts(crate) for it in imported(crate, text)}
    for crate in crates:
        for path, text in sources(crate):
            folder, file = os.path.split(path)
            if os.path.basename(folder) == "proofs" and not path.endswith(OTHER_PROOFS):
                for name in sorted(set(LEMMA.findall(text))):
                    if (crate, file[: -len(".antt")], name) not in cited and not cited_beside(text, name):
                        yield f"{os.path.relpath(path, TOP)}: {name} is cited nowhere"


def idle_names(text):
    """Ghost names that a source imports and doesn't use."""
    rest = re.sub(r"//.*", "", GHOST_USE.sub("", text))
    words = set(WORD.findall(rest))
    for name in ",".join(GHOST_USE.findall(text)).split(","):
        parts = name.split(" as ")[-1].strip().split("◌")
        if not all(it in (words if WORD.fullmatch(it) else rest) for it in parts):
            yield name.strip()


def idle_imports(crates):
    """Where a ghost name is imported for nothing."""
    for crate in crates:
        for path, text in sources(crate):
            for name in idle_names(text):
                yield f"{os.path.relpath(path, TOP)}: {name} is imported for nothing"


def bare_code(text):
    """A source's code alone: without comments, texts, imports, ghost items and clauses."""
    rest, code = NO_CODE.sub(" ", text), ""
    while (found := CLAUSE.search(rest)) is not None:
        end, depth = found.end(), 1
        while depth:
            depth += {"{": 1, "}": -1}.get(rest[end], 0)
            end += 1
        code, rest = code + rest[: found.start()], rest[end:]
    return code + rest


def made_up_in(text):
    """The functions in which a source says want of memory without an allocator's error: a name for each time."""
    if RENAMED.search(text):
        yield "a name for an allocator's error"
    code = bare_code(text)
    headers = list(HEADER.finditer(code))
    known = {name for names in IMPORTS.findall(text) for name in WORD.findall(names)}
    for found in REFUSAL.finditer(code):
        before, header = code[: found.start()], [it for it in headers if it.start() < found.start()]
        if any(it.end() > found.start() for it in header) or header[-1][0].startswith("enum"):
            continue
        if IN_PATTERN.match(code, found.end()):
            # Without the import it would be a variable, which takes any error.
            if found[1] or found[2] in known:
                continue
        elif IN_ARM.search(before) or (found[1] and GIVEN.search(header[-1][0])):
            continue
        yield re.match(r"(?:fn (\w+))?", header[-1][0])[1] or header[-1][0].strip()


def made_up(crates):
    """Where want of memory is made up, and which exception is none any more."""
    left = set(MADE_UP)
    for crate in crates:
        for path, text in () if crate.startswith("worked_") else sources(crate):
            for function in made_up_in(text) if path.endswith(".rt") else ():
                if (crate, function) in left:
                    left.remove((crate, function))
                else:
                    yield f"{os.path.relpath(path, TOP)}: {function} makes up want of memory"
    for crate, function in sorted(left):
        yield f"crates/{crate}: {function} is no exception for want of memory any more"


def judged():
    """How much is shown, and what is unused, hidden but imported, cited nowhere, imported for nothing, or made up."""
    crates = sorted(os.listdir(CRATES))
    used = used_by(crates)

    def others(crate, name):
        return used.get((crate, name), set()) - {crate}

    all_shown = [(crate, name, where) for crate in crates for name, where in shown(crate)]
    unused = [where for crate, name, where in all_shown if not others(crate, name)]
    missing = [where for crate in crates for name, where in hidden(crate) if others(crate, name)]
    found = unused, missing, list(uncited(crates)), list(idle_imports(crates)), list(made_up(crates))
    stale = [f"{where}: nothing is left there" for where in sorted(LEFT - set(sum(found, [])))]
    return len(all_shown), tuple([it for it in kind if it not in LEFT] for kind in found[:-1]) + (found[-1] + stale,)


def main():
    begin(__doc__)
    count, found = judged()
    for where in sum(found, []):
        print(where)
    told = ", ".join(f"{len(it)} {kind}" for it, kind in zip(found, ("unused", "hidden", "uncited", "idle", "made up")))
    print(f"surface: {count} shown, {told}")
    return 1 if any(found) else 0


if __name__ == "__main__":
    sys.exit(main())
