#!/usr/bin/env python3
"""Lists what a proof rests on besides the proofs: each `unsafe`, each export, each access that C makes, each crate of the kit.

    tools/sources/trusted.py            the list
    tools/sources/trusted.py --check    tells which crate of the kit, folder of C or library README's "What is trusted" doesn't
                                        name, and which access in C the list lacks; ./test calls it

The toolchain and the statements of its standard library are trusted too; they aren't in the sources.
"""
import os
import re
import shutil
import subprocess
import sys

import folders
from beginning import begin
import c_programs
from library_parts import PARTS
from programs import TOP, tell

EXPORT = re.compile(r"#\[unsafe\(no_mangle\)\]\s*pub extern \"C\" fn (\w+)")
UNSAFE = re.compile(r"\bunsafe (impl|fn|\{)")
# What makes an access of shared memory in C: an atomic operation, or one of a network card.
ACCESS = re.compile(r"\b(atomic_\w+|__atomic_\w+|__sync_\w+|fi_\w*atomic\w*|fi_read\w*|fi_write\w*)\s*\(")
# What clang says of an access to an atomic word that no operation names.
UNNAMED = re.compile(r"^(\S+:\d+):\d+: warning: implicit use .*\n(.*)", re.MULTILINE)
FUNCTION = re.compile(r"^[a-z][\w *]*?\b(\w+)\([^;{}]*\)\s*\{", re.MULTILINE)


def files(folder, *endings):
    """The files below a folder with one of these endings, by name."""
    for at, folders, names in os.walk(os.path.join(TOP, folder)):
        folders[:] = sorted(it for it in folders if it != "out")
        yield from (os.path.join(at, name) for name in sorted(names) if name.endswith(endings))


def text_of(path):
    """What stands in a file."""
    with open(path, encoding="utf-8") as it:
        return it.read()


def placed(path, text, place):
    """A place of a text, as file and line."""
    return f"{os.path.relpath(path, TOP)}:{text.count(chr(10), 0, place) + 1}"


def unsafes():
    """Each `unsafe` of the crates but those of exports."""
    for path in files("crates", ".rt"):
        text = text_of(path)
        for found in UNSAFE.finditer(text):
            line = text[text.rfind("\n", 0, found.start()) + 1:text.find("\n", found.start())].strip()
            if not line.startswith("//"):
                yield f"{placed(path, text, found.start())}: {line}"


def exports():
    """Each function that C may call: those of the crates, and those of the C files of the library."""
    for path in files("crates", ".rt"):
        text = text_of(path)
        yield from (f"{placed(path, text, found.start())}: {found[1]}" for found in EXPORT.finditer(text))
    for path in (os.path.join(TOP, "c", f"{name}.c") for name in PARTS):
        text = text_of(path)
        yield from (f"{placed(path, text, found.start())}: {found[1]}" for found in FUNCTION.finditer(text)
                    if not found[0].startswith("static"))


def accesses():
    """Each function in C that makes an access of shared memory, with what it calls."""
    for path in files("c", ".c", ".h"):
        text = text_of(path)
        starts = [(found.start(), found[1]) for found in FUNCTION.finditer(text)]
        for (start, name), (end, _) in zip(starts, [*starts[1:], (len(text), "")]):
            calls = sorted({found[1] for found in ACCESS.finditer(text, start, end)})
            if calls:
                yield f"{placed(path, text, start)}: {name}: {', '.join(calls)}"


def unlisted():
    """Each access in C that the list lacks: outside functions, or by the bare name of an atomic word, as clang tells it."""
    for path in files("c", ".c", ".h"):
        text = text_of(path)
        first = FUNCTION.search(text)
        for found in ACCESS.finditer(text, 0, first.start() if first else len(text)):
            yield f"{placed(path, text, found.start())}: {found[1]} stands in no function"
    folders = [os.path.join(TOP, it) for it in c_folders()]
    words = ["clang", "-std=c11", "-mcx16", "-fsyntax-only", "-Watomic-implicit-seq-cst", *(f"-I{it}" for it in folders)]
    for path in files("c", ".c") if shutil.which("clang") else ():
        told = subprocess.run([*words, path], capture_output=True, text=True, check=False).stderr
        yield from (f"{os.path.relpath(at, TOP)}: an access to an atomic word that no operation names"
                    for at, line in UNNAMED.findall(told) if not ACCESS.search(line))


def kit_crates():
    """The crates of the kit on which one of the repository stands."""
    lines = [line.split(":") for line in text_of(os.path.join(TOP, "crates.txt")).split("\n")
             if ":" in line and not line.startswith("#")]
    own = {head.split()[0] for head, _ in lines}
    return sorted({name for _, names in lines for name in names.split()} - own)


def c_folders():
    """The folders with programs in C."""
    return sorted({os.path.relpath(os.path.dirname(path), TOP) for path in files("c", ".c")})


def linked():
    """The libraries beside the C library with which a program of c/ is linked."""
    words = [word for _, words in c_programs.PARTS.values() for word in words]
    return sorted({f"lib{word[2:]}" for word in words if word.startswith("-l")})


def judged():
    """How many crates of the kit, folders of C and libraries there are, and the list of accesses; which of them README doesn't name as
    trusted, and which accesses the list lacks."""
    said = text_of(os.path.join(TOP, "README.md")).split("## What is trusted", 1)[1].split("\n## ", 1)[0]
    # `core`, `std_heap` and the like are the standard library.
    named = [name for name in kit_crates() if not re.fullmatch(r"core|std_\w+", name)]
    named += c_folders()
    missing = [it for it in named if f"`{it}`" not in said] + [it for it in linked() if it not in said]
    return len(named) + len(linked()) + 1, [*(f"README.md: {it} isn't named among what is trusted" for it in missing), *unlisted()]


def main():
    begin(__doc__)
    if sys.argv[1:] == ["--check"]:
        count, wrong = judged()
        return tell(wrong, f"trusted: {count - len(wrong)} named, {len(wrong)} missing")
    for what, lines in (("unsafe", unsafes()), ("exports", exports()), ("accesses in C", accesses()),
                        ("crates of the kit", kit_crates()), ("folders of C", c_folders()), ("libraries", linked())):
        lines = list(lines)
        print(f"{what}: {len(lines)}", *(f"    {line}" for line in lines), sep="\n")
    return 0


if __name__ == "__main__":
    sys.exit(main())
