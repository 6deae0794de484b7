"""The traces that the implementations of examples/own log, with what `mu why` has to say of each."""
import os
import re
import shutil
import subprocess
import sys
import tempfile

from programs import EXAMPLES, TOP
from run_cases import contents, wanted_status
from trying import Case

OWN = os.path.join(EXAMPLES, "own")
# How each runs; what is wanted stands beside it, in replicas.KIND.WORD.stdout.
RUNS = {"c": ["right", "no-enter", "no-drain"], "py": ["right", "early", "seen", "hasty"]}
# The runs that tell what clients saw.
SEEN = {"seen", "hasty"}
# Threads make it differ where in the list an event stands.
PLACE = re.compile(rb"^illegal (after )?\d+ at line \d+$", re.MULTILINE)


class OwnCase(Case):
    """A trace of an implementation of examples/own."""

    def trouble(self, answer):
        answer.output = PLACE.sub(rb"illegal \1I at line L", answer.output)
        return super().trouble(answer)


def c_compiler():
    """The C compiler that the environment names, else the first that there is; else None."""
    return os.environ.get("CC") or next(filter(shutil.which, ("cc", "gcc", "clang")), None)


def preloaded(name, room):
    """The path of what is loaded before the C library, built of tools/speed/NAME.c into this folder; None without a compiler."""
    compiler, path = c_compiler(), os.path.join(room, f"{name}.so")
    if compiler is None:
        return None
    source = os.path.join(TOP, "tools", "speed", f"{name}.c")
    subprocess.run([compiler, "-std=c11", "-O2", "-shared", "-fPIC", "-o", path, source, "-ldl"], check=True)
    return path


def cxx_compiler():
    """The C++ compiler that the environment names, else the first that there is; else None."""
    return os.environ.get("CXX") or next(filter(shutil.which, ("c++", "g++", "clang++")), None)


def header_troubles():
    """What compilers say of c/mu.h, of its uses and of the other files of c/, as C and as C++; and what is left out
    for want of one."""
    header = os.path.join(TOP, "c")
    uses, replicas = os.path.join(header, "uses.c"), os.path.join(OWN, "replicas.c")
    parts = [os.path.join(header, it) for it in ("heap.c", "new.c", "small_stack.c", "sessions.c")]
    wanted = [("C", c_compiler(), ["-std=c11", "-Wconversion"], [uses, *parts]),
              ("C, threads", c_compiler(), ["-std=c11", "-DWITH_MU"], [replicas]),
              ("C++", cxx_compiler(), ["-std=c++11", "-x", "c++"], [uses]),
              ("C++17", cxx_compiler(), ["-std=c++17", "-Wconversion"], [os.path.join(header, "uses.cc")])]
    troubles, left = [], []
    for language, compiler, words, sources in wanted:
        if compiler is None:
            left.append(f"c/mu.h as {language}, since there is no compiler")
            continue
        run = subprocess.run([compiler, *words, "-Wall", "-Wextra", "-Werror", "-fsyntax-only", "-I", header, *sources],
                             stdout=subprocess.PIPE, stderr=subprocess.STDOUT, check=False)
        if run.returncode:
            troubles.append(f"as {language}: {run.stdout.decode(errors='replace').splitlines()[0]}")
    return len(wanted) - len(left), troubles, left


def commands(folder):
    """How to run each implementation: the one in C is built in this folder, if that can be."""
    yield "py", [sys.executable, os.path.join(OWN, "replicas.py")]
    compiler, built = c_compiler(), os.path.join(folder, "replicas")
    if compiler:
        subprocess.run([compiler, "-std=c11", "-O2", "-pthread", os.path.join(OWN, "replicas.c"), "-o", built],
                       check=True)
        yield "c", [built]


def own_cases():
    """The cases, and what is left out for want of a C compiler."""
    cases = []
    with tempfile.TemporaryDirectory() as folder:
        found = dict(commands(folder))
        for kind, command in found.items():
            for word in RUNS[kind]:
                run = subprocess.run([*command, word], stdout=subprocess.PIPE, timeout=120, check=True)
                wanted = contents(os.path.join(OWN, f"replicas.{kind}.{word}.stdout"))
                cases.append(OwnCase(f"examples/own/replicas.{kind} {word}", ["attest" if word in SEEN else "why"], run.stdout,
                                     PLACE.sub(rb"illegal \1I at line L", wanted), wanted_status(wanted)))
    left = [] if "c" in found else ["examples/own/replicas.c, since there is no C compiler"]
    return cases, left
