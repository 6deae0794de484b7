"""The unproved program that a first build leaves in out/unproved, so that the next command runs it at once.

`rt try` hands the toolchain's `clang` the module of the whole program, with a check at each sum, index, cast and
`prove!`, and keeps nothing of what it builds. A stand-in for that `clang` keeps the module, and lets the build that
looks for bad accesses go. What is compiled of the module has all its checks: one that fails ends the program by
SIGILL or SIGFPE, and `rt try` then says where.
"""
import contextlib
import fcntl
import os
import shutil
import subprocess
import tempfile
import time

from programs import CRATES, TOP, crate_of, crates_below, set_mark_time, sources_sum
from telling import telling
from unproved_build import FLAGS, clang, keeping_kit, link_words

FOLDER = os.path.join(TOP, "out", "unproved")
# As rt try compiles it, but for the search for bad accesses.
QUICK = [*FLAGS[:3], "-march=x86-64", "-O0", "-ffunction-sections", "-fdata-sections", "-mllvm",
         "-no-trap-after-noreturn", "-mllvm", "-trap-unreachable"]


def mark_of(name):
    return os.path.join(FOLDER, name + ".sum")


def sum_of(name):
    """The checksum of the crates that a program is made of."""
    return sources_sum(crates_below([crate_of(name)]))


def kept(name):
    """The unproved program of just these sources, if an earlier build left it; else None."""
    path, now = os.path.join(FOLDER, name), time.time()
    try:
        with open(mark_of(name), encoding="ascii") as mark:
            if mark.read().strip() != sum_of(name) or not os.access(path, os.X_OK):
                return None
        set_mark_time(now, mark_of(name))
    except OSError:
        return None
    return path


def compiled(name, room):
    """Builds a program without proofs in a folder: whether there is one."""
    module, made, program = (os.path.join(room, it) for it in ("module.bc", "module.o", name))
    quiet = {"stdin": subprocess.DEVNULL, "stdout": subprocess.DEVNULL, "stderr": subprocess.DEVNULL, "check": False}
    subprocess.run([keeping_kit(room, module), "try"], cwd=os.path.join(CRATES, crate_of(name)), **quiet)
    if not os.path.exists(module):
        return False
    steps = [clang(), *QUICK, "-c", "-x", "ir", module, "-o", made], link_words(program, made)
    return all(subprocess.run(words, **quiet).returncode == 0 for words in steps)


def leave(name, room, checksum, moment):
    """Leaves the program of the sources that had this checksum at a moment."""
    path = os.path.join(FOLDER, name)
    shutil.copy(os.path.join(room, name), path + ".new")
    os.replace(path + ".new", path)
    with contextlib.suppress(FileNotFoundError):
        os.remove(path + ".told")
    with open(mark_of(name), "w", encoding="ascii") as mark:
        mark.write(checksum + "\n")
    set_mark_time(moment, mark_of(name))


@contextlib.contextmanager
def in_turn(name):
    """One build of a program at a time."""
    os.makedirs(FOLDER, exist_ok=True)
    with open(os.path.join(FOLDER, name + ".lock"), "w", encoding="ascii") as lock:
        fcntl.flock(lock, fcntl.LOCK_EX)
        yield


def built(name):
    """The unproved program of these sources: that of an earlier build, or a new one that is kept; None if the
    toolchain doesn't hand over its module."""
    def progress(seconds):
        return f"{name}: building without proofs: {seconds} s so far, about a minute in all on quiet processors"

    try:
        with telling(progress), in_turn(name):
            checksum, moment = sum_of(name), time.time()
            with tempfile.TemporaryDirectory(prefix="unproved-") as room:
                if not kept(name) and compiled(name, room):
                    leave(name, room, checksum, moment)
    except OSError:
        # The toolchain is laid out otherwise, or nothing can be written here.
        pass
    return kept(name)
