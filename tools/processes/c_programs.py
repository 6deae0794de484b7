"""The programs of c/: what each is made of, and over which library it is compiled."""
import hashlib
import os
import shutil
import subprocess
import sys
import tempfile
import time

import folders
import try_server
import unproved
import unproved_library
from own_traces import c_compiler
from programs import TOP, set_mark_time
from telling import telling

C = os.path.join(TOP, "c")
FOLDER = os.path.join(TOP, "out", "c")
# What ./library leaves, and of which sources it is.
PROVED, PROVED_MARK = os.path.join(TOP, "out", "libmu.a"), os.path.join(TOP, "out", "libmu.sum")
# The folders of each program, and what it is linked with.
PARTS = {"mu_processes": (["processes", "shared"], []), "mu_fabric": (["fabric", "shared"], ["-lfabric"]),
         "mu_server": (["server"], [])}
# The compiler's words; an access of a traced run is one step of sixteen bytes.
FLAGS = ["-std=c11", "-O2", "-mcx16"]
WARNINGS = ["-Wall", "-Wextra", "-Wconversion"]
SANITIZED = ["-O1", "-g", "-fsanitize=address,undefined", "-fno-sanitize-recover=all"]
# No C file has so many lines.
MOST_LINES = 300
# What says whether libfabric is here.
FABRIC = "#include <rdma/fabric.h>\nint main(void) { return fi_version() == 0; }\n"


def checksum_now():
    """One checksum of what the library is made of."""
    return unproved_library.sum_now()


def leave_proved_mark(checksum):
    """Says that out/libmu.a is the proved library of the sources that had this checksum."""
    with open(PROVED_MARK, "w", encoding="ascii") as mark:
        mark.write(checksum + "\n")


def proved_library():
    """The library that ./library left, if it proved just these sources; else None."""
    try:
        with open(PROVED_MARK, encoding="ascii") as mark:
            return PROVED if mark.read().strip() == checksum_now() and os.path.exists(PROVED) else None
    except OSError:
        return None


def sources_of(name):
    """The C files of a program."""
    folders = [os.path.join(C, part) for part in PARTS[name][0]]
    return [os.path.join(folder, it) for folder in folders for it in sorted(os.listdir(folder)) if it.endswith(".c")]


def shown_by(name):
    """Where the headers of a program are."""
    return ["-I", C, *(word for part in PARTS[name][0] for word in ("-I", os.path.join(C, part)))]


def words_for(name, compiler, library, out, more=()):
    """The command that compiles a program."""
    return [compiler, *FLAGS, *more, *shown_by(name), *sources_of(name), library, *PARTS[name][1], "-o", out]


def has_libfabric():
    """Whether a program of libfabric can be compiled here."""
    compiler = c_compiler()
    if compiler is None:
        return False
    with tempfile.TemporaryDirectory(prefix="fabric-") as room:
        words = [compiler, "-x", "c", "-", "-o", os.path.join(room, "it"), "-lfabric"]
        return subprocess.run(words, input=FABRIC, text=True, capture_output=True, check=False).returncode == 0


def missing_for(name):
    """What is missing here to compile a program; None if nothing is."""
    if c_compiler() is None:
        return "there is no C compiler"
    if name == "mu_fabric" and not has_libfabric():
        return "there is no libfabric: Debian has it as libfabric-dev"
    return None


def files_of_c():
    """The C files and headers of the programs."""
    folders = sorted({os.path.join(C, part) for parts, _ in PARTS.values() for part in parts})
    return [os.path.join(folder, it) for folder in folders for it in sorted(os.listdir(folder)) if it.endswith((".c", ".h"))]


def troubles():
    """How much was tried, what compilers say of the programs with all warnings, which files are too long, and what is left
    out here."""
    wrong, left, tried = [], [], 0
    for path in files_of_c():
        with open(path, encoding="utf-8") as read:
            lines = sum(1 for _ in read)
        tried += 1
        if lines >= MOST_LINES:
            wrong.append(f"{os.path.relpath(path, TOP)} has {lines} lines, and may have {MOST_LINES - 1}")
    for name in PARTS:
        compilers = [] if missing_for(name) else [it for it in ("gcc", "clang") if shutil.which(it)]
        if missing_for(name):
            left.append(f"{name} compiled, since {missing_for(name)}")
        for compiler in compilers:
            words = [compiler, *FLAGS, *WARNINGS, "-Werror", "-fsyntax-only", *shown_by(name), *sources_of(name)]
            done = subprocess.run(words, capture_output=True, text=True, check=False)
            tried += 1
            if done.returncode:
                wrong.append(f"{name} by {compiler}: {done.stderr.splitlines()[0]}")
    return tried, wrong, left


def own_sum(name, library):
    """One checksum of a program's C files and of its library."""
    whole = hashlib.sha256(library.encode())
    folders = [C, *(os.path.join(C, part) for part in PARTS[name][0])]
    paths = [os.path.join(folder, it) for folder in folders for it in sorted(os.listdir(folder)) if it.endswith((".c", ".h"))]
    for path in [*paths, library]:
        with open(path, "rb") as read:
            whole.update(read.read())
    return whole.hexdigest()


def library_for(name):
    """The archive of these sources, proved or else with checks, which is built if it isn't there: None if it can't be."""
    if proved_library():
        return PROVED
    if not unproved_library.is_there():
        print(f"{name}: the library isn't proved here: building it without proofs, once, in some minutes (./library proves)",
              file=sys.stderr, flush=True)
    with telling(lambda seconds: f"{name}: building the library without proofs: {seconds} s so far"):
        folder = unproved_library.kept()
    if folder is None:
        print(f"{name}: the library isn't built: tools/library/unproved_library.py out/library --checked says why", file=sys.stderr)
    return os.path.join(folder, "libmu.a") if folder else None


def built(name):
    """The program over the library of these sources: None, and a line, if it can't be compiled."""
    missing = missing_for(name)
    if missing:
        print(f"{name}: {missing}", file=sys.stderr)
        return None
    library = library_for(name)
    if library is None:
        return None
    with unproved.in_turn(name):
        return compiled(name, library)


def compiled(name, library):
    """Compiles the program over a library, unless that was done: its path, or None."""
    os.makedirs(FOLDER, exist_ok=True)
    path, mark, moment = os.path.join(FOLDER, name), os.path.join(FOLDER, name + ".sum"), time.time()
    checksum = own_sum(name, library)
    if not os.path.exists(path) or not os.path.exists(mark) or open(mark, encoding="ascii").read().split()[0] != checksum:
        if subprocess.run(words_for(name, c_compiler(), library, path + ".new"), check=False).returncode:
            return None
        os.replace(path + ".new", path)
    with open(mark, "w", encoding="ascii") as written:
        written.write(f"{checksum} {'proved' if library == PROVED else 'checked'}\n")
    set_mark_time(moment, mark)
    return path


def watched_run(path, room):
    """What is wrong with a run by processes, with a kill and a trace; None if nothing is."""
    job = os.path.join(TOP, "examples", "put-and-get.job")
    done = subprocess.run([path, job, "kill", "leader@#1", "trace", os.path.join(room, "trace"), "moments"],
                          capture_output=True, text=True, check=False)
    lines = [line for line in done.stderr.splitlines() if "anitizer" in line or "runtime error" in line]
    if lines or done.returncode not in (0, 3):
        return f"status {done.returncode}, {lines[0] if lines else done.stderr[-200:]}"
    return None


def watched_server(path, _):
    """What is wrong with a server; None if nothing is. One that the sanitizers end answers nobody."""
    wrong = try_server.tried(path).wrong
    return wrong[0] if wrong else None


def sanitized(name):
    """Runs a program that the sanitizers watch: what is wrong, or None; and what is left out."""
    library = library_for(name)
    if library is None:
        return f"{name} with sanitizers: there is no library", None
    with tempfile.TemporaryDirectory(prefix="sanitized-") as room:
        path = os.path.join(room, name)
        words = words_for(name, c_compiler(), library, path, SANITIZED)
        if subprocess.run(words, capture_output=True, check=False).returncode:
            return None, f"{name} with sanitizers, which the compiler lacks"
        wrong = (watched_server if name == "mu_server" else watched_run)(path, room)
    return (f"{name} with sanitizers: {wrong}" if wrong else None), None


def main():
    return 0 if built(sys.argv[1]) else 70


if __name__ == "__main__":
    sys.exit(main())
