"""What ./library and tools/library/unproved_library.py make of an archive of the exports: the library with its C files, the
shared one, and the file by which pkg-config finds both."""
import os
import shutil
import subprocess

from own_traces import c_compiler
from programs import TOP

# The files of c/ that are part of the library.
PARTS = ("heap", "new")
# Of the shared library only the calls of c/mu.h can be seen.
VISIBLE = "{ global: mu_*; local: *; };\n"
PACKAGE = """prefix={top}
libdir={folder}

Name: mu
Description: A proved judge of traces and a live engine of replicas
Version: 1
Cflags: -I${{prefix}}/c
Libs: ${{libdir}}/libmu.a
"""


def link(exports, folder, more=()):
    """Leaves libmu.a, libmu.so and mu.pc in a folder; `more` are archives that the exports stand on."""
    compiler = c_compiler()
    archive, shared, seen = (os.path.join(folder, name) for name in ("libmu.a", "libmu.so", "visible.map"))
    shutil.copy(exports, archive)
    made = []
    for name in PARTS:
        made.append(os.path.join(folder, f"{name}.o"))
        subprocess.run([compiler, "-std=c11", "-O2", "-Wall", "-Wextra", "-Wconversion", "-Werror", "-fPIC", "-c",
                        os.path.join(TOP, "c", f"{name}.c"), "-o", made[-1]], check=True)
    for other in more:
        made += members(other, folder)
    subprocess.run(["ar", "r", archive, *made], check=True, stderr=subprocess.DEVNULL)
    with open(seen, "w", encoding="ascii") as script:
        script.write(VISIBLE)
    subprocess.run([compiler, "-shared", "-o", shared, f"-Wl,--version-script={seen},-soname,libmu.so",
                    "-Wl,--whole-archive", archive, "-Wl,--no-whole-archive"], check=True)
    with open(os.path.join(folder, "mu.pc"), "w", encoding="utf-8") as package:
        package.write(PACKAGE.format(top=TOP, folder=folder))
    for path in [*made, seen]:
        os.remove(path)


def members(archive, folder):
    """The objects of an archive, taken out into a folder."""
    names = subprocess.run(["ar", "t", archive], check=True, capture_output=True, text=True).stdout.split()
    subprocess.run(["ar", "x", archive], check=True, cwd=folder)
    return [os.path.join(folder, name) for name in names]
