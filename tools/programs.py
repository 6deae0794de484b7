"""What ./mu, ./prove, ./test and ./tour share: where things are, the toolchain that is needed, and
the programs that ./prove left."""
import hashlib
import os
import re
import shutil
import subprocess
import sys
import time

TOP = os.path.dirname(os.path.dirname(os.path.abspath(__file__)))
CRATES = os.path.join(TOP, "crates")
EXAMPLES = os.path.join(TOP, "examples")
README = os.path.join(TOP, "README.md")
# Where ./prove leaves the programs, and of which sources they are.
BIN = os.path.join(TOP, "out", "bin")
MARK = os.path.join(BIN, "proved.sum")
# The crate of each program.
CRATE_OF = {"mu": "mu_tool", "mu_draw": "mu_draw"}
# The status if there is no answer of a program.
NO_ANSWER = 70


def crate_of(name):
    """The crate of a program: of one that only tests run it has the same name."""
    return CRATE_OF.get(name, name)


def toolchain_named():
    """The toolchain that README.md names, as `rt version` prints it."""
    with open(README, encoding="utf-8") as text:
        return re.search(r"`(rattle-kit-[^`]+)`", text.read()).group(1)


def toolchain_found():
    """The toolchain in PATH, as `rt version` prints it; None without one."""
    if shutil.which("rt") is None:
        return None
    run = subprocess.run(["rt", "version"], stdout=subprocess.PIPE, check=False)
    return run.stdout.decode(errors="replace").strip() or "one that tells no version"


def logic_of(toolchain):
    """What a toolchain proves by, which kits of several letters share; "" if none is told."""
    return toolchain.partition(" logic ")[2]


def need_toolchain(name):
    """Ends with one line without a toolchain; says so if it isn't the one that README.md names."""
    needed, found = toolchain_named(), toolchain_found()
    if found is None:
        print(f"{name}: rt isn't found in PATH: it comes with {needed}; README.md, Two commands, says what is needed",
              file=sys.stderr)
        sys.exit(NO_ANSWER)
    if not logic_of(found) or logic_of(found) != logic_of(needed):
        print(f"{name}: README.md names {needed}, and rt is {found}: nothing was tried with that one", file=sys.stderr)


def crates_below(names):
    """What each crate of the repository stands on, of those that these need."""
    with open(os.path.join(TOP, "crates.txt"), encoding="utf-8") as text:
        lines = text.read().splitlines()
    listed = {}
    for line in lines:
        if ":" in line and not line.startswith("#"):
            head, below = line.split(":", 1)
            listed[head.split()[0]] = below.split()
    needed, waiting = {}, list(names)
    while waiting:
        crate = waiting.pop()
        if crate not in needed:
            needed[crate] = [b for b in listed[crate] if b in listed]
            waiting += needed[crate]
    return needed


def sources_sum(crates=("",)):
    """One checksum of all that is read of some crates, or of all: sources, specs, proofs and the toolchain."""
    paths = [os.path.join(TOP, "crates.txt")]
    for crate in crates:
        for folder, below, files in os.walk(os.path.join(CRATES, crate)):
            if "out" in below:
                below.remove("out")
            paths += [os.path.join(folder, name) for name in files if name.endswith((".rt", ".antt"))]
    whole = hashlib.sha256((toolchain_found() or "").encode())
    for path in sorted(paths):
        with open(path, "rb") as source:
            digest = hashlib.sha256(source.read()).hexdigest()
        whole.update(f"\n{digest} {os.path.relpath(path, TOP)}".encode())
    return whole.hexdigest()


def set_mark_time(moment, mark=MARK):
    """Says that a mark is of the sources as they were at a moment.

    It is set a little before, since the time of a file may lag behind the clock.
    """
    os.utime(mark, (moment - 0.1, moment - 0.1))


def proved_program(name):
    """The program that ./prove left, if it proved just these sources; else None."""
    path, now = os.path.join(BIN, name), time.time()
    if not os.access(path, os.X_OK) or not os.path.exists(MARK):
        return None
    with open(MARK, encoding="ascii") as mark:
        if mark.read().strip() != sources_sum():
            return None
    try:
        set_mark_time(now)
    except OSError:
        pass  # It is another user's: the checksum decides the next time too.
    return path


def tell(wrong, last):
    """Prints what is wrong, each in a line, and a last line; the status of the program that did."""
    print(*wrong, last, sep="\n")
    return 1 if wrong else 0


def forget_proved():
    """From now on no program is run as proved."""
    if os.path.exists(MARK):
        os.remove(MARK)


def leave_proved(crates, checksum, moment):
    """Leaves the programs that stand in the crates of a folder in out/bin, as those of the sources that had this
    checksum at a moment."""
    os.makedirs(BIN, exist_ok=True)
    for name, crate in CRATE_OF.items():
        path = os.path.join(BIN, name)
        shutil.copy(os.path.join(crates, crate, "out", crate), path + ".new")
        os.replace(path + ".new", path)
    with open(MARK, "w", encoding="ascii") as mark:
        mark.write(checksum + "\n")
    set_mark_time(moment)
