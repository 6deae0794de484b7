#!/usr/bin/env python3
"""Tries the library for C, out/libmu.a and out/libmu.so, as ./library leaves them, or those of the folder $LIBMU_AT.

    tools/library/try_library.py                 each call from C, C++ and Python, also on a stack of MU_STACK bytes;
                                                 a thousand engines, each let go, in little memory; sessions of a
                                                 live engine from each, with random commands, stops and pauses; the
                                                 examples of examples/own; a long session with stops and returns,
                                                 flat in memory and instructions; how many bytes engines, stores, servers,
                                                 a judge and a replica ask for; and that a list judged event by event gets
                                                 the answer of the whole trace, over the judged traces and the stored
                                                 ones
    tools/library/try_library.py FOLDER..        the same also over the traces of these folders of cases
    tools/library/try_library.py --quick         the same over no traces, and with few sessions: as ./test does with a library
                                                 without proofs
    tools/library/try_library.py --memory        how much memory a judge takes over a list of 64 MiB

It needs a C compiler, and for C++ one that takes it.
"""
import os
import pathlib
import re
import resource
import shutil
import subprocess
import sys
import tempfile
import time

import folders
from beginning import begin
from engine_sessions import ByLines, ByTypes, try_sessions
from judged_table import judged
from own_traces import OWN, PLACE, RUNS, SEEN, c_compiler, cxx_compiler
from programs import EXAMPLES, TOP
from run_cases import contents

sys.path.insert(0, OWN)
HERE = os.path.join(TOP, "tools", "library")
HEADER, FOLDER = os.path.join(TOP, "c"), os.path.abspath(os.environ.get("LIBMU_AT", os.path.join(TOP, "out")))
ARCHIVE = os.path.join(FOLDER, "libmu.a")
os.environ["LIBMU"] = os.path.join(FOLDER, "libmu.so")
# The causes of a line after the job: it is no event, the last `end` is missing, or lines follow it.
NO_EVENT, NO_END, AFTER_END = b"13", b"11", b"12"
MEMORY_BYTES = 64 << 20
SESSIONS, QUICK_SESSIONS = 20, 2
# How many commands a long session has, and a play of many clients, and quick ones.
LONG, PLAYED = (1_000_000, 40_000), (100_000, 1_500)
# So many instructions are counted of a session: those of so many commands, early and late.
EARLY, BLOCK, LATE = 1_000, 500, (20_000, 3_000)
# How many random schedules of replicas over an array.
SCHEDULES, QUICK_SCHEDULES = 1000, 20
# So many engines and judges are let go, or left to Python, and the process takes no more than this many KiB more than
# after the first few: one of them takes 7 MB.
ENGINES, FIRST_ENGINES, MORE_KIB = 1_000, 20, 8_192
# How many bytes the heap is asked for at most (tools/library/rooms.c): less than 4 % above what was measured, so a store, a
# list of events or a connection of twice its room is above.
ROOMS = {
    "an engine of few keys": 13_984_000,
    "an engine of 7, long eras": 38_685_000,
    "an engine of many keys": 16_273_000,
    "a server of one connection": 12_785_000,
    "a server of 100 connections": 8_325_000,
    "a server of 100 that read no answers": 10_461_000,
    "a judge of a large job": 6_204_000,
    "a replica of a large job": 1_168_000,
}
# A number that has more than 32 bits, and the greatest that hasn't.
TOO_LARGE, LARGEST = 4_294_967_296, 4_294_967_295
# What the example of an engine has to print: its store's replies, and a stop between them.
EXAMPLE = b"""0 put a 5 -> done
1 get a -> value 5
2 swap a 6 -> value 5
replica 0 is stopped
3 get a -> value 6
4 cas a 6 7 -> done
5 del a -> done
6 get a -> none
"""


class Tried:
    """How much was tried, and what was wrong."""

    def __init__(self):
        self.tried, self.wrong = 0, []

    def expect(self, what, found, wanted):
        self.tried += 1
        if found != wanted:
            self.wrong.append(f"{what}: {found!r}, not {wanted!r}")


def built(compiler, folder, name, *words):
    """A C program with the library."""
    path = os.path.join(folder, name)
    subprocess.run([compiler, "-O2", "-Wall", "-Wextra", "-Werror", "-I", HEADER, *words, ARCHIVE, "-o", path], check=True)
    return path


def in_both(folder, compiler, name):
    """A program of c/, built as C and, if there is a compiler, as C++."""
    source, plus = os.path.join(HEADER, f"{name}.c"), cxx_compiler()
    yield "C", built(compiler, folder, name, "-std=c11", source)
    if plus:
        yield "C++", built(plus, folder, f"{name}_plus", "-std=c++11", "-x", "c++", source, "-x", "none")


def try_calls(tried, folder, compiler):
    """Each call from C and from C++."""
    for language, program in in_both(folder, compiler, "uses"):
        run = subprocess.run([program], stdout=subprocess.PIPE, check=False)
        tried.expect(f"c/uses.c as {language}", run.stdout, b"mu.h is as it says\n")
    made = os.path.join(folder, "uses.o")
    subprocess.run([compiler, "-std=c11", "-O2", "-I", HEADER, "-Dmain=uses_main", "-c", os.path.join(HEADER, "uses.c"), "-o", made], check=True)
    small = built(compiler, folder, "small_stack", "-std=c11", "-pthread", os.path.join(HEADER, "small_stack.c"), made)
    run = subprocess.run([small], stdout=subprocess.PIPE, check=False)
    tried.expect("each call on a small stack", run.stdout, b"mu.h is as it says\n")
    if cxx_compiler():
        program = built(cxx_compiler(), folder, "uses_17", "-std=c++17", os.path.join(HEADER, "uses.cc"))
        run = subprocess.run([program], stdout=subprocess.PIPE, check=False)
        tried.expect("c/uses.cc", run.stdout, b"mu.hpp is as it says\n")


def try_alone(tried, folder, compiler):
    """Replicas over an array: in turn they make the stored trace, and lists of random schedules are legal."""
    example = built(compiler, folder, "alone", "-std=c11", os.path.join(OWN, "alone.c"))
    run = subprocess.run([example], stdout=subprocess.PIPE, timeout=120, check=False)
    wanted = contents(os.path.join(EXAMPLES, "put-and-get.trace")) + b"legal 725\n"
    tried.expect("alone.c", (run.returncode, run.stdout), (0, wanted))
    run = subprocess.run([sys.executable, os.path.join(OWN, "alone.py")], stdout=subprocess.PIPE, timeout=120, check=False)
    tried.expect("alone.py", (run.returncode, run.stdout), (0, wanted))
    program = built(compiler, folder, "schedules", "-std=c11", "-Wno-format-nonliteral", os.path.join(HERE, "schedules.c"))
    runs = QUICK_SCHEDULES if "--quick" in sys.argv else SCHEDULES
    run = subprocess.run([program, str(runs), "1"], stdout=subprocess.PIPE, timeout=600, check=False)
    tried.expect("tools/library/schedules.c", (run.returncode, run.stdout.endswith(b"all lists are legal\n")), (0, True))


def try_engines(tried, library, folder, compiler):
    """The example of an engine, and the same sessions from C, C++ and Python."""
    example = built(compiler, folder, "engine", "-std=c11", os.path.join(OWN, "engine.c"))
    run = subprocess.run([example], stdout=subprocess.PIPE, timeout=120, check=False)
    tried.expect("engine.c", (run.returncode, run.stdout), (0, EXAMPLE))
    run = subprocess.run([sys.executable, os.path.join(OWN, "engine.py")], stdout=subprocess.PIPE, timeout=120, check=False)
    tried.expect("engine.py", (run.returncode, run.stdout), (0, EXAMPLE + b"legal\n"))
    try_alone(tried, folder, compiler)
    sessions = QUICK_SESSIONS if "--quick" in sys.argv else SESSIONS
    engines = [(language, lambda program=program: ByLines(program)) for language, program in in_both(folder, compiler, "sessions")]
    try_sessions(tried, library, [*engines, ("Python", lambda: ByTypes(library))], sessions)


def counted(program, commands):
    """How many instructions a session of so many commands takes."""
    run = subprocess.run(["valgrind", "--tool=callgrind", "--callgrind-out-file=/dev/null", program, str(commands)], stdout=subprocess.DEVNULL,
                         stderr=subprocess.PIPE, check=False)
    return int(re.search(rb"Collected : (\d+)", run.stderr)[1])


def try_long(tried, library, folder, compiler):
    """A long session: each reply is a store's, the memory is flat, and so are the instructions; and plays of many clients."""
    program, is_quick = built(compiler, folder, "long", "-std=c11", os.path.join(HEADER, "long.c")), "--quick" in sys.argv
    run = subprocess.run([program, str(LONG[is_quick])], stdout=subprocess.PIPE, timeout=3_600, check=False)
    print(run.stdout.decode(), end="")
    tried.expect("c/long.c", run.returncode, 0)
    if shutil.which("valgrind"):
        first, last = (counted(program, from_here + BLOCK) - counted(program, from_here) for from_here in (EARLY, LATE[is_quick]))
        print(f"{first // BLOCK} instructions a command after {EARLY}, {last // BLOCK} after {LATE[is_quick]}")
        tried.expect("instructions of a late command: no more than a tenth more", last <= 1.1 * first, True)
    else:
        print("try_library: skipped: there is no valgrind, so instructions aren't counted")
    for word in ([], ["any"]):
        run = subprocess.run([sys.executable, os.path.join(TOP, "tools", "library", "play_eras.py"), str(PLAYED[is_quick]), "1", *word], stdout=subprocess.PIPE,
                             timeout=3_600, check=False)
        tried.expect(f"play_eras.py {' '.join(word)}", run.returncode, 0)


def raised(mu_library, call, *given):
    """What a call of the Python layer raises: a ValueError, the status of a refusal, or nothing."""
    try:
        call(*given)
    except mu_library.Refused as refused:
        return refused.status
    except ValueError:
        return ValueError
    return None


def try_python(tried, mu_library):
    """The Python layer takes no number for another one, and waits no longer for a reply than it is told."""
    with mu_library.Engine(replicas=3, places=9, steps=9_999, commands=3) as engine:
        for name, call, given in [
                ("submit", engine.submit, [0, b"get a"]), ("stop", engine.stop, [0]), ("pause", engine.pause, [0, 5]), ("back", engine.back, [0]),
                ("hold", engine.hold, [0]), ("show", mu_library.show, [b"", 0]), ("draw", mu_library.draw, [b"", 0, 0]),
                ("Engine", mu_library.Engine, [3, 9, 9_999, 3])]:
            for place in (k for k, value in enumerate(given) if isinstance(value, int)):
                for value in (-1, TOO_LARGE, TOO_LARGE + given[place], -TOO_LARGE):
                    other = [*given[:place], value, *given[place + 1:]]
                    tried.expect(f"{name} of {other}", raised(mu_library, call, *other), ValueError)
        for row in (-1, TOO_LARGE * TOO_LARGE):
            tried.expect(f"reply of {row}", raised(mu_library, engine.reply, row), ValueError)
        for name, call, given, status in [
                ("submit", engine.submit, (LARGEST, b"get a"), mu_library.NO_SUCH_CLIENT), ("client 16", engine.submit, (16, b"get a"), mu_library.NO_SUCH_CLIENT),
                ("stop", engine.stop, (LARGEST,), mu_library.NO_SUCH_REPLICA), ("pause", engine.pause, (3, 5), mu_library.NO_SUCH_REPLICA),
                ("reply", engine.reply, (0,), mu_library.NO_SUCH_ROW), ("reply", engine.reply, (TOO_LARGE,), mu_library.NO_SUCH_ROW),
                ("a log too short", mu_library.Engine, (3, 8, 9_999, 3), mu_library.BEYOND)]:
            tried.expect(f"{name} of {given}", raised(mu_library, call, *given), status)
        # Nothing was taken, and nobody was stopped. A leader goes on in the regions that it was granted.
        tried.expect("a put", engine.reply_in_time(engine.submit(0, b"put a 5")), b"done")
        engine.stop(1)
        engine.stop(2)
        tried.expect("a get of a leader alone", engine.reply_in_time(engine.submit(1, b"get a")), b"value 5")
        engine.stop(0)
        late = engine.submit(2, b"get a")
        tried.expect("a get of nobody", engine.reply_in_time(late, rounds=50), None)
        tried.expect("who is free", (engine.state().free, engine.hold(0).stopped), (0, 1))
        for replica in range(3):
            engine.back(replica)
        tried.expect("a get that is answered later", engine.reply_in_time(late), b"value 5")
        for number in range(7):
            tried.expect("a put of later eras", engine.reply_in_time(engine.submit(0, f"swap a {number}")), b"value %d" % (number - 1 if number else 5))
        tried.expect("an old row", raised(mu_library, engine.reply, 0), mu_library.OLD_ROW)
    tried.expect("a call on one that was let go", raised(mu_library, engine.round), mu_library.EMPTY)
    with mu_library.Engine(replicas=1, places=8, commands=2) as engine:
        tried.expect("a str", engine.reply_in_time(engine.submit(0, "put a 5")), b"done")
        try:
            engine.submit(0, "put a ä")
        except UnicodeEncodeError as cause:
            tried.expect("a str that isn't ASCII", cause.encoding, "ascii")
        try:
            engine.submit(0, "put a")
        except mu_library.Refused as refused:
            tried.expect("a refusal's words", str(refused)[:60], "MU_REFUSED: the line is no command (expected: put KEY TEXT, ")
        try:
            engine.submit(0, b"get " + b"k" * 25)
        except mu_library.Refused as refused:
            tried.expect("a key that is refused", str(refused),
                         "MU_REFUSED: the line is no command (expected: a key of 1 to 24 bytes, each from 33 to 126)")


def try_letting_go(tried, mu_library):
    """Engines and judges that are let go, or that nobody has any more, leave their memory."""
    job = b"mu 1\nreplicas 7\nring 64\nbudget 9999\nend\n"
    for how in ("with", "left"):
        first = None
        for number in range(ENGINES):
            owned = [mu_library.Engine(replicas=3), mu_library.Judge(job)]
            owned[0].submit(0, b"put a 5")
            owned[0].round()
            if how == "with":
                for it in owned:
                    it.close()
            del owned
            if number == FIRST_ENGINES:
                first = resident()
        tried.expect(f"{ENGINES} engines, {how}: KiB more below {MORE_KIB}", resident() - first < MORE_KIB, True)


def try_rooms(tried, folder, compiler):
    """How many bytes are asked for at most, whatever is touched: counted by a heap in place of that of c/."""
    run = subprocess.run([built(compiler, folder, "rooms", "-std=c11", os.path.join(HERE, "rooms.c"))], stdout=subprocess.PIPE, check=False)
    told = dict(line.rsplit(": ", 1) for line in run.stdout.decode().splitlines())
    tried.expect("rooms.c", (run.returncode, set(told)), (0, set(ROOMS)))
    for name, most in ROOMS.items():
        tried.expect(f"{name}: {told.get(name)} bytes, at most {most}", int(told.get(name, most + 1)) <= most, True)


def try_own(tried, folder, compiler):
    """The implementations of examples/own, right and wrong, judged in their own process."""
    program = built(compiler, folder, "judged", "-std=c11", "-pthread", "-DWITH_MU", os.path.join(OWN, "replicas.c"))
    for word in RUNS["c"]:
        picture = os.path.join(folder, f"{word}.svg")
        run = subprocess.run([program, word, picture], stdout=subprocess.PIPE, timeout=120, check=False)
        wanted = contents(os.path.join(OWN, f"replicas.c.{word}.stdout"))
        tried.expect(f"replicas.c {word}", [PLACE.sub(b"", line) for line in run.stdout.splitlines()],
                     [PLACE.sub(b"", line) for line in wanted.splitlines()])
        tried.expect(f"the picture of {word}", os.path.exists(picture), word == "right")
    # Those with lines of what clients saw are for `attest`, and no matter of a judge of events.
    for word in (it for it in RUNS["py"] if it not in SEEN):
        run = subprocess.run([sys.executable, os.path.join(OWN, "replicas.py"), "judged", word], stdout=subprocess.PIPE,
                             timeout=120, check=False)
        tried.expect(f"replicas.py judged {word}", run.stdout, contents(os.path.join(OWN, f"replicas.py.{word}.stdout")))


def by_lines(library, trace):
    """What a judge says of a trace line by line: its words, or the line that it refuses."""
    lines = trace.split(b"\n")
    end = lines.index(b"end") + 1 if b"end" in lines else len(lines)
    job = b"\n".join(lines[:end]) + b"\n" if b"end" in lines else trace
    try:
        judge = library.Judge(job)
    except ValueError as refused:
        return f"{refused}\n".encode()
    with judge:
        for number, line in enumerate(lines[end:], end + 1):
            if line == b"end":
                break
            if judge.take(line) == library.REFUSED:
                return b"refused line %d cause %s\n" % (number, NO_EVENT)
        return judge.why()[1]


def try_traces(tried, library, traces):
    """A list judged event by event gets the answer of the whole trace."""
    for name, trace in traces:
        whole = library.answer("why", trace)[1]
        first = whole.splitlines(keepends=True)[0]
        if first.startswith(b"legal"):
            whole = first  # a judge of lines keeps no script, so it notes no stop that isn't heeded
        if first.startswith(b"refused"):
            if first.split()[-1] in (NO_END, AFTER_END) and b"end" in trace.split(b"\n"):
                continue  # that a trace has its last `end` is no matter of a judge of lines
            whole = first
        found = by_lines(library, trace)
        if first.startswith(b"refused") and found.startswith(b"illegal"):
            continue  # it was broken before the line that is no event
        tried.expect(name, found, whole)


def stored_traces(folders):
    """The judged traces, and those of folders of cases: the inputs, and what `trace` answers."""
    yield from ((name, trace) for name, trace, _ in judged())
    for folder in map(pathlib.Path, folders):
        for args in sorted(folder.glob("*.args")):
            task = args.read_bytes().split()
            trace = args.with_suffix(".stdout" if task == [b"trace"] else "")
            if task in ([b"trace"], [b"check"], [b"why"]):
                yield f"{folder.name}/{args.stem}", contents(str(trace))


def resident():
    """The most memory that this process had so far, in KiB."""
    return resource.getrusage(resource.RUSAGE_SELF).ru_maxrss


def try_memory(mu_library):
    """Lines of a long legal list are judged as they are made, again and again up to 64 MiB."""
    made = subprocess.Popen([sys.executable, os.path.join(TOP, "tools", "runs", "long_trace.py")], stdout=subprocess.PIPE, stderr=subprocess.DEVNULL)
    taken, events, first, began = 0, 0, None, time.monotonic()
    while taken < MEMORY_BYTES:
        job = b"".join(iter_to_end(made.stdout))
        with mu_library.Judge(job) as judge:
            for line in made.stdout:
                if line == b"end\n":
                    break
                if judge.take(line[:-1]) != mu_library.DONE:
                    print(judge.why()[1].decode(), end="")
                    return 1
                taken, events = taken + len(line), events + 1
                first = first or resident()
            print(f"{events} events, {taken} bytes: {resident()} KiB, {first} after the first event", flush=True)
        made.wait()
        made = subprocess.Popen(made.args, stdout=subprocess.PIPE, stderr=subprocess.DEVNULL)
    made.kill()
    print(f"{time.monotonic() - began:.0f} s, most of them Python's")
    return 0 if resident() - first < 4096 else 1


def iter_to_end(lines):
    """The lines up to the first `end`."""
    for line in lines:
        yield line
        if line == b"end\n":
            return


def main():
    begin(__doc__)
    if not os.path.exists(ARCHIVE):
        print(f"try_library: there is no {ARCHIVE}: ./library builds it")
        return 1
    import mu_library
    if sys.argv[1:] == ["--memory"]:
        return try_memory(mu_library)
    compiler, tried = c_compiler(), Tried()
    with tempfile.TemporaryDirectory() as folder:
        try_calls(tried, folder, compiler)
        try_engines(tried, mu_library, folder, compiler)
        try_long(tried, mu_library, folder, compiler)
        try_python(tried, mu_library)
        try_letting_go(tried, mu_library)
        try_rooms(tried, folder, compiler)
        try_own(tried, folder, compiler)
    if sys.argv[1:] != ["--quick"]:
        try_traces(tried, mu_library, stored_traces([os.path.join(TOP, "cases", "trace"), *sys.argv[1:]]))
    for wrong in tried.wrong:
        print(wrong)
    print(f"{tried.tried - len(tried.wrong)} passed, {len(tried.wrong)} failed")
    return 1 if tried.wrong else 0


if __name__ == "__main__":
    sys.exit(main())
