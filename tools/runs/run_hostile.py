#!/usr/bin/env python3
"""Uses the built programs in hostile ways, and counts what they answered.

    tools/runs/run_hostile.py [MU [MU_DRAW]]     those that ./prove left in out/bin/ if none is named

- Every prefix of two jobs, and every change of one byte of one of them: refused exactly if tools/accounts/job_reader.py
  refuses it, with its line and cause; else the status is 0 or 3.
- The n-th read, write or allocation fails, for each n: status 4, 5 or 6 exactly then; what was written is a prefix.
- Each read and write moves at most 1 to 7 bytes: the same is printed, and the same holds of the n-th that fails.
- Inputs at each limit and one above it; words that are no text get the usage line; output into a full device is status 5.
- `run` with all cores busy, and with long pauses: each report is one that tools/runs/run_trials.py permits.
- `mu_draw`: every prefix of a trace, every change of one byte of it, long lines and numbers, and inputs at the limit:
  the answer of `mu check` if that is a refusal, else the picture that tools/accounts/picture_cases.py draws; faults and
  pieces as above; words that ask for nothing, and steps out of range; a full device, a closed pipe, a stop and go on.

It needs a C compiler, for the library that lets calls fail (tools/runs/hostile.c).
"""
import os
import resource
import signal
import subprocess
import sys
import tempfile
import time
from xml.etree import ElementTree

import folders
import job_reader
import picture_cases
from beginning import begin
from programs import TOP
from run_trials import Job, Wrong, check_report

LIMIT_SECONDS = 120
MOST_BYTES, MOST_TRACE_BYTES = 1_048_576, 67_108_864
TWO_CLIENTS = (b"mu 1\nreplicas 3\nring 8\nbudget 20000\nclient 0\nput a 5\nget a\ncas a 5 6\n"
               b"client 1\nput b 7\nswap a 9\ncas a 9 1\nend\n")
BATCHED = (b"mu 2\nreplicas 3\nring 8\nbudget 20000\nbatch 2\nclient 0\nput a 5\nget a\ncas a 5 6\n"
           b"client 1\nput b 7\nscript\nstop 2 400\npause 1 60 30\nend\n")
SETTINGS = b"mu 1\nreplicas 1\nring 8\nbudget 131071\n"
# The commands that make threads: without the memory of one they go on without it.
THREADED = (["run"], ["live"], ["desk"])


class Answer:
    """What a command answers: always the same, or with threads each report that is permitted."""

    def __init__(self, words, given, status, text):
        self.is_run, self.given, self.status, self.text = words in (["run"], ["desk"]), given, status, text

    def permits(self, status, text):
        if not self.is_run:
            return (status, text) == (self.status, self.text)
        try:
            check_report(Job(self.given.decode()), text.decode(), status)
        except (Wrong, IndexError, ValueError):
            return False
        return True

    def may_begin(self, text):
        """Whether the text may be what was written before a fault: that of threads begins as all reports do."""
        if self.is_run:
            return text[:9] == b"report 1\n"[:len(text)]
        return self.text.startswith(text) and text != self.text


class Trials:
    def __init__(self, program, folder, name=""):
        self.program, self.folder, self.name = program, folder, name
        self.shim = os.path.join(folder, "hostile.so")
        self.failed = self.count = 0
        source = os.path.join(TOP, "tools", "runs", "hostile.c")
        subprocess.run(["cc", "-O2", "-shared", "-fPIC", "-o", self.shim, source, "-ldl"], check=True)

    def run(self, words, given, **hostile):
        """The status and what was printed; and whether the call failed that was to fail."""
        hit = os.path.join(self.folder, "hit")
        if os.path.exists(hit):
            os.remove(hit)
        env = dict(os.environ)
        if hostile:
            env.update(LD_PRELOAD=self.shim, HOSTILE_HIT=hit)
            env.update({f"HOSTILE_{name.upper()}": str(value) for name, value in hostile.items()})
        done = subprocess.run([self.program, *words], input=given, capture_output=True, env=env,
                              timeout=LIMIT_SECONDS, check=False)
        return done.returncode, done.stdout, os.path.exists(hit)

    def title(self, words):
        return " ".join(([self.name] if self.name else []) + words)

    def say(self, what, count, wrong):
        self.failed += len(wrong)
        self.count += count
        print(f"{what}: {count} runs, {len(wrong)} wrong", *wrong[:5], sep="\n  ", flush=True)

    def reads(self, what, inputs):
        """Each input is refused exactly if the reader refuses it."""
        wrong = []
        for given in inputs:
            told = job_reader.refusal(given)
            status, text, _ = self.run(["replay"], given)
            if told:
                is_right = (status, text) == (2, b"refused line %d cause %d\n" % told)
            else:
                is_right = status in (0, 3) and text.startswith(b"report ")
            if not is_right:
                wrong.append(f"{given!r}: {status} {text[:60]!r}, where {told} is due")
        self.say(what, len(inputs), wrong)

    def faults(self, kind, status_due, words, given, piece=0):
        """The n-th call fails, for each n: the status is its own, and what was written a prefix.

        The first allocations are those of the words of the command line: without them nothing is printed.
        """
        answer = Answer(words, given, *self.run(words, given)[:2])
        wrong, call, is_hit, has_words = [], 0, True, kind != "alloc"
        goes_on = kind != "alloc" or words[:1] in THREADED
        if answer.status == status_due:
            wrong.append(f"{words}: {status_due} though no {kind} fails")
        while is_hit:
            call += 1
            status, text, is_hit = self.run(words, given, kind=kind, call=call, piece=piece)
            said = {"read": b"read fault\n", "alloc": b"no memory\n"}.get(kind)
            if not is_hit:
                is_right = answer.permits(status, text)
            elif kind == "write":
                is_right = status == status_due and answer.may_begin(text)
            elif (status, text) == (status_due, b"") and not has_words:
                is_right = True
            else:
                has_words = True
                is_right = (status, text) == (status_due, said) or (goes_on and answer.permits(status, text))
            if not is_right:
                wrong.append(f"{words} call {call}: {status} {text[:60]!r}")
        if call == 1:
            wrong.append(f"{words}: no {kind} was let fail")
        at_once = f", {piece} bytes at once" if piece else ""
        self.say(f"{self.title(words)}: each {kind} fails in turn{at_once}", call, wrong)

    def pieces(self, words, given):
        answer = Answer(words, given, *self.run(words, given)[:2])
        wrong = []
        for size in range(1, 8):
            status, text, _ = self.run(words, given, kind="none", piece=size)
            if not answer.permits(status, text):
                wrong.append(f"{words} pieces of {size}: {status} {text[:60]!r}")
        self.say(f"{self.title(words)}: reads and writes of 1 to 7 bytes", 7, wrong)

    def expect(self, what, rows):
        wrong = []
        for words, given, status_due, text_due in rows:
            began = time.monotonic()
            status, text, _ = self.run(words, given)
            if status != status_due or (text_due is not None and text != text_due):
                wrong.append(f"{words} over {len(given)} bytes: {status} {text[:60]!r}")
            if len(given) > MOST_BYTES:
                most = resource.getrusage(resource.RUSAGE_CHILDREN).ru_maxrss // 1024
                print(f"  {len(given)} bytes: {time.monotonic() - began:.2f} s, at most {most} MiB", flush=True)
        self.say(what, len(rows), wrong)

    def words_that_are_no_text(self):
        usage = self.run([], b"")[:2]
        rows = [[b"\xff"], [b"repl\xffay"], ["replay", b"\xff"], ["bulk", b"1\x80"], [b"\xc3", "replay"]]
        wrong = [f"{words}" for words in rows if self.run(words, TWO_CLIENTS)[:2] != usage or usage[0] != 1]
        self.say("words that are no text", len(rows), wrong)

    def full_device(self, jobs):
        wrong = []
        for words, given in jobs:
            with open("/dev/full", "wb") as full:
                status = subprocess.run([self.program, *words], input=given, stdout=full, stderr=subprocess.DEVNULL,
                                        timeout=LIMIT_SECONDS, check=False).returncode
            if status != 5:
                wrong.append(f"{words}: {status}")
        self.say("output into a full device", len(jobs), wrong)

    def load(self, what, jobs, workers):
        busy = [subprocess.Popen([sys.executable, "-c", "while True: pass"]) for _ in range(workers)]
        wrong = []
        try:
            for given in jobs:
                status, text, _ = self.run(["run"], given)
                try:
                    check_report(Job(given.decode()), text.decode(), status)
                except Wrong as told:
                    wrong.append(str(told))
        finally:
            for worker in busy:
                worker.kill()
        self.say(what, len(jobs), wrong)


def changes(given):
    """Each byte replaced by a space, a line feed, a return, a zero byte, `0` or 255, or left out."""
    for at in range(len(given)):
        for byte in (b" ", b"\n", b"\r", b"\0", b"0", b"\xff", b""):
            yield given[:at] + byte + given[at + 1:]


def with_commands(lines):
    return SETTINGS + b"client 0\n" + b"".join(line + b"\n" for line in lines) + b"end\n"


def with_script(count):
    lines = [b"pause 0 %d 1\n" % (20 * k) for k in range(count)]
    return SETTINGS + b"script\n" + b"".join(lines) + b"end\n"


def limit_rows():
    long_line = SETTINGS + b"x" * (MOST_BYTES - len(SETTINGS))
    refused = b"refused line 5 cause 6\n"
    yield ["replay"], long_line, 2, refused
    yield ["replay"], long_line + b"x", 8, b"too long\n"
    trace = SETTINGS + b"end\n" + b"x" * (MOST_TRACE_BYTES - len(SETTINGS) - 4)
    yield ["check"], trace, 2, b"refused line 6 cause 13\n"
    yield ["check"], trace + b"x", 8, b"too long\n"
    yield ["replay"], with_commands([b"get a"] * 1_500), 0, None
    yield ["replay"], with_commands([b"get a"] * 1_501), 2, b"refused line 1506 cause 9\n"
    yield ["replay"], with_script(100), 0, None
    yield ["replay"], with_script(101), 2, b"refused line 106 cause 9\n"
    for length, line, cause in ((24, b"get %s", 7), (64, b"put a %s", 8), (32, b"cas a 1 %s", 8), (32, b"cas a %s 1", 8)):
        yield ["replay"], with_commands([line % (b"k" * length)]), 0, None
        yield ["replay"], with_commands([line % (b"k" * (length + 1))]), 2, b"refused line 6 cause %d\n" % cause


def is_document(text):
    """Whether a text is a document of XML."""
    try:
        ElementTree.fromstring(text)
    except ElementTree.ParseError:
        return False
    return True


def check_pictures(draw, judge, what, inputs):
    """Each input has its picture, up to where `why` says that it breaks, or the answer of `check`."""
    wrong = []
    for given in inputs:
        judged = judge.run(["check"], given)[:2]
        status, text, _ = draw.run([], given)
        is_right = (status, text) == judged
        if judged[0] in (0, 7):
            broken = picture_cases.breach_of(judge.run(["why"], given)[1].decode()) if judged[0] == 7 else None
            is_right = (status == judged[0] and is_document(text)
                        and text.decode() == picture_cases.drawn(given.decode(), broken=broken))
        if not is_right:
            wrong.append(f"{given[:200]!r}: {status} {text[:60]!r}, where check says {judged[1]!r}")
    draw.say(f"mu_draw: {what}", len(inputs), wrong)


def picture_rows(trace):
    """Words that ask for steps, or for nothing, and inputs at the limit."""
    count, usage = trace.count(b"\n"), b"usage: mu_draw, mu_draw FIRST LAST, mu_draw brief, mu_draw brief FIRST LAST\n"
    for first, last in ((0, 0), (0, 9999999), (9999999, 9999999), (1, 3), (count, count + 1), (0, count)):
        yield [str(first), str(last)], trace, 0, picture_cases.drawn(trace.decode(), first, last).encode()
    bad = [["0"], ["0", "1", "2"], ["3", "1"], ["-1", "3"], ["+1", "3"], ["a", "b"], ["", "3"], ["00", "1"],
           ["01", "3"], ["1 ", "3"], ["0x1", "3"], ["0", "10000000"], ["10000000", "10000000"],
           ["0", "99999999999999999999"], ["brief", "1"], ["brief", "2", "1"], ["0", "9" * 100000], ["--help"], ["check"], [b"\xff", "3"], ["0", b"\x80"]]
    for words in bad:
        yield words, trace, 1, usage
    whole = SETTINGS + b"end\n" + b"0 beat = done\n" * 1000
    yield [], whole + b"x" * (MOST_TRACE_BYTES - len(whole)), 2, b"refused line 1006 cause 13\n"
    yield [], whole + b"x" * (MOST_TRACE_BYTES - len(whole) + 1), 8, b"too long\n"


def hostile_lines(judge):
    """Traces with texts that have a meaning in XML, and with long lines and great numbers."""
    head = SETTINGS + b"client 0\n"
    for text in (b"<", b"&amp;", b"]]>", b"'\"", b"<!--", b"&#0;", b"</text>", b"<script>", b"~" * 64):
        yield judge.run(["trace"], head + b"put " + text[:24] + b" " + text + b"\nend\n")[1]
    for word in (b"9" * 20, b"18446744073709551615", b"18446744073709551616", b"4294967296", b"65536", b"256"):
        for line in (b"%s beat = done", b"0 look 0 %s = nothing", b"0 putmin 0 %s = done", b"0 min 0 = %s",
                     b"0 fence 0 = fence 0 %s open none", b"0 raisehead %s = done", b"0 readbeat %s = 1"):
            yield head + b"put k v\nend\n" + line % word + b"\nend\n"
    for line in (b" " * 100000, b"0 " * 50000, b"x" * 1000000, b"0 beat = done" + b" " * 1000000, b"\0" * 1000):
        yield head + b"put k v\nend\n" + line + b"\nend\n"


def odd_sinks(draw, trace):
    """A device that is full, a pipe that nobody reads, and a stop and go on while the input comes."""
    wrong = []
    with open("/dev/full", "wb") as full:
        done = subprocess.run([draw.program], input=trace, stdout=full, stderr=subprocess.PIPE, check=False)
    if (done.returncode, done.stderr) != (5, b""):
        wrong.append(f"full device: {done.returncode} {done.stderr!r}")
    read_end, write_end = os.pipe()
    os.close(read_end)
    done = subprocess.run([draw.program], input=trace, stdout=write_end, stderr=subprocess.PIPE, check=False)
    os.close(write_end)
    if (done.returncode, done.stderr) != (5, b""):
        wrong.append(f"closed pipe: {done.returncode} {done.stderr!r}")
    due = draw.run([], trace)[:2]
    stopped = subprocess.Popen([draw.program], stdin=subprocess.PIPE, stdout=subprocess.PIPE)
    for at in range(0, len(trace), 100):
        stopped.stdin.write(trace[at:at + 100])
        stopped.stdin.flush()
        stopped.send_signal(signal.SIGSTOP)
        stopped.send_signal(signal.SIGCONT)
    text, _ = stopped.communicate(timeout=LIMIT_SECONDS)
    if (stopped.returncode, text) != due:
        wrong.append(f"stopped and continued: {stopped.returncode} {text[:60]!r}")
    ended = subprocess.Popen([draw.program], stdin=subprocess.PIPE, stdout=subprocess.PIPE)
    ended.stdin.write(trace)
    ended.stdin.flush()
    ended.send_signal(signal.SIGTERM)
    text, _ = ended.communicate(timeout=LIMIT_SECONDS)
    if (ended.returncode, text) != (-signal.SIGTERM, b""):
        wrong.append(f"ended by a signal: {ended.returncode} {text[:60]!r}")
    draw.say("mu_draw: full device, closed pipe, signals", 4, wrong)


def hostile_pictures(draw, judge):
    trace = open(os.path.join(TOP, "examples", "late-exchange.trace"), "rb").read()
    check_pictures(draw, judge, "prefixes of a trace", [trace[:n] for n in range(len(trace))])
    check_pictures(draw, judge, "changes of one byte", list(changes(trace)))
    check_pictures(draw, judge, "hostile texts, lines and numbers", list(hostile_lines(judge)))
    for words in ([], ["5", "20"]):
        draw.faults("read", 4, words, trace)
        draw.faults("write", 5, words, trace)
        draw.faults("alloc", 6, words, trace)
        draw.pieces(words, trace)
    draw.expect("mu_draw: words, steps and limits", list(picture_rows(trace)))
    odd_sinks(draw, trace)


def large_job(seed, pauses):
    lines = [b"mu 1\nreplicas 7\nring 16\nbudget 6000\n"]
    for client in range(3):
        lines.append(b"client %d\n" % client)
        lines += [b"put k%d %d\n" % (k % 5, seed + k) for k in range(12)]
    if pauses:
        lines.append(b"script\n")
        lines += [b"pause %d %d 10000\n" % (r, 40 + 37 * ((seed + r) % 9)) for r in range(7)]
    return b"".join(lines) + b"end\n"


def main():
    begin(__doc__)
    built = [os.path.join(TOP, "out", "bin", name) for name in ("mu", "mu_draw")]
    programs = sys.argv[1:] + built[len(sys.argv) - 1:]
    missing = [path for path in programs if not os.access(path, os.X_OK)]
    if missing:
        print(f"no program at {missing[0]}: ./prove builds it", file=sys.stderr)
        return 70
    with tempfile.TemporaryDirectory() as folder:
        trials, draw = Trials(programs[0], folder), Trials(programs[1], folder, "mu_draw")
        _, trace, _ = trials.run(["trace"], TWO_CLIENTS)
        trials.reads("prefixes of two jobs", [job[:n] for job in (TWO_CLIENTS, BATCHED) for n in range(len(job))])
        trials.reads("changes of one byte", list(changes(TWO_CLIENTS)))
        judged = open(os.path.join(TOP, "examples", "late-exchange.trace"), "rb").read()
        broken = open(os.path.join(TOP, "examples", "grant-before-drain.trace"), "rb").read()
        jobs = [(["replay"], TWO_CLIENTS), (["run"], TWO_CLIENTS), (["trace"], TWO_CLIENTS), (["check"], trace),
                (["check"], judged), (["check"], broken), (["why"], judged), (["why"], broken), (["tell"], trace),
                (["show", "9"], trace), (["replay"], BATCHED), (["eager"], TWO_CLIENTS), (["eager", "trace"], BATCHED),
                (["enough"], BATCHED),
                (["desk"], TWO_CLIENTS), (["book"], TWO_CLIENTS), (["live", "2"], TWO_CLIENTS), (["bulk", "10"], b"")]
        for words, given in jobs:
            if given:
                trials.faults("read", 4, words, given)
            trials.faults("write", 5, words, given)
            trials.faults("alloc", 6, words, given)
            trials.pieces(words, given)
        for size in range(1, 8):
            trials.faults("read", 4, ["replay"], TWO_CLIENTS, size)
            trials.faults("write", 5, ["replay"], TWO_CLIENTS, size)
        trials.expect("limits", list(limit_rows()))
        trials.words_that_are_no_text()
        trials.full_device(jobs)
        cores = os.cpu_count() or 1
        trials.load("run of seven replicas, all cores busy", [large_job(seed, False) for seed in range(50)], cores)
        trials.load("run of seven replicas, long pauses", [large_job(seed, True) for seed in range(50)], 0)
        hostile_pictures(draw, trials)
    failed = trials.failed + draw.failed
    print(f"{trials.count + draw.count} runs, {failed} wrong")
    return failed != 0


if __name__ == "__main__":
    sys.exit(main())
