"""Unproved builds: `rt try` over many cases of a program, over each allocation of a run, or over the tests of a
crate, built once each."""
import hashlib
import os
import re
import shutil
import subprocess
import tempfile

import unproved
from programs import CRATES, TOP, crate_of, proved_program, tell
from telling import telling

# The crate in which the tests of several crates are built.
MERGED = "merged_tests"
# Before a run is given up: a machine may be busy.
MOST_SECONDS = 600
CASE_LINE = re.compile(r"case=(\S+) run=(\S+)(?: status=(\d+))?")
TEST_LINE = re.compile(rb"^test (\S+) \.\.\. (\S+)", re.MULTILINE)
# What says nothing of a test that failed.
SILENT_LINE = re.compile(r"tests: |test \S+ \.\.\. ok|test result: |races: |run=")


class NotBuilt(Exception):
    """What rt says if it builds nothing."""


class Answer:
    """How a run went, its status and output, and what rt told of it."""

    def __init__(self, state, status, output, told):
        self.state, self.status, self.output, self.told = state, status, output, told


class Case:
    """A run of a program: its words and its input, and what is wanted if that is known."""

    def __init__(self, name, words, given, wanted=None, status=None):
        self.name, self.words, self.given = name, words, given
        self.wanted, self.status = wanted, status

    def trouble(self, answer):
        """What is wrong with an answer, in a few words; else None."""
        if answer.state != "ended":
            return " ".join([answer.state, *answer.told])
        if self.wanted is not None and answer.output != self.wanted:
            return f"printed something else: {first_difference(self.wanted, answer.output)}"
        if self.status is not None and answer.status != self.status:
            return f"has status {answer.status}, not {self.status}"
        return None


class BeginningCase(Case):
    """A run of whose output only the beginning is known."""

    def trouble(self, answer):
        begun = Answer(answer.state, answer.status, answer.output[:len(self.wanted)], answer.told)
        return super().trouble(begun)


class EndingCase(Case):
    """A run of whose output only the end is known."""

    def trouble(self, answer):
        end = answer.output[max(len(answer.output) - len(self.wanted), 0):]
        return super().trouble(Answer(answer.state, answer.status, end, answer.told))


class SummedCase(Case):
    """A run of whose output the checksum alone is known."""

    def __init__(self, name, words, given, summed, status=None):
        super().__init__(name, words, given, status=status)
        self.summed = summed

    def trouble(self, answer):
        found = hashlib.sha256(answer.output).hexdigest()
        other = None if found == self.summed else f"printed something else, with the checksum {found}"
        return super().trouble(answer) or other


def first_difference(wanted, output):
    """The first line in which two texts differ."""
    lines, others = wanted.split(b"\n"), output.split(b"\n")
    at = next((k for k, (one, other) in enumerate(zip(lines, others)) if one != other), min(len(lines), len(others)))
    wants, has = (text[at].decode(errors="replace") if at < len(text) else "no more" for text in (lines, others))
    return f"line {at + 1} is {has!r}, wanted {wants!r}"


def rt_try(crate, *words):
    """Runs `rt try` in a crate's folder."""
    return subprocess.run(["rt", "try", "--seconds", str(MOST_SECONDS), *words], check=False, stdin=subprocess.DEVNULL,
                          cwd=os.path.join(CRATES, crate), stdout=subprocess.PIPE, stderr=subprocess.PIPE)


def write_cases(folder, cases):
    """Writes cases as `rt try --cases` reads them, with names that no output has."""
    for number, case in enumerate(cases):
        path = os.path.join(folder, f"case{number:05d}")
        with open(path, "wb") as given:
            given.write(case.given)
        if case.words:
            with open(path + ".args", "w", encoding="utf-8") as words:
                words.writelines(word + "\n" for word in case.words)


def try_cases(crate, cases, *flags):
    """Builds a program without proofs, once, and runs it for each case: the answers, in order.

    Flags of `rt try` hold for each run, as `--fail-alloc 20`: the twentieth allocation fails.
    """
    with tempfile.TemporaryDirectory(prefix="cases-") as folder:
        write_cases(folder, cases)
        done = rt_try(crate, *flags, "--cases", folder)
    text = done.stderr.decode(errors="replace")
    if not re.search(r"^cases=\d", text, re.MULTILINE):
        raise NotBuilt(text.strip() or f"rt ended with status {done.returncode} and said nothing")
    parts = re.split(rb"^== (case\d{5})\n", done.stdout, flags=re.MULTILINE)
    outputs = dict(zip(parts[1::2], parts[2::2]))
    answers, told = [], []
    for line in text.splitlines():
        found = CASE_LINE.match(line)
        if found:
            status = int(found[3]) if found[3] else None
            answers.append(Answer(found[2], status, outputs.get(found[1].encode(), b""), told))
        told = [] if found else [*told, line]
    return answers


def refuse_each(crate, words, given):
    """Refuses each allocation of a run in turn, over one build without proofs: how many there are, and a line for
    each that isn't answered as the others; None if rt can refuse only one."""
    done = subprocess.run(["rt", "try", "--seconds", str(MOST_SECONDS), "--fail-alloc", "1..", "--", *words],
                          input=given, cwd=os.path.join(CRATES, crate), stdout=subprocess.PIPE,
                          stderr=subprocess.PIPE, check=False)
    text = done.stderr.decode(errors="replace")
    if "takes a number" in text:
        return None
    last = re.search(r"^calls=(\d+) .*proved=no$", text, re.MULTILINE)
    if last is None:
        raise NotBuilt(text.strip() or f"rt ended with status {done.returncode} and said nothing")
    wrong = [line for line in text.splitlines() if line.startswith("call=")]
    return int(last[1]), wrong or ([last[0]] if done.returncode else [])


def count_of_tests(crate):
    """How many tests stand in the sources of a crate."""
    folder = os.path.join(CRATES, crate, "src")
    count = 0
    for name in os.listdir(folder):
        with open(os.path.join(folder, name), encoding="utf-8") as source:
            count += source.read().count("#[test]\n")
    return count


def write_module(crate, sources):
    """Writes a crate as a module of that name: its root file, and the others in a folder."""
    for name in os.listdir(os.path.join(CRATES, crate, "src")):
        with open(os.path.join(CRATES, crate, "src", name), encoding="utf-8") as source:
            text = source.read().replace("crate::", f"crate::{crate}::").replace("#![tactic(auto)]\n", "")
        path = os.path.join(sources, crate + ".rt" if name == "lib.rt" else os.path.join(crate, name))
        os.makedirs(os.path.dirname(path), exist_ok=True)
        with open(path, "w", encoding="utf-8") as out:
            out.write(text)


def write_merged(crates, room):
    """A copy of the sources with one more crate, whose modules are some crates: its folder.

    So the tests of several crates are built once: a build takes a minute of a processor.
    """
    kept = shutil.ignore_patterns("out", "specs", "proofs", "must-fail", "edits")
    shutil.copytree(CRATES, os.path.join(room, "crates"), ignore=kept)
    shutil.copy(os.path.join(TOP, "HANDLES"), room)
    sources = os.path.join(room, "crates", MERGED, "src")
    for crate in crates:
        write_module(crate, sources)
    with open(os.path.join(sources, "lib.rt"), "w", encoding="utf-8") as root:
        root.write("#![tactic(auto)]\n" + "".join(f"#[cfg(test)]\nmod {crate};\n" for crate in crates))
    with open(os.path.join(TOP, "crates.txt"), encoding="utf-8") as lines:
        listed = lines.read()
    below = {it for crate in crates for it in re.search(rf"^{crate}\b.*:(.*)$", listed, re.MULTILINE)[1].split()}
    with open(os.path.join(room, "crates.txt"), "w", encoding="utf-8") as out:
        out.write(f"{listed.rstrip()}\n{MERGED}: {' '.join(sorted(below))}\n")
    return os.path.dirname(sources)


def try_tests(crates):
    """Runs the tests of some crates in one build.

    Which passed and which failed, with their crates, and what was said of these.
    """
    with tempfile.TemporaryDirectory(prefix="tests-") as room:
        done = rt_try(write_merged(crates, room), "--test")
    results = TEST_LINE.findall(done.stdout)
    if not results:
        told = done.stderr.decode(errors="replace").strip()
        raise NotBuilt(told or f"rt ended with status {done.returncode} and said nothing")
    passed = [name.decode() for name, word in results if word == b"ok"]
    failed = [name.decode() for name, word in results if word != b"ok"]
    lines = (done.stdout + done.stderr).decode(errors="replace").splitlines()
    return passed, failed, [line for line in lines if line and not SILENT_LINE.match(line)]


def run_cases(path, cases):
    """Runs a built program for each case: the answers, in order."""
    answers = []
    for case in cases:
        try:
            done = subprocess.run([path, *case.words], input=case.given, stdout=subprocess.PIPE,
                                  stderr=subprocess.PIPE, timeout=MOST_SECONDS, check=False)
        except subprocess.TimeoutExpired:
            answers.append(Answer("no-answer", None, b"", [f"no end in {MOST_SECONDS} seconds"]))
            continue
        state = "ended" if done.returncode >= 0 else f"ended by signal {-done.returncode}"
        answers.append(Answer(state, done.returncode, done.stdout, done.stderr.decode(errors="replace").splitlines()))
    return answers


def program_of(name):
    """A program: the proved one if ./prove left it, else the unproved one that a build keeps; None if none can be kept."""
    return proved_program(name) or unproved.kept(name) or unproved.built(name)


def answers_of(name, cases):
    """The answers of a program, or of one that is built for them alone."""
    path = program_of(name)
    return run_cases(path, cases) if path else try_cases(crate_of(name), cases)


def troubles(cases, answers):
    """What is wrong with the answers, a line for each case that isn't right; each case has to have one."""
    found = [(case, case.trouble(answer)) for case, answer in zip(cases, answers)]
    wrong = [f"{case.name}: {trouble}" for case, trouble in found if trouble]
    if len(answers) != len(cases):
        wrong.append(f"{len(cases)} cases have {len(answers)} answers")
    return wrong


def run_or_write(words, cases, name):
    """What a tool does with cases of `mu`, as its words ask: the status of the tool.

    With none it runs the proved program or an unproved build, with a path that program, and tells what
    is wrong. With `--write FOLDER` it writes the inputs as NAME0000, NAME0001, ..
    """
    if len(words) == 2 and words[0] == "--write":
        for number, case in enumerate(cases):
            with open(os.path.join(words[1], f"{name}{number:04d}"), "wb") as out:
                out.write(case.given)
        return 0
    with telling(lambda seconds: f"{name}: {len(cases)} cases: {seconds} s so far"):
        wrong = troubles(cases, run_cases(words[0], cases) if words else answers_of("mu", cases))
    return tell(wrong, f"{len(cases) - len(wrong)} passed, {len(wrong)} failed")
