#!/usr/bin/env python3
"""Gives each judge of the tests something right and several things wrong: it has to tell them apart.

    tools/tests/known_wrong.py      a line for each judge that doesn't; the last line is `N passed, M failed`

A judge that finds nothing wrong would pass all that is tested by it, and no other test would tell.
`./test` calls this; it runs the program only for what is stored as a checksum.
"""
import contextlib
import io
import os
import runpy
import sys
import tempfile
from types import SimpleNamespace
from unittest import mock

import folders
import astray_jobs
import bound_jobs
import clauses
import cost_bounds
import definitions
import edits
import faults
import fairness
import figures
import made_cases
import own_traces
import pages
import redis_model
import refused_memory
import rules
import second_judge
import serve_sessions
import stop_jobs
import stored
import surface
import talks
import try_processes
import try_server
import trying
from beginning import begin
from judged_table import judged
from programs import EXAMPLES, TOP
from run_cases import contents, stored_cases, table_case, wanted_status
from run_trials import Job, Wrong, check_report
from trying import troubles

# What is printed, and the status that belongs to it.
STATUSES = [(b"usage: mu replay\n", 1), (b"refused line 3 cause 7\n", 2), (b"illegal 4 not allowed\n", 7),
            (b"legal 12\n", 0), (b"report 1\nreplies 0\nstatus 3\n", 3), (b"report 1\nreplies 0\nstatus 0\n", 0)]
# A job of two clients, and a report that is right.
JOB = "mu 2\nreplicas 2\nring 8\nbudget 500\nbatch 2\nclient 0\nput a 5\nget a\nclient 1\nswap a 7\nend\n"
REPORT = ("report 2\n"
          "log 0 entries 3 commits 2 finished\n0 0.1 put a 5\n0 0.2 get a\n1 gone 1\n2 1.1 swap a 7\n"
          "log 1 entries 1 commits 0 outrun\n0 0.1 put a 5\n0 0.2 get a\n"
          "replies 3\n0.1 done\n0.2 value 5\n1.1 value 5\nstatus 0\n")
# What makes it wrong: a text in it and another one in its place.
WRONG_REPORTS = [
    ("0.2 value 5", "0.2 none"), ("replies 3", "replies 4"), ("status 0", "status 3"), ("report 2", "report 1"),
    ("log 1 entries 1 commits 0 outrun\n0 0.1 put a 5\n0 0.2 get a\n", ""), ("entries 3", "entries 4"),
    ("1 gone 1\n", "1 gone 1\n2 gone 1\n"), ("1 gone 1", "1 gone 2"), ("2 1.1 swap a 7", "2 1.1 swap a 8"),
    ("2 1.1 swap a 7", "2 1.2 swap a 7"), ("0 0.1 put a 5\n0 0.2 get a\n1 gone", "0 0.2 get a\n0 0.1 put a 5\n1 gone"),
    ("outrun\n0 0.1 put a 5\n0 0.2 get a", "outrun\n0 1.1 swap a 7"), ("outrun", "stopped"), ("outrun", "asleep"),
    ("entries 1 commits 0 outrun", "entries 1 commits 2 finished"), ("status 0\n", "status 0"),
]
# A session, what is answered to it, and what makes that wrong.
LINES = ["put a 5", "client 1", "get a", "stop 2", "put a", "stop 2", "del a"]
ANSWERS = ("0.1 done\nclient 1\n1.1 value 5\nreplica 2 stops\nrefused line 5 cause 6\nrefused line 6 cause 10\n1.2 done\n"
           "report 2\nlog 0 entries 3 commits 3 finished\n0 0.1 put a 5\n1 1.1 get a\n2 1.2 del a\n"
           "log 1 entries 3 commits 0 finished\n0 0.1 put a 5\n1 1.1 get a\n2 1.2 del a\n"
           "log 2 entries 1 commits 0 stopped\n0 0.1 put a 5\nreplies 3\n0.1 done\n1.1 value 5\n1.2 done\nstatus 0\n")
WRONG_ANSWERS = [
    ("0.1 done\nclient", "0.1 none\nclient"), ("client 1", "client 0"), ("1.1 value 5\nreplica", "1.1 value 6\nreplica"),
    ("1.1 value 5\nreplica", "1.1 no reply\n1.1 value 5\nreplica"), ("replica 2 stops", "replica 1 stops"),
    ("refused line 5", "refused line 6"), ("1.2 done\nreport", "1.3 done\nreport"), ("1.2 done\nreport", "report"),
    ("log 2 entries 1 commits 0 stopped\n0 0.1 put a 5\n", ""), ("0 0.1 put a 5\nreplies", "0 1.1 get a\nreplies"),
    ("1 1.1 get a\n2 1.2 del a\n", "1 1.2 del a\n2 1.1 get a\n"), ("2 1.2 del a", "2 1.2 del b"), ("2 1.2 del a\n", ""),
    ("replies 3\n0.1 done", "replies 3\n0.1 none"), ("status 0", "status 3"), ("report 2", "report 1"),
]
# What stands there of replica 1, and how it looks if that one stays behind.
BEHIND = ("log 1 entries 3 commits 0 finished\n0 0.1 put a 5\n1 1.1 get a\n2 1.2 del a\n",
          "log 1 entries 2 commits 0 running\n0 0.1 put a 5\n1 1.1 get a\n")
# A program that answers each line at once, and one that answers only at the end of its input.
LINE_ANSWERER = "#!/bin/sh\nwhile read -r line; do echo done; done\necho status 0\n"
END_ANSWERER = "#!/bin/sh\ncat | sed 's/.*/done/'\necho status 0\n"
# The least that there is of each kind: a judge that looks at nothing finds nothing.
LEAST_NAMED, LEAST_JUDGED, LEAST_BOUND, LEAST_VERDICTS = 1000, 100, 300, 80
LEAST_FIGURES, LEAST_SHOWN, LEAST_CLAUSES, LEAST_REASONS = 100, 100, 200, 50
# Two lemmas, of which nothing cites the first.
LEMMAS = "pub idle : A\nidle zero = x\nidle (suc n) = idle n\n\npub used : A\nused = x\n\nlast : A\nlast = used\n"
# A source that uses four of the ghost names that it imports.
GHOST_USES = ("ghost use A.B.{first, is_last, last as final, rest as others};\nghost use A.C.{◌<◌, ◌≤◌, if◌then◌else◌};\n"
              "/// Is ≤ is_last.\nfn f()\n    ensures { if first < 1 then others else 0 }\n{}\n")
# A source that says want of memory as an allocator does, and what would make it up.
SAYS_NO_MEMORY = ("use mu_model::NoMemory;\nimpl From<AllocError> for End {\n    fn from(_failed: AllocError) -> End {\n"
                  "        End::NoMemory\n    }\n}\n/// Err(AllocError)\nfn told() -> Said\n    ensures { result ≡ NoMemory }\n{\n"
                  "    match made() {\n        Ok(made) => Said::Made(made),\n        Err(NoMemory) => Said::NoMemory,\n    }\n}\n"
                  "fn taken() -> Result<u16, NoMemory>\n{\n    match submitted() {\n        Ok(row) => Ok(row),\n"
                  "        Err(Refusal::Full) => Ok(0),\n        Err(Refusal::NoMemory) => Err(NoMemory),\n    }\n}\n")
MADE_UP = [("Err(NoMemory)", "Err(_)"), ("use mu_model::NoMemory;\n", ""), ("_failed: AllocError", "_failed: Failed"),
           ("Said::Made(made)", "Said::NoMemory"), ("match made()", "match Err(AllocError)"), ("Ok(0)", "Err(NoMemory)"),
           ("use mu_model", "use std::alloc::AllocError as Refused;\nuse mu_model"),
           ("use mu_model", "use mu_model::NoMemory as Refused;\nuse mu_model"),
           ("Err(Refusal::NoMemory) => Err(NoMemory)", "Err(Refusal::Full | Refusal::NoMemory) => Err(NoMemory)"),
           ("fn told()", "const TEXT: &str = \"a \\\n  b\";\nfn gone() -> End {\n    End::NoMemory\n}\nfn told()")]
# A page, what stands in it, and what would be stale.
WRONG_FIGURES = [
    ("docs/ALIVE.md", "| 580 / 1,078 + 166 |", "| 580 / 1,078 + 167 |"),
    ("docs/ALIVE.md", "| 2,220 / 4,110 + 378 |", "| 2,220 / 4,111 + 378 |"),
    ("docs/ALIVE.md", "gain_steps              = 8 n + 90", "gain_steps              = 8 n + 91"),
    ("docs/FORMATS.md", "b from 1 to 131,071", "b from 1 to 131,072"),
    ("docs/PACE.md", "2,240 for 10", "2,241 for 10"),
    ("docs/FORMATS.md", "at most 100 lines of the script", "a hundred lines of the script"),
]
# How many jobs of stops there are: each family of them is whole; and how many cases are made by a rule.
STOP_JOBS, MADE_CASES = 3_875, 1_723
# A program that says what a fault of its input or of its output was.
FAULT_TELLER = """#!/bin/sh
cat > /dev/null 2>&1 || { echo read fault; exit 4; }
echo first && echo second || exit 5
"""
# More steps than the bound of a fair run of JOB.
UNFAIR_STEPS = 12_000
# A line of a page, and what it names.
PAGE_LINE = ("`crates/kv_store`, `src/no_such_file.rt`, `no_such_name`, `NoSuchName` and `mu replay < no_input`",
             ["crates/kv_store", "src/no_such_file.rt", "no_such_name", "NoSuchName"])
# A row that names clauses, and a source that has some.
CLAUSE_ROW = "| a claim | `Node::turn`: `made` (`HasMade`); `first`, `next`: `kept`; `alone` | `mu_node/src/node.rt` |"
CLAUSE_SOURCE = "impl Node {\n    /// A turn.\n    pub fn turn(&mut self)\n        ensures made { true }\n    {\n"


def tells_runs_of_processes():
    """Who was killed may be stopped; `check` has to find the trace legal, and `tell` what the report says."""
    killed = REPORT.replace("outrun", "stopped")
    yield try_processes.fault_in(killed, 0, JOB, ["1"]) is None
    yield try_processes.fault_in(killed, 0, JOB, []) is not None
    yield try_processes.fault_in(killed.replace("stopped", "unanswered"), 0, JOB, []) is None
    for end in ("lost", "refused", "running"):
        yield try_processes.fault_in(killed.replace("stopped", end), 0, JOB, ["1"]) is not None
    longer = killed.replace("log 1 entries 1", "log 1 entries 2").replace("replies 3", "1 gone 1\nreplies 3")

    def fault(told, verdict="legal 9\n"):
        return try_processes.fault_in_trace("", killed, lambda words, _: verdict if words == ["check"] else told)

    yield fault(killed) is None
    yield fault(longer) is None
    yield fault(killed, "illegal 3 not allowed\n") is not None
    for there, other in (("2 1.1 swap a 7\nlog", "log"), ("1.1 value 5", "1.1 none"), ("commits 2 finished", "commits 2 running"),
                         ("stopped\n0 0.1 put a 5\n0 0.2 get a\n", "stopped\n")):
        yield fault(killed.replace(there, other)) is not None


def tells_served_clients():
    """Each other answer than the foretold one is told, and each other reading of what came."""
    words = [(b"SET", b"a", b"5"), (b"GET", b"a"), (b"INFO",), (b"DEL", b"a"), (b"GET", b"a"), (b"SET", b"a", b"5", b"NX")]
    wanted, is_closed = redis_model.Model().answers(b"".join(redis_model.request(*it) for it in words) + b"*1\r\n$4\r\nPI")
    told = [b"$2\r\nhi\r\n" if it is redis_model.ANY_BULK else it for it in wanted]
    yield not is_closed and told == [b"+OK\r\n", b"$1\r\n5\r\n", b"$2\r\nhi\r\n", b":1\r\n", b"$-1\r\n", redis_model.refusal("option")]
    yield redis_model.agree(b"".join(told), wanted)
    for k, other in enumerate((b"+OK\r\n+OK\r\n", b"$1\r\n6\r\n", b"$-1\r\n", b":0\r\n", b"$0\r\n\r\n", b"")):
        yield not redis_model.agree(b"".join([*told[:k], other, *told[k + 1:]]), wanted)
    for came, said in ((b"*1\r\n$4\r\nPINGS", b"expected CRLF"), (b"*17\r\n", b"invalid multibulk length"), (b"x", b"got 'x'")):
        wanted, is_closed = redis_model.Model().answers(came)
        yield is_closed and len(wanted) == 1 and said in wanted[0]
    shared = try_server.Shared()
    first, second = (shared.sent(0, (kind, "a", *rest)) for kind, *rest in (("put", "5"), ("get",)))
    shared.told(first, "done")
    shared.told(second, "none")
    yield shared.wrong() == ["a"]


def tells_answers():
    """An answer is right if it ended with just these bytes and this status."""
    case = trying.Case("a case", [], b"", b"right\n", 0)
    yield case.trouble(trying.Answer("ended", 0, b"right\n", [])) is None
    for answer in (("ended", 0, b"wrong\n"), ("ended", 0, b""), ("ended", 0, b"right\n\n"), ("ended", 3, b"right\n"),
                   ("fault", None, b"right\n"), ("ended by signal 11", -11, b"right\n")):
        yield case.trouble(trying.Answer(*answer, [])) is not None
    silent = trying.Case("one that prints nothing", [], b"", b"", 5)
    yield silent.trouble(trying.Answer("ended", 5, b"", [])) is None
    yield silent.trouble(trying.Answer("ended", 5, b"something", [])) is not None


def tells_sums():
    """Of a long output the checksum is compared, and the status."""
    case = trying.SummedCase("a sum", [], b"", "2c26b46b68ffc68ff99b453c1d30413413422d706483bfa0f98a5e886266e7ae")
    yield case.trouble(trying.Answer("ended", 0, b"foo", [])) is None
    yield case.trouble(trying.Answer("ended", 0, b"fop", [])) is not None


def tells_parts():
    """Of some outputs the beginning or the end is compared, and the status."""
    for case, right, wrong in ((trying.BeginningCase, b"right and more", (b"wrong", b"righ", b"")),
                               (trying.EndingCase, b"more that is right", (b"right and more", b"ight", b""))):
        made = case("a part", [], b"", b"right", 7)
        yield made.trouble(trying.Answer("ended", 7, right, [])) is None
        yield made.trouble(trying.Answer("ended", 0, right, [])) is not None
        for output in wrong:
            yield made.trouble(trying.Answer("ended", 7, output, [])) is not None


def tells_tables():
    """A case of a table has its words, its input with or without a last line feed, and what is wanted."""
    for text, given, kind, wanted, status in (
            (b"a replay\nmu 1\nprints\nrefused line 2 cause 11\n", b"mu 1\n", trying.Case, b"refused line 2 cause 11\n", 2),
            (b"a replay\nmu 1\n\\prints\nlegal 0\n", b"mu 1", trying.Case, b"legal 0\n", 0),
            (b"a replay\nprints status 3\nx\n", b"", trying.Case, b"x\n", 3),
            (b"a replay\nend\nbegins\nillegal 0 at line 6\n", b"end\n", trying.BeginningCase, b"illegal 0 at line 6\n", 7),
            (b"a replay\nend\nends status 0\n</svg>\n", b"end\n", trying.EndingCase, b"</svg>\n", 0)):
        case = table_case("t.table", text)
        yield (case.name, case.words) == ("t.table/a", ["replay"])
        yield (case.given, type(case), case.wanted, case.status) == (given, kind, wanted, status)
    summed = table_case("t.table", b"a b\nc\nprints sha256 0123 status 3\n")
    yield (summed.summed, summed.status) == ("0123", 3)
    like = table_case("t.table", b"b b\nlike a\n2= x\n3-\n4+ y\n4+ z\nprints\nlegal 0\n", [trying.Case("t.table/a", [], b"1\n2\n3\n4\n")])
    yield like.given == b"1\nx\ny\nz\n4\n"


def tells_stops():
    """After stops the others finish with all commands, and of two logs one begins the other."""
    def trouble(stopped, report, status=0):
        return made_cases.StopsCase(stopped, 0).trouble(trying.Answer("ended", status, report.encode(), []))

    report = made_cases.two_clients().wanted.decode()
    yield trouble([0], report) is None and trouble([0, 1], report) is None and trouble([0, 1], report, 3) is None
    yield trouble([0], report, 3) is not None and trouble([0, 1], report, 2) is not None
    for old, new in (("log 2 entries 6 commits 0 finished", "log 2 entries 6 commits 0 budget"),
                     ("3 1.2 swap a 9\n", "3 1.2 swap a 8\n"), ("5 1.3 cas a 9 1\nreplies", "replies"),
                     ("log 2 entries", "log two entries")):
        first, _, last = report.rpartition(old)
        yield old in report and trouble([1], first + new + last) is not None
    first, _, last = report.rpartition("3 1.2 swap a 9\n")
    yield trouble([0, 1], first + "3 1.2 swap a 8\n" + last) is not None
    yield len(made_cases.made_cases()) == MADE_CASES
    replicas = range(made_cases.LARGEST_REPLICAS)
    steps = b"".join(b"%d beat = done\n" % replica * made_cases.LARGEST_STEPS for replica in replicas)
    yield made_cases.LargestCase().trouble(trying.Answer("ended", 0, steps, [])) is None
    yield made_cases.LargestCase().trouble(trying.Answer("ended", 0, steps[15:], [])) is not None


def tells_edits():
    """An edit fits if its file has the old text once, after the pairs before."""
    def trouble(*lines):
        return edits.trouble_of("judge_traces", "\n".join(lines))

    file, old = "file: src/main.rt", "old: ExitCode::from(status("
    yield trouble(file, old, "new: ExitCode::from(other(", "old: from(other(", "new: from(it(") is None
    for lines in ((file, "old: ExitCode", "new: Code"), (file, "old: no such text", "new: none"), (file,), (old, "new: x"),
                  ("file: specs/Judged.antt", old, "new: x"), ("file: src/none.rt", old, "new: x"), (file, "new: x")):
        yield trouble(*lines) is not None
    yield edits.judged()[1] == [] and min(edits.judged()[0]) > 0


def tells_faults():
    """A program that says that it couldn't read or write is right, one that doesn't is not."""
    with tempfile.TemporaryDirectory() as room:
        path = os.path.join(room, "teller")
        with open(path, "w", encoding="utf-8") as program:
            program.write(FAULT_TELLER)
        os.chmod(path, 0o755)
        yield faults.troubles_of(path, "teller", [], b"given", b"read fault\n", b"first\n") == (4, [])
        yield len(faults.troubles_of(path, "teller", [], b"given", b"", b"")[1]) == 2
        yield len(faults.troubles_of("/bin/true", "true", [], b"given", b"read fault\n", b"first\n")[1]) == 4


def tells_missing_answers():
    """Each case has an answer."""
    cases = [trying.Case(name, [], b"", b"x", 0) for name in ("one", "two")]
    right = trying.Answer("ended", 0, b"x", [])
    yield troubles(cases, [right, right]) == []
    for answers in ([right], [], [right] * 3):
        yield troubles(cases, answers) != []


def tells_statuses():
    for text, status in STATUSES:
        yield wanted_status(text) == status


def accepts(report, status):
    try:
        check_report(Job(JOB), report, status)
    except (Wrong, ValueError, IndexError):
        return False
    return True


def tells_reports():
    yield accepts(REPORT, 0)
    yield not accepts(REPORT, 3)
    for old, new in WRONG_REPORTS:
        yield old in REPORT and not accepts(REPORT.replace(old, new, 1), 0)


def tells_sessions():
    """Each line has its answer, the report is of these, after enough quiet lines no replica stays behind, and each line
    is answered before the next is given."""
    def accepts_session(answers, status=0):
        try:
            serve_sessions.check(3, LINES, answers.splitlines(), status)
        except (serve_sessions.Wrong, KeyError, ValueError, IndexError):
            return False
        return True

    yield accepts_session(ANSWERS) and not accepts_session(ANSWERS, 3)
    for old, new in WRONG_ANSWERS:
        yield old in ANSWERS and not accepts_session(ANSWERS.replace(old, new, 1))
    behind = ANSWERS.replace(*BEHIND)
    yield behind != ANSWERS and accepts_session(behind)
    with mock.patch.object(serve_sessions, "QUIET", 1):
        yield accepts_session(ANSWERS) and not accepts_session(behind)
        yield accepts_session(behind.replace("running", "outrun 1 1"))
    with mock.patch.object(serve_sessions, "QUIET", 2):
        yield accepts_session(behind)
    case = trying.Case("a talk", [], b"one\ntwo\n", b"done\ndone\nstatus 0\n", 0)
    other = trying.Case("another", [], b"one\n", b"no\nstatus 0\n", 0)
    with tempfile.TemporaryDirectory() as room, mock.patch.object(talks, "MOST_SECONDS", 1):
        for name, text in (("line", LINE_ANSWERER), ("end", END_ANSWERER)):
            path = os.path.join(room, name)
            with open(path, "w", encoding="utf-8") as program:
                program.write(text)
            os.chmod(path, 0o755)
            yield (talks.trouble_of(path, case) is None) == (name == "line")
            yield talks.trouble_of(path, other) is not None


def tells_bounds():
    """At its bound a run has status 0 and a right report."""
    case = bound_jobs.BoundCase("at the bound", ["replay"], JOB.encode(), None, 0)
    yield case.trouble(trying.Answer("ended", 0, REPORT.encode(), [])) is None
    yield case.trouble(trying.Answer("ended", 3, REPORT.encode(), [])) is not None
    yield case.trouble(trying.Answer("ended", 0, REPORT.replace("value 5", "value 6").encode(), [])) is not None
    yield len(list(bound_jobs.bound_cases())) >= LEAST_BOUND


def tells_finishers():
    """Each replica without a stop finishes with all commands."""
    with open(os.path.join(EXAMPLES, "put-and-get.job"), "rb") as job:
        case = stop_jobs.FinishCase("each finishes", ["replay"], job.read(), None, 0)
    report = contents(os.path.join(EXAMPLES, "put-and-get.job.stdout")).decode()
    yield case.trouble(trying.Answer("ended", 0, report.encode(), [])) is None
    for old, new in (("log 2 entries 2 commits 0 finished", "log 2 entries 2 commits 0 outrun"),
                     ("log 2 entries 2 commits 0 finished\n0 0.1 put a 5\n1 0.2 get a\n",
                      "log 2 entries 1 commits 0 finished\n0 0.1 put a 5\n")):
        yield old in report and case.trouble(trying.Answer("ended", 0, report.replace(old, new).encode(), [])) is not None
    yield len(list(stop_jobs.stop_cases())) == STOP_JOBS


def tells_costs():
    """A program ends within a bound or not, and takes too long beside another row or not."""
    takes = [sys.executable, "-c", "bytes(1 << 27)"]
    yield cost_bounds.ends("/bin/true", [], b"", cost_bounds.MOST)
    yield not cost_bounds.ends("/bin/false", [], b"", cost_bounds.MOST)
    yield cost_bounds.ends(takes[0], takes[1:], b"", cost_bounds.MOST)
    yield not cost_bounds.ends(takes[0], takes[1:], b"", (1 << 27) // cost_bounds.KILOBYTE)
    most = {row: times for row, _, times in cost_bounds.COMPARED}
    for ending, share, wrong in ((True, 0.9, 0), (True, 1.1, len(most)), (False, 0.9, len(cost_bounds.RUNS))):
        with mock.patch.object(cost_bounds, "ends", return_value=ending), mock.patch.object(
                cost_bounds, "seconds", side_effect=lambda _, it, part=share: part * most[it] if it in most else 1.0):
            yield len(cost_bounds.troubles("")) == wrong


def tells_silent_definitions():
    """Each file of definitions says what it defines."""
    yield definitions.judged()[1] == []
    with mock.patch.object(definitions, "paragraphs", return_value=[""]):
        yield len(definitions.judged()[1]) > 1


def tells_own_traces():
    """Of a trace by threads it may differ where it breaks, and nothing else."""
    text = b"illegal %d at line %d\n0 putslot 1 0 8 0 = done\nnot allowed: %s\n"
    case = own_traces.OwnCase("own", ["why"], b"", own_traces.PLACE.sub(b"illegal I at line L", text % (4, 9, b"so")), 7)
    yield case.trouble(trying.Answer("ended", 7, text % (41, 52, b"so"), [])) is None
    yield case.trouble(trying.Answer("ended", 7, text % (4, 9, b"otherwise"), [])) is not None
    yield case.trouble(trying.Answer("ended", 0, b"legal 88\n", [])) is not None
    yield all(own_traces.RUNS.values())


def tells_figures():
    """A figure of a table, of a formula and of a sentence that isn't right any more is told, and none else."""
    yield figures.judged()[0] >= LEAST_FIGURES
    read = figures.contents
    for page, stands, wrong in WRONG_FIGURES:
        def changed(path, page=page, stands=stands, wrong=wrong):
            text = read(path)
            return text.replace(stands, wrong) if path == page else text
        with mock.patch.object(figures, "contents", changed):
            yield len(figures.judged()[1]) == 1


def tells_uncited_lemmas():
    """A lemma that only itself cites is told, one that another cites isn't, and a source cites by its imports."""
    yield not surface.cited_beside(LEMMAS, "idle")
    yield surface.cited_beside(LEMMAS, "used")
    yield list(surface.imported("b", "use Rattle.a.proofs.One.{idle as own, used}")) == [("a", "One", "idle"), ("a", "One", "used")]
    yield list(surface.imported("b", "using(crate::proofs::Two::used)")) == [("b", "Two", "used")]
    yield sum(len(list(surface.shown(crate))) for crate in os.listdir(surface.CRATES)) >= LEAST_SHOWN


def tells_idle_imports():
    """A ghost name that is imported and stands nowhere else is told, and one that is used isn't, nor an operator."""
    yield list(surface.idle_names(GHOST_USES)) == ["is_last", "last as final", "◌≤◌"]


def tells_made_up():
    """Want of memory that no allocator told is told, once for each time, and no other."""
    yield not list(surface.made_up_in(SAYS_NO_MEMORY))
    for stands, wrong in MADE_UP:
        yield len(list(surface.made_up_in(SAYS_NO_MEMORY.replace(stands, wrong, 1)))) == 1


def tells_pages():
    """What a page names is found, and each page names something."""
    line, wanted = PAGE_LINE
    yield [name for name, _ in pages.names_in(line)] == wanted
    yield pages.judged()[0] >= LEAST_NAMED
    page = {"docs/PACE.md"}
    yield pages.leads("README.md", "docs/PACE.md#how-long-things-take", page)
    yield not pages.leads("README.md", "docs/PACE.md#how-long", page)
    yield not pages.leads("docs/PACE.md", "docs/PACE.md", page)
    yield pages.words_of("# A page\n\n| with | 5 |\n|---|---|\n- `words`, - no\n") == 6
    with mock.patch.object(pages, "MOST_WORDS", 10):
        yield len(list(pages.too_long())) == len(list(pages.pages())) - 1 + (list(pages.too_long())[0][:6] == "README")


def tells_other_words():
    """A reason of which the page tells another word, another value or nothing is told, and none else."""
    yield len(pages.defined_reasons()) >= LEAST_REASONS
    yield not list(pages.other_words())
    read = pages.contents
    for stands, wrong, found in (("| the ring has no place *place* |", "| the ring has no row *place* |", 1),
                                 ("there is no replica *replica*", "there is no replica *region*", 1),
                                 ("and *put* put", "and *put* written", 1), ("| Drained |", "| Draine |", 2)):
        def changed(path, stands=stands, wrong=wrong):
            return read(path).replace(stands, wrong) if path == "docs/WHY.md" else read(path)
        with mock.patch.object(pages, "contents", changed):
            yield len(list(pages.other_words())) == found


def tells_clauses():
    """The clauses that a row names are found, and a source's are those of its functions, types and records."""
    yield list(clauses.named_in(CLAUSE_ROW)) == [("Node::turn", "made"), ("first", "kept"), ("next", "kept")]
    yield list(clauses.parts_of(CLAUSE_SOURCE)) == [("Node", "turn"), ("turn", "made"), ("Node::turn", "made")]
    yield all(map(clauses.stands, ("mu_top.Commands.Books", "mu_top::top::mu", "mu_words::fields_fit")))
    yield not any(map(clauses.stands, ("mu_top.Answers.Books", "mu_top::starting::mu", "mu_words::fields")))
    yield clauses.judged()[0] >= LEAST_CLAUSES
    code, specs = "    pub fn turn()\n        ensures made { true }\n", "pub record R (n : ℕ) : Type 0 where\n  pub part : n ≡ n\n"
    for text, right, wrong in ((code, ("`turn`", "`turn`: `made`"), ("`turns`", "`turn`: `maid`", "`turn`: `made`, `more`")),
                               (specs, ("`R`", "`part`", "`R`: `part`"), ("`S`", "`R`: `whole`"))):
        yield not any(clauses.unlinked_names(text, it, text == code) for it in right)
        yield all(clauses.unlinked_names(text, it, text == code) for it in wrong)
    yield [clauses.LINK.findall(it) for it in ("[`f`: `a`, `b`](x/y.rt)", "[f](x/y.rt)", "[`f`](x/y.md)")] == [
        [("`f`: `a`, `b`", "x/y.rt")], [], []]
    with mock.patch.object(clauses, "promising", lambda page, section: ["All is well.", "Nothing is promised."]):
        yield len(list(clauses.without_clause())) == len(clauses.PROMISES)


def ending(names, *ends):
    """How many of the names end so."""
    return sum(name.endswith(ends) for name in names)


def tells_stored_inputs():
    """Each stored input is a case, with its words and its output, and so is what is told of an output."""
    for name in sorted(os.listdir(os.path.join(TOP, "cases"))):
        folder = os.path.join(TOP, "cases", name)
        if os.path.isdir(folder):
            names = stored.names(folder)
            yield len(names) == 3 * ending(names, ".stdout") + ending(names, ".told")
            yield len(stored_cases(folder)) == ending(names, ".stdout", ".told") > 0
    yield len(stored_cases(EXAMPLES)) == ending(stored.names(EXAMPLES), ".stdout", ".told") > 0
    yield len(list(judged())) == contents(os.path.join(TOP, "cases", "judged.names")).count(b"\n") >= LEAST_JUDGED


def tells_made():
    """What a program with a fault prints isn't taken for a stored trace, nor what was kept and changed."""
    path = os.path.join(EXAMPLES, "stop-and-pause.trace")
    trace = contents(path)
    lines = trace.splitlines(keepends=True)

    def is_taken(output, state="ended"):
        try:
            return stored.made(path, lambda case: trying.Answer(state, 0, output, [])) == output
        except stored.NotMade:
            return False

    yield is_taken(trace)
    yield not is_taken(trace, "ended by signal 4") and not is_taken(b"") and not is_taken(trace + b"\n")
    for at in (0, len(lines) // 2, len(lines) - 1):
        yield not is_taken(b"".join([*lines[:at], *lines[at + 1:]]))
    yield not is_taken(trace.replace(b"= entered", b"= missed", 1))
    with tempfile.TemporaryDirectory() as room, mock.patch.object(stored, "MADE", room):
        stored.keep(trace[:-1], stored.rule_of(path).summed)
        yield contents(path) == trace
    yield stored.is_made(path) and not stored.is_made(os.path.join(EXAMPLES, "put-and-get.trace"))


def tells_failures():
    """./test counts what failed, and ends with status 1 for it."""
    test = SimpleNamespace(**runpy.run_path(os.path.join(TOP, "test")))
    with contextlib.redirect_stdout(io.StringIO()):
        yield test.told_all([([test.Part("one", 2, ["it failed"]), test.Part("other", 1, [], skipped=4)], 0)]) == (3, 1, 4)
        yield test.ended(3, 1) == 1 and test.ended(3, 0) == 0 and test.ended(0, 0) == 1


def tells_rules():
    """A list has two answers without its rule, and not without another one or by another measure."""
    rule = rules.LISTS[0]
    yield list(rules.troubles(rule)) == []
    yield rules.judged() == (len(rules.LISTS), [])
    for left_out, without in (("NotEntered", rule.without), (rule.left_out, rules.two_rows)):
        yield list(rules.troubles(rules.Rule(rule.make, left_out, rule.says, without))) != []


def tells_breaks():
    """A legal trace has no break; without one of its events, or with another answer, it has."""
    trace = contents(os.path.join(EXAMPLES, "late-exchange.trace")).decode()
    yield second_judge.first_break(trace) is None
    for old, new in (("1 drain = done\n", ""), ("1 looktarget = done\n", ""), ("0 min 1 = 0\n", "0 min 1 = 8\n"),
                     ("= missed", "= done"), ("0 putmin 0 8", "0 putmin 0 9")):
        yield trace.count(old) == 1 and second_judge.first_break(trace.replace(old, new)) is not None
    yield second_judge.compared()[0] >= LEAST_VERDICTS


def tells_refused_memory():
    """Of its runs each with an allocation refused says so, and no other; before the words are there, nothing."""
    alone, silent, said = (0, b"report\n", False), (6, b"", True), (6, b"no memory\n", True)
    threads, plain = ["live", "2"], ["replay"]
    least = refused_memory.LEAST_REFUSED
    right = [alone, silent, silent, *[said] * least, alone]

    def is_right(words, runs):
        return refused_memory.trouble(words, b"", runs) is None

    yield is_right(plain, right) and is_right(threads, right)
    as_usual = (0, b"report\n", True)
    yield is_right(threads, [*right[:9], as_usual, *right[9:]])
    for odd in (as_usual, silent, (6, b"report\n", True), (3, b"no memory\n", True), (6, b"no memory\n", False),
                (6, b"", False), (0, b"", True), (0, b"other\n", False)):
        yield not is_right(plain, [*right[:9], odd, *right[9:]])
    yield not is_right(plain, [(6, b"no memory\n", False)] * least * 2)
    session, answered = ["serve", "3"], [(6, b"rep" + refused_memory.SAID, True)]
    yield is_right(session, [*right[:9], *answered, *right[9:]]) and not is_right(plain, [*right[:9], *answered, *right[9:]])
    yield not is_right(session, [*right[:9], (6, b"rap" + refused_memory.SAID, True), *right[9:]])
    yield not is_right(plain, [alone, alone])


def tells_hangs():
    """A job hangs if a command is missing, and that is wrong unless half were stopped or outrun."""
    def kind(*ends, status=3):
        return astray_jobs.Report("".join(f"log {r} entries {r} commits 0 {end}\n" for r, end in enumerate(ends)), status)

    hung, halved = kind("budget", "budget", "stopped"), kind("budget", "outrun 1 2")
    yield not hung.has_all() and not hung.lost_half()
    yield not halved.has_all() and halved.lost_half()
    yield kind("finished", "budget", status=0).kind() != kind("budget", "finished", status=0).kind()
    yield kind("finished", "stopped", status=0).kind() != kind("budget", "stopped", status=0).kind()


def tells_unfair_runs():
    """A run that is fair for long enough and gets nothing done refutes the law; one that isn't fair doesn't."""
    def stretch(counts, others=1):
        events = [event for count in counts for event in ("0 beat = done", *[f"1 readbeat 0 = {count}"] * others)]
        run = fairness.Run(JOB + "\n".join([*events, "end", ""]))
        return fairness.Stretch(run, [0, 1], 0, len(run.lines))

    fair, stale = stretch(range(UNFAIR_STEPS)), stretch([1] * UNFAIR_STEPS)
    yield (fair.ratio, fair.lag, fair.found, fair.alive) == (1, 1, True, True)
    yield fair.refutes(None) and fair.refutes(fair.bound + 1) and not fair.refutes(fair.bound)
    yield not stale.found and not stale.alive and not stale.refutes(None)
    yield not stretch(range(UNFAIR_STEPS), others=2).found and not stretch(range(9)).refutes(None)
    yield [fairness.least_lag(rows, 2) for rows in ([2, 2], [1, 2], [9, 0], [3, 0, 3, 2])] == [1, 1, 8, 2]


JUDGES = [
    tells_failures, tells_answers, tells_runs_of_processes, tells_served_clients, tells_sums, tells_parts, tells_tables,
    tells_stops, tells_edits,
    tells_faults, tells_missing_answers, tells_statuses, tells_reports, tells_sessions, tells_bounds, tells_other_words,
    tells_own_traces, tells_pages, tells_clauses, tells_figures, tells_uncited_lemmas, tells_idle_imports, tells_made_up,
    tells_stored_inputs, tells_made, tells_rules, tells_breaks, tells_refused_memory, tells_finishers, tells_costs,
    tells_silent_definitions, tells_hangs, tells_unfair_runs]


def tried():
    """How many things the judges told apart, and a line for each that one didn't."""
    passed, wrong = 0, []
    for judge in JUDGES:
        told = list(judge())
        passed += sum(told)
        wrong += [f"{judge.__name__}: number {k} isn't told as it should be" for k, right in enumerate(told) if not right]
    return passed, wrong


def main():
    begin(__doc__)
    passed, wrong = tried()
    print(*wrong, f"{passed} passed, {len(wrong)} failed", sep="\n")
    return 1 if wrong else 0


if __name__ == "__main__":
    sys.exit(main())
