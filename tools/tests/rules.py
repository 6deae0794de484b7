#!/usr/bin/env python3
"""For each rule that keeps two answers apart, a short list of events that has two answers without it.

    tools/tests/rules.py            tries each list, and tells which differ from those of examples/rules
    tools/tests/rules.py --write    writes them

Each list goes on behind the step that breaks the rule, until two values are chosen at one position, two replicas
know different values there, they have read different words of a command, or one lacks an entry for good. An account
of docs/PROTOCOL.md of its own (tools/accounts/second_judge.py) makes the answers. It says that the list is
allowed without the rule, that it has two answers then, and that it breaks at that step with the rule. The pictures
are those of tools/accounts/picture_cases.py, up to that step.
`docs/SCENES.md` tells the stories.
"""
import os
import sys

import folders
import picture_cases
from account import MIN, Job
from beginning import begin
from programs import EXAMPLES, tell
from run_cases import contents
from second_judge import Steps

RULES = os.path.join(EXAMPLES, "rules")
# Two clients with one command each, for three replicas, unless a list says otherwise.
CLIENTS = [["put a 5"], ["put a 7"]]
# The values of commands: row 0 as a batch of replica 0, row 1 as one of replica 1 and of replica 0.
FIVE, SEVEN, SEVEN_OF_0 = 0, 4097, 1
VALUE_WORD = 4


class Run(Steps):
    """The events of a list, made without a rule."""

    def __init__(self, left_out, job=None):
        super().__init__(job or Job(1, 3, 8, CLIENTS), left_out)
        self.breaks, self.taken = None, {}

    def step(self, by, verb, *words):
        """Makes a step, and notes which regions took a value under which number."""
        answer = super().step(by, verb, *words)
        if verb == "putslot" and answer == ("done",):
            p, i, number, value = words
            self.taken.setdefault((i, number, value), set()).add(p)
        return answer

    def breaking(self, by, verb, *words):
        """The step that breaks the rule."""
        self.breaks = len(self.events)
        return self.step(by, verb, *words)

    def chosen(self):
        """The values that are chosen: position, number and value."""
        return sorted(key for key, regions in self.taken.items() if len(regions) >= self.job.majority)

    def asks(self, r):
        for p in range(self.job.replicas):
            self.step(r, "ask", p)

    def sees_ask(self, host, w):
        self.step(host, "readask", w)

    def closes(self, host):
        if self.step(host, "close")[4:] != ("none",):
            self.step(host, "looktarget")
            self.step(host, "drain")

    def grants(self, host, w):
        """The host sees an ask, and grants its region."""
        self.sees_ask(host, w)
        self.closes(host)
        self.step(host, "grant", w)

    def confirms(self, r, regions):
        for p in regions:
            self.step(r, "fence", p)
        for p in regions:
            self.step(r, "min", p)

    def joins(self, r, regions, number):
        for p in regions:
            self.step(r, "enter", p, *MIN)
            self.step(r, "putmin", p, number)

    def leads(self, r, regions, number):
        self.confirms(r, regions)
        self.joins(r, regions, number)

    def looks(self, r, regions, i=0):
        for p in regions:
            self.step(r, "look", p, i)

    def writes(self, r, row, but=None):
        for k, word in enumerate(self.job.rows[row]):
            if k != but:
                self.step(r, "writerow", row, k, word)

    def reads(self, r, value):
        for k in range(len(self.job.rows[0])):
            self.step(r, "readrow", value, k)

    def enters(self, r, p, i=0):
        return self.step(r, "enter", p, "place", i % self.job.ring)

    def puts(self, r, regions, number, value, i=0):
        for p in regions:
            self.enters(r, p, i)
            self.step(r, "putslot", p, i, number, value)

    def begins(self, r, regions, number):
        """A replica asks, is granted these regions, and becomes the leader of their members."""
        self.asks(r)
        for p in regions:
            self.grants(p, r)
        self.leads(r, regions, number)

    def seven_is_committed(self):
        """Replica 1 leads in regions 1 and 2, and commits the second client's command."""
        self.begins(1, (1, 2), 9)
        self.seven_follows()

    def seven_follows(self):
        self.looks(1, (1, 2))
        self.writes(1, 1)
        self.puts(1, (1, 2), 9, SEVEN)

    def five_is_due(self, members=(0, 1), number=8):
        """Replica 0 leads, and has the first client's command to put."""
        self.begins(0, members, number)
        self.looks(0, members)
        self.writes(0, 0)

    def trace(self):
        return "\n".join([*self.job.lines(), *self.events, "end", ""])


def grant_without_drain(run):
    run.five_is_due()
    run.puts(0, (0,), 8, FIVE)
    run.enters(0, 1)
    run.asks(1)
    run.sees_ask(1, 1)
    run.step(1, "close")
    run.step(1, "looktarget")
    run.breaking(1, "grant", 1)
    run.grants(2, 1)
    run.leads(1, (1, 2), 9)
    run.seven_follows()
    run.step(0, "putslot", 1, 0, 8, FIVE)


def put_without_enter(run):
    run.five_is_due()
    run.puts(0, (0,), 8, FIVE)
    run.seven_is_committed()
    run.breaking(0, "putslot", 1, 0, 8, FIVE)


def owner_compared(run):
    run.asks(0)
    run.grants(0, 0)
    run.grants(1, 0)
    run.asks(0)
    run.leads(0, (0, 1), 8)
    run.looks(0, (0, 1))
    run.writes(0, 0)
    run.seven_is_committed()
    run.grants(1, 0)
    run.puts(0, (0,), 8, FIVE)
    run.breaking(0, "enter", 1, "place", 0)
    run.step(0, "putslot", 1, 0, 8, FIVE)


def put_without_majority(run):
    run.seven_is_committed()
    run.asks(0)
    run.grants(0, 0)
    run.grants(1, 0)
    run.confirms(0, (0, 1))
    run.joins(0, (0,), 16)
    run.looks(0, (0,))
    run.writes(0, 0)
    run.enters(0, 0)
    run.breaking(0, "putslot", 0, 0, 16, FIVE)
    run.asks(0)
    run.leads(0, (0, 1), 24)
    run.looks(0, (0, 1))
    run.puts(0, (0, 1), 24, FIVE)


def new_over_entry(run):
    run.seven_is_committed()
    run.five_is_due((0, 1), 16)
    run.enters(0, 0)
    run.breaking(0, "putslot", 0, 0, 16, FIVE)
    run.puts(0, (1,), 16, FIVE)


def lesser_number(run):
    run.five_is_due()
    run.puts(0, (0,), 8, FIVE)
    run.seven_is_committed()
    run.asks(0)
    run.grants(1, 0)
    run.leads(0, (0, 1), 16)
    run.looks(0, (0, 1))
    run.enters(0, 0)
    run.breaking(0, "putslot", 0, 0, 16, FIVE)
    run.puts(0, (1,), 16, FIVE)


def early_look(run):
    run.asks(0)
    run.grants(0, 0)
    run.grants(1, 0)
    run.asks(0)
    for p in (0, 1):
        run.step(0, "fence", p)
    run.looks(0, (1,))
    run.seven_is_committed()
    run.grants(1, 0)
    run.leads(0, (0, 1), 16)
    run.looks(0, (0,))
    run.writes(0, 0)
    run.enters(0, 0)
    run.breaking(0, "putslot", 0, 0, 16, FIVE)
    run.looks(0, (1,))
    run.puts(0, (1,), 16, FIVE)


def number_again(run):
    run.asks(0)
    for p in range(3):
        run.grants(p, 0)
    run.leads(0, (0, 1), 8)
    run.looks(0, (0, 1))
    run.writes(0, 0)
    run.puts(0, (1,), 8, FIVE)
    run.asks(0)
    run.confirms(0, (0, 2))
    run.step(0, "enter", 0, *MIN)
    run.breaking(0, "putmin", 0, 8)
    run.joins(0, (2,), 8)
    run.looks(0, (0, 2))
    run.writes(0, 1)
    run.puts(0, (0, 2), 8, SEVEN_OF_0)
    run.begins(1, (1, 2), 9)
    run.looks(1, (1, 2))
    run.puts(1, (1, 2), 9, FIVE)


def smaller_minimum(run):
    run.begins(1, (1, 2), 9)
    run.looks(1, (1, 2))
    run.writes(1, 1)
    run.puts(1, (1,), 9, SEVEN)
    run.asks(0)
    run.grants(0, 0)
    run.grants(2, 0)
    run.confirms(0, (0, 2))
    run.asks(0)
    for p in (0, 2):
        run.step(0, "fence", p)
    run.joins(0, (0,), 8)
    run.step(0, "enter", 2, *MIN)
    run.breaking(0, "putmin", 2, 8)
    run.looks(0, (0, 2))
    run.writes(0, 0)
    run.puts(0, (0, 2), 8, FIVE)
    run.begins(2, (1, 2), 10)
    run.looks(2, (1, 2))
    run.puts(2, (1, 2), 10, SEVEN)


def commit_with_miss(run):
    run.five_is_due()
    run.puts(0, (0,), 8, FIVE)
    run.enters(0, 1)
    run.seven_is_committed()
    run.step(1, "raisefuo", 1, 1)
    run.step(0, "putslot", 1, 0, 8, FIVE)
    run.breaking(0, "raisefuo", 0, 1)
    run.step(0, "raisehead", 1)


def learnt_undecided(run):
    run.five_is_due((0, 2))
    run.puts(0, (2,), 8, FIVE)
    run.step(2, "look", 2, 0)
    run.breaking(2, "raisefuo", 2, 1)
    run.reads(2, FIVE)
    run.step(2, "raisehead", 1)
    run.begins(1, (0, 1), 9)
    run.looks(1, (0, 1))
    run.writes(1, 1)
    run.puts(1, (0, 1), 9, SEVEN)


def put_before_row(run):
    run.asks(0)
    for p in range(3):
        run.grants(p, 0)
    run.leads(0, (0, 1, 2), 8)
    run.looks(0, (0, 1, 2))
    run.writes(0, 0, but=VALUE_WORD)
    run.enters(0, 0)
    run.breaking(0, "putslot", 0, 0, 8, FIVE)
    run.puts(0, (1, 2), 8, FIVE)
    for p in (1, 2):
        run.step(0, "raisefuo", p, 1)
    learns_first(run, 1)
    run.step(0, "writerow", 0, VALUE_WORD, run.job.rows[0][VALUE_WORD])
    learns_first(run, 2)


def learns_first(run, r):
    run.step(r, "fuo", r)
    run.looks(r, (r,))
    run.reads(r, FIVE)


def commits_next(run, count):
    """Replica 0 commits its next commands in both regions, and applies them."""
    for _ in range(count):
        i = len(run.replicas[0].known)
        row = sum(map(run.job.is_batch, run.replicas[0].known))
        run.looks(0, (0, 1), i)
        run.writes(0, row)
        run.puts(0, (0, 1), 8, row, i)


def applies(run):
    """Replica 0 raises its head over all that it knows, and reads it."""
    known = len(run.replicas[0].known)
    run.step(0, "raisefuo", 0, known)
    run.step(0, "raisehead", known)
    run.step(0, "head", 0)


def place_used_again(run):
    run.begins(0, (0, 1), 8)
    commits_next(run, 8)
    applies(run)
    run.step(0, "head", 1)
    run.looks(0, (0, 1), 8)
    run.writes(0, 8)
    run.enters(0, 0, 8)
    run.breaking(0, "putslot", 0, 8, 8, 8)
    run.puts(0, (1,), 8, 8, 8)
    run.looks(1, (1,), 0)


def mark_of_the_living(run):
    run.begins(0, (0, 1), 8)
    for p in (0, 1):
        run.step(0, "fuo", p)
    commits_next(run, 6)
    run.step(0, "head", 1)
    run.looks(0, (0, 1), 6)
    run.enters(0, 0, 6)
    run.breaking(0, "putslot", 0, 6, 8, 4081)
    run.puts(0, (1,), 8, 4081, 6)
    applies(run)
    run.step(0, "raisefuo", 1, 7)
    commits_next(run, 2)
    run.looks(1, (1,), 0)


def one_client(version, replicas, count):
    """A job of one client with `count` commands."""
    return lambda: Job(version, replicas, 8, [[f"put a {k}" for k in range(count)]])


class Rule:
    """A list: what it is named, what is left out, what `mu why` says of it, and what becomes of it without the rule."""

    def __init__(self, make, left_out, says, without, job=None):
        self.make, self.left_out, self.says, self.without, self.job = make, left_out, says, without, job
        self.name = make.__name__.replace("_", "-")

    def run(self):
        """The list, with its rule left out."""
        run = Run(self.left_out, self.job and self.job())
        self.make(run)
        return run

    def told(self, run):
        """What `mu why` prints of the list."""
        line = len(run.job.lines()) + run.breaks + 1
        return f"illegal {run.breaks} at line {line}\n{run.events[run.breaks]}\n{self.says}\n"

    def files(self):
        """The files of examples/rules, by name."""
        run = self.run()
        return {f"{self.name}.trace": run.trace(), f"{self.name}.trace.args": "why\n",
                f"{self.name}.trace.stdout": self.told(run),
                f"{self.name}.svg": picture_cases.drawn(run.trace(), broken=(run.breaks, self.says))}


def two_chosen(run):
    """Two values are chosen at position 0."""
    return len({value for i, _, value in run.chosen() if i == 0}) == 2


def two_known(run):
    """Two replicas know different values at position 0."""
    return len({replica.known[0] for replica in run.replicas if replica.known}) == 2


def two_rows(run):
    """Two replicas have read different words of one command."""
    read = [replica.words.get((FIVE, VALUE_WORD)) for replica in run.replicas]
    return len(set(read) - {None}) == 2


def one_outrun(run):
    """Replica 1 lacks position 0 for good, though replica 0 never held it to be failed."""
    return run.replicas[1].outrun == (1, 0) and not run.replicas[0].failed(1)


NOT = "not allowed: "
KNOWN_NOT = (NOT + "only 0 positions are known, fewer than 1: put the value at every member first, or look at it below "
             "a fuo")
SHOWN = NOT + "value 0 is not that of the entry of the largest number that the looks at position 0 show: entry 9 4097"
LISTS = [
    Rule(grant_without_drain, "NotDrained", NOT + "the word that the closed fence named is not drained", two_chosen),
    Rule(put_without_enter, "NotEntered", NOT + "region 1 is not entered for place 0 but for none", two_chosen),
    Rule(owner_compared, "GrantCompared", "wrong answer: expected lost 0 3 open none", two_chosen),
    Rule(put_without_majority, "NoQuorum",
         NOT + "the regions where a putmin landed in the leadership are no majority with the own one", two_chosen),
    Rule(new_over_entry, "OtherAccepted", SHOWN, two_chosen),
    Rule(lesser_number, "OtherAccepted", SHOWN, two_chosen),
    Rule(early_look, "MemberNotLooked", NOT + "region 1 is a member, and was not looked at in position 0 since the "
         "last region became one", two_chosen),
    Rule(number_again, "NotTheNumber", NOT + "number 8 is not the one to put, 16: the least from 8 on that is the "
         "replica modulo 8 and above 8 read and 8 put", two_chosen),
    Rule(smaller_minimum, "BelowMinimum", NOT + "number 8 is below the min that was read, 9", two_chosen),
    Rule(commit_with_miss, "AllLanded", KNOWN_NOT, two_known),
    Rule(learnt_undecided, "Decided", KNOWN_NOT, two_known),
    Rule(put_before_row, "NotWritten", NOT + "word 4 of row 0 is not written, and value 0 stands for all words of its "
         "rows", two_rows),
    Rule(place_used_again, "NoRoom", NOT + "no room for position 8 and 0 more: the last head of replica 1 that was "
         "read is 0", one_outrun, one_client(1, 2, 9)),
    Rule(mark_of_the_living, "NoBatch", NOT + "value 4081 stands for no batch of the job, and for no mark that may be "
         "offered", one_outrun, one_client(2, 2, 8)),
]


def troubles(rule):
    """What is wrong with a list: without its rule it is allowed and has two answers, with it it breaks there."""
    run = rule.run()
    yield from run.wrong
    if not rule.without(run):
        yield f"without the rule: not so: {rule.without.__doc__} Chosen: {run.chosen()}"
    first = Steps(run.job).first_break(run.events)
    if not first or first[0] != run.breaks:
        yield f"with the rule: breaks at {first} and not at {run.breaks}"


def stored_text(name):
    """A stored file, if there is one."""
    path = os.path.join(RULES, name)
    return contents(path).decode() if os.path.exists(path) else None


def judged():
    """How many lists there are, and what is wrong with them."""
    wrong, files = [], {}
    for rule in LISTS:
        wrong += [f"{rule.name}: {trouble}" for trouble in troubles(rule)]
        files.update(rule.files())
    stored = set(os.listdir(RULES)) if os.path.isdir(RULES) else set()
    wrong += [f"examples/rules/{name} is no list of tools/tests/rules.py" for name in sorted(stored - set(files))]
    wrong += [f"examples/rules/{name} differs" for name, text in files.items()
              if stored_text(name) != text]
    return len(LISTS), wrong


def write():
    os.makedirs(RULES, exist_ok=True)
    for rule in LISTS:
        for name, text in rule.files().items():
            with open(os.path.join(RULES, name), "w", encoding="ascii") as out:
                out.write(text)


def main():
    begin(__doc__)
    if sys.argv[1:] == ["--write"]:
        write()
    count, wrong = judged()
    return tell(wrong, f"{count} lists, {len(wrong)} wrong")


if __name__ == "__main__":
    sys.exit(main())
