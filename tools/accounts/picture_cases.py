#!/usr/bin/env python3
"""Draws traces by itself, and compares with what `mu_draw` draws.

    tools/accounts/picture_cases.py MU_DRAW [TRACE ..]     compares for each trace (legal ones alone): all steps, parts and in brief
    tools/accounts/picture_cases.py --draw TRACE           prints the drawing

It follows what docs/FORMATS.md and docs/PROTOCOL.md say, and shares nothing with the program: what a
replica knows, its leaderships, whom it names and the owners of regions are computed anew from the events.
"""

import subprocess
import sys

import folders
import beginning

COLOURS = ("#e69f00", "#56b4e9", "#009e73", "#f0e442", "#0072b2", "#d55e00", "#cc79a7")
TITLE = "<title>A run of replicas: their steps from top to bottom</title>"
STYLE = ("text{font:9px sans-serif;paint-order:stroke;stroke:#fff;stroke-width:5px}"
         ".t{font-family:monospace}.s{text-anchor:end;fill:#555}path{stroke:#000;fill:none}"
         "rect,circle{stroke:#000;stroke-width:.6}.w,.l,.z{stroke:none}.w,.c{fill:#fff}"
         ".l{fill:#888}.z{fill:url(#z)}.f{fill:#fff;stroke:#888;stroke-dasharray:2 2}"
         ".p,.k{fill:#000}.q{stroke-dasharray:4 2}.k,.x,.r{stroke-width:2}"
         ".a{stroke:#333;stroke-dasharray:2 2}.e{fill:#c00}.r{stroke:#c00}" + "".join(
             f".o{r}{{fill:{colour}}}" for r, colour in enumerate(COLOURS)))
HATCHING = ("<pattern id='z' patternUnits='userSpaceOnUse' width='4' height='4'><path d='M0 4l4-4'/></pattern>\n")
TOP, LOWEST_ROW, TITLES = 92, 32500, 48
PARTS = {"<": "&lt;", ">": "&gt;", "&": "&amp;", "'": "&apos;", '"': "&quot;"}


def escaped(text):
    """A text as content of XML."""
    return "".join(PARTS.get(c, c) for c in text)


class Job:
    """The settings, commands and script of a job."""

    def __init__(self, lines):
        self.version = int(lines[0].split()[1])
        self.replicas = int(lines[1].split()[1])
        self.ring, self.budget = int(lines[2].split()[1]), int(lines[3].split()[1])
        self.width, self.commands, self.stops, self.pauses = 1, [], {}, {}
        client, counts = None, {}
        for line in lines[4:]:
            words = line.split(" ")
            if words[0] == "batch" and client is None:
                self.width = int(words[1])
            elif words[0] == "client":
                client = int(words[1])
                counts[client] = 0
            elif words[0] == "stop" and len(words) == 3 and client is None or words[0] == "stop":
                self.stops[int(words[1])] = int(words[2])
            elif words[0] == "pause":
                self.pauses[int(words[1]), int(words[2])] = int(words[3])
            elif words[0] != "script":
                counts[client] += 1
                self.commands.append((client, counts[client], line))
        self.rests = self.count_rests()

    def count_rests(self):
        """How many commands of the same batch follow each."""
        rests = []
        for row, (client, number, _) in enumerate(self.commands):
            last = max(n for c, n, _ in self.commands if c == client)
            end = min((number - 1) // self.width * self.width + self.width, last)
            rests.append(end - number)
        return rests

    def entry(self, value):
        """What a payload number stands for, as words of a note."""
        row = value % 4096
        if self.version == 2 and row >= 4080:
            return f", {row - 4080} is gone"
        return "".join(f", {c}.{n} {line}" for c, n, line in self.commands[row:row + self.rests[row] + 1])


class Replica:
    """What one replica knows, leads, and holds of the others."""

    def __init__(self):
        self.steps, self.known, self.fuos, self.seen = 0, [], {}, set()
        self.begun, self.over, self.number, self.given_up = False, False, None, False
        self.noted, self.joined, self.landed = {}, {}, {}
        self.counts, self.points, self.failed = {}, {}, set()
        self.head, self.heads, self.words, self.finished = 0, {}, set(), False

    def leads(self):
        """Whether a leadership is under way."""
        return self.begun and not self.over and not self.given_up

    def named(self, r):
        """Whom its scores name: the least of itself and the others that are not failed."""
        return next(q for q in range(r + 1) if q == r or q not in self.failed)

    def hear(self, q, count):
        """Takes a count of beats of another: a score from 0 to 15, failed below 2, alive above 6."""
        changed = count != self.counts.get(q, 0)
        points = self.points.get(q, 15)
        self.points[q] = min(points + 1, 15) if changed else max(points - 1, 0)
        self.counts[q] = count
        if self.points[q] < 2:
            self.failed.add(q)
        elif self.points[q] > 6:
            self.failed.discard(q)

    def has_finished(self, job, r):
        """Whether it applied all commands, and each other one did too, or is failed."""
        applied, rows = 0, set()
        while applied < len(self.known) and len(rows) < len(job.commands):
            value = self.known[applied]
            if job.version == 1 or value % 4096 < 4080:
                row = value % 4096
                batch = range(row, row + job.rests[row] + 1)
                if not all((value // 4096, k, word) in self.words for k in batch for word in range(12)):
                    return False
                rows.update(batch)
            applied += 1
        return (len(rows) == len(job.commands) and self.head >= applied and all(
            q == r or self.heads.get(q, -1) >= applied or q in self.failed for q in range(job.replicas)))


def step(job, replica, r, verb, answer):
    """Takes a step of replica r: the value that it teaches, and whether it ends the leadership."""
    was_over, taught, ended = replica.over, None, False
    kind = verb[0]
    if kind == "beat" and replica.steps % 2 == 1 and replica.named(r) != r:
        replica.given_up = True
    elif kind == "readbeat":
        replica.hear(int(verb[1]), int(answer[0]))
    elif kind == "head":
        replica.heads[int(verb[1])] = int(answer[0])
    elif kind == "raisehead":
        replica.head = max(replica.head, int(verb[1]))
    elif kind == "writerow":
        replica.words.add((r, int(verb[1]), int(verb[2])))
    elif kind == "readrow":
        replica.words.add((int(verb[1]) // 4096, int(verb[1]) % 4096, int(verb[2])))
    elif kind == "ask" and verb[1] == "0":
        replica.begun, replica.over, replica.number, replica.given_up = True, False, None, False
        replica.noted, replica.joined, replica.landed = {}, {}, {}
    elif kind == "fence":
        p, owner, grant, closing = int(verb[1]), answer[1], int(answer[2]), answer[3] == "closing"
        if p in replica.joined:
            joined = replica.joined[p]
            ended = joined is None or closing or grant != joined
        replica.noted[p] = grant if owner == str(r) and not closing else None
    elif kind == "min":
        ended = replica.number is not None and int(answer[0]) > replica.number
    elif kind == "enter":
        ended = answer[0] == "lost"
    elif kind == "putmin":
        if replica.number is None:
            replica.number = int(verb[2])
        if answer[0] == "done":
            replica.joined.setdefault(int(verb[1]), replica.noted.get(int(verb[1])))
        ended = answer[0] == "missed"
    elif kind == "fuo":
        replica.fuos[int(verb[1])] = max(replica.fuos.get(int(verb[1]), 0), int(answer[0]))
    elif kind == "look":
        p, i = int(verb[1]), int(verb[2])
        decided = i < replica.fuos.get(p, 0) or (p == r and i + 1 in replica.seen)
        if answer[0] == "entry":
            if i == len(replica.known) and decided:
                taught = int(answer[2])
            if p == r:
                replica.seen.add(i)
    elif kind == "putslot":
        p, i, b, v = (int(word) for word in verb[1:5])
        ended = answer[0] == "missed"
        if answer[0] == "done":
            taken = replica.landed.setdefault((i, b, v), set())
            taken.add(p)
            members = set(replica.joined)
            quorum = r in members and len(members) >= job.replicas // 2 + 1
            if (i == len(replica.known) and not replica.over and replica.number == b and quorum
                    and members <= taken):
                taught = v
    replica.over = replica.over or ended
    if taught is not None:
        replica.known.append(taught)
    return taught, replica.over and not was_over


def lane(r):
    """Where a lane stands."""
    return 72 + 160 * r


class Drawing:
    """The elements of a drawing."""

    def __init__(self):
        self.parts = []

    def add(self, text):
        self.parts.append(text)

    def bar(self, kind, x, y, width):
        """A bar from y to the bottom."""
        self.add(f"<rect class='{kind}' x='{x}' y='{y}' width='{width}' height='100%'/>\n")

    def box(self, kind, x, y, width, height):
        """A bar of this height."""
        self.add(f"<rect class='{kind}' x='{x}' y='{y}' width='{width}' height='{height}'/>\n")

    def path(self, kind, way):
        """A line."""
        self.add(f"<path class='{kind}' d='{way}'/>\n")

    def across(self, kind, r, y, p):
        """A line from the lane of r to the region of p: from a square to an arrow head, or to a cross if it missed."""
        right = p >= r
        square = "v3h-6v-6h6v3" if right else "v3h6v-6h-6v3"
        x = lane(r) + (11 if right else 5)
        if kind == "q":
            self.path(kind, f"M{lane(p) + 48} {y}m-4-4l8 8m0-8l-8 8m4-4H{x}{square}")
        elif right:
            self.path(kind, f"M{lane(p) + 44} {y}l-6-3v6zH{x}{square}")
        else:
            self.path(kind, f"M{lane(p) + 52} {y}l6-3v6zH{x}{square}")

    def dot(self, kind, x, y):
        """A dot."""
        self.add(f"<circle class='{kind}' cx='{x}' cy='{y}' r='3'/>\n")

    def label(self, x, y, words):
        """Words in a lane."""
        self.text("n", x, y, words)

    def text(self, kind, x, y, words):
        """Words of a kind."""
        self.add(f"<text class='{kind}' x='{x}' y='{y}'>{escaped(words)}</text>\n")


CHIEF = ("ask", "grant", "commit", "enter", "fence", "min", "resign", "outrun")


class Mark:
    """A drawn step: what it does, and what befalls its replica after it."""

    def __init__(self, index, by, line):
        self.index, self.by, self.line = index, by, line
        self.resumed = self.deed = self.halt = None

    def is_drawn(self, brief):
        """Whether there is anything to draw; in brief only asks, grants, commits, ends, and whom a replica names."""
        if self.resumed or self.halt or not brief:
            return bool(self.resumed or self.halt or self.deed)
        if self.deed is None:
            return False
        kind, *told = self.deed
        if kind == "judge":
            return told[2] > told[0] if told[1] else told[2] == told[0]
        return kind in CHIEF or kind in ("putmin", "put") and not told[2]


def deed_of(replica, verb, answer, taught, ended, resigned_to, granted, judged):
    """What a step does that is drawn, or None."""
    kind = verb[0]
    numbers = [int(word) for word in verb[1:] if word.isdigit()]
    if kind == "ask":
        return ("ask", numbers[0])
    if kind in ("close", "drain"):
        return (kind,)
    if kind == "grant":
        return ("grant", numbers[0], granted + 1)
    if kind == "putmin":
        return ("putmin", numbers[0], numbers[1], answer[0] == "done")
    if kind == "putslot":
        if taught is not None:
            return ("commit", numbers[0], numbers[1], taught)
        return ("put", numbers[0], numbers[1], answer[0] == "done")
    if kind == "look" and taught is not None:
        return ("learn", numbers[1])
    if kind == "look" and answer[0] == "past" and numbers[1] >= len(replica.known):
        return ("outrun", numbers[0], numbers[1])
    if kind == "raisehead":
        return ("head", numbers[0])
    if kind in ("enter", "fence", "min") and ended:
        return (kind, numbers[0])
    if resigned_to is not None:
        return ("resign", resigned_to)
    if judged is not None:
        return ("judge", *judged)
    return None


LOST = ", it leads no more"


def deed_words(job, deed):
    """What is said of a deed."""
    if deed is None:
        return ""
    kind = deed[0]
    if kind in ("putmin", "put") and not deed[3]:
        return f" misses region {deed[1]} with {'number' if kind == 'putmin' else 'position'} {deed[2]}{LOST}"
    return {"commit": lambda: f" commits {deed[2]}{job.entry(deed[3])}",
            "enter": lambda: f" is not let into {deed[1]}{LOST}",
            "fence": lambda: f" sees another grant at {deed[1]}{LOST}",
            "min": lambda: f" reads a greater number at {deed[1]}{LOST}",
            "resign": lambda: f" resigns to {deed[1]}{LOST}",
            "judge": lambda: f" holds {deed[1]} {'failed' if deed[2] else 'alive'}, names {deed[3]}",
            "outrun": lambda: f" is outrun at {deed[1]}, position {deed[2]}"}.get(kind, lambda: "")()


def halt_of(job, r, steps, finishes):
    """What befalls a replica once it has taken this number of steps."""
    if job.stops.get(r) == steps:
        return ("stop",)
    if steps == job.budget:
        return ("spent",)
    if finishes:
        return ("finish",)
    if (r, steps) in job.pauses:
        return ("pause", job.pauses[r, steps])
    return None


def halt_words(halt):
    """What is said of what befalls a replica."""
    if halt is None:
        return ""
    return {"stop": " stops", "spent": " has spent its budget", "finish": " has finished",
            "pause": f" pauses for {halt[-1]} rounds"}[halt[0]]


def said(job, mark):
    """What is said of a mark beside the lanes."""
    words = deed_words(job, mark.deed) + halt_words(mark.halt)
    if mark.resumed:
        words = " goes on" + (":" + words if words else "")
    return f"{mark.index}: replica {mark.by}{words}" if words else ""


def label_of(deed):
    """What is said in the lane of a deed."""
    kind = deed[0]
    if kind in ("close", "drain"):
        return kind
    if kind == "grant":
        return f"to {deed[1]}, grant {deed[2]}"
    if kind == "judge":
        return f"{deed[1]} {'failed' if deed[2] else 'alive'}"
    front = {"putmin": "number", "put": "put", "commit": "commit", "learn": "learns", "head": "applied to"}.get(kind)
    return front and f"{front} {deed[1 if kind in ('learn', 'head') else 2]}"


def draw_deed(out, r, y, deed):
    """Draws a deed."""
    x, kind = lane(r), deed[0]
    if kind == "ask":
        if deed[1] == 0:
            out.bar(f"o{r}", x + 2, y, 12)
        out.across("a", r, y, deed[1])
    elif kind == "close":
        out.bar("c", x + 44, y, 8)
    elif kind == "grant":
        out.bar(f"o{deed[1]}", x + 44, y, 8)
    elif kind in ("putmin", "put"):
        if not deed[3]:
            out.bar("w", x + 1, y, 14)
        out.across("p" if deed[3] else "q", r, y, deed[1])
    elif kind == "commit":
        out.across("k", r, y, deed[1])
    elif kind in ("learn", "head"):
        out.dot("p" if kind == "learn" else "c", x + 8, y)
    elif kind in ("enter", "fence", "min", "resign"):
        out.bar("w", x + 1, y, 14)
    elif kind == "judge":
        out.bar(f"o{deed[3]}", x - 7, y, 3)
    elif kind == "outrun":
        end(out, r, y)


def end(out, r, y, way=None):
    """The end of a lane below y, with a cross there or another sign."""
    out.bar("w", lane(r) - 8, y + 6, 24)
    out.path("x", way or f"M{lane(r) + 4} {y + 2}l8 8m0-8l-8 8")


def draw_halt(out, r, y, halt):
    """Draws what befalls a replica."""
    if halt[0] == "pause":
        out.bar("z", lane(r) + 2, y + 6, 12)
    elif halt[0] == "finish":
        end(out, r, y, f"M{lane(r)} {y + 5}h16")
    else:
        end(out, r, y)


def draw_lane(out, r, y, named, leads):
    """A lane that goes on from y, with whom its replica names, and its band."""
    out.bar(f"o{named}", lane(r) - 7, y, 3)
    out.bar("l", lane(r), y, 1)
    if leads:
        out.bar(f"o{r}", lane(r) + 2, y, 12)


def begin(out, line, index, event):
    """Begins what is drawn of a step, with a tooltip."""
    out.add(f"<g><title>{escaped(f'step {index}, line {line + index}: {event}')}</title>\n")


def draw_mark(out, job, y, mark, line):
    """Draws a mark."""
    begin(out, line, mark.index, mark.line)
    if mark.resumed:
        out.bar("w", lane(mark.by) - 8, y, 24)
        draw_lane(out, mark.by, y, *mark.resumed)
    if mark.deed:
        draw_deed(out, mark.by, y, mark.deed)
    if mark.halt:
        draw_halt(out, mark.by, y, mark.halt)
    label = mark.deed and label_of(mark.deed)
    if label:
        out.label(lane(mark.by) + 58, y + 3, label)
    out.text("s", 56, y + 3, str(mark.index))
    words = said(job, mark)
    if words:
        out.dot(f"o{mark.by}", lane(job.replicas) + 4, y)
        out.text("t", lane(job.replicas) + 12, y + 3, words)
    out.add("</g>\n")


def draw_breach(out, n, y, line, broken, event):
    """Draws the event that breaks the list."""
    index, fault = broken
    begin(out, line, index, event)
    out.box("r", lane(0) - 10, y + 17, lane(n) - lane(0), 1)
    x = lane(int(event.split()[0]))
    out.path("r", f"M{x + 4} {y + 22}l8 8m0-8l-8 8")
    out.text("s", 56, y + 29, str(index))
    out.text("t e", lane(n) + 12, y + 29, event)
    out.text("t e", lane(0) + 12, y + 41, fault)
    out.add("</g>\n")


def title(out, r, y):
    """The names of a lane and its region."""
    out.label(lane(r) - 2, y, f"replica {r}")
    out.label(lane(r) + 42, y, f"region {r}")


SAMPLES = (
    ("asks", lambda out, x, y: out.path("a", f"M{x + 24} {y}l-6-3v6zH{x + 6}v3h-6v-6h6v3")),
    ("put landed", lambda out, x, y: out.path("p", f"M{x + 24} {y}l-6-3v6zH{x + 6}v3h-6v-6h6v3")),
    ("put missed", lambda out, x, y: out.path("q", f"M{x + 20} {y}m-4-4l8 8m0-8l-8 8m4-4H{x + 6}v3h-6v-6h6v3")),
    ("put commits", lambda out, x, y: out.path("k", f"M{x + 24} {y}l-6-3v6zH{x + 6}v3h-6v-6h6v3")),
    ("learns", lambda out, x, y: out.dot("p", x + 12, y)),
    ("applied to", lambda out, x, y: out.dot("c", x + 12, y)),
    ("leads", lambda out, x, y: out.box("o0", x + 6, y - 4, 12, 8)),
    ("pauses", lambda out, x, y: out.box("z", x + 6, y - 4, 12, 8)),
    ("stops, outrun", lambda out, x, y: out.path("x", f"M{x + 8} {y - 4}l8 8m0-8l-8 8")),
    ("has finished", lambda out, x, y: out.path("x", f"M{x + 4} {y}h16")),
    ("owns the region", lambda out, x, y: out.box("o0", x + 8, y - 4, 8, 8)),
    ("closing", lambda out, x, y: out.box("c", x + 8, y - 4, 8, 8)),
    ("whom it names", lambda out, x, y: out.box("o0", x + 11, y - 4, 3, 8)),
    ("folded steps", lambda out, x, y: out.box("f", x + 2, y - 4, 22, 8)),
)


def legend(out):
    """Samples of all marks."""
    for k, (words, draw) in enumerate(SAMPLES):
        x, y = 8 + 110 * (k % 5), 30 + 14 * (k // 5)
        draw(out, x, y)
        out.label(x + 28, y + 3, words)


class Region:
    """Who owns a region, whether that is closing, and how often it was granted."""

    def __init__(self):
        self.owner, self.closing, self.grants = None, False, 0

    def take(self, verb):
        """Takes a step of its host."""
        if verb[0] == "close":
            self.closing = True
        elif verb[0] == "grant":
            self.owner, self.closing, self.grants = verb[1], False, self.grants + 1


def stretch(count):
    """The height of `count` steps without a mark."""
    return 16 if count > 31 else count


def fold(out, n, y, count):
    """Draws a folded stretch."""
    if count > 31:
        out.box("f", lane(0) - 10, y + 3, lane(n) - lane(0), 10)
        out.text("s", 56, y + 11, f"{count} steps")


def lanes(replicas, regions, halted):
    """The lanes of all replicas, with what holds in each before the first drawn step."""
    out = Drawing()
    for r, (replica, region) in enumerate(zip(replicas, regions)):
        title(out, r, TOP - 8)
        if region.closing or region.owner is not None:
            out.bar("c" if region.closing else f"o{region.owner}", lane(r) + 44, TOP, 8)
        if halted[r] != "end":
            draw_lane(out, r, TOP, replica.named(r), replica.leads())
        if halted[r] == "pause":
            out.bar("z", lane(r) + 2, TOP, 12)
    return out.parts


class Run:
    """The states of all replicas, regions and lanes along a trace."""

    def __init__(self, job):
        self.job, self.replicas = job, [Replica() for _ in range(job.replicas)]
        self.regions, self.halted = [Region() for _ in range(job.replicas)], [None] * job.replicas
        for r, replica in enumerate(self.replicas):
            replica.finished = replica.has_finished(job, r)

    def lanes(self):
        return lanes(self.replicas, self.regions, self.halted)

    def take(self, index, line):
        """Takes an event: its mark."""
        made, found = line.split(" = ")
        by, *verb = made.split()
        r, answer = int(by), found.split()
        replica, mark = self.replicas[r], Mark(index, r, line)
        led, named, had_finished = replica.leads(), replica.named(r), replica.finished
        heard = int(verb[1]) if verb[0] == "readbeat" else None
        was = heard in replica.failed
        mark.resumed = (named, led) if self.halted[r] else None
        taught, ended = step(self.job, replica, r, verb, answer)
        replica.steps += 1
        replica.finished = replica.has_finished(self.job, r)
        resigned_to = named if led and verb[0] == "beat" and replica.given_up else None
        changed = heard is not None and was != (heard in replica.failed)
        judged = (heard, heard in replica.failed, replica.named(r)) if changed else None
        mark.halt = halt_of(self.job, r, replica.steps, replica.finished and not had_finished)
        mark.deed = deed_of(replica, verb, answer, taught, ended, resigned_to, self.regions[r].grants, judged)
        self.halted[r] = mark.halt and ("pause" if mark.halt[0] == "pause" else "end")
        if mark.deed and mark.deed[0] == "outrun":
            self.halted[r] = "end"
        self.regions[r].take(verb)
        return mark


def drawn(text, first=0, last=9999999, brief=False, broken=None):
    """The drawing of a trace: of all steps or of those from one to another, in brief or not, and of the event at
    an index that breaks the list, with what is wrong."""
    lines = text.split("\n")
    end_line = lines.index("end")
    job, events = Job(lines[:end_line]), lines[end_line + 1:lines.index("end", end_line + 1)]
    asked = min(last + 1, len(events) if broken is None else broken[0])
    run, out, n, line = Run(job), Drawing(), job.replicas, end_line + 2
    start = at = min(first, asked)
    y, stop, longest, rows, head = TOP, asked, 0, 0, None
    for index, event in enumerate(events[:asked]):
        if index == start:
            head = run.lanes()
        mark = run.take(index, event)
        if index < start or not mark.is_drawn(brief):
            continue
        if y > LOWEST_ROW:
            stop = index
            break
        if rows and rows % TITLES == 0:
            for r in range(n):
                title(out, r, y + 11)
            y += 16
        fold(out, n, y, index - at)
        y += stretch(index - at)
        draw_mark(out, job, y + 6, mark, line)
        longest = max(longest, len(said(job, mark)))
        y, at, rows = y + 12, index + 1, rows + 1
    head = run.lanes() if head is None else head
    fold(out, n, y, stop - at)
    y += stretch(stop - at)
    if stop < asked:
        out.text("s", 56, y + 12, "goes on")
        out.label(lane(0) - 10, y + 12, f"with step {stop}")
    below = 0
    if broken is not None:
        draw_breach(out, n, y, line, broken, events[broken[0]])
        longest, below = max(longest, len(events[broken[0]])), lane(0) + 24 + 6 * len(broken[1])
    width, height, over = max(lane(n) + 24 + 6 * min(longest, 5000), below, 580), y + 56, Drawing()
    over.bar("w", 0, 0, width)
    over.label(4, 14, f"version {job.version}, {n} replicas, ring {job.ring}: {rows} of {stop - start} steps drawn"
                      f"{', in brief' if brief else ''}, from step {start} on")
    legend(over)
    return (f"<svg xmlns='http://www.w3.org/2000/svg' role='img' viewBox='0 0 {width} {height}' "
            f"width='{width}' height='{height}'>\n{TITLE}\n<style>{STYLE}</style>\n{HATCHING}"
            + "".join(over.parts + head + out.parts) + "</svg>\n")


def parts_of(text):
    """The words of some calls, with what they ask for: all steps, some from the middle on, none, and in brief."""
    count = text.count("\n")
    for part in ((), (count // 3, count // 2), (count // 2, 9999999), (9999999, 9999999)):
        yield [str(n) for n in part], part, False
        yield ["brief", *map(str, part)], part, True


def rows_of_a_page():
    """How many rows of steps one after another have room."""
    y, rows = TOP, 0
    while y <= LOWEST_ROW:
        y, rows = y + 12 + (16 if rows and rows % TITLES == 0 else 0), rows + 1
    return rows


def full_pages():
    """Names, words and traces of pages that are full: the page ends with the trace, with steps that have no mark, or
    before the next mark, after such steps or at once; and the page that follows, which begins with that mark."""
    head, ask, beats = "mu 1\nreplicas 1\nring 8\nbudget 9999\nend\n", "0 ask 0 = done\n", "0 beat = done\n" * 40
    rows = rows_of_a_page()
    for name, after, onward in (("to its end", "", None), ("and steps without a mark", beats, None),
                                ("and a mark", ask, rows), ("and a mark after steps without one", beats + ask, rows + 40)):
        trace = head + ask * rows + after + "end\n"
        yield f"a full page {name}", (), trace
        if onward is not None:
            yield f"the page after a full page {name}", (onward, 9999999), trace


def breach_of(answer):
    """The index of the event that breaks a trace, and what is wrong, from what `mu why` says of it."""
    first, _, fault = answer.rstrip("\n").split("\n")
    return int(first.split()[1]), fault


def differs(program, text):
    """Whether the program draws a trace otherwise: all steps, some from the middle on, or none; in brief or not."""
    for words, part, brief in parts_of(text):
        given = subprocess.run([program] + words, input=text, capture_output=True, text=True, check=False)
        if given.returncode == 0 and given.stdout != drawn(text, *part, brief=brief):
            return True
    return False


def main():
    """Draws one trace, or compares many."""
    beginning.begin(__doc__)
    if len(sys.argv) < 3:
        print(__doc__.split("\n\n")[1], "\n\nno trace is named", file=sys.stderr)
        sys.exit(2)
    if sys.argv[1] == "--draw":
        with open(sys.argv[2], encoding="ascii") as file:
            try:
                drawing = drawn(file.read())
            except (ValueError, IndexError):
                sys.exit(f"picture_cases.py: {sys.argv[2]} is no trace, or a line of it is no event")
        sys.stdout.write(drawing)
        return
    wrong = 0
    for name in sys.argv[2:]:
        with open(name, encoding="ascii") as file:
            text = file.read()
        if differs(sys.argv[1], text):
            wrong += 1
            print("differs:", name)
    print(len(sys.argv) - 2, "traces,", wrong, "wrong")
    sys.exit(wrong > 0)


if __name__ == "__main__":
    main()
