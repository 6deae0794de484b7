#!/usr/bin/env python3
"""Writes one long legal trace, to measure how fast `mu check` judges it.

    tools/runs/long_trace.py [TURNS [COMMANDS]] > LONG

Seven replicas make TURNS steps each, one after the other: 120,887 steps unless told, so 846,209
events in all. Replica 0 asks for all regions, becomes their owner, and puts COMMANDS commands into
their logs, 1,500 unless told; the others learn them, read their rows and apply them. Even turns are
each replica's round of a host and a follower, odd turns are the leader's steps. Where a turn has
nothing to do, the replica beats. The wanted output is `legal` and the number of the events.
"""

import sys

import folders
from beginning import begin
from operations import OPERATIONS

REPLICAS, RING, BUDGET, CLIENTS = 7, 64, 131071, 4
DONE, ENTERED, EMPTY, PAST = ("done",), ("entered",), ("empty",), ("past",)
MIN, PLACE = ("min",), ("place",)


def word_at(text, index):
    """One of the words of a text: eight bytes each, the first in the lowest place."""
    return int.from_bytes(text[8 * index:8 * index + 8], "little")


def row_words(client, number, words):
    """The twelve words of the row of a command that is a batch of its own."""
    operation, key, *texts = words
    first, second = ([text.encode() for text in texts] + [b"", b""])[:2]
    head = OPERATIONS[operation].number | client << 8 | number << 16
    for place, length in zip((32, 40, 48), (len(key), len(first), len(second))):
        head |= length << place
    # Texts stand side by side, each in as many words as it may have.
    width = OPERATIONS[operation].most // 8
    values = [word_at(text, k) for text in (first, second)[:8 // width] for k in range(width)]
    return [head] + [word_at(key.encode(), k) for k in range(3)] + values


def command(index):
    """The words of a command: all five operations in turn, over three keys."""
    key, value = f"k{index % 3}", f"v{index}"
    old = f"v{index - 3}" if index % 2 else "x"
    return (("put", key, value), ("get", key), ("swap", key, value), ("cas", key, old, value),
            ("del", key))[index % 5]


class Region:
    """What one region holds."""

    def __init__(self):
        self.owner, self.grant, self.closing, self.target = "none", 0, False, ("none",)
        self.minimum = self.fuo = self.head = self.beats = 0
        self.asks = [0] * REPLICAS
        self.log, self.rows = [], {}

    def fence(self):
        """The fence as an answer."""
        state = "closing" if self.closing else "open"
        return ("fence", self.owner, self.grant, state) + self.target

    def look(self, position):
        """What a look at a position finds."""
        if len(self.log) > position + RING:
            return PAST
        return ("entry",) + self.log[position] if position < len(self.log) else EMPTY


class World:
    """All regions, and the events so far."""

    def __init__(self):
        self.regions = [Region() for _ in range(REPLICAS)]
        self.events = []

    def step(self, by, verb, *numbers):
        """Makes a step and answers what it finds, in words."""
        answer = self.made(by, verb, numbers)
        self.events.append(" ".join(map(str, (by, verb) + numbers + ("=",) + answer)))
        return answer

    def made(self, by, verb, numbers):
        """What the step finds, after it is made."""
        own = self.regions[by]
        if verb in ("beat", "raisehead", "writerow", "readask", "close", "grant"):
            return self.made_at_home(own, verb, numbers)
        if verb == "readrow":
            value, word = numbers
            return (self.regions[value // 4096].rows.get((value % 4096, word), 0),)
        region = self.regions[numbers[0]]
        if verb == "ask":
            region.asks[by] += 1
        elif verb == "enter":
            # Nobody else is ever granted, so the noted grant stands.
            region.target = numbers[1:]
            return ENTERED
        elif verb == "putmin":
            region.minimum = numbers[1]
        elif verb == "putslot":
            region.log.append(numbers[2:])
        elif verb == "raisefuo":
            region.fuo = max(region.fuo, numbers[1])
        elif verb == "fence":
            return region.fence()
        elif verb == "look":
            return region.look(numbers[1])
        else:
            return ({"min": region.minimum, "fuo": region.fuo, "head": region.head,
                     "readbeat": region.beats}[verb],)
        return DONE

    def made_at_home(self, own, verb, numbers):
        """The same for a step in the own region."""
        if verb == "readask":
            return (own.asks[numbers[0]],)
        if verb == "close":
            before = own.fence()
            own.closing = True
            return before
        if verb == "grant":
            own.owner, own.closing, own.target = numbers[0], False, ("none",)
            own.grant += 1
        elif verb == "writerow":
            own.rows[numbers[:2]] = numbers[2]
        elif verb == "beat":
            own.beats += 1
        else:
            own.head = max(own.head, numbers[0])
        return DONE


class Replica:
    """One replica: what it knows and has applied, and its round."""

    def __init__(self, world, me, total):
        self.world, self.me, self.total = world, me, total
        self.known, self.rows = [], set()
        self.applied = self.fuo = self.head = 0
        self.asked, self.served = [0] * REPLICAS, [0] * REPLICAS
        self.heads = [0] * REPLICAS
        self.round = self.rounds()
        self.others = [q for q in range(REPLICAS) if q != me]

    def step(self, verb, *numbers):
        """Makes a step, and answers what it finds."""
        return self.world.step(self.me, verb, *numbers)

    def read(self, verb, *numbers):
        """Makes a step that finds a number."""
        return self.step(verb, *numbers)[0]

    def rounds(self):
        """The even turns: each `yield` ends one."""
        turn = 0
        while True:
            self.step("beat")
            yield
            for q in self.others:
                self.step("readbeat", q)
                yield
            yield from self.host()
            yield from self.follow()
            yield from self.apply()
            other = self.others[turn % len(self.others)]
            self.heads[other] = self.read("head", other)
            yield
            turn += 1

    def host(self):
        """Reads asks, and grants the own region on: no fence is closed after its first grant."""
        for w in range(REPLICAS):
            self.asked[w] = self.read("readask", w)
            yield
        waiting = [w for w in range(REPLICAS) if self.asked[w] > self.served[w]]
        self.step(*(("close",) if waiting else ("beat",)))
        yield
        for _ in range(2):
            self.step("beat")
            yield
        if waiting:
            self.step("grant", waiting[0])
            self.served[waiting[0]] = self.asked[waiting[0]]
        else:
            self.step("beat")
        yield

    def follow(self):
        """Reads the own FUO and looks at the next two positions of the own log."""
        next_position = len(self.known)
        if self.me == 0 or next_position >= self.total:
            for _ in range(3):
                self.step("beat")
                yield
            return
        self.fuo = max(self.fuo, self.read("fuo", self.me))
        yield
        filled = False
        if next_position + 1 < self.total:
            filled = self.step("look", self.me, next_position + 1)[0] == "entry"
        else:
            self.step("beat")
        yield
        if filled or self.fuo > next_position:
            answer = self.step("look", self.me, next_position)
            self.known.append(answer[2])
        else:
            self.step("beat")
        yield

    def apply(self):
        """Reads the row of the next entry, and raises the own FUO and the own head."""
        due = self.applied < len(self.known)
        value = self.known[self.applied] if due else 0
        for k in range(12):
            if due and value not in self.rows:
                self.step("readrow", value, k)
            else:
                self.step("beat")
            yield
        if due:
            self.rows.add(value)
            self.applied += 1
        if self.me != 0 and len(self.known) > self.fuo:
            self.fuo = len(self.known)
            self.step("raisefuo", self.me, self.fuo)
        else:
            self.step("beat")
        yield
        if min(self.applied, self.fuo) > self.head:
            self.head = min(self.applied, self.fuo)
            self.step("raisehead", self.head)
        else:
            self.step("beat")
        yield


def lead(replica, rows):
    """The odd turns of replica 0: each `yield` ends one."""
    regions = range(REPLICAS)
    for p in regions:
        replica.step("ask", p)
        yield
    granted = 0
    while granted < REPLICAS:
        granted = 0
        for p in regions:
            granted += replica.step("fence", p) == ("fence", 0, 1, "open", "none")
            yield
    for p in regions:
        replica.step("min", p)
        yield
    for p in regions:
        yield from entered(replica, p, MIN, ("putmin", p, 8))
    for p in regions:
        replica.step("fuo", p)
        yield
    for position, words in enumerate(rows):
        yield from committed(replica, position, words)


def entered(replica, region, target, put):
    """Enters a region and puts a word there."""
    replica.step("enter", region, *target)
    yield
    replica.step(*put)
    yield


def committed(replica, position, words):
    """Puts one command at a position of all regions, once the heads leave room."""
    regions = range(REPLICAS)
    for q in regions:
        while replica.heads[q] + RING <= position:
            replica.heads[q] = replica.read("head", q)
            yield
    for p in regions:
        replica.step("look", p, position)
        yield
    for k, word in enumerate(words):
        replica.step("writerow", position, k, word)
        yield
    replica.rows.add(position)
    for p in regions:
        put = ("putslot", p, position, 8, position)
        yield from entered(replica, p, PLACE + (position % RING,), put)
    replica.known.append(position)
    for p in regions:
        replica.step("raisefuo", p, position + 1)
        if p == replica.me:
            replica.fuo = position + 1
        yield


def main():
    begin(__doc__)
    if len(sys.argv) > 3 or not all(word.isdigit() for word in sys.argv[1:]):
        sys.exit(__doc__.split("\n\n")[1])
    turns, total = ([int(word) for word in sys.argv[1:]] + [120887, 1500][len(sys.argv) - 1:])[:2]
    each = -(-total // CLIENTS)
    rows = [row_words(j // each, j % each + 1, command(j)) for j in range(total)]
    world = World()
    replicas = [Replica(world, r, total) for r in range(REPLICAS)]
    leader = lead(replicas[0], rows)
    finished = object()
    for turn in range(turns):
        for replica in replicas:
            if turn % 2 == 0:
                next(replica.round)
            elif replica.me != 0 or next(leader, finished) is finished:
                replica.step("beat")
    told = f"{len(replicas[0].known)} put, {min(r.applied for r in replicas)} applied by all"
    print(told, file=sys.stderr)
    lines = ["mu 1", f"replicas {REPLICAS}", f"ring {RING}", f"budget {BUDGET}"]
    for j in range(total):
        if j % each == 0:
            lines.append(f"client {j // each}")
        lines.append(" ".join(command(j)))
    sys.stdout.write("\n".join(lines + ["end"] + world.events + ["end"]) + "\n")


if __name__ == "__main__":
    main()
