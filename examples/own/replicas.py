#!/usr/bin/env python3
"""Three replicas in Python, and the trace of their run.

    examples/own/replicas.py | ./mu why          a run as it should be
    examples/own/replicas.py early | ./mu why    a leader that counts a majority of puts as a commit
    examples/own/replicas.py seen | ./mu attest  the first, with what the client saw
    examples/own/replicas.py hasty | ./mu attest    a leader that answers its client after the first put
    examples/own/replicas.py judged              the same runs, judged in this process by the library
    examples/own/replicas.py judged early        that ./library builds, event by event

Each replica is a few generators that make one step at a time; a seeded dice says whose turn it is.
docs/TRACING.md says what the lines of a trace mean.
"""
import random
import signal
import sys

JOB = "mu 1\nreplicas 3\nring 8\nbudget 1000\nclient 0\nput a 5\nget a\nend\n"
REPLICAS, RING = range(3), 8
# The twelve words of each row: the head word, three words of the key, eight of the value.
ROWS = [[1 | 1 << 16 | 1 << 32 | 1 << 40, ord("a"), 0, 0, ord("5")] + [0] * 7,
        [2 | 2 << 16 | 1 << 32, ord("a")] + [0] * 10]


class Region:
    """What a replica has in memory that others read and write."""

    def __init__(self):
        self.owner, self.grant, self.is_closing, self.target = None, 0, False, "none"
        self.minimum, self.fuo, self.head, self.slots = 0, 0, 0, {}
        self.asks, self.words = [0, 0, 0], {}

    def __str__(self):
        owner = "none" if self.owner is None else self.owner
        return f"fence {owner} {self.grant} {'closing' if self.is_closing else 'open'} {self.target}"


regions, events = [Region() for _ in REPLICAS], []


def tell(by, verb, answer="done"):
    """A step is told in the same breath as it is made: here nothing can come between."""
    events.append(f"{by} {verb} = {answer}")


def host(r):
    """Serves the asks for the own region. A read that shows nothing new need not be told."""
    mine, served = regions[r], [0, 0, 0]
    while True:
        for w in REPLICAS:
            yield
            if mine.asks[w] == served[w]:
                continue
            served[w] = mine.asks[w]
            tell(r, f"readask {w}", served[w])
            yield
            tell(r, "close", mine)
            mine.is_closing = True
            yield
            # Nobody else leads here, so no word is named. If one were: looktarget and drain.
            mine.owner, mine.grant, mine.is_closing, mine.target = w, mine.grant + 1, False, "none"
            tell(r, f"grant {w}")


def reply(r, row):
    """The store of the leader answers the client: a put, and then a get of what it put."""
    events.append(f"{r} told {row} = {'done' if row == 0 else 'value 5'}")


def enter(r, p, target):
    regions[p].target = target
    tell(r, f"enter {p} {target}", "entered")


def leader(r, words):
    """Leads all regions, and commits one command after the other: the client sends it once the last is answered."""
    number = 8 + r
    for p in REPLICAS:
        regions[p].asks[r] += 1
        tell(r, f"ask {p}")
        yield
    for p in REPLICAS:
        while regions[p].owner != r or regions[p].is_closing:
            yield
        tell(r, f"fence {p}", regions[p])
    for p in REPLICAS:
        tell(r, f"min {p}", regions[p].minimum)
        yield
    for p in REPLICAS:
        enter(r, p, "min")
        yield
        regions[p].minimum = number
        tell(r, f"putmin {p} {number}")
    for i, row in enumerate(ROWS):
        value = 4096 * r + i
        if words & {"seen", "hasty"}:
            events.append(f"got {i}")
        for p in REPLICAS:
            tell(r, f"look {p} {i}", "empty")
            yield
        for k, word in enumerate(row):
            regions[r].words[i, k] = word
            tell(r, f"writerow {i} {k} {word}")
            yield
        for p in REPLICAS:
            enter(r, p, f"place {i % RING}")
            yield
            regions[p].slots[i] = number, value
            tell(r, f"putslot {p} {i} {number} {value}")
            if "hasty" in words and p == 0:
                reply(r, i)
            yield
            if "early" in words and p == 1:
                break
        for p in REPLICAS:
            regions[p].fuo = i + 1
            tell(r, f"raisefuo {p} {i + 1}")
            yield
        regions[r].head = i + 1
        tell(r, f"raisehead {i + 1}")
        if "seen" in words:
            reply(r, i)


def follower(r):
    """Learns what the own FUO says is decided, fetches the rows and applies them."""
    mine = regions[r]
    while mine.head < len(ROWS):
        yield
        if mine.fuo == mine.head or mine.head not in mine.slots:
            continue
        tell(r, f"fuo {r}", mine.fuo)
        number, value = mine.slots[mine.head]
        tell(r, f"look {r} {mine.head}", f"entry {number} {value}")
        for k in range(12):
            yield
            tell(r, f"readrow {value} {k}", regions[value // 4096].words[value % 4096, k])
        mine.head += 1
        tell(r, f"raisehead {mine.head}")


def judge():
    """What the library says of the events, taken one after the other."""
    try:
        import mu_library
    except ImportError as cause:
        sys.exit(f"replicas.py: {cause}")
    with mu_library.Judge(JOB.encode()) as it:
        for event in events:
            if it.take(event.encode()) != mu_library.DONE:
                break
        print(it.why()[1].decode(), end="")


def main():
    words = set(sys.argv[1:])
    if not words <= {"right", "early", "seen", "hasty", "judged"}:
        sys.exit(__doc__.strip())
    # Who reads the trace may go before its end.
    signal.signal(signal.SIGPIPE, signal.SIG_DFL)
    dice = random.Random(1)
    turns = [host(r) for r in REPLICAS] + [leader(0, words), follower(1), follower(2)]
    for _ in range(4000):
        turn = dice.choice(turns)
        if next(turn, "ended") == "ended":
            turns.remove(turn)
    if "judged" in words:
        judge()
    else:
        print(JOB + "\n".join(events) + "\nend")


if __name__ == "__main__":
    main()
