"""An account of docs/PROTOCOL.md of its own: what steps find, and which rule a step breaks.

It shares nothing with the program. A rule can be left out by its name, which is that of the point in docs/WHY.md
or one of the names in `LEFT_OUT`: tools/tests/rules.py tries what goes wrong then.
"""
from long_trace import row_words

# What the rules that aren't a point of docs/WHY.md become if they are left out.
LEFT_OUT = {
    "GrantCompared": "an enter compares the owner, and not the grant",
    "Decided": "an entry is learnt by a look at its own position alone",
    "AllLanded": "a put that missed counts as one that landed",
}
# The value of a replica's row is this many times the replica, and the row; that of a mark is this much more.
PAYLOADS, MARKS = 4096, 4080
WORDS = 12
# Scores: the most; below the first a replica is failed, above the second it is alive again.
MOST_POINTS, FAILED_BELOW, ALIVE_ABOVE = 15, 2, 6
NO_TARGET, MIN = ("none",), ("min",)


class Job:
    """The settings, and the rows of the commands."""

    def __init__(self, version, replicas, ring, clients, budget=1000, batch=1):
        self.version, self.replicas, self.ring, self.clients = version, replicas, ring, clients
        self.budget, self.batch = budget, batch
        # Of each row: its words, its command, and how many of the same batch follow.
        self.rows, self.of_row, self.rests = [], [], []
        for client, commands in enumerate(clients):
            for number, words in enumerate(commands, 1):
                rest = min(batch - 1 - (number - 1) % batch, len(commands) - number)
                head, *others = row_words(client, number, words.split())
                self.rows.append([head | rest << 56, *others])
                self.of_row.append((client, number))
                self.rests.append(rest)
        self.majority = replicas // 2 + 1
        self.reserve = replicas if version == 2 else 0
        self.last = len(self.rows) + self.reserve

    @classmethod
    def of(cls, lines):
        """The job of some lines, without its script."""
        numbers = {words[0]: int(words[1]) for words in map(str.split, lines[:5]) if len(words) == 2}
        clients = []
        for line in lines[5 if numbers["mu"] == 2 else 4:]:
            if line == "script":
                break
            if line.startswith("client "):
                clients.append([])
            else:
                clients[-1].append(line)
        return cls(numbers["mu"], numbers["replicas"], numbers["ring"], clients, numbers["budget"],
                   numbers["batch"] if numbers["mu"] == 2 else 1)

    def lines(self):
        """The lines of the job."""
        lines = [f"mu {self.version}", f"replicas {self.replicas}", f"ring {self.ring}", f"budget {self.budget}"]
        lines += [f"batch {self.batch}"] if self.version == 2 else []
        for client, commands in enumerate(self.clients):
            lines += [f"client {client}", *commands]
        return [*lines, "end"]

    def is_mark(self, value, of):
        return self.version == 2 and value % PAYLOADS == MARKS + of

    def is_batch(self, value):
        row = value % PAYLOADS
        return value // PAYLOADS < self.replicas and row < len(self.rows) and (row == 0 or self.rests[row - 1] == 0)

    def rows_of(self, value):
        """The rows of a value: those of its batch, and none of a mark."""
        row = value % PAYLOADS
        return range(row, row + self.rests[row] + 1) if self.is_batch(value) else ()


class Region:
    """What a region holds. A drain is of one word: a put of it misses until its writer enters again."""

    def __init__(self, replicas):
        self.owner, self.grant, self.closing, self.target = "none", 0, False, NO_TARGET
        self.minimum = self.fuo = self.head = self.beats = 0
        self.asks, self.log, self.rows, self.drained = [0] * replicas, [], {}, {}

    def fence(self):
        state = "closing" if self.closing else "open"
        return (self.owner, self.grant, state, *self.target)


class Memory:
    """All regions, and what a step finds there."""

    def __init__(self, job, left_out):
        self.job, self.left_out = job, left_out
        self.regions = [Region(job.replicas) for _ in range(job.replicas)]

    def made(self, replica, verb, words):
        """Makes a step: what it finds, in words."""
        own = self.regions[replica.me]
        if verb in ("close", "looktarget", "drain", "grant", "beat", "raisehead", "writerow"):
            return self.made_at_home(own, verb, words)
        region = own if verb == "readrow" else self.regions[words[0]]
        if verb == "ask":
            region.asks[replica.me] += 1
        elif verb == "enter":
            return self.entered(replica, region, words)
        elif verb in ("putmin", "putslot"):
            return self.put(replica.me, region, verb, words)
        elif verb == "raisefuo":
            region.fuo = max(region.fuo, words[1])
        else:
            return self.read(own, replica.me, region, verb, words)
        return ("done",)

    def read(self, own, me, region, verb, words):
        """What a step that changes nothing finds."""
        if verb == "fence":
            return ("fence", *region.fence())
        if verb == "look":
            if words[1] + self.job.ring < len(region.log):
                return ("past",)
            return ("entry", *region.log[words[1]]) if words[1] < len(region.log) else ("empty",)
        if verb == "readrow":
            value, word = words
            return (self.regions[value // PAYLOADS].rows.get((value % PAYLOADS, word), 0),)
        return ({"min": region.minimum, "fuo": region.fuo, "head": region.head, "readbeat": region.beats,
                 "readask": own.asks[words[0]]}[verb],)

    def entered(self, replica, region, words):
        """An enter names the word, or it is lost."""
        right = region.owner == replica.me and not region.closing
        if "GrantCompared" not in self.left_out:
            right = right and region.grant == replica.noted.get(words[0])
        if not right:
            return ("lost", *region.fence())
        region.target = tuple(words[1:])
        region.drained.pop((replica.me, region.target), None)
        return ("entered",)

    def put(self, me, region, verb, words):
        """A put lands, unless its word was drained since its writer entered."""
        target = MIN if verb == "putmin" else ("place", words[1] % self.job.ring)
        if region.drained.get((me, target)):
            return ("missed",)
        if verb == "putmin":
            region.minimum = words[1]
        else:
            region.log[words[1]:words[1] + 1] = [tuple(words[2:])]
        return ("done",)

    def made_at_home(self, own, verb, words):
        """A step in the own region."""
        if verb == "close":
            before, own.closing = own.fence(), True
            return ("fence", *before)
        if verb == "drain":
            for writer in range(self.job.replicas):
                own.drained[writer, own.target] = True
        elif verb == "grant":
            own.owner, own.grant, own.closing, own.target = words[0], own.grant + 1, False, NO_TARGET
        elif verb == "beat":
            own.beats += 1
        elif verb == "raisehead":
            own.head = max(own.head, words[0])
        elif verb == "writerow":
            own.rows[tuple(words[:2])] = words[2]
        return ("done",)


class Leadership:
    """What a replica did and saw since its last `ask 0`."""

    def __init__(self):
        self.number, self.over = None, False
        self.members = {}           # the grant noted when the region became one
        self.most_read = 0          # the largest minimum read
        self.looks, self.looks_since = {}, {}  # the last look: in the leadership, and since the last joining
        self.good, self.looked = {}, {}        # positions looked at: now, and when the region was entered
        self.opened = {}            # the word that a region was entered for
        self.past = set()           # regions where a look was past, with the position
        self.first, self.late = {}, set()      # the value put first at a position; those with a later joining
        self.landed = {}            # (region, position): numbers and values that landed
        self.fuos, self.reach = {}, {}         # the largest FUO of a region: read; read or raised
        self.heads = []             # heads read, and whether their replicas were failed then


class Replica:
    """What a replica knows by its own steps."""

    def __init__(self, job, me, left_out):
        self.job, self.me, self.left_out, self.steps = job, me, left_out, 0
        self.now, self.begun, self.asked = Leadership(), False, None
        self.noted, self.opened = {}, {}
        self.fences, self.under = {}, set()    # grants seen of a region; those since which its minimum was read
        self.minima, self.largest = {}, 0      # minima read last; the largest number put
        self.heads, self.fuos = {}, {}         # heads read last; the largest FUOs read
        self.own_fuo, self.seen, self.served = None, {}, {}
        self.closed, self.target_looked, self.drained = None, False, False
        self.known, self.filled, self.own_entries = [], set(), set()
        self.wrote, self.words = set(), {}
        self.scores, self.outrun, self.commits = {}, None, 0

    def failed(self, q):
        return not self.scores.get(q, (MOST_POINTS, True, 0))[1]

    def marked(self, q):
        return any(self.job.is_mark(value, q) for value in self.known)

    def has_quorum(self):
        return self.me in self.now.members and len(self.now.members) >= self.job.majority

    def has_minimum(self, p):
        """The minimum was read since the noted grant was seen."""
        return self.noted.get(p) is not None and (p, self.noted[p]) in self.under

    def confirmed(self):
        return self.has_minimum(self.me) and sum(map(self.has_minimum, range(self.job.replicas))) >= self.job.majority

    def waits(self, region, w):
        return region.owner != w and self.served.get(w, 0) < self.seen.get(w, 0)

    def last_looks(self):
        left_out = "MemberNotLooked" in self.left_out
        return self.now.looks if left_out else self.now.looks_since

    def seen_entry(self, i):
        """The entry of the largest number that the looks at the members show, of the least region at a tie."""
        shown = [self.last_looks().get((p, i)) for p in sorted(self.now.members)]
        entries = [answer[1:] for answer in shown if answer and answer[0] == "entry"]
        return max(entries, key=lambda entry: entry[0]) if entries else None

    def applied(self):
        """How many entries it has in full."""
        for count, value in enumerate(self.known):
            rows = (value + k for k in range(len(self.job.rows_of(value))))
            if not all(self.has_word(row, k) for row in rows for k in range(WORDS)):
                return count
        return len(self.known)

    def has_word(self, value, k):
        return (value, k) in self.words or (value // PAYLOADS == self.me and (value % PAYLOADS, k) in self.wrote)

    def take(self, verb, words, answer, region):
        """Takes note of a step of its own, and of what it found."""
        self.steps += 1
        getattr(self, "take_" + verb, lambda *_: None)(words, answer, region)

    def take_ask(self, words, answer, region):
        self.asked = words[0]
        if words[0] == 0:
            self.now, self.begun, self.noted = Leadership(), True, {}

    def take_fence(self, words, answer, region):
        p, (_, owner, grant, state, *_) = words[0], answer
        now = self.now
        if p in now.members and (state == "closing" or grant != now.members[p]):
            now.over = True
        self.fences.setdefault(p, set()).add(grant)
        self.noted[p] = grant if owner == self.me and state == "open" else None

    def take_min(self, words, answer, region):
        p, number = words[0], answer[0]
        if self.now.number is not None and number > self.now.number:
            self.now.over = True
        self.minima[p] = number
        self.now.most_read = max(self.now.most_read, number)
        self.under |= {(p, grant) for grant in self.fences.get(p, ())}

    def take_enter(self, words, answer, region):
        p, target = words[0], tuple(words[1:])
        self.opened[p] = self.now.opened[p] = target if answer[0] == "entered" else NO_TARGET
        self.now.over |= answer[0] == "lost"
        self.now.looked[p] = set(self.now.good.get(p, ()))

    def take_putmin(self, words, answer, region):
        p, number = words
        now = self.now
        if now.number is None:
            now.number = number
        self.largest = max(self.largest, number)
        self.opened[p] = now.opened[p] = NO_TARGET
        if answer[0] == "missed":
            now.over = True
        elif p not in now.members:
            now.members[p] = self.noted.get(p)
            now.looks_since, now.late = {}, now.late | set(now.first)
            now.good[p] = set()

    def take_look(self, words, answer, region):
        p, i = words
        now = self.now
        now.looks[p, i] = now.looks_since[p, i] = answer
        if answer[0] == "past":
            now.past.add((p, i))
            if i >= len(self.known) and not self.outrun:
                self.outrun = (p, i)
        elif p in now.members:
            now.good.setdefault(p, set()).add(i)
        if answer[0] != "entry":
            return
        if p == self.me:
            self.own_entries.add(i)
        decided = i < self.fuos.get(p, 0) or (p == self.me and i + 1 in self.own_entries)
        if i == len(self.known) and (decided or ("Decided" in self.left_out and p == self.me)):
            self.known.append(answer[2])
            if p == self.me:
                self.filled.add((p, i))

    def take_putslot(self, words, answer, region):
        p, i, number, value = words
        now, ring = self.now, self.job.ring
        now.first.setdefault(i, value)
        self.opened[p] = now.opened[p] = NO_TARGET
        now.good[p] = {j for j in now.good.get(p, ()) if j % ring != i % ring}
        counts = answer[0] == "done" or "AllLanded" in self.left_out
        now.over |= not counts
        if answer[0] == "done":
            now.landed.setdefault((p, i), set()).add((number, value))
            if self.known[i:i + 1] == [value]:
                self.filled.add((p, i))
        if counts:
            self.commit(p, i, number, value)

    def commit(self, p, i, number, value):
        """The entry is known once it stands at all members, the last put among them."""
        now = self.now
        landed = {q for q in now.members if (number, value) in now.landed.get((q, i), ())}
        leads = not now.over and number == now.number and self.has_quorum()
        if i == len(self.known) and leads and landed | {p} >= set(now.members):
            self.known.append(value)
            self.commits += 1
            self.filled |= {(q, i) for q in landed}

    def take_fuo(self, words, answer, region):
        p, fuo = words[0], answer[0]
        self.fuos[p] = max(fuo, self.fuos.get(p, 0))
        self.now.fuos[p] = max(fuo, self.now.fuos.get(p, 0))
        self.filled |= {(p, j) for j in range(fuo)}
        self.note_reach(p, fuo)

    def take_raisefuo(self, words, answer, region):
        self.note_reach(*words)

    def note_reach(self, p, fuo):
        self.now.reach[p] = max(fuo, self.now.reach.get(p, 0))
        if p == self.me:
            self.own_fuo = max(fuo, self.own_fuo or 0)

    def take_head(self, words, answer, region):
        self.heads[words[0]] = answer[0]
        self.now.heads.append((words[0], answer[0], self.failed(words[0])))

    def take_readbeat(self, words, answer, region):
        points, alive, last = self.scores.get(words[0], (MOST_POINTS, True, 0))
        points = min(MOST_POINTS, points + 1) if answer[0] != last else max(0, points - 1)
        alive = points >= FAILED_BELOW and (alive or points > ALIVE_ABOVE)
        self.scores[words[0]] = (points, alive, answer[0])

    def take_readask(self, words, answer, region):
        self.seen[words[0]] = answer[0]
        if region.owner == words[0] and not region.closing:
            self.served[words[0]] = max(answer[0], self.served.get(words[0], 0))

    def take_writerow(self, words, answer, region):
        self.wrote.add(tuple(words[:2]))

    def take_readrow(self, words, answer, region):
        self.words[tuple(words)] = answer[0]

    def take_close(self, words, answer, region):
        self.closed, self.target_looked, self.drained = tuple(answer[4:]), False, False

    def take_looktarget(self, words, answer, region):
        self.target_looked = True

    def take_drain(self, words, answer, region):
        self.drained = True

    def take_grant(self, words, answer, region):
        self.served[words[0]] = max(self.seen.get(words[0], 0), self.served.get(words[0], 0))
