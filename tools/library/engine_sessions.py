"""Sessions of a live engine with random commands, stops, pauses and returns: by lines to a program in C or C++, or
through ctypes. Each trace has to be legal, and each reply that of a store of a few lines."""
import ctypes
import random
import subprocess

from operations import drawn, reply_to

# The statuses of c/mu.h.
DONE, REFUSED, UNFINISHED, FULL, STOPPED, MIXED = 0, 2, 3, 9, 10, 11
BEYOND, NO_SUCH_CLIENT, NO_SUCH_REPLICA, NO_SUCH_ROW, OLD_ROW, EMPTY = 15, 16, 17, 18, 19, 20
NOBODY = 255
REPLIES = {b"done": 1, b"value": 2, b"none": 3, b"kept": 4}
STEPS, COMMANDS, MOST_PAUSE = 60_000, 40, 3_000
# For how many rounds replies are waited for, and after how many it is mostly looked for them.
MOST_ROUNDS, ROUNDS = 20_000, 50
# How many commands an era takes: few, so that a session has several.
ERAS = [1, 4, 9, 60]
# After such a pause of replica 0, right at first, a region goes astray: so many replicas, and for how many rounds.
ASTRAY = [(3, 1_050), (5, 1_000)]
BAD_LINES = [b"", b"get", b"put a", b"get a b", b"PUT a 5", b"put  a 5", b"cas a " + b"x" * 33 + b" y", b"get " + b"k" * 25]


def places_for(replicas, commands):
    """As many places of a log as an era needs, and at least the fewest."""
    return max(8, commands + 2 * replicas)


class ByLines:
    """An engine in another process, asked by lines."""

    def __init__(self, program):
        self.process = subprocess.Popen([program], stdin=subprocess.PIPE, stdout=subprocess.PIPE)

    def ask(self, *words):
        self.process.stdin.write(b" ".join(w if isinstance(w, bytes) else str(w).encode() for w in words) + b"\n")
        self.process.stdin.flush()
        return self.process.stdout.readline()[:-1]

    def new(self, *numbers):
        return int(self.ask("new", *numbers))

    def submit(self, client, line):
        status, row = self.ask("submit", client, line).split()
        return int(status), int(row)

    def rounds(self, count):
        return int(self.ask("rounds", count))

    def stop(self, replica):
        return int(self.ask("stop", replica))

    def pause(self, replica, rounds):
        return int(self.ask("pause", replica, rounds))

    def back(self, replica):
        return int(self.ask("back", replica))

    def reply(self, row):
        status, which, text = self.ask("reply", row).split(b" ")
        return int(status), int(which), text

    def until(self, row, rounds):
        status, which, text = self.ask("until", row, rounds).split(b" ")
        return int(status), int(which), text

    def state(self):
        return tuple(map(int, self.ask("state").split()))

    def hold(self, replica):
        return tuple(map(int, self.ask("hold", replica).split()))

    def trace(self):
        status, length = self.ask("trace").split()
        return int(status), self.process.stdout.read(int(length))

    def free(self):
        return int(self.ask("free"))

    def end(self):
        self.process.stdin.close()
        return self.process.wait()


class ByTypes:
    """An engine in this process, through ctypes."""

    def __init__(self, mu_library):
        self.mu_library, self.library, self.held = mu_library, mu_library.library, mu_library.Held()

    def new(self, *numbers):
        return self.library.mu_engine_new(self.held, *numbers)

    def submit(self, client, line):
        row = ctypes.c_uint64()
        return self.library.mu_engine_submit(self.held, client, line, len(line), ctypes.byref(row)), row.value

    def rounds(self, count):
        status = DONE
        while count and status == DONE:
            status, count = self.library.mu_engine_round(self.held), count - 1
        return status

    def stop(self, replica):
        return self.library.mu_engine_stop(self.held, replica)

    def pause(self, replica, rounds):
        return self.library.mu_engine_pause(self.held, replica, rounds)

    def back(self, replica):
        return self.library.mu_engine_back(self.held, replica)

    def reply(self, row):
        which = ctypes.c_uint32()
        status, text = self.mu_library.told(self.library.mu_engine_reply, self.held, row, ctypes.byref(which), room=64)
        return status, which.value, text

    def until(self, row, rounds):
        which = ctypes.c_uint32()
        status, text = self.mu_library.told(self.library.mu_engine_until, self.held, row, rounds, ctypes.byref(which), room=64)
        return status, which.value, text

    def state(self):
        now = self.mu_library.State()
        status = self.library.mu_engine_state(self.held, ctypes.byref(now))
        return status, now.commands, now.first_row, now.eras, now.replicas, now.leader, now.free, now.room

    def hold(self, replica):
        now = self.mu_library.Hold()
        return self.library.mu_engine_hold(self.held, replica, ctypes.byref(now)), now.stopped, now.rounds

    def trace(self):
        return self.mu_library.told(self.library.mu_engine_trace, self.held)

    def free(self):
        self.library.mu_engine_free(self.held)
        return DONE

    def end(self):
        return 0


def stored(texts, line):
    """What a store replies to a command, and does with it."""
    name, _, text = reply_to(texts, line.decode()).partition(" ")
    return name.encode(), text.encode()


def some_command(chance):
    """A command on one of three keys."""
    return drawn(chance, chance.choice("abc"), lambda _: str(chance.randrange(4))).encode()


class Session:
    """One session: what was submitted, and what the replies have to be."""

    def __init__(self, tried, engine, name, chance, replicas, era):
        self.tried, self.engine, self.name, self.chance = tried, engine, name, chance
        self.replicas, self.era, self.stopped = replicas, era, set()
        # The commands, their clients, the replies of a store that takes them in this order, and how many of the first
        # ones were replied.
        self.lines, self.clients, self.wanted, self.texts, self.replied = [], [], [], {}, 0

    def expect(self, what, found, wanted):
        self.tried.expect(f"{self.name}: {what}", found, wanted)

    def refusals(self):
        """What is refused changes nothing."""
        engine, chance = self.engine, self.chance
        self.expect("a bad client", engine.submit(chance.choice([16, 255, 256, 4_294_967_295]), b"get a"), (NO_SUCH_CLIENT, 0))
        self.expect("a bad line", engine.submit(0, chance.choice(BAD_LINES)), (REFUSED, 0))
        other = chance.choice([self.replicas, 256])
        self.expect("no such replica", (engine.stop(other), engine.pause(other, 9), engine.back(other)), 3 * (NO_SUCH_REPLICA,))
        self.expect("no such replica's hold", engine.hold(other), (NO_SUCH_REPLICA, 0, 0))
        self.expect("no such row", engine.reply(len(self.lines)), (NO_SUCH_ROW, 0, b""))
        self.expect("no such row to wait for", engine.until(len(self.lines) + 7, 9), (NO_SUCH_ROW, 0, b""))
        for replica in self.stopped:
            self.expect("a stopped replica", (engine.stop(replica), engine.pause(replica, 3)), (STOPPED, STOPPED))

    def disturb(self):
        """Stops a replica, as long as a majority stays, or calls one back, or pauses one."""
        replica = self.chance.randrange(self.replicas)
        if replica in self.stopped:
            self.expect("a return", self.engine.back(replica), DONE)
            self.stopped.remove(replica)
            self.expect("what holds it", self.engine.hold(replica), (DONE, 0, 0))
        elif self.chance.random() < 0.4 and 2 * len(self.stopped | {replica}) < self.replicas:
            self.expect("a stop", self.engine.stop(replica), DONE)
            self.stopped.add(replica)
            self.expect("what holds it", self.engine.hold(replica)[:2], (DONE, 1))
        else:
            rounds = self.chance.randint(0, MOST_PAUSE)
            self.expect("a pause", self.engine.pause(replica, rounds), DONE)
            self.expect("what holds it", self.engine.hold(replica), (DONE, 0, rounds))

    def submit(self, client):
        """One command more; if the era has no room, after rounds."""
        line = some_command(self.chance)
        status, row = self.engine.submit(client, line)
        if status == FULL:
            self.expect("each reply", self.answered(), True)
            self.engine.rounds(1)
            status, row = self.engine.submit(client, line)
        self.expect("a row", (status, row), (DONE, len(self.lines)))
        self.lines.append(line)
        self.clients.append(client)
        kind, text = stored(self.texts, line)
        self.wanted.append((DONE, REPLIES[kind], text))

    def answered(self, rounds=ROUNDS):
        """Whether each row has its reply, after rounds for these; each is the store's."""
        for _ in range(MOST_ROUNDS // rounds):
            while self.replied < len(self.lines) and (found := self.engine.until(self.replied, rounds))[0] == DONE:
                self.expect(f"the reply to {self.lines[self.replied]}", found, self.wanted[self.replied])
                self.replied += 1
            if self.replied == len(self.lines):
                return True
        return False

    def judged(self, library):
        """The trace of the era under way is legal, if a job's text has the commands so; each reply that is kept is a
        store's."""
        stands, commands, first, _, replicas, _, free, room = self.engine.state()
        self.expect("a state", (stands, commands, replicas), (DONE, len(self.lines), self.replicas))
        self.expect("those that stopped aren't free", free <= self.replicas - len(self.stopped), True)
        status, trace = self.engine.trace()
        present = self.clients[len(self.clients) - (self.era - room):]
        mixed = present != sorted(present)
        self.expect("a trace", status, MIXED if mixed else DONE)
        if not mixed:
            self.expect("a legal one", library.answer("check", trace)[1].split()[:1], [b"legal"])
        for row, wanted in enumerate(self.wanted):
            found = self.engine.reply(row)
            if row < first:
                self.expect("an old row", found, (OLD_ROW, 0, b""))
            elif found[0] != UNFINISHED:
                self.expect(f"the reply to {self.lines[row]}", found, wanted)

    def begin(self):
        shape = (self.replicas, places_for(self.replicas, self.era), STEPS, self.era)
        self.expect("an engine", self.engine.new(*shape), DONE)

    def end(self, library):
        """The last commands get their replies, the list is legal, and then there is no engine."""
        self.expect("each reply", self.answered(), True)
        self.judged(library)
        eras = self.engine.state()[3]
        self.expect("eras", eras >= (COMMANDS - 1) // self.era - 1, True)
        self.expect("let go", self.engine.free(), DONE)
        self.expect("no engine", (self.engine.rounds(1), self.engine.submit(0, b"get a"), self.engine.stop(0)), (EMPTY, (EMPTY, 0), EMPTY))
        self.expect("no engine that tells", (self.engine.reply(0), self.engine.trace()), ((EMPTY, 0, b""), (EMPTY, b"")))
        self.expect("no engine that stands", (self.engine.state(), self.engine.hold(0)), ((EMPTY, *7 * (0,)), (EMPTY, 0, 0)))

    def run(self, library, clients):
        """Commands of one client come in bursts; those of several wait for each reply, so that a store
        takes them in the order in which they came."""
        self.begin()
        while len(self.lines) < COMMANDS:
            self.submit(self.chance.randrange(clients))
            if clients > 1:
                self.expect("each reply", self.answered(), True)
            elif self.chance.random() < 0.5:
                self.expect("rounds", self.engine.rounds(self.chance.randrange(60)), DONE)
            if self.chance.random() < 0.2:
                self.disturb()
            if self.chance.random() < 0.2:
                self.refusals()
            if self.chance.random() < 0.15:
                self.judged(library)
        self.end(library)

    def run_after_pause(self, library, rounds):
        """Replica 0 pauses at first; each command is submitted as soon as the one before has its reply."""
        self.begin()
        self.expect("a pause", self.engine.pause(0, rounds), DONE)
        while len(self.lines) < COMMANDS:
            self.submit(0)
            self.expect("a reply", self.answered(1), True)
        self.end(library)

    def run_paused_and_stopped(self, library):
        """A follower pauses for long, comes back, and only then the leader stops: each command gets its reply. And so does
        one that comes if a majority stopped, once these are called back."""
        self.begin()
        self.expect("a pause", self.engine.pause(2, 5_000), DONE)
        while len(self.lines) < COMMANDS // 2:
            self.submit(0)
            self.expect("a reply", self.answered(), True)
        self.expect("rounds", self.engine.rounds(12_000), DONE)
        self.expect("a stop", self.engine.stop(0), DONE)
        self.submit(0)
        self.expect("a reply of another leader", self.answered(), True)
        self.expect("who leads", self.engine.state()[5], 1)
        self.expect("one more stop", self.engine.stop(1), DONE)
        self.submit(0)
        self.expect("no reply", self.engine.until(len(self.lines) - 1, 3_000)[0], UNFINISHED)
        self.expect("who leads", self.engine.state()[5] in (2, NOBODY), True)
        self.expect("returns", (self.engine.back(0), self.engine.back(1), self.engine.back(1)), (DONE, DONE, DONE))
        self.expect("a reply that came later", self.answered(), True)
        while len(self.lines) < COMMANDS:
            self.submit(0)
        self.end(library)


def try_sessions(tried, library, engines, count):
    """As many sessions in each language, and the same ones; and those after a pause."""
    for language, make in engines:
        engine = make()
        for seed in range(count):
            chance = random.Random(seed)
            shape = chance.choice([1, 3, 3, 5]), chance.choice(ERAS)
            Session(tried, engine, f"session {seed} in {language}", chance, *shape).run(library, 1 + 2 * (seed % 2))
        for replicas, rounds in ASTRAY:
            name = f"{replicas} replicas after a pause in {language}"
            Session(tried, engine, name, random.Random(rounds), replicas, ERAS[-1]).run_after_pause(library, rounds)
        Session(tried, engine, f"a pause and a stop in {language}", random.Random(7), 3, ERAS[2]).run_paused_and_stopped(library)
        tried.expect(f"the end in {language}", engine.end(), 0)
