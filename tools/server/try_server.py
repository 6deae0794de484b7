#!/usr/bin/env python3
"""Tries ./mu_server, or a program that was built as it is, with the clients that people have: redis-cli, redis-benchmark,
python3-redis and hiredis, and with bytes that no client sends.

    tools/server/try_server.py PROGRAM             in a minute, as ./test does
    tools/server/try_server.py PROGRAM long [SEED] 100,000 mutated requests, 1,000 connections that come and go at a time, stops
                                            of the leader under load, and the memory of many that send and don't read

Each answer is that of a reader and a store of its own (tools/accounts/redis_model.py). Where several clients write the same keys,
some order of their commands, each between its sending and its answer, has to give all answers (tools/library/play_eras.py).
The last line is `server: N tried, N wrong`. Everything stays on this machine.
"""
import contextlib
import os
import random
import re
import shutil
import signal
import socket
import subprocess
import sys
import tempfile
import threading
import time

import folders
import redis_model
from beginning import begin
from own_traces import c_compiler
from play_eras import judge
from redis_model import ANY_BULK, Model, agree, request

HERE = os.path.dirname(os.path.realpath(__file__))
# How long anything is waited for, in seconds: the machine may be busy.
LONGEST = 120
# Debian's Python, which has python3-redis.
PYTHONS = [sys.executable, "/usr/bin/python3"]
FULL = b"-ERR max number of clients reached\r\n"
MOST_CONNECTIONS = 1024
# What one connection may take of memory, in bytes, in the server and in the program: docs/SERVER.md has the formula.
MOST_OF_ONE = 180_000
# The same of a key, at three replicas.
MOST_OF_KEY = 1_200


class Server:
    """A server that runs until the end of a block."""

    def __init__(self, program, *words):
        self.run = subprocess.Popen([program, "0", *words], stdout=subprocess.PIPE, stderr=subprocess.PIPE, text=True)
        self.line = self.run.stdout.readline()
        found = re.search(r"(\d) replicas at .*, port (\d+)\. ", self.line)
        if not found:
            raise OSError(f"no server: {self.line}{self.run.stderr.read()}")
        self.replicas, self.port = int(found[1]), int(found[2])

    def __enter__(self):
        return self

    def __exit__(self, *_):
        if self.run.poll() is None:
            self.run.terminate()
            try:
                self.run.wait(LONGEST)
            except subprocess.TimeoutExpired:
                self.run.kill()

    def ended(self):
        """Its status and what it said on standard error, after SIGTERM."""
        self.run.send_signal(signal.SIGTERM)
        said = self.run.communicate(timeout=LONGEST)[1]
        return self.run.returncode, said

    def resident(self):
        """How much memory it has, in bytes."""
        with open(f"/proc/{self.run.pid}/status", encoding="ascii") as read:
            return 1024 * int(re.search(r"VmRSS:\s+(\d+)", read.read())[1])

    def connect(self):
        it = socket.create_connection(("127.0.0.1", self.port), LONGEST)
        it.setsockopt(socket.IPPROTO_TCP, socket.TCP_NODELAY, 1)
        return it

    def told(self, pieces, pause=0.0):
        """What comes back on a connection of its own, up to its end."""
        with self.connect() as it:
            with contextlib.suppress(ConnectionError):
                for piece in pieces:
                    it.sendall(piece)
                    time.sleep(pause)
                it.shutdown(socket.SHUT_WR)
            return rest_of(it)


def rest_of(it):
    """What comes on a connection, up to its end."""
    got = b""
    with contextlib.suppress(ConnectionError):
        while more := it.recv(1 << 16):
            got += more
    return got


def answer_from(it):
    """One answer of a connection, that comes whole."""
    got = b""
    while True:
        with contextlib.suppress(ValueError):
            if got and redis_model.answer_end(got, 0) <= len(got):
                return got
        more = it.recv(1 << 16)
        if not more:
            return got
        got += more


def answers_from(it, count):
    """So many answers of a connection."""
    got = b""
    while True:
        with contextlib.suppress(ValueError, IndexError):
            parts = redis_model.parts_of(got)
            if len(parts) == count and redis_model.answer_end(got, len(got) - len(parts[-1])) == len(got):
                return parts
        more = it.recv(1 << 16)
        if not more:
            return redis_model.parts_of(got)
        got += more


class Judge:
    """What was tried, and what was wrong."""

    def __init__(self):
        self.tried, self.wrong, self.left, self.lock = 0, [], [], threading.Lock()

    def expect(self, what, found, wanted):
        with self.lock:
            self.tried += 1
            if found != wanted:
                self.wrong.append(f"{what}: {str(found)[:200]}, not {str(wanted)[:200]}")

    def agree(self, what, told, wanted):
        self.expect(what, told if not agree(told, wanted) else "as foretold", "as foretold")


def drawn_word(draw):
    """A key or a value: mostly short and visible, at times empty, of any bytes, or at a limit."""
    kind = draw.random()
    if kind < 0.7:
        return b"k%d" % draw.randrange(9)
    if kind < 0.8:
        return bytes(draw.randrange(256) for _ in range(draw.choice([0, 1, 2, 7, 8, 9, 21, 22])))
    return bytes(draw.randrange(33, 127) for _ in range(draw.choice([1, 23, 24, 25, 32, 33, 63, 64, 65, 300, 1024])))


def drawn_request(draw):
    """The words of a request, of which most are served."""
    word = lambda: drawn_word(draw)
    return draw.choice([
        lambda: (b"SET", word(), word()), lambda: (b"GET", word()), lambda: (b"get", word()), lambda: (b"DEL", word()),
        lambda: (b"GETSET", word(), word()), lambda: (b"SET", word(), word(), b"GET"), lambda: (b"EXISTS", word()),
        lambda: (b"STRLEN", word()), lambda: (b"MU", b"CAS", word(), word(), word()), lambda: (b"PING",), lambda: (b"ECHO", word()),
        lambda: (b"MU", b"STATUS"), lambda: (b"DEL", word(), word()), lambda: (b"SET", word(), word(), b"NX"),
        lambda: (b"SELECT", draw.choice([b"0", b"1"])), lambda: (b"CONFIG", b"GET", draw.choice([b"save", b"appendonly", b"x"])),
        lambda: (b"CLIENT", draw.choice([b"SETNAME", b"ID", b"KILL"]), b"x"), lambda: (b"HELLO",), lambda: (b"INFO",),
        lambda: (b"COMMAND", b"DOCS"), lambda: (draw.choice([b"MGET", b"MSET", b"MSETNX", b"SETNX", b"SETEX", b"PSETEX", b"DBSIZE"]), word()),
        lambda: (word(), word()), lambda: (b"HELLO", b"3"), lambda: (),
        lambda: (b"MU", b"PAUSE", draw.choice([b"0", b"2", b"3"]), draw.choice([b"1", b"40", b"0", b"x"])),
    ])()


def mutated(draw, came):
    """The bytes with some changed, left out, doubled or put in."""
    came = bytearray(came)
    for _ in range(draw.choice([1, 1, 2, 5])):
        at = draw.randrange(len(came))
        kind = draw.randrange(5)
        if kind == 0:
            came[at] = draw.randrange(256)
        elif kind == 1:
            came[at] = ord(draw.choice("*$\r\n0123456789-"))
        elif kind == 2:
            del came[at:at + draw.choice([1, 1, 2, 9])]
        elif kind == 3:
            came[at:at] = came[at:at + draw.choice([1, 4, 30])]
        else:
            came[at:at] = bytes(draw.randrange(256) for _ in range(draw.choice([1, 3])))
        if not came:
            break
    return bytes(came)


def cut(draw, came):
    """The bytes in pieces."""
    pieces = []
    while came:
        size = draw.choice([1, 2, 3, 7, 50, 400, 4000])
        pieces.append(came[:size])
        came = came[size:]
    return pieces


def with_model(server, judge_, draw, count, of_each, is_mutated):
    """Connections one after the other, whose answers are foretold."""
    model = Model(server.replicas)
    for k in range(count):
        came = b"".join(request(*drawn_request(draw)) for _ in range(of_each))
        pieces = [mutated(draw, came)] if is_mutated else cut(draw, came) if k % 4 == 0 else [came]
        wanted, is_closed = model.answers(b"".join(pieces))
        told = server.told(pieces)
        if is_closed and not agree(told, wanted):
            # Who is closed while bytes are under way may lose answers that were sent.
            with contextlib.suppress(ValueError, IndexError):
                wanted = wanted[:len(redis_model.parts_of(told))]
        judge_.agree(f"{'mutated ' if is_mutated else ''}requests {came[:80]!r}", told, wanted)


def malformed(server, judge_):
    """What is no request gets a sentence, after all answers before it, and then the end."""
    for data, told in [(b"*x\r\n", "invalid multibulk length"), (b"*2000000000\r\n", "invalid multibulk length"),
                       (b"*17\r\n", "invalid multibulk length"), (b"*-1\r\n", "invalid multibulk length"),
                       (b"*1\r\n+PING\r\n", "expected '$', got '+'"), (b"*1\r\n$x\r\n", "invalid bulk length"),
                       (b"*1\r\n$1025\r\n", "invalid bulk length"), (b"*1\r\n$4\r\nPINGS\r\n", "expected CRLF"),
                       (b"GET / HTTP/1.1\r\n\r\n", "expected '*', got 'G'"), (b"*1\rx", "expected CRLF")]:
        told = b"+PONG\r\n-ERR Protocol error: " + told.encode() + b"\r\n"
        with server.connect() as it:
            it.sendall(request(b"PING") + data)
            judge_.expect(f"{data!r}", rest_of(it), told)
    with server.connect() as it:
        it.sendall(request(b"SET", b"q", b"1") + request(b"QUIT") + request(b"PING"))
        judge_.expect("QUIT", rest_of(it), b"+OK\r\n+OK\r\n")
    judge_.expect("part of a request", server.told([b"*2\r\n$3\r\nGE"]), b"")


def large_requests(server, judge_):
    """Many bytes at once: more than any buffer has."""
    count = 3000
    came, wanted = request(b"ECHO", b"x" * 1000) * count, b"$1000\r\n" + b"x" * 1000 + b"\r\n"
    with server.connect() as it:
        sender = threading.Thread(target=it.sendall, args=(came,))
        sender.start()
        got = b""
        while len(got) < count * len(wanted):
            got += it.recv(1 << 16)
        sender.join()
    judge_.expect("three megabytes of ECHO", got == count * wanted, True)
    pipeline = b"".join(request(b"SET", b"l%d" % (k % 7), b"%d" % k) + request(b"GET", b"l%d" % (k % 7)) for k in range(500))
    wanted = b"".join(b"+OK\r\n$%d\r\n%d\r\n" % (len(str(k)), k) for k in range(500))
    judge_.expect("a pipeline of 1,000", server.told([pipeline]), wanted)


def who_does_not_read(server, judge_):
    """One who sends and doesn't read is held back, and the others are served."""
    with server.connect() as it:
        it.setblocking(False)
        data, sent = request(b"ECHO", b"x" * 1000) * 1000, 0
        with contextlib.suppress(BlockingIOError):
            for _ in range(60):
                sent += it.send(data)
        judge_.expect("others beside one who doesn't read", server.told([request(b"SET", b"slow", b"1")]), b"+OK\r\n")
        judge_.expect("who doesn't read is held back", sent < 60 * len(data), True)
    judge_.expect("others after it has gone", server.told([request(b"GET", b"slow")]), b"$1\r\n1\r\n")


def who_vanishes(server, judge_, count):
    """Clients that send and go, some by a reset."""
    for k in range(count):
        it = server.connect()
        it.sendall(request(b"SET", b"g%d" % (k % 9), b"%d" % k) * (1 + k % 3))
        if k % 3 == 0:
            it.setsockopt(socket.SOL_SOCKET, socket.SO_LINGER, b"\x01\0\0\0\0\0\0\0")
        it.close()
    told = server.told([request(b"GET", b"g1")])
    judge_.expect("after clients that vanished", told[:1] + told[-2:], b"$\r\n")


def many_threads(server, judge_, threads, count):
    """Each has keys of its own, and reads what it wrote."""
    def talk(own):
        draw, model = random.Random(own), Model()
        with server.connect() as it:
            for _ in range(count):
                words = drawn_request(draw)
                words = (words[0], b"t%d" % own, *words[2:]) if len(words) > 1 and words[0] in (
                    b"SET", b"GET", b"get", b"DEL", b"GETSET", b"EXISTS", b"STRLEN") else (b"PING",)
                wanted = model.answer(list(words))
                it.sendall(request(*words))
                judge_.agree(f"thread {own}: {words}", answer_from(it), wanted)
    together(talk, range(threads))


def together(talk, each):
    """Each of them on a thread of its own."""
    failed = []

    def go(own):
        try:
            talk(own)
        except (OSError, ValueError, IndexError) as cause:
            failed.append(cause)
    threads = [threading.Thread(target=go, args=(own,)) for own in each]
    for one in threads:
        one.start()
    for one in threads:
        one.join()
    if failed:
        raise failed[0]


class Shared:
    """What several clients did with the same keys, in the order of the clock."""

    def __init__(self):
        self.lock, self.keys, self.ops, self.replies = threading.Lock(), {}, {}, {}

    def sent(self, client, op):
        with self.lock:
            number = len(self.ops)
            self.ops[number] = (client, op)
            self.keys.setdefault(op[1], []).append(("sent", number))
            return number

    def told(self, number, reply):
        with self.lock:
            self.replies[number] = reply
            self.keys[self.ops[number][1][1]].append(("told", number))

    def wrong(self):
        return [key for key, events in self.keys.items() if judge(events, self.ops, self.replies) is not None]


def reply_of(kind, told):
    """An answer as play_eras has it."""
    if told == b"+OK\r\n":
        return "done"
    if told == b"$-1\r\n":
        return "none"
    if kind == "del":
        return "done" if told == b":1\r\n" else "none"
    return ("kept " if kind == "cas" else "value ") + told.split(b"\r\n")[1].decode()


def leader_of(it):
    """Which replica puts, as INFO tells."""
    it.sendall(request(b"MU", b"STATUS"))
    found = re.search(rb"leader:(\d)", answer_from(it))
    return int(found[1]) if found else 0


def stops_under_load(server, judge_, seconds, clients=6):
    """The leader is stopped and called back again and again, while clients write the same keys."""
    shared, over = Shared(), time.monotonic() + seconds

    def talk(own):
        draw, fresh = random.Random(own), 0
        with server.connect() as it:
            while time.monotonic() < over:
                key, fresh = f"s{draw.randrange(4)}", fresh + 1
                value, old = f"{own}.{fresh}", f"{draw.randrange(clients)}.{fresh}"
                kind = draw.choice(["put", "get", "get", "del", "swap", "cas"])
                rest = {"put": [value], "swap": [value], "cas": [old, value]}.get(kind, [])
                words = {"put": ["SET"], "swap": ["GETSET"], "cas": ["MU", "CAS"]}.get(kind, [kind])
                number = shared.sent(own, (kind, key, *rest))
                it.sendall(request(*(word.encode() for word in [*words, key, *rest])))
                told = answer_from(it)
                if told.startswith(b"-"):
                    judge_.expect("an answer while the leader stops", told, "no refusal")
                    return
                shared.told(number, reply_of(kind, told))

    def control(_):
        with server.connect() as it:
            while time.monotonic() < over:
                leader = b"%d" % leader_of(it)
                for words in ((b"MU", b"STOP", leader), (b"MU", b"BACK", leader), (b"MU", b"PAUSE", leader, b"300")):
                    it.sendall(request(*words))
                    judge_.expect(f"{words}", answer_from(it), b"+OK\r\n")
                    time.sleep(0.05)
    together(lambda own: control(own) if own < 0 else talk(own), range(-1, clients))
    judge_.expect("keys whose answers have no order", shared.wrong(), [])
    judge_.tried += len(shared.replies)


def without_majority(server, judge_):
    """What gets no reply is told so, and what comes afterwards is served again once a replica is back."""
    with server.connect() as it, server.connect() as other:
        for replica in (b"0", b"1"):
            it.sendall(request(b"MU", b"STOP", replica))
            judge_.expect("MU STOP", answer_from(it), b"+OK\r\n")
        it.sendall(request(b"MU", b"STOP", b"1"))
        judge_.expect("MU STOP again", answer_from(it), redis_model.refusal("stopped"))
        other.sendall(request(b"SET", b"m", b"1"))
        judge_.expect("SET without a majority", answer_from(other), redis_model.refusal("no reply"))
        other.sendall(request(b"SET", b"m", b"1") * 150)
        told = answers_from(other, 150)
        late = told.count(redis_model.refusal("no reply"))
        judge_.expect("150 without a majority", (told, late < 100),
                      ([redis_model.refusal("no reply")] * late + [redis_model.refusal("no room")] * (150 - late), True))
        it.sendall(request(b"MU", b"BACK", b"1"))
        judge_.expect("MU BACK", answer_from(it), b"+OK\r\n")
        other.sendall(request(b"GET", b"m"))
        judge_.expect("GET once a majority is back", answer_from(other), b"$1\r\n1\r\n")
        it.sendall(request(b"MU", b"BACK", b"0"))
        judge_.expect("MU BACK of the other", answer_from(it), b"+OK\r\n")


def with_cli(server, judge_):
    """redis-cli, as a person types into it."""
    asked = b"set cli 7\nget cli\nmu stop 0\nget cli\nmu back 0\nmu cas cli 7 8\nstrlen cli\ndel cli\nset a b nx\nmget a b\ndbsize\nhi\n"
    wanted = [b"OK", b"7", b"OK", b"7", b"OK", b"OK", b"1", b"1", redis_model.REFUSED["option"], redis_model.REFUSED["keys"],
              redis_model.REFUSED["size"], redis_model.REFUSED["unknown"]]
    for more in ([], ["-3"]):
        run = subprocess.run(["redis-cli", "-p", str(server.port), *more], input=asked, capture_output=True, check=False, timeout=LONGEST)
        judge_.expect(f"redis-cli {' '.join(more)}", [line for line in run.stdout.splitlines() if line], wanted)


def with_benchmark(server, judge_):
    for words in (["-c", "16", "-n", "600"], ["-c", "4", "-P", "16", "-n", "960"]):
        run = subprocess.run(["redis-benchmark", "-p", str(server.port), "-t", "set,get", "-e", "--csv", *words], capture_output=True,
                             text=True, check=False, timeout=LONGEST)
        judge_.expect(f"redis-benchmark {' '.join(words)}", (run.returncode, run.stdout.count('"SET"'), run.stdout.count('"GET"')),
                      (0, 1, 1))


def with_library(server, judge_, python):
    run = subprocess.run([python, os.path.join(HERE, "redis_library.py"), str(server.port)], capture_output=True, text=True,
                         check=False, timeout=LONGEST)
    lines = run.stdout.splitlines() or [run.stderr[-200:]]
    judge_.expect("python3-redis", lines, [lines[0]] if lines[0].endswith(" right") else ["as told"])
    judge_.tried += int(lines[0].split()[0]) if lines[0].endswith(" right") else 0


def with_hiredis(server, judge_, folder):
    path = os.path.join(folder, "hiredis_talk")
    subprocess.run([c_compiler(), "-std=gnu11", "-Wall", "-Werror", os.path.join(HERE, "hiredis_talk.c"), "-o", path, "-lhiredis"],
                   check=True)
    run = subprocess.run([path, str(server.port)], capture_output=True, text=True, check=False, timeout=LONGEST)
    judge_.expect("hiredis", (run.returncode, run.stdout), (0, "410 right\n"))


def real_clients(server, judge_, folder):
    """Each of them that is here."""
    python = next((it for it in PYTHONS if not subprocess.run([it, "-c", "import redis"], capture_output=True, check=False).returncode), None)
    has_hiredis = c_compiler() and os.path.exists("/usr/include/hiredis/hiredis.h")
    for name, is_there, run in [
            ("redis-cli", shutil.which("redis-cli"), lambda: with_cli(server, judge_)),
            ("redis-benchmark", shutil.which("redis-benchmark"), lambda: with_benchmark(server, judge_)),
            ("python3-redis", python, lambda: with_library(server, judge_, python)),
            ("hiredis", has_hiredis, lambda: with_hiredis(server, judge_, folder))]:
        if is_there:
            run()
        else:
            judge_.left.append(name)


def ends(program, judge_):
    """The end of a server, by SIGTERM; and what is no start."""
    with Server(program) as server, server.connect() as it, server.connect() as idle:
        it.sendall(b"".join(request(b"SET", b"e", b"%d" % k) for k in range(60)) + b"*1\r\n$4\r\nPI")
        it.recv(1)
        used = subprocess.run([program, str(server.port)], capture_output=True, text=True, check=False, timeout=LONGEST)
        judge_.expect("a port in use", (used.returncode, used.stderr.count("\n"), "in use" in used.stderr), (1, 1, True))
        status, said = server.ended()
        judge_.expect("SIGTERM", (status, said), (0, ""))
        judge_.expect("answers before the end", rest_of(it), (b"+OK\r\n" * 60)[1:])
        judge_.expect("one who sent nothing", rest_of(idle), b"")
    with Server(program, "--bind", "127.0.0.2", "--replicas", "1") as server:
        judge_.expect("another address", server.line.startswith("mu_server: 1 replicas at 127.0.0.2, port "), True)
        with contextlib.suppress(ConnectionError):
            server.connect()
            judge_.expect("not at the usual address", "reached", "refused")
    for words in (["x"], ["65536"], ["-1"], ["1", "2"], ["--replicas", "8"], ["--replicas", "0"], ["--replicas"], ["--bind", "x"], ["--no"]):
        run = subprocess.run([program, *words], capture_output=True, text=True, check=False, timeout=LONGEST)
        judge_.expect(f"words {words}", (run.returncode, run.stdout), (1, ""))


def too_many(program, judge_):
    """More connections than may be; and many that come and go."""
    with Server(program) as server:
        many = [server.connect() for _ in range(MOST_CONNECTIONS + 6)]
        judge_.expect("one too many", rest_of(many[-1]), FULL)
        for k in (0, 500, MOST_CONNECTIONS - 1):
            many[k].sendall(request(b"SET", b"n", b"%d" % k))
            judge_.expect("one of many", answer_from(many[k]), b"+OK\r\n")
        for it in many:
            it.close()
        for _ in range(3):
            many = [server.connect() for _ in range(1000)]
            for k, it in enumerate(many):
                it.sendall(request(b"SET", b"c%d" % k, b"%d" % k) + request(b"GET", b"c%d" % k))
            for k, it in enumerate(many):
                it.shutdown(socket.SHUT_WR)
                judge_.expect("one that comes and goes", rest_of(it), b"+OK\r\n" + redis_model.bulk(b"%d" % k))
                it.close()


def memory(program, judge_):
    """Those that send and don't read take no more than the formula says."""
    with Server(program) as server:
        server.told([request(b"SET", b"x", b"x" * 64) * 300])
        before, many = server.resident(), [server.connect() for _ in range(200)]
        for it in many:
            it.setblocking(False)
            with contextlib.suppress(BlockingIOError):
                for _ in range(40):
                    it.send((request(b"ECHO", b"y" * 1000) + request(b"GET", b"x")) * 40)
        time.sleep(2)
        server.told([request(b"PING")])
        judge_.expect("memory of one connection", (server.resident() - before) // len(many) < MOST_OF_ONE, True)
        for it in many:
            it.close()
        before, count = server.resident(), 60_000
        server.told([b"".join(request(b"SET", b"key:%d" % k, b"y" * 64) for k in range(count))])
        judge_.expect("memory of one key", (server.resident() - before) // count < MOST_OF_KEY, True)


def short_parts(program, judge_, folder):
    """What ./test tries."""
    with Server(program) as server:
        draw = random.Random(1)
        for part in (lambda: malformed(server, judge_), lambda: large_requests(server, judge_),
                     lambda: with_model(server, judge_, draw, 24, 30, False), lambda: real_clients(server, judge_, folder)):
            yield part
    with Server(program) as server:
        for part in (lambda: with_model(server, judge_, random.Random(2), 40, 20, True),
                     lambda: who_does_not_read(server, judge_), lambda: who_vanishes(server, judge_, 60),
                     lambda: many_threads(server, judge_, 20, 20), lambda: stops_under_load(server, judge_, 3),
                     lambda: without_majority(server, judge_)):
            yield part
    yield lambda: ends(program, judge_)


def long_parts(program, judge_, seed):
    """What takes a quarter of an hour."""
    with Server(program) as server:
        yield lambda: with_model(server, judge_, random.Random(seed), 5000, 20, True)
    with Server(program, "--replicas", "5") as server:
        for part in (lambda: with_model(server, judge_, random.Random(seed + 1), 1000, 20, False),
                     lambda: who_vanishes(server, judge_, 2000), lambda: many_threads(server, judge_, 20, 400)):
            yield part
    for replicas in ("3", "5"):
        with Server(program, "--replicas", replicas) as server:
            yield lambda: stops_under_load(server, judge_, 60, clients=10)
    yield lambda: too_many(program, judge_)
    yield lambda: memory(program, judge_)


def tried(program, seed=None):
    """A judge of what was tried: the short run, or with a seed the long one."""
    judge_ = Judge()
    with tempfile.TemporaryDirectory(prefix="server-") as folder:
        parts = short_parts(program, judge_, folder) if seed is None else long_parts(program, judge_, seed)
        try:
            for part in parts:
                try:
                    part()
                except (OSError, ValueError, IndexError, subprocess.TimeoutExpired) as cause:
                    judge_.wrong.append(f"{type(cause).__name__}: {cause}")
        except OSError as cause:
            judge_.wrong.append(str(cause))
    return judge_


def main():
    begin(__doc__)
    if len(sys.argv) < 2 or sys.argv[2:3] not in ([], ["long"]):
        print(__doc__.split("\n\n")[1])
        return 2
    seed = (int(sys.argv[3]) if len(sys.argv) > 3 else 1) if len(sys.argv) > 2 else None
    judge_ = tried(os.path.abspath(sys.argv[1]), seed)
    for line in judge_.wrong[:40]:
        print(line)
    for name in judge_.left:
        print(f"{name} isn't here: SKIPPED")
    print(f"server: {judge_.tried} tried, {len(judge_.wrong)} wrong")
    return 1 if judge_.wrong else 0


if __name__ == "__main__":
    sys.exit(main())
