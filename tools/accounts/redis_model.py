"""What a server of clients of Redis has to answer, byte for byte: a reader of requests and a store of its own."""
import re

MOST_WORDS, MOST_WORD, MOST_DIGITS, MOST_NAME = 16, 1024, 7, 16
KEY, VALUE, CAS_VALUE = 24, 64, 32
MOST_PAUSED = 1_000_000
# The name of a replica's state in what INFO tells.
RUNNING, STOPPED = "running", "stopped"
# Stands for a bulk whose text isn't foretold.
ANY_BULK = "any bulk"
NUMBER = re.compile(rb"0|[1-9][0-9]*")
REFUSED = {
    "unknown": b"ERR unknown command", "words": b"ERR wrong number of arguments", "syntax": b"ERR syntax error",
    "number": b"ERR value is not an integer or out of range",
    "key": b"ERR a key has at most 24 bytes here, and 8 if none is visible",
    "value": b"ERR a value has at most 64 bytes here, and 21 if none is visible",
    "keys": b"ERR one key a command here: several keys would be several commands",
    "database": b"ERR DB index is out of range", "protocol": b"NOPROTO unsupported protocol version",
    "option": b"ERR of the options of SET only GET is here, not NX, XX or EX (see MU CAS)",
    "size": b"ERR no command of the store counts its keys", "stopped": b"ERR the replica is stopped",
    "no reply": b"TRYAGAIN no reply in time; it may still be done",
    "no room": b"TRYAGAIN no room in the log in time; it was not done",
}


class Short(Exception):
    """What came is less than a request."""


class Fault(Exception):
    """What came is no request."""


def request(*words):
    """A request as clients send it."""
    return b"*%d\r\n" % len(words) + b"".join(b"$%d\r\n%s\r\n" % (len(word), word) for word in words)


def bulk(text):
    return b"$-1\r\n" if text is None else b"$%d\r\n%s\r\n" % (len(text), text)


def refusal(why):
    return b"-" + REFUSED[why] + b"\r\n"


def size_of(text):
    """How many bytes the spelling of a string has."""
    return sum(1 if 33 <= byte <= 126 and byte != 37 else 3 for byte in text) or 1


def number_in(word, least, most):
    """The number that a word spells, if it is one of these."""
    if len(word) <= MOST_DIGITS and NUMBER.fullmatch(word) and least <= int(word) <= most:
        return int(word)
    return None


class Reader:
    """Reads requests of what came."""

    def __init__(self, came):
        self.came, self.at = came, 0

    def number(self, most, wrong):
        end = self.came.find(b"\r", self.at)
        if end < 0:
            raise Short if len(self.came) - self.at <= MOST_DIGITS else Fault(wrong)
        number = number_in(self.came[self.at:end], 0, most)
        if number is None:
            raise Fault(wrong)
        self.at = end
        self.line_end()
        return number

    def line_end(self):
        for byte in b"\r\n":
            if self.at >= len(self.came):
                raise Short
            if self.came[self.at] != byte:
                raise Fault("expected CRLF")
            self.at += 1

    def sign(self, sign):
        if self.at >= len(self.came):
            raise Short
        found = self.came[self.at]
        if found != ord(sign):
            raise Fault(f"expected '{sign}', got '{chr(found) if 32 <= found <= 126 else '?'}'")
        self.at += 1

    def request(self):
        """The words of the next one."""
        began = self.at
        try:
            self.sign("*")
            words = []
            for _ in range(self.number(MOST_WORDS, "invalid multibulk length")):
                self.sign("$")
                count = self.number(MOST_WORD, "invalid bulk length")
                if len(self.came) - self.at < count:
                    raise Short
                words.append(self.came[self.at:self.at + count])
                self.at += count
                self.line_end()
            return words
        except Short:
            self.at = began
            raise


class Model:
    """A server, whose answers are known."""

    def __init__(self, replicas=3):
        self.store, self.replicas, self.stopped = {}, replicas, set()

    def answers(self, came):
        """The answers to bytes that come on one connection, each as bytes or ANY_BULK; whether it is closed then."""
        reader, answers = Reader(came), []
        try:
            while True:
                words = reader.request()
                answers += self.answer(words)
                if words and words[0].lower() == b"quit":
                    return answers, True
        except Short:
            return answers, False
        except Fault as fault:
            return [*answers, b"-ERR Protocol error: " + str(fault).encode() + b"\r\n"], True

    def answer(self, words):
        if not words:
            return []
        name = words[0].lower().decode("latin-1") if len(words[0]) <= MOST_NAME else ""
        does = getattr(self, "do_" + name, None) if name.isalpha() and name.isascii() else None
        return [does(words[1:]) if does else refusal("unknown")]

    def read(self, words, told):
        if not words:
            return refusal("words")
        if len(words) > 1:
            return refusal("keys")
        return told(self.store.get(words[0])) if size_of(words[0]) <= KEY else refusal("key")

    def write(self, key, value, told):
        if size_of(key) > KEY:
            return refusal("key")
        if size_of(value) > VALUE:
            return refusal("value")
        before = self.store.get(key)
        self.store[key] = value
        return told(before)

    def do_get(self, words):
        return self.read(words, bulk)

    def do_exists(self, words):
        return self.read(words, lambda text: b":%d\r\n" % (text is not None))

    def do_strlen(self, words):
        return self.read(words, lambda text: b":%d\r\n" % len(text or b""))

    def do_del(self, words):
        told = self.do_exists(words)
        if told == b":1\r\n":
            del self.store[words[0]]
        return told

    def do_set(self, words):
        if len(words) == 2:
            return self.write(*words, lambda before: b"+OK\r\n")
        if len(words) == 3 and words[2].lower() == b"get":
            return self.write(*words[:2], bulk)
        return refusal("option" if len(words) > 2 else "words")

    def do_getset(self, words):
        return self.write(*words, bulk) if len(words) == 2 else refusal("words")

    def do_ping(self, words):
        return b"+PONG\r\n" if not words else self.do_echo(words)

    def do_echo(self, words):
        return bulk(words[0]) if len(words) == 1 else refusal("words")

    def do_hello(self, words):
        if words and words[0] != b"2":
            return refusal("protocol")
        return (b"*14\r\n" + b"".join(map(bulk, (b"server", b"mu", b"version", b"7.0.0", b"proto"))) + b":2\r\n" + bulk(b"id")
                + b":1\r\n" + b"".join(map(bulk, (b"mode", b"standalone", b"role", b"master", b"modules"))) + b"*0\r\n")

    def do_select(self, words):
        if len(words) != 1:
            return refusal("words")
        return b"+OK\r\n" if words[0] == b"0" else refusal("database")

    def do_client(self, words):
        if not words:
            return refusal("words")
        told = {b"setname": b"+OK\r\n", b"setinfo": b"+OK\r\n", b"getname": b"$-1\r\n", b"id": b":1\r\n"}
        return told.get(words[0].lower(), refusal("syntax"))

    def do_config(self, words):
        if len(words) != 2:
            return refusal("words")
        if words[0].lower() != b"get":
            return refusal("syntax")
        told = {b"save": b"", b"appendonly": b"no"}.get(words[1])
        return b"*0\r\n" if told is None else b"*2\r\n" + bulk(words[1]) + bulk(told)

    def do_command(self, words):
        return b"*0\r\n"

    def do_info(self, words):
        return ANY_BULK

    def do_quit(self, words):
        return b"+OK\r\n"

    def do_mget(self, words):
        return refusal("keys")

    def do_setnx(self, words):
        return refusal("option")

    def do_dbsize(self, words):
        return refusal("size")

    do_mset = do_msetnx = do_mget
    do_setex = do_psetex = do_setnx

    def do_mu(self, words):
        if not words:
            return refusal("words")
        name = words[0].lower().decode("latin-1")
        does = getattr(self, "own_" + name, None) if name.isalpha() and name.isascii() else None
        return does(words[1:]) if does else refusal("syntax")

    def own_status(self, words):
        return ANY_BULK

    def own_cas(self, words):
        if len(words) != 3:
            return refusal("words")
        key, old, new = words
        if size_of(key) > KEY:
            return refusal("key")
        if max(size_of(old), size_of(new)) > CAS_VALUE:
            return refusal("value")
        now = self.store.get(key)
        if now == old:
            self.store[key] = new
            return b"+OK\r\n"
        return bulk(now)

    def held(self, words, count, does):
        """A command on a replica."""
        if len(words) != count:
            return refusal("words")
        replica = number_in(words[0], 0, self.replicas - 1)
        if replica is None or (count == 2 and number_in(words[1], 1, MOST_PAUSED) is None):
            return refusal("number")
        return does(replica)

    def own_stop(self, words):
        def stop(replica):
            told = refusal("stopped") if replica in self.stopped else b"+OK\r\n"
            self.stopped.add(replica)
            return told
        return self.held(words, 1, stop)

    def own_back(self, words):
        def back(replica):
            self.stopped.discard(replica)
            return b"+OK\r\n"
        return self.held(words, 1, back)

    def own_pause(self, words):
        return self.held(words, 2, lambda replica: refusal("stopped") if replica in self.stopped else b"+OK\r\n")


def parts_of(told):
    """The answers in what was told, one by one."""
    at, parts = 0, []
    while at < len(told):
        began = at
        at = answer_end(told, at)
        parts.append(told[began:at])
    return parts


def answer_end(told, at):
    """Where the answer ends that begins here."""
    end = told.index(b"\r\n", at) + 2
    sign, word = told[at:at + 1], told[at + 1:end - 2]
    if sign == b"$" and word != b"-1":
        return end + int(word) + 2
    if sign == b"*":
        for _ in range(int(word)):
            end = answer_end(told, end)
    return end


def agree(told, wanted):
    """Whether what was told is what was to be."""
    try:
        parts = parts_of(told)
    except (ValueError, IndexError):
        return False
    return len(parts) == len(wanted) and all(
        part[:1] == b"$" and part != b"$-1\r\n" if want is ANY_BULK else part == want for part, want in zip(parts, wanted))
