"""Reads jobs by the grammar of docs/FORMATS.md, apart from the product: whether bytes are a job, and else the first
line that leaves the grammar and the cause."""
import re

from operations import OPERATIONS

NUMBER = re.compile(rb"0|[1-9][0-9]{0,6}")
# Of each operation how many words its line has, and how many bytes each of its texts.
WORD_COUNTS, MOST_BYTES = ({name.encode(): of(it) for name, it in OPERATIONS.items()}
                           for of in (lambda it: 2 + it.texts, lambda it: it.most))
MOST_CLIENTS, MOST_COMMANDS, MOST_SCRIPT_LINES, MOST_STEPS, MOST_ROUNDS = 16, 1_500, 100, 131_071, 10_000


class Refused(Exception):
    """The line, counted from 1, and the cause."""


def number(word):
    return int(word) if NUMBER.fullmatch(word) else None


def is_text(word, most):
    return 1 <= len(word) <= most and all(33 <= byte <= 126 for byte in word)


class Reader:
    def __init__(self, data):
        self.lines = data.split(b"\n")
        if not self.lines[-1]:
            self.lines.pop()
        self.read = 0

    def refuse(self, cause):
        raise Refused(self.read, cause)

    def next(self):
        """The words of the next line."""
        self.read += 1
        if self.read > len(self.lines):
            self.refuse(11)
        return self.lines[self.read - 1].split(b" ")

    def setting(self, name, least, most, cause):
        words = self.next()
        value = number(words[1]) if len(words) == 2 and words[0] == name else None
        if value is None or not least <= value <= most:
            self.refuse(cause)
        return value

    def settings(self):
        version = self.setting(b"mu", 1, 2, 1)
        replicas = self.setting(b"replicas", 1, 7, 2)
        self.setting(b"ring", 8, 1_024, 3)
        self.setting(b"budget", 1, MOST_STEPS, 4)
        if version == 2:
            self.setting(b"batch", 1, 4, 15)
        return replicas

    def client(self, words, clients):
        if len(words) != 2 or number(words[1]) != clients:
            self.refuse(5)
        if clients >= MOST_CLIENTS:
            self.refuse(9)

    def command(self, words, clients, commands):
        if clients == 0:
            self.refuse(5)
        if len(words) != WORD_COUNTS[words[0]]:
            self.refuse(6)
        if not is_text(words[1], 24):
            self.refuse(7)
        if not all(is_text(word, MOST_BYTES[words[0]]) for word in words[2:]):
            self.refuse(8)
        if commands >= MOST_COMMANDS:
            self.refuse(9)

    def commands(self, replicas):
        clients = commands = 0
        while True:
            words = self.next()
            if words[0] == b"client":
                self.client(words, clients)
                clients += 1
            elif words[0] in WORD_COUNTS:
                self.command(words, clients, commands)
                commands += 1
            elif words == [b"script"]:
                return self.script(replicas)
            elif words == [b"end"]:
                return None
            else:
                self.refuse(6)

    def script(self, replicas):
        stopped, paused, count = set(), {}, 0
        while True:
            words = self.next()
            if words == [b"end"]:
                return None
            numbers = [number(word) for word in words[1:]]
            if not self.is_script_line(words[0], numbers, replicas, stopped, paused):
                self.refuse(10)
            count += 1
            if count > MOST_SCRIPT_LINES:
                self.refuse(9)
            if words[0] == b"stop":
                stopped.add(numbers[0])
            else:
                paused[numbers[0]] = numbers[1]

    def is_script_line(self, name, numbers, replicas, stopped, paused):
        if None in numbers or not numbers or numbers[0] >= replicas:
            return False
        if name == b"stop" and len(numbers) == 2:
            return numbers[1] <= MOST_STEPS and numbers[0] not in stopped
        if name == b"pause" and len(numbers) == 3:
            return paused.get(numbers[0], -1) < numbers[1] <= MOST_STEPS and 1 <= numbers[2] <= MOST_ROUNDS
        return False


def refusal(data):
    """The line and the cause if the bytes are no job, else None."""
    reader = Reader(data)
    try:
        reader.commands(reader.settings())
        if reader.read < len(reader.lines):
            reader.read += 1
            reader.refuse(12)
    except Refused as told:
        return told.args
    return None
