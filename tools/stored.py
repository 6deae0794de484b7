"""Stored files. Of a long trace only the checksum is stored, and the program makes it when it is read.

A file NAME.sha256 stands for NAME: a line with its checksum, the status and the words of `mu` that print it, and the file
beside it that they are given, as `SUM status 0: trace < order-book.job`. The checksum is of what an independent program
printed (plain_mu of tools/anchors): what `mu` prints instead isn't taken. What was made is kept in out/made, by its
checksum.
"""
import hashlib
import os
import re

import trying
from programs import TOP

SUFFIX = ".sha256"
MADE = os.path.join(TOP, "out", "made")
RULE = re.compile(r"([0-9a-f]{64}) status (\d): (.*) < (.*)\n")


class NotMade(Exception):
    """What is wrong if a file isn't made as it was."""


def has_sum(content, checksum):
    return hashlib.sha256(content).hexdigest() == checksum


def read(path):
    with open(path, "rb") as source:
        return source.read()


def rule_of(path):
    """How a file is made that isn't stored itself: a case with its checksum, and its input."""
    checksum, status, words, given = RULE.fullmatch(read(path + SUFFIX).decode()).groups()
    given = read(os.path.join(os.path.dirname(path), given))
    return trying.SummedCase(os.path.relpath(path, TOP), words.split(), given, checksum, int(status))


def is_made(path):
    """Whether of a file the checksum alone is stored."""
    return os.path.exists(path + SUFFIX)


def made(path, answer=lambda case: trying.answers_of("mu", [case])[0]):
    """What the program prints, if it has the checksum that is stored."""
    case = rule_of(path)
    told = answer(case)
    wrong = case.trouble(told)
    if wrong:
        raise NotMade(f"{case.name}: mu {' '.join(case.words)} {wrong}")
    return told.output


def keep(content, checksum):
    """Keeps what was made, if something can be written here."""
    try:
        os.makedirs(MADE, exist_ok=True)
        place = os.path.join(MADE, checksum)
        with open(f"{place}.{os.getpid()}", "wb") as out:
            out.write(content)
        os.replace(f"{place}.{os.getpid()}", place)
    except OSError:
        pass


def contents(path):
    """What a file holds, stored or made."""
    if not is_made(path):
        return read(path)
    checksum = rule_of(path).summed
    kept = os.path.join(MADE, checksum)
    if os.path.exists(kept) and has_sum(read(kept), checksum):
        return read(kept)
    content = made(path)
    keep(content, checksum)
    return content


def stands(path):
    """Whether there is a file, stored or made."""
    return os.path.exists(path) or is_made(path)


def names(folder):
    """The names of a folder's files, of those that are made too."""
    return sorted({name.removesuffix(SUFFIX) for name in os.listdir(folder)})
