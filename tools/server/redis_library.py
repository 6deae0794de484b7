"""Talks to a server by Debian's python3-redis: redis_library.py PORT. Prints `N right`, or what is wrong."""
import sys

import redis

VALUES = [b"", b" ", b"with some spaces", b"\x00\r\n\xff", "grüße".encode(), b"100%", b"%", b"%2", b"%41", bytes(range(20)), b"x" * 64]
REFUSED = [("SET", "k", "x" * 65), ("SET", "k" * 25, "x"), ("GET",), ("MGET", "a", "b"), ("SET", "a", "b", "NX"), ("NOSUCH",),
           ("SELECT", "1"), ("MU", "STOP", "9"), ("DEL", "a", "b")]


def pairs(r):
    """What was found, and what is wanted."""
    yield r.ping(), True
    yield r.echo("hi there"), b"hi there"
    yield r.set("a", "5"), True
    yield r.get("a"), b"5"
    yield r.getset("a", "6"), b"5"
    yield r.get("nothing"), None
    yield r.delete("a"), 1
    yield r.delete("a"), 0
    yield r.exists("a"), 0
    for value in VALUES:
        yield r.set(value[:8], value), True
        yield r.get(value[:8]), value
        yield r.strlen(value[:8]), len(value)
    for words in REFUSED:
        try:
            yield r.execute_command(*words), "a refusal"
        except redis.ResponseError:
            yield True, True
    yield r.execute_command("MU", "CAS", "c", "1", "2"), None
    yield r.set("c", "1"), True
    yield r.execute_command("MU", "CAS", "c", "1", "2"), b"OK"
    yield r.execute_command("MU", "CAS", "c", "1", "3"), b"2"
    pipe = r.pipeline(transaction=False)
    for k in range(200):
        pipe.set(f"p{k % 10}", k)
        pipe.get(f"p{k % 10}")
    yield pipe.execute(), [it for k in range(200) for it in (True, str(k).encode())]
    yield r.info()["server"], "mu"


def main():
    found = list(pairs(redis.Redis(port=int(sys.argv[1]))))
    wrong = [f"{it!r}, not {wanted!r}" for it, wanted in found if it != wanted]
    print("\n".join(wrong) if wrong else f"{len(found)} right")
    return 1 if wrong else 0


if __name__ == "__main__":
    sys.exit(main())
