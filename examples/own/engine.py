#!/usr/bin/env python3
"""A live engine of three replicas by ctypes: its leader is stopped, and the others answer on."""
from mu_library import Engine, answer

COMMANDS = [b"put a 5", b"get a", b"swap a 6", b"get a", b"cas a 6 7", b"del a", b"get a"]


def main():
    with Engine(replicas=3) as engine:
        for number, line in enumerate(COMMANDS):
            if number == 3:
                engine.stop(0)
                print("replica 0 is stopped")
            row = engine.submit(0, line)
            reply = engine.reply_in_time(row)
            print(row, line.decode(), "->", (reply or b"no reply").decode())
        status, verdict = answer("check", engine.trace())
    print(verdict.decode().split()[0])
    return status


if __name__ == "__main__":
    raise SystemExit(main())
