#!/usr/bin/env python3
"""Plays an engine without an end by random commands of several clients, with stops, pauses and returns, and judges
every reply: whether some order of the commands, each between its sending and its reply, and each client's in order,
gives them.

    tools/library/play_eras.py COMMANDS [SEED] [any]     fewer than half are held at a time, or any with the word

The engine is that of the library, out/libmu.so or $LIBMU, in this process through ctypes.
"""
import os
import random
import sys

import folders
from beginning import begin
from operations import done, drawn
from programs import TOP

sys.path.insert(0, os.path.join(TOP, "examples", "own"))

CLIENTS, KEYS = 6, 12
# After how many rounds it is looked which commands have their replies.
LOOKED = 5
# How many commands one session has, and the steps and the commands of an era.
MOST_COMMANDS, STEPS, ERAS = 8_000, (20_000, 60_000), (20, 60, 150)


def session_drawn(rng, count, replicas, any_fault):
    """The lines of a play: a list of lines as the program takes them."""
    lines, fresh = [], 0
    stopped, sent = set(), 0
    most = (replicas - 1) // 2
    paused = {}
    clock = 0
    while sent < count:
        what = rng.random()
        if what < 0.004:
            free = [r for r in range(replicas) if r not in stopped]
            if len(stopped) < most and free:
                one = rng.choice(free)
                stopped.add(one)
                lines.append(f"stop {one}")
        elif what < 0.010 and stopped:
            one = rng.choice(sorted(stopped))
            stopped.discard(one)
            lines.append(f"back {one}")
        elif what < 0.016:
            one = rng.randrange(replicas)
            rounds = rng.choice((3, 40, 400, 4000, 30000))
            away = {r for r, until in paused.items() if until > clock} | stopped
            if one not in stopped and (any_fault or len(away | {one}) <= most):
                paused[one] = clock + rounds
                lines.append(f"pause {one} {rounds}")
        elif what < 0.5:
            rounds = rng.choice((1, 5, 20, 60, 120, 300))
            clock += rounds
            lines.append(f"rounds {rounds}")
        else:
            key, client = f"k{rng.randrange(KEYS)}", rng.randrange(CLIENTS)
            fresh += 1
            old = f"v{rng.randrange(max(1, fresh - 30), fresh + 1)}"
            op = drawn(rng, key, lambda is_last, new=f"v{fresh}", old=old: new if is_last else old)
            lines.append(f"send {client} {op}")
            sent += 1
    for one in sorted(stopped):
        lines.append(f"back {one}")
    lines.append("rounds 60000")
    return lines


def step(state, op, reply):
    """The state after an operation, or False if its reply isn't the state's."""
    said, after = done(state, op[0], op[2:])
    return after if reply == said else False


def judge(events, ops, replies):
    """The events of one key, ("sent" or "told", number), judged: the first told command with no order, or None."""
    opened, worlds = [], {(None, frozenset())}
    for what, number in events:
        if what == "sent":
            opened.append(number)
            continue
        seen, todo, good = set(worlds), list(worlds), set()
        while todo:
            state, done = todo.pop()
            if number in done:
                good.add((state, done - {number}))
                continue
            for one in opened:
                if one in done or one not in replies:
                    continue
                client = ops[one][0]
                if any(o < one and o not in done and ops[o][0] == client for o in opened):
                    continue
                after = step(state, ops[one][1], replies[one])
                if after is not False:
                    world = (after, done | {one})
                    if world not in seen:
                        seen.add(world)
                        todo.append(world)
        if not good:
            return number
        opened.remove(number)
        worlds = good
    return None


class Play:
    """An engine that is played by lines, and what it tells: the events of each key, the commands by number, their replies,
    and how many were refused."""

    def __init__(self, mu_library, shape):
        self.mu, self.engine = mu_library, mu_library.Engine(*shape)
        self.keys, self.ops, self.replies, self.full, self.wrong, self.waiting = {}, {}, {}, 0, 0, []

    def send(self, client, *op):
        """A command more, if the era has room."""
        try:
            number = self.engine.submit(int(client), " ".join(op))
        except self.mu.Refused as refused:
            if refused.status != self.mu.FULL:
                raise
            self.full += 1
            return
        self.wrong += number != len(self.ops)
        self.ops[number] = (client, op)
        self.keys.setdefault(op[1], []).append(("sent", number))
        self.waiting.append(number)

    def rounds(self, count):
        """Rounds, and the replies that come in these."""
        for played in range(int(count)):
            self.engine.round()
            if self.waiting and played % LOOKED == 0:
                self.look()
        self.look()

    def look(self):
        """The commands that have their replies now."""
        for number in self.waiting:
            reply = self.engine.reply(number)
            if reply is not None:
                self.replies[number] = reply.decode()
                self.keys[self.ops[number][1][1]].append(("told", number))
        self.waiting = [it for it in self.waiting if it not in self.replies]

    def line(self, line):
        """What a line says."""
        word, *rest = line.split()
        if word in ("send", "rounds"):
            getattr(self, word)(*rest)
        else:
            getattr(self.engine, word)(*map(int, rest))


def session(mu_library, rng, commands, any_fault):
    """One session: how many commands were taken, how many have no reply or were refused as full, and what is wrong."""
    replicas, room = rng.choice((3, 3, 5)), rng.choice(ERAS)
    shape = (replicas, room + 2 * replicas + rng.choice((0, 60)), rng.choice(STEPS), room)
    play = Play(mu_library, shape)
    with play.engine:
        for line in session_drawn(rng, commands, replicas, any_fault):
            play.line(line)
    bad = [key for key, events in play.keys.items() if judge(events, play.ops, play.replies) is not None]
    return len(play.ops), len(play.waiting), play.full, play.wrong + len(bad)


def main():
    begin(__doc__)
    import mu_library
    commands = int(sys.argv[1])
    rng = random.Random(int(sys.argv[2]) if len(sys.argv) > 2 else 1)
    taken = waiting = full = wrong = 0
    while taken + full < commands:
        told = session(mu_library, rng, min(MOST_COMMANDS, commands - taken - full), "any" in sys.argv[3:])
        taken, waiting, full, wrong = (sum(it) for it in zip((taken, waiting, full, wrong), told))
    print(f"{taken} commands taken, {waiting} without a reply, {full} refused as full; keys without an order, and rows, that are wrong: {wrong}")
    return 1 if wrong or waiting else 0


if __name__ == "__main__":
    sys.exit(main())
