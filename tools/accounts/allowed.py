"""Which point of docs/WHY.md a step breaks, by an account of its own.

A verb's points come in the order of that page, as a name and whether it is met.
"""
from account import MARKS, MIN, NO_TARGET, PAYLOADS, WORDS

# The verbs whose first word is a region or a replica.
OF_REGION = {"ask", "fence", "min", "enter", "putmin", "look", "putslot", "fuo", "raisefuo", "head", "readbeat",
             "readask", "grant"}


def broken(replica, region, verb, words, left_out):
    """The first point that the step doesn't meet, by its name; None if it meets all but those left out."""
    if replica.steps >= replica.job.budget:
        return "Budget"
    if verb in OF_REGION and words[0] >= replica.job.replicas:
        return "NoRegion"
    for name, met in POINTS.get(verb, no_points)(replica, region, words):
        if not met and name not in left_out:
            return name
    return None


def no_points(replica, region, words):
    return iter(())


def of_ask(replica, region, words):
    yield "OutOfTurn", words[0] == 0 or replica.begun and replica.asked == words[0] - 1


def of_fence(replica, region, words):
    yield "NotBegun", replica.begun


def of_min(replica, region, words):
    yield "NotGranted", replica.noted.get(words[0]) is not None
    yield "Over", not replica.now.over


def of_enter(replica, region, words):
    p, target = words[0], words[1:]
    now = replica.now
    if target == ("min",):
        yield "NotGranted", replica.noted.get(p) is not None
        yield "Over", not now.over
        yield "MinimumUnread", replica.has_minimum(p)
        yield "Unconfirmed", now.number is not None or replica.confirmed()
    else:
        yield "NotMember", p in now.members
        yield "Over", not now.over
        yield "NoPlace", target[1] < replica.job.ring


def of_putmin(replica, region, words):
    p, number = words
    yield "Over", not replica.now.over
    yield "NotEnteredForMinimum", replica.now.opened.get(p) == MIN
    yield "BelowMinimum", replica.minima.get(p, 0) <= number
    yield "NotTheNumber", number == right_number(replica)


def right_number(replica):
    """That of the leadership, or the least own one from 8 on above all that was read and put."""
    if replica.now.number is not None:
        return replica.now.number
    least = max(replica.now.most_read, replica.largest, 7) + 1
    return least + (replica.me - least) % 8


def of_look(replica, region, words):
    yield "NoPosition", words[1] <= replica.job.last
    yield "NotReadable", words[0] == replica.me or replica.noted.get(words[0]) is not None


def of_putslot(replica, region, words):
    p, i, number, value = words
    job, now = replica.job, replica.now
    place = ("place", i % job.ring)
    yield "NoPosition", i <= job.last
    yield "OutOfReach", job.version == 1 or p in now.reach and i < now.reach[p] + job.ring
    yield "Over", not now.over
    yield "NoQuorum", replica.has_quorum()
    yield "NotMember", p in now.members
    yield "OtherNumber", number == now.number
    yield "NotEntered", replica.opened.get(p, NO_TARGET) == place
    entered = "NotEntered" not in replica.left_out
    yield "NotLooked", i in (now.looked if entered else now.good).get(p, ())
    for j in range(i):
        yield "Behind", j < now.fuos.get(p, 0) or any(
            j < len(replica.known) and landed == replica.known[j] for _, landed in now.landed.get((p, j), ()))
    if replica.known[i:i + 1] != [value]:
        yield from of_new_value(replica, i, value)


def of_new_value(replica, i, value):
    """What a value needs that isn't known at its position."""
    job, now, seen = replica.job, replica.now, replica.seen_entry(i)
    yield "NotNext", i == len(replica.known)
    spare = job.reserve if job.is_batch(value) and seen is None else 0
    for free in (0, spare):
        for q in range(job.replicas):
            yield "NoRoom", replica.marked(q) or i + free < replica.heads.get(q, 0) + job.ring
    yield "PastSeen", not any((p, i) in now.past for p in now.members)
    if i in now.first:
        yield "OtherFirst", value == now.first[i]
        yield "JoinedSince", i not in now.late
        return
    for p in now.members:
        yield "MemberNotLooked", (p, i) in replica.last_looks()
    if seen is not None:
        yield "OtherAccepted", value == seen[1]
    elif not may_mark(replica, value):
        yield from of_offer(replica, value)


def of_offer(replica, value):
    """What a batch of its own needs."""
    job, row = replica.job, value % PAYLOADS
    yield "NoBatch", job.is_batch(value)
    if not job.is_batch(value):
        return
    yield "NotOwn", value // PAYLOADS == replica.me
    yield "NotWritten", all((it, k) in replica.wrote for it in job.rows_of(value) for k in range(WORDS))
    client, number = job.of_row[row]
    known = [job.of_row[it][0] for entry in replica.known for it in job.rows_of(entry)]
    yield "NotNextOfClient", number == known.count(client) + 1


def may_mark(replica, value):
    """A mark of another replica, if its head left no room and it was failed when that was read."""
    job, q = replica.job, value % PAYLOADS - MARKS
    if job.version == 1 or value // PAYLOADS != replica.me or not 0 <= q < job.replicas or q == replica.me:
        return False
    limit = len(replica.known) + job.reserve
    return not replica.marked(q) and any(
        of == q and head + job.ring <= limit and failed for of, head, failed in replica.now.heads)


def of_raisefuo(replica, region, words):
    p, fuo = words
    yield "NotKnown", fuo <= len(replica.known)
    for j in range(fuo):
        yield "NotFilled", (p, j) in replica.filled


def of_raisehead(replica, region, words):
    yield "NotApplied", words[0] <= replica.applied()
    yield "NotReached", replica.own_fuo is not None and words[0] <= replica.own_fuo


def of_readbeat(replica, region, words):
    yield "OwnBeat", words[0] != replica.me


def of_writerow(replica, region, words):
    row, word, given = words
    yield "NoRow", row < len(replica.job.rows)
    yield "NoWord", word < WORDS
    yield "OtherWord", given == replica.job.rows[row][word]
    yield "Written", (row, word) not in replica.wrote


def of_readrow(replica, region, words):
    value, word = words
    yield "NoWriter", value // PAYLOADS < replica.job.replicas
    yield "NoRow", value % PAYLOADS < len(replica.job.rows)
    yield "NoWord", word < WORDS


def of_close(replica, region, words):
    yield "Closing", not region.closing
    yield "NobodyWaits", any(replica.waits(region, w) for w in range(replica.job.replicas))


def must_drain(replica, region):
    return region.closing and replica.closed != NO_TARGET


def of_looktarget(replica, region, words):
    yield "NothingToDrain", must_drain(replica, region)
    yield "TargetLooked", not replica.target_looked


def of_drain(replica, region, words):
    yield "NothingToDrain", must_drain(replica, region)
    yield "TargetNotLooked", replica.target_looked
    yield "Drained", not replica.drained


def of_grant(replica, region, words):
    waiting = [w for w in range(replica.job.replicas) if replica.waits(region, w)]
    yield "NotClosing", region.closing
    yield "NotDrained", replica.drained or not must_drain(replica, region)
    yield "NotLeastWaiting", waiting[:1] == [words[0]]


POINTS = {"ask": of_ask, "fence": of_fence, "min": of_min, "enter": of_enter, "putmin": of_putmin, "look": of_look,
          "putslot": of_putslot, "raisefuo": of_raisefuo, "raisehead": of_raisehead, "readbeat": of_readbeat,
          "writerow": of_writerow, "readrow": of_readrow, "close": of_close, "looktarget": of_looktarget,
          "drain": of_drain, "grant": of_grant}
