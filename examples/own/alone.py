"""Three replicas in turn over lists of words: prints their trace, which is then found to be legal.

    python3 examples/own/alone.py       # after ./library
"""
from mu_library import Replica, answer

JOB = "mu 1\nreplicas 3\nring 8\nbudget 100000\nclient 0\nput a 5\nget a\nend\n"
FIRST_FENCE = 14_336
# What each kind of access leaves in its word: load, store, raise, add, set bits, compare, swap.
LEAVES = [lambda found, o: found, lambda found, o: o.value, lambda found, o: max(found, o.value), lambda found, o: found + o.value,
          lambda found, o: found | o.value, lambda found, o: o.value if found == o.expected else found, lambda found, o: o.value]

group = [Replica(JOB, own_id, eager=False) for own_id in range(3)]
hosts, count = group[0].shape()
memory = [[FIRST_FENCE] + [0] * (count - 1) for _ in range(hosts)]
events = []
while not all(replica.end() for replica in group):
    for replica in group:
        if replica.end():
            continue
        operation = replica.next()
        words = memory[operation.host]
        found = words[operation.place]
        words[operation.place] = LEAVES[operation.kind](found, operation)
        replica.take(found)
        events.append(replica.event().decode())
trace = JOB + "".join(f"{event}\n" for event in events) + "end\n"
print(trace, end="")
print(answer("check", trace)[1].decode(), end="")
