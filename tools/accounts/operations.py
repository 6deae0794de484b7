"""The operations of the store, by an account of its own that shares nothing with the program. What makes commands here,
and what judges replies, goes by this table."""
from collections import namedtuple

# The number of an operation in a row; how many texts it has, and how many bytes each may have; and its reply and the text
# that the key has then, by the one that it had (or None) and the texts.
Operation = namedtuple("Operation", "number texts most does")


def found(had):
    return "none" if had is None else f"value {had}"


def compared(had, old, new):
    if had is None:
        return "none", None
    return ("done", new) if had == old else (f"kept {had}", had)


OPERATIONS = {
    "put": Operation(1, 1, 64, lambda had, text: ("done", text)),
    "get": Operation(2, 0, 64, lambda had: (found(had), had)),
    "del": Operation(3, 0, 64, lambda had: ("none" if had is None else "done", None)),
    "swap": Operation(4, 1, 64, lambda had, text: (found(had), text)),
    "cas": Operation(5, 2, 32, compared),
}


def done(had, name, texts):
    """The reply to an operation on a key that had this text, or None, and the text that it has then."""
    return OPERATIONS[name].does(had, *texts)


def reply_to(store, command):
    """What a store, a dictionary, replies to a command, and does."""
    name, key, *texts = command.split(" ")
    reply, after = done(store.get(key), name, texts)
    store[key] = after
    if after is None:
        del store[key]
    return reply


def drawn(chance, key, text_of):
    """A random command on a key. `text_of` gives its texts; it is told whether the text is the last: what the key gets."""
    return " ".join(chance.choice([(name, key, *(text_of(k + 1 == it.texts) for k in range(it.texts)))
                                   for name, it in OPERATIONS.items()]))
