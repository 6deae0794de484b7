"""The library out/libmu.so from Python, by ctypes. c/mu.h says what each call does, and what is owed."""
import ctypes
import os

DONE, USAGE, REFUSED, UNFINISHED, NO_MEMORY, ILLEGAL, TOO_LONG = 0, 1, 2, 3, 6, 7, 8
FULL, STOPPED, MIXED, ENDED, STRAY = 9, 10, 11, 12, 13
BEYOND, NO_SUCH_CLIENT, NO_SUCH_REPLICA, NO_SUCH_ROW, OLD_ROW, EMPTY = 15, 16, 17, 18, 19, 20
# What each status that isn't DONE says, beside its name.
MEANT = {USAGE: ("USAGE", "no such task or number, or it was let go"),
         REFUSED: ("REFUSED", "the line is no command"), UNFINISHED: ("UNFINISHED", "there is no reply yet"),
         NO_MEMORY: ("NO_MEMORY", "there was no memory"), ILLEGAL: ("ILLEGAL", "the list isn't legal"),
         TOO_LONG: ("TOO_LONG", "the input is too long"), FULL: ("FULL", "the era takes no more commands now"),
         STOPPED: ("STOPPED", "the replica is stopped"), MIXED: ("MIXED", "no text of a job has the commands in this order"),
         ENDED: ("ENDED", "the replica is halted"), STRAY: ("STRAY", "no legal list leaves this word there"),
         BEYOND: ("BEYOND", "a number is out of its limits"), NO_SUCH_CLIENT: ("NO_SUCH_CLIENT", "there is no such client"),
         NO_SUCH_REPLICA: ("NO_SUCH_REPLICA", "there is no such replica"), NO_SUCH_ROW: ("NO_SUCH_ROW", "there is no such row yet"),
         OLD_ROW: ("OLD_ROW", "its reply isn't kept any more"), EMPTY: ("EMPTY", "there is no engine: it was let go")}
REPLIES = {1: "done", 2: "value", 3: "none", 4: "kept"}
TASKS = {"replay": 1, "trace": 2, "check": 3, "why": 4, "book": 5, "bulk": 6, "tell": 7, "attest": 8}
# A job up to its first command, which stands in line 6.
JOB_BEFORE, REFUSED_THERE, EXPECTED = b"mu 1\nreplicas 1\nring 8\nbudget 1\nclient 0\n", b"refused line 6 ", b"expected: "
LAST_STEP, LAST_NUMBER, LAST_ROW, NOBODY = 9_999_999, 4_294_967_295, 18_446_744_073_709_551_615, 255
# Room for what is long: a text that has too little is made twice.
MANY_BYTES = 1 << 20
TOP = os.path.dirname(os.path.dirname(os.path.dirname(os.path.abspath(__file__))))
SIZE, TEXT, NUMBER, WIDE = ctypes.c_size_t, ctypes.c_char_p, ctypes.c_uint32, ctypes.c_uint64

PATH = os.environ.get("LIBMU", os.path.join(TOP, "out", "libmu.so"))
try:
    library = ctypes.CDLL(PATH)
except OSError as cause:
    raise ImportError(f"there is no library at {PATH} that can be loaded: ./library builds it") from cause


class Held(ctypes.Structure):
    """What the library keeps of a judge, of an engine or of a replica."""
    _fields_ = [("at", ctypes.c_void_p)]


class State(ctypes.Structure):
    """Where an engine stands."""
    _fields_ = [("commands", WIDE), ("first_row", WIDE), ("eras", WIDE), ("replicas", NUMBER), ("leader", NUMBER), ("free", NUMBER),
                ("room", NUMBER)]


class Hold(ctypes.Structure):
    """What holds a replica."""
    _fields_ = [("stopped", NUMBER), ("rounds", NUMBER)]


class Operation(ctypes.Structure):
    """An access to one word: that at `place` among the words of `host`; c/mu.h says what each kind does to it."""
    _fields_ = [("value", WIDE), ("expected", WIDE), ("kind", NUMBER), ("host", NUMBER), ("place", NUMBER), ("reserved", NUMBER)]


ROOM = [ctypes.POINTER(ctypes.c_char), SIZE, ctypes.POINTER(SIZE)]
OPERATION = ctypes.POINTER(Operation)
HELD, OUT_NUMBER, OUT_WIDE = ctypes.POINTER(Held), ctypes.POINTER(NUMBER), ctypes.POINTER(WIDE)
for name, given in {
        "mu_answer": [NUMBER, TEXT, SIZE, *ROOM],
        "mu_show_answer": [NUMBER, TEXT, SIZE, *ROOM],
        "mu_draw_answer": [NUMBER, NUMBER, TEXT, SIZE, *ROOM],
        "mu_judge_new": [HELD, TEXT, SIZE, *ROOM],
        "mu_judge_take": [HELD, TEXT, SIZE],
        "mu_judge_why": [HELD, *ROOM],
        "mu_judge_free": [HELD],
        "mu_engine_new": [HELD, NUMBER, NUMBER, NUMBER, NUMBER],
        "mu_engine_submit": [HELD, NUMBER, TEXT, SIZE, OUT_WIDE],
        "mu_engine_round": [HELD],
        "mu_engine_stop": [HELD, NUMBER],
        "mu_engine_pause": [HELD, NUMBER, NUMBER],
        "mu_engine_back": [HELD, NUMBER],
        "mu_engine_state": [HELD, ctypes.POINTER(State)],
        "mu_engine_hold": [HELD, NUMBER, ctypes.POINTER(Hold)],
        "mu_engine_reply": [HELD, WIDE, OUT_NUMBER, *ROOM],
        "mu_engine_until": [HELD, WIDE, NUMBER, OUT_NUMBER, *ROOM],
        "mu_engine_trace": [HELD, *ROOM],
        "mu_engine_free": [HELD],
        "mu_replica_new": [HELD, TEXT, SIZE, NUMBER, NUMBER, NUMBER],
        "mu_replica_shape": [HELD, OUT_NUMBER, OUT_NUMBER],
        "mu_replica_next": [HELD, OPERATION],
        "mu_replica_take": [HELD, WIDE],
        "mu_replica_take_next": [HELD, WIDE, OPERATION],
        "mu_replica_append": [HELD, NUMBER, TEXT, SIZE, OUT_NUMBER],
        "mu_replica_end": [HELD, OUT_NUMBER, OUT_NUMBER, OUT_NUMBER],
        "mu_replica_reply": [HELD, NUMBER, OUT_NUMBER, *ROOM],
        "mu_replica_event": [HELD, *ROOM],
        "mu_replica_free": [HELD]}.items():
    getattr(library, name).argtypes, getattr(library, name).restype = given, NUMBER
library.mu_judge_free.restype = library.mu_engine_free.restype = library.mu_replica_free.restype = None


def number(value):
    """The number, if it has no more than 32 bits: ctypes would cut it off."""
    if not 0 <= value <= LAST_NUMBER:
        raise ValueError(f"{value} isn't a number from 0 to {LAST_NUMBER}")
    return value


def wide(value):
    """The same of a number of 64 bits, as a row is."""
    if not 0 <= value <= LAST_ROW:
        raise ValueError(f"{value} isn't a number from 0 to {LAST_ROW}")
    return value


def in_bytes(text):
    """The bytes of a text; a `str` has to be ASCII, as all that the library reads."""
    return text.encode("ascii") if isinstance(text, str) else bytes(text)


def told(call, *given, room=4096):
    """The status and the whole text of a call, with more room if the first wasn't enough."""
    taken = SIZE()
    while True:
        out = ctypes.create_string_buffer(room)
        status = call(*given, out, room, ctypes.byref(taken))
        if taken.value <= room:
            return status, out.raw[:taken.value]
        room = taken.value


def answer(task, given):
    """What `mu TASK` says of this text or these bytes, and its status."""
    given = in_bytes(given)
    return told(library.mu_answer, TASKS[task], given, len(given))


def show(given, events=LAST_STEP):
    """What `mu show EVENTS` says of a trace, and its status."""
    given = in_bytes(given)
    return told(library.mu_show_answer, number(events), given, len(given))


def draw(given, first=0, last=LAST_STEP):
    """What `mu_draw FIRST LAST` says of a trace, and its status."""
    given = in_bytes(given)
    return told(library.mu_draw_answer, number(first), number(last), given, len(given))


class Owner:
    """What holds a judge, an engine or a replica: it is let go at the end of a `with`, by `close`, or with the object."""

    let_go = None

    def __init__(self):
        self.held = Held()

    def close(self):
        """Lets go what is held; what is asked of it later is refused."""
        self.let_go(self.held)

    def __enter__(self):
        return self

    def __exit__(self, *raised):
        self.close()

    def __del__(self):
        # An object that was never made whole holds nothing.
        if hasattr(self, "held"):
            self.close()


class Judge(Owner):
    """A judge of a job that takes one line of events after the other."""

    let_go = staticmethod(library.mu_judge_free)

    def __init__(self, job):
        super().__init__()
        job = in_bytes(job)
        status, why = told(library.mu_judge_new, self.held, job, len(job))
        if status != DONE:
            raise ValueError(why.decode().rstrip())

    def take(self, line):
        """The status of the list with this line: DONE, ILLEGAL, or REFUSED if the line is no event."""
        line = in_bytes(line)
        return library.mu_judge_take(self.held, line, len(line))

    def why(self):
        """What `mu why` says of the list so far, and its status."""
        return told(library.mu_judge_why, self.held)


class Refused(Exception):
    """A call on an engine or a replica was refused; `status` and `name` say why, as c/mu.h has them."""

    def __init__(self, status, told=""):
        self.status = status
        self.name, meant = MEANT.get(status, (str(status), "a status that c/mu.h doesn't have"))
        super().__init__(f"MU_{self.name}: {meant}{told}")


def accepted(status):
    """Raises what was refused."""
    if status != DONE:
        raise Refused(status)


def expected_of(line):
    """What is expected in place of a line that is no command, as `mu why` says it of a job with that line; else nothing."""
    _, told = answer("why", JOB_BEFORE + line + b"\nend\n")
    if not told.startswith(REFUSED_THERE):
        return ""
    return f" ({told[told.index(EXPECTED):].decode().rstrip()})"


def accepted_line(status, line):
    """Raises what was refused of a command."""
    if status == REFUSED:
        raise Refused(status, expected_of(line))
    accepted(status)


class Engine(Owner):
    """A live engine without an end, whose rounds you play."""

    let_go = staticmethod(library.mu_engine_free)

    def __init__(self, replicas, places=128, steps=131_071, commands=100):
        super().__init__()
        accepted(library.mu_engine_new(self.held, *map(number, (replicas, places, steps, commands))))

    def submit(self, client, line):
        """Takes the next command of a client, and gives its row."""
        row, line = WIDE(), in_bytes(line)
        accepted_line(library.mu_engine_submit(self.held, number(client), line, len(line), ctypes.byref(row)), line)
        return row.value

    def round(self):
        """Plays one round."""
        accepted(library.mu_engine_round(self.held))

    def stop(self, replica):
        """Stops a replica until it is called back."""
        accepted(library.mu_engine_stop(self.held, number(replica)))

    def pause(self, replica, rounds):
        """Pauses a replica for so many rounds; 0 ends a pause."""
        accepted(library.mu_engine_pause(self.held, number(replica), number(rounds)))

    def back(self, replica):
        """Calls a replica back from a stop or a pause."""
        accepted(library.mu_engine_back(self.held, number(replica)))

    def reply(self, row):
        """The reply to the command of a row, as in a report, or None as long as there is none."""
        return self.reply_in_time(row, 0)

    def reply_in_time(self, row, rounds=10_000):
        """The reply to the command of a row once it is there, or None after so many rounds."""
        reply = NUMBER()
        status, text = told(library.mu_engine_until, self.held, wide(row), number(rounds), ctypes.byref(reply), room=64)
        if status == UNFINISHED:
            return None
        accepted(status)
        return b" ".join([REPLIES[reply.value].encode(), *([text] if text else [])])

    def state(self):
        """Where it stands: how many commands and eras it had, who leads, how many replicas are free."""
        state = State()
        accepted(library.mu_engine_state(self.held, ctypes.byref(state)))
        return state

    def hold(self, replica):
        """What holds a replica: whether it is stopped, and for how many rounds it is paused."""
        hold = Hold()
        accepted(library.mu_engine_hold(self.held, number(replica), ctypes.byref(hold)))
        return hold

    def trace(self):
        """The commands and the events so far of the era under way, as a trace."""
        status, text = told(library.mu_engine_trace, self.held, room=MANY_BYTES)
        accepted(status)
        return text


class Replica(Owner):
    """One replica that makes no access itself: it says which it wants, and takes the word that this found."""

    let_go = staticmethod(library.mu_replica_free)

    def __init__(self, job, own_id, eager=True, room=0):
        super().__init__()
        job = in_bytes(job)
        accepted(library.mu_replica_new(self.held, job, len(job), number(own_id), int(eager), number(room)))

    def shape(self):
        """How many hosts there are, and how many words each has."""
        hosts, words = NUMBER(), NUMBER()
        accepted(library.mu_replica_shape(self.held, ctypes.byref(hosts), ctypes.byref(words)))
        return hosts.value, words.value

    def next(self):
        """The access that it wants now, or None if it is halted."""
        operation = Operation()
        return operation if self.goes_on(library.mu_replica_next(self.held, ctypes.byref(operation))) else None

    def take(self, found):
        """Takes the word that the access found."""
        accepted(library.mu_replica_take(self.held, wide(found)))

    def take_next(self, found):
        """The same, and then the next access, or None if it is halted."""
        operation = Operation()
        status = library.mu_replica_take_next(self.held, wide(found), ctypes.byref(operation))
        return operation if self.goes_on(status) else None

    @staticmethod
    def goes_on(status):
        """Whether it isn't halted; raises what was refused."""
        if status != ENDED:
            accepted(status)
        return status != ENDED

    def append(self, client, line):
        """Appends the next command of a client, and gives its row."""
        row, line = NUMBER(), in_bytes(line)
        accepted_line(library.mu_replica_append(self.held, number(client), line, len(line), ctypes.byref(row)), line)
        return row.value

    def end(self):
        """How its events have ended (of `mu_end`), by which region and which position; None if they haven't."""
        how, region, position = NUMBER(), NUMBER(), NUMBER()
        status = library.mu_replica_end(self.held, ctypes.byref(how), ctypes.byref(region), ctypes.byref(position))
        if status == UNFINISHED:
            return None
        accepted(status)
        return how.value, region.value, position.value

    def reply(self, row):
        """The reply of its own store to the command of a row, or None as long as there is none."""
        reply = NUMBER()
        status, text = told(library.mu_replica_reply, self.held, number(row), ctypes.byref(reply), room=64)
        if status == UNFINISHED:
            return None
        accepted(status)
        return b" ".join([REPLIES[reply.value].encode(), *([text] if text else [])])

    def event(self):
        """Its newest event, as a line of a trace, or None if it has none."""
        status, text = told(library.mu_replica_event, self.held, room=192)
        if status == UNFINISHED:
            return None
        accepted(status)
        return text
