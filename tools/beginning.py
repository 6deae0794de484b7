"""What a tool does first: it says what it is if it is asked, and ends with a sentence where no traceback helps."""
import atexit
import os
import sys

HELP = {"-h", "--help", "help"}
PIPE_CLOSED, INTERRUPTED, NO_FILE = 141, 130, 70


def quieten():
    """From now on nothing is printed: who read it has gone."""
    os.dup2(os.open(os.devnull, os.O_WRONLY), sys.stdout.fileno())


def flush():
    try:
        sys.stdout.flush()
    except BrokenPipeError:
        quieten()


def tell(kind, cause, trace):
    """A closed pipe and an interrupt end a tool in silence, a file that can't be used with a sentence."""
    name = os.path.basename(sys.argv[0])
    if issubclass(kind, BrokenPipeError):
        quieten()
        os._exit(PIPE_CLOSED)
    if issubclass(kind, KeyboardInterrupt):
        os._exit(INTERRUPTED)
    if issubclass(kind, OSError) and cause.filename is not None:
        print(f"{name}: {cause.strerror}: {cause.filename}", file=sys.stderr)
        os._exit(NO_FILE)
    sys.__excepthook__(kind, cause, trace)


def begin(doc):
    """For the first line of a tool: answers --help with the tool's own words."""
    sys.excepthook = tell
    atexit.register(flush)
    if HELP & set(sys.argv[1:]):
        print(doc.strip())
        sys.exit(0)
