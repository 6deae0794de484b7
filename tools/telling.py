"""Lines on standard error while something takes long: nothing here is silent for longer than ten seconds."""
import contextlib
import sys
import threading
import time

EVERY_SECONDS = 10


def say(text):
    """A line on standard error, if that is open."""
    with contextlib.suppress(OSError, ValueError):
        print(text, file=sys.stderr, flush=True)


@contextlib.contextmanager
def telling(line_of, every=EVERY_SECONDS):
    """While what stands inside goes on, says each ten seconds what `line_of` makes of the seconds so far."""
    began, ended = time.monotonic(), threading.Event()

    def tell():
        while not ended.wait(every):
            say(line_of(round(time.monotonic() - began)))

    teller = threading.Thread(target=tell, daemon=True)
    teller.start()
    try:
        yield
    finally:
        ended.set()
        teller.join()
