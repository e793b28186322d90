"""What is being done, on standard error at a terminal, for whatever takes more than two seconds."""

import contextlib
import contextvars
import sys
import threading
import time

# After so many seconds it is told, and then again each second.
PATIENCE, AGAIN = 2.0, 1.0
CLEAR = "\r\033[K"


class Ticker:
    """What is being done, and how much of it is, from 0 to 1."""

    def __init__(self, word, stream):
        self.word, self.stream, self.what, self.share = word, stream, "", None
        self.began, self.ended = time.monotonic(), threading.Event()

    def told(self):
        share = "" if self.share is None else ", %d %%" % (100 * self.share)
        return "%s: %s%s, %d s" % (self.word, self.what or "reading", share, time.monotonic() - self.began)

    def run(self):
        patience = PATIENCE
        while not self.ended.wait(patience):
            self.stream.write(CLEAR + self.told())
            self.stream.flush()
            patience = AGAIN
        if patience == AGAIN:
            self.stream.write(CLEAR)
            self.stream.flush()


TICKER = contextvars.ContextVar("ticker", default=None)


@contextlib.contextmanager
def shown(word):
    """While it lasts, a terminal is told what is being done."""
    stream = sys.__stderr__
    if stream is None or not stream.isatty():
        yield
        return
    ticker = Ticker(word, stream)
    thread = threading.Thread(target=ticker.run, daemon=True)
    token = TICKER.set(ticker)
    thread.start()
    try:
        yield
    finally:
        TICKER.reset(token)
        ticker.ended.set()
        thread.join()


def doing(what, share=None):
    """What is being done from now on, and how much of it is."""
    ticker = TICKER.get()
    if ticker is not None:
        ticker.what, ticker.share = what, share
