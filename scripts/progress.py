"""Lines that say how far something is: rewritten in place on a terminal, plain lines elsewhere. And what an interruption ends."""

import os
import shutil
import signal
import sys
import threading
import time

import kit

# So many seconds pass at most between two lines, on a terminal and elsewhere.
EACH = (1, 10)
# Set once this process is told to end.
ENDING = threading.Event()


class Progress:
    """Writes `text()` to standard error, again and again until it is closed."""

    def __init__(self, text):
        self.text, self.is_terminal, self.shown = text, sys.stderr.isatty(), False
        self.ended, self.lock = threading.Event(), threading.Lock()
        self.each = EACH[0] if self.is_terminal else EACH[1]
        threading.Thread(target=self.work, daemon=True).start()

    def work(self):
        while not self.ended.wait(self.each):
            self.show()

    def show(self):
        with self.lock:
            if self.ended.is_set() or ENDING.is_set():
                return
            if self.is_terminal:
                width = os.get_terminal_size(sys.stderr.fileno()).columns or 80
                sys.stderr.write(f"\r\033[K{self.text()[: width - 1]}")
            else:
                sys.stderr.write(f"{self.text()}\n")
            sys.stderr.flush()
            self.shown = True

    def say(self, line):
        """Writes a line that stays."""
        with self.lock:
            self.clear()
            print(line, file=sys.stderr, flush=True)

    def clear(self):
        if self.is_terminal and self.shown:
            sys.stderr.write("\r\033[K")
            self.shown = False

    def close(self):
        with self.lock:
            self.ended.set()
            self.clear()
            sys.stderr.flush()


def clock(seconds):
    return f"{int(seconds) // 60}:{int(seconds) % 60:02}"


def left(seconds):
    """Returns in words how long something is likely to take yet."""
    return f"some {round(seconds / 60)} min left" if seconds >= 90 else "some 1 min left" if seconds >= 45 else "under a minute left"


def end_at_signals(rtlib, who, then, rooms):
    """Has this process end at once at Ctrl+C and the like, with one line, after all that it started. Removes these folders."""

    def end(number, _):
        for it in (signal.SIGINT, signal.SIGTERM, signal.SIGHUP):
            signal.signal(it, signal.SIG_IGN)
        ENDING.set()
        start = "\r\033[K" if sys.stderr.isatty() else ""
        # A thread may be in the middle of a line, so this goes past Python's own buffers.
        os.write(2, f"{start}{who}: interrupted; {then}\n".encode())
        kit.kill_started(rtlib)
        for it in rooms:
            shutil.rmtree(it, ignore_errors=True)
        # Not by an exception: threads that wait for what was killed would begin it again.
        os._exit(128 + number)

    for it in (signal.SIGINT, signal.SIGTERM, signal.SIGHUP):
        if signal.getsignal(it) is not signal.SIG_IGN:
            signal.signal(it, end)


def forget_signals():
    """Has signals do again what they do by themselves."""
    for it in (signal.SIGINT, signal.SIGTERM, signal.SIGHUP):
        if callable(signal.getsignal(it)):
            signal.signal(it, signal.SIG_DFL)
