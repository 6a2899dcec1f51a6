"""A standard error that takes nothing: what `bench/hostile` plays beside its attacks. The hub is to warn of thousands of sessions while a terminal
is stopped, or nobody reads a pipe. Nobody who chats may wait, and afterwards one line says how many were dropped."""

import contextlib
import fcntl
import multiprocessing
import os
import pty
import re
import signal
import termios
import time
import tty

from hostile import LONGEST, Client, Gone, Hub, friends_of, serves, settings, told_by

WARNING = re.compile(rb"^\S+Z \S+ a session ended by ReadFailed\r?$", re.M)
DROPPED = re.compile(rb"^\S+Z lines dropped for want of room: (\d+)\r?$", re.M)


def warn(port, count):
    """Has the hub warn so often, or as often as it does in a while: each is broken off where the hub waits for its next line. Each hears an answer
    first: a connection that is reset before the hub accepts it has no session, and so no warning."""
    until = time.monotonic() + 20
    for _ in range(count):
        if time.monotonic() > until:
            return
        try:
            client = Client(port, 1)
            client.greet()
            client.reset()
        except (OSError, Gone):
            pass


class Terminal:
    """A terminal that is stopped, as by Ctrl+S, and goes on later."""

    name = "a terminal that is stopped"

    def __init__(self):
        self.reader, self.writer = pty.openpty()
        tty.setraw(self.writer)
        termios.tcflow(self.writer, termios.TCOOFF)

    def go_on(self):
        termios.tcflow(self.writer, termios.TCOON)

    def stop(self):
        pass


class Pipe:
    """A pipe that nobody reads for a while."""

    name = "a pipe that nobody reads"

    def __init__(self):
        self.reader, self.writer = os.pipe()

    def go_on(self):
        pass

    def stop(self):
        pass


def fill(writer):
    signal.signal(signal.SIGINT, signal.SIG_IGN)
    while os.getppid() != 1:
        os.write(writer, b"filled\n" * 500)


class Filled(Pipe):
    """A pipe that is full, since another process fills it whenever there is room, and that is emptied slowly."""

    name = "a pipe that another fills"

    def __init__(self):
        super().__init__()
        self.others = [multiprocessing.Process(target=work, args=(end,), daemon=True) for work, end in ((fill, self.writer), (sip, self.reader))]
        for it in self.others:
            it.start()
        time.sleep(0.1)

    def go_on(self):
        self.stop()

    def stop(self):
        for it in self.others:
            it.kill()
            it.join()


def sip(reader):
    signal.signal(signal.SIGINT, signal.SIG_IGN)
    while os.getppid() != 1:
        os.read(reader, 256)
        time.sleep(0.05)


def read_all(reader, seconds):
    """All that comes within so many seconds, or until a line says what was dropped and nothing more comes."""
    fcntl.fcntl(reader, fcntl.F_SETFL, os.O_NONBLOCK)
    said, until, still = b"", time.monotonic() + seconds, 0
    while time.monotonic() < until and still < 10:
        try:
            said += os.read(reader, 1 << 16)
            still = 0
        except BlockingIOError:
            still += bool(DROPPED.search(said))
            time.sleep(0.05)
        except OSError:
            break
    return said


def play_stuck(table, kind, threads, count):
    name = f"standard error: {kind.name}"
    if not table.wants(name) or table.options.against:
        return
    began = time.monotonic()
    settings(threads, 64)
    table.machine.begin()
    errors = kind()
    hub = Hub([table.options.program, "serve", "hub.toml"], errors=errors.writer)
    try:
        if not hub.listens():
            raise Gone("the hub does not listen")
        friends = friends_of(hub.port)
        warn(hub.port, count)
        time.sleep(1.2)
        told = told_by(friends)
        is_alive, is_served = hub.status() is None, serves(hub.port)
        errors.go_on()
        said = read_all(errors.reader, 5)
        dropped = sum(int(it) for it in DROPPED.findall(said))
        warned = len(WARNING.findall(said))
        late = told["longest"] > LONGEST
        is_counted = dropped > 0 and (isinstance(errors, Filled) or warned >= 256 and dropped + warned >= count * 0.98)
        yes = lambda it: "yes" if it else "no"
        cells = [yes(is_alive), yes(is_served), told["gone"], told["lost"], f"{told['longest'] * 1000:.0f}", f"{hub.megabytes() or 0:.1f}"]
        is_well = is_alive and is_served and not told["gone"] and not told["lost"] and is_counted and ends(hub, kind, threads)
        table.row(f"{name} ({warned} lines, {dropped} dropped)", threads, began, cells, is_well and not late)
    except (OSError, Gone) as error:
        table.row(f"{name}: {error}", threads, began, ["no"] * 6, False)
    finally:
        errors.stop()
        hub.stop()
        for it in (errors.reader, errors.writer):
            with contextlib.suppress(OSError):
                os.close(it)


def ends(hub, kind, threads):
    """Whether a hub that is to stop after three connections ends with its status within a second and a half, while this is stuck."""
    settings(threads, 64, "stop_after = 3\n")
    errors = kind()
    other = Hub([hub.process.args[0], "serve", "hub.toml"], errors=errors.writer)
    try:
        if not other.listens():
            return False
        with contextlib.suppress(BlockingIOError):
            fcntl.fcntl(errors.writer, fcntl.F_SETFL, os.O_NONBLOCK)
            while kind is Pipe:
                os.write(errors.writer, b"x" * 4096)
        fcntl.fcntl(errors.writer, fcntl.F_SETFL, 0)
        warn(other.port, 3)
        began = time.monotonic()
        while other.status() is None and time.monotonic() - began < 3:
            time.sleep(0.01)
        return other.status() == 0 and time.monotonic() - began < 1.5
    finally:
        errors.stop()
        other.stop()
        for it in (errors.reader, errors.writer):
            os.close(it)


def stuck(table):
    """All of these, or with --short two."""
    if table.options.short:
        play_stuck(table, Terminal, 1, 600)
        play_stuck(table, Filled, 2, 600)
        return
    for kind in (Terminal, Pipe, Filled):
        for threads in (1, 2, 4):
            play_stuck(table, kind, threads, 3000)
