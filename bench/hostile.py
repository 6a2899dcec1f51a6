"""Attacks a hub over loopback: `bench/hostile` says how it is called. Each row starts a hub of its own, lets ten clients chat
that behave well, attacks beside them, and then sees whether a newcomer is served."""

import argparse
import ctypes
import multiprocessing
import os
import random
import resource
import select
import shlex
import signal
import socket
import struct
import subprocess
import sys
import time

FRIENDS = 10
# A friend says a line so often, in seconds, and an answer may take so long.
PACE = 0.1
LONGEST = 1.0
# A row whose answers took longer is played again, so often at most, where a program that only sleeps woke so late meanwhile, in
# seconds: then the machine itself stood still.
AGAIN = 3
STOOD_STILL = 0.25
# Peak memory: what a hub without clients may have, and what each place may add, in MB.
BASE_MB, PLACE_MB = 24, 1.25
LINGER = struct.pack("ii", 1, 0)
# What a friend says, and how many bytes the system is to hold for it.
FRIEND, WINDOW = b" friend\\s", 1 << 18


# ---- identities


def read_tables():
    with open("tiger.bin", "rb") as file:
        numbers = struct.unpack("<1024Q", file.read())
    return [numbers[at : at + 256] for at in range(0, 1024, 256)]


WORD = (1 << 64) - 1


def tiger_pass(a, b, c, x, factor, tables):
    first, second, third, fourth = tables
    for word in x:
        c ^= word
        byte = c.to_bytes(8, "little")
        a = a - (first[byte[0]] ^ second[byte[2]] ^ third[byte[4]] ^ fourth[byte[6]]) & WORD
        b = (b + (fourth[byte[1]] ^ third[byte[3]] ^ second[byte[5]] ^ first[byte[7]])) * factor & WORD
        a, b, c = b, c, a
    return a, b, c


def tiger_schedule(x):
    x[0] = x[0] - (x[7] ^ 0xA5A5A5A5A5A5A5A5) & WORD
    x[1] ^= x[0]
    x[2] = x[2] + x[1] & WORD
    x[3] = x[3] - (x[2] ^ (~x[1] & WORD) << 19 & WORD) & WORD
    x[4] ^= x[3]
    x[5] = x[5] + x[4] & WORD
    x[6] = x[6] - (x[5] ^ (~x[4] & WORD) >> 23) & WORD
    x[7] ^= x[6]
    x[0] = x[0] + x[7] & WORD
    x[1] = x[1] - (x[0] ^ (~x[7] & WORD) << 19 & WORD) & WORD
    x[2] ^= x[1]
    x[3] = x[3] + x[2] & WORD
    x[4] = x[4] - (x[3] ^ (~x[2] & WORD) >> 23) & WORD
    x[5] ^= x[4]
    x[6] = x[6] + x[5] & WORD
    x[7] = x[7] - (x[6] ^ 0x0123456789ABCDEF) & WORD


def tiger(message):
    """Tiger of up to 55 bytes, which are one block."""
    start = (0x0123456789ABCDEF, 0xFEDCBA9876543210, 0xF096A5B4C3B2E187)
    x = [*struct.unpack("<8Q", message + b"\1" + bytes(55 - len(message)) + struct.pack("<Q", 8 * len(message)))]
    a, b, c = start
    for turn in range(3):
        if turn:
            tiger_schedule(x)
        a, b, c = tiger_pass(a, b, c, x, 5 + 2 * turn, TABLES)
    return struct.pack("<3Q", a ^ start[0], b - start[1] & WORD, c + start[2] & WORD)


def base32(data):
    bits = "".join(f"{byte:08b}" for byte in data) + "000"
    return "".join("ABCDEFGHIJKLMNOPQRSTUVWXYZ234567"[int(bits[at : at + 5], 2)] for at in range(0, 5 * 39, 5)).encode()


TABLES = read_tables()


def login_line(sid, number, nick=None):
    pid = number.to_bytes(4, "little") + bytes(19) + b"\1"
    nick = nick or b"u%d" % number
    return b"BINF %s ID%s PD%s NI%s SL1 FS1 SS1 SF1 HN1 HR0 HO0 SUTCP4 VEx\\s1\n" % (sid, base32(tiger(pid)), base32(pid), nick)


HELLO = b"HSUP ADBASE ADTIGR\n"


# ---- clients that do as they are told


class Gone(Exception):
    """The hub closed a connection, or said nothing for too long."""


class Client:
    """A client that waits for each answer."""

    def __init__(self, port, timeout=5, window=None, host="127.0.0.1", source=None):
        self.socket, self.rest, self.sid = socket.socket(), b"", None
        if window:
            self.socket.setsockopt(socket.SOL_SOCKET, socket.SO_RCVBUF, window)
        if source:
            self.socket.bind((source, 0))
        self.socket.settimeout(timeout)
        self.socket.connect((host, port))

    def say(self, line):
        self.socket.sendall(line)

    def line(self):
        while b"\n" not in self.rest:
            more = self.socket.recv(65536)
            if not more:
                raise Gone("closed")
            self.rest += more
        line, self.rest = self.rest.split(b"\n", 1)
        return line

    def hear(self, front):
        """The next line that begins like this."""
        until = time.monotonic() + 10
        while time.monotonic() < until:
            line = self.line()
            if line.startswith(front):
                return line
        raise Gone("an answer did not come")

    def greet(self, hello=HELLO):
        self.say(hello)
        self.sid = self.hear(b"ISID ")[5:9]

    def log_in(self, number, nick=None):
        self.greet()
        self.say(login_line(self.sid, number, nick))
        self.hear(b"BINF " + self.sid)
        return self

    def reset(self):
        self.socket.setsockopt(socket.SOL_SOCKET, socket.SO_LINGER, LINGER)
        self.close()

    def close(self):
        self.socket.close()


class Friend:
    """A client that chats and reads, and notes what it hears of the others."""

    def __init__(self, port, number):
        # The system would hold megabytes for a client that is behind, in which its echoes waited, whatever the hub does.
        client = Client(port, window=WINDOW).log_in(number)
        self.socket, self.rest, self.sid = client.socket, client.rest, client.sid
        self.socket.setblocking(False)
        self.said, self.at, self.heard, self.is_gone = 0, {}, {}, False

    def say(self, now):
        try:
            if self.socket.send(b"BMSG %s friend\\s%d\n" % (self.sid, self.said)) > 0:
                self.at[self.said] = now
                self.said += 1
        except BlockingIOError:
            pass
        except OSError:
            self.is_gone = True

    def read(self):
        """The longest wait for an echo among those that came."""
        longest = 0
        try:
            more = self.socket.recv(1 << 20)
        except BlockingIOError:
            return longest
        except OSError:
            more = b""
        if not more:
            self.is_gone = True
        heard = self.rest + more
        end = heard.rfind(b"\n") + 1
        self.rest = heard[end:]
        now = time.monotonic()
        # Nobody else says this word, and what a flood says is passed over.
        at = heard.find(FRIEND, 0, end)
        while at >= 0:
            stop = heard.find(b"\n", at)
            sid, number = heard[at - 4 : at], int(heard[at + len(FRIEND) : stop])
            self.heard.setdefault(sid, []).append(number)
            if sid == self.sid:
                longest = max(longest, now - self.at.pop(number, now))
            at = heard.find(FRIEND, stop, end)
        return longest


def lost_of(friends):
    """How many lines some friend said that another did not hear, each once and in order."""
    lost = 0
    for reader in friends:
        if reader.is_gone:
            continue
        for speaker in friends:
            heard = reader.heard.get(speaker.sid, [])
            wanted = range(heard[0] if heard and speaker is not reader else 0, speaker.said)
            lost += len(wanted) - len(set(heard) & set(wanted))
            lost += sum(a >= b for a, b in zip(heard, heard[1:]))
    return lost


def befriend(port, count, pipe):
    """Chats until it is told to stop; answers what became of all friends."""
    signal.signal(signal.SIGINT, signal.SIG_IGN)
    friends = [Friend(port, 1 + number) for number in range(count)]
    pipe.send("ready")
    longest, due, stop, end = 0, time.monotonic(), None, time.monotonic() + 1800
    while time.monotonic() < end:
        now = time.monotonic()
        if stop is None and pipe.poll():
            stop, end = now, now + 10
        if stop is None and now >= due:
            due = now + PACE
            for friend in friends:
                if not friend.is_gone:
                    friend.say(now)
        open_ones = {friend.socket: friend for friend in friends if not friend.is_gone}
        for it in select.select(open_ones, [], [], 0.01)[0]:
            longest = max(longest, open_ones[it].read())
        if stop is not None and not lost_of(friends):
            break
    now = time.monotonic()
    for friend in friends:
        if not friend.is_gone:
            longest = max([longest, *(now - at for at in friend.at.values())])
    pipe.send({"lost": lost_of(friends), "gone": sum(it.is_gone for it in friends), "longest": longest, "said": sum(it.said for it in friends)})


# ---- the hub


class Report(ctypes.Structure):
    """The front of `struct report` of refuse.c."""

    _fields_ = [(name, ctypes.c_int64) for name in ("counted", "refused", "reached", "left", "failed")]


class Hub:
    """A hub that was started, and what there is to see of it."""

    def __init__(self, words, port=None, limits=(), journal=False, errors=None, **refuse):
        self.shared = os.memfd_create("report")
        env = {name: value for name, value in os.environ.items() if name != "JOURNAL_STREAM"}
        if journal:
            env["JOURNAL_STREAM"] = "8:4111"
        if refuse:
            env |= {"LD_PRELOAD": os.path.abspath("refuse.so"), "REFUSE_REPORT": str(self.shared)}
        env |= {f"REFUSE_{name}": str(value) for name, value in refuse.items()}
        limit = lambda: [resource.setrlimit(which, (value, value)) for which, value in limits]
        # What the hub says is read by a handle of its own: one that both had would have one place in the file.
        self.said, self.reader = open("said", "wb"), open("said", "rb")
        self.warned = open("warned", "wb")
        how = {"env": env, "preexec_fn": limit, "stdin": subprocess.DEVNULL, "stdout": self.said, "stderr": self.warned if errors is None else errors}
        self.process = subprocess.Popen(words, pass_fds=[self.shared], **how)
        self.port = port

    def listens(self, seconds=10):
        """Waits until it listens or has ended."""
        until = time.monotonic() + seconds
        while time.monotonic() < until and self.process.poll() is None:
            if self.port is None:
                self.reader.seek(0)
                said = self.reader.read()
                if said.startswith(b"listening ") and said.endswith(b"\n"):
                    self.port = int(said.split(b":")[1])
                    return True
            elif answers(self.port):
                return True
            time.sleep(0.01)
        return False

    def report(self):
        return Report.from_buffer_copy(os.pread(self.shared, ctypes.sizeof(Report), 0).ljust(ctypes.sizeof(Report), b"\0"))

    def status(self):
        return self.process.poll()

    def megabytes(self):
        """The most memory that it had, or nothing where it has ended."""
        try:
            with open(f"/proc/{self.process.pid}/status", encoding="utf-8") as file:
                return max((int(line.split()[1]) / 1024 for line in file if line.startswith("VmHWM")), default=None)
        except OSError:
            return None

    def stop(self):
        if self.process.poll() is None:
            self.process.kill()
        self.process.wait()
        for it in (self.said, self.reader, self.warned):
            it.close()
        os.close(self.shared)


def answers(port):
    try:
        socket.create_connection(("127.0.0.1", port), 1).close()
        return True
    except OSError:
        return False


def serves(port, number=9_000_000):
    """Whether a newcomer is served, within some tries: places of those who left may take a moment to be free."""
    for attempt in range(50):
        try:
            client = Client(port, 3).log_in(number + attempt)
            client.say(b"BMSG %s here\n" % client.sid)
            client.hear(b"BMSG %s here" % client.sid)
            client.close()
            return True
        except (OSError, Gone):
            time.sleep(0.1)
    return False


# ---- the machine


class Machine:
    """A process on each processor that only sleeps, so that it is known for how long the machine stood still."""

    def __init__(self):
        processors = sorted(os.sched_getaffinity(0))
        self.latest = multiprocessing.Array("d", len(processors), lock=False)
        for place, processor in enumerate(processors):
            multiprocessing.Process(target=self.sleep, args=(place, processor), daemon=True).start()

    def sleep(self, place, processor):
        signal.signal(signal.SIGINT, signal.SIG_IGN)
        os.sched_setaffinity(0, {processor})
        while os.getppid() != 1:
            before = time.monotonic()
            time.sleep(0.005)
            self.latest[place] = max(self.latest[place], time.monotonic() - before)

    def begin(self):
        for place in range(len(self.latest)):
            self.latest[place] = 0

    def stood_still(self):
        """The longest time for which a processor did not run what was due, since it began."""
        return max(self.latest)


# ---- attacks: each is given the port and whether it is to be short


def connect_many(port, count, keep, say=b""):
    """Connects so many times without waiting, says this, and holds all of them for so many seconds."""
    sockets = []
    for _ in range(count):
        it = socket.socket()
        it.setblocking(False)
        it.connect_ex(("127.0.0.1", port))
        sockets.append(it)
    until = time.monotonic() + keep
    if say:
        for it in sockets:
            try:
                it.send(say)
            except OSError:
                pass
    time.sleep(max(0, until - time.monotonic()))
    for it in sockets:
        it.close()


def bursts(port, short):
    for _ in range(3 if short else 10):
        connect_many(port, 3000, 0.3)


def stages(sid_of):
    """What a client says before it breaks off, stage by stage."""
    login = lambda number: login_line(sid_of, number)
    yield lambda number: b""
    yield lambda number: HELLO[:7]
    yield lambda number: HELLO
    yield lambda number: login(number)[:30]
    yield lambda number: login(number)[:-1]
    yield login
    yield lambda number: login(number) + b"BMSG %s hel" % sid_of
    yield lambda number: login(number) + b"BMSG %s hello\n" % sid_of


def break_off(client, way):
    if way == 0:
        client.reset()
    elif way == 1:
        client.close()
    elif way == 2:
        client.socket.shutdown(socket.SHUT_WR)
        client.close()
    else:
        client.socket.shutdown(socket.SHUT_RDWR)
        client.reset()


def resets(port, short):
    number = 100_000
    for _ in range(3 if short else 100):
        for stage in range(8):
            for way in range(4):
                number += 1
                try:
                    client = Client(port)
                    if stage > 2:
                        client.greet()
                    client.say(list(stages(client.sid or b"AAAA"))[stage](number))
                    if number % 2:
                        time.sleep(0.001)
                    break_off(client, way)
                except (OSError, Gone):
                    pass


def deaf(port, short):
    """A third of many who chat never read."""
    count, clients = (60 if short else 300), []
    for number in range(count):
        clients.append(Client(port, window=4096 if number % 3 == 0 else None).log_in(200_000 + number))
    for client in clients:
        client.socket.setblocking(False)
    until = time.monotonic() + (4 if short else 300)
    while time.monotonic() < until:
        for number, client in enumerate(clients):
            try:
                if number % 3:
                    client.socket.recv(1 << 18)
                if random.random() < 0.2:
                    client.socket.send(b"BMSG %s all\\sthe\\ssame\n" % client.sid)
            except OSError:
                pass
        time.sleep(0.01)
    for client in clients:
        client.close()


def halves(port, short):
    connect_many(port, 200, 3 if short else 180, HELLO[:10])


def long_lines(port, short):
    for _ in range(1 if short else 20):
        connect_many(port, 50, 0.5, b"x" * 65537)
        clients = [Client(port) for _ in range(50)]
        for client in clients:
            try:
                client.say(b"x" * 65537)
            except OSError:
                pass
        for client in clients:
            client.close()


def comers(port, short):
    for number in range(2000 if short else 20_000):
        try:
            client = Client(port)
            if number % 3 == 1:
                client.say(HELLO)
            elif number % 3 == 2:
                client.greet()
            client.close()
        except (OSError, Gone):
            pass


def long_logins(port, short):
    """Logins whose private identifiers are so long that their digests take time."""
    for turn in range(1 if short else 20):
        clients = [Client(port) for _ in range(50)]
        for client in clients:
            client.greet()
        for number, client in enumerate(clients):
            line = login_line(client.sid, 300_000 + number)
            try:
                client.say(line.replace(b" PD", b" PD" + b"A" * 64_000))
            except OSError:
                pass
        for client in clients:
            try:
                client.line()
            except (OSError, Gone):
                pass
            client.close()


# ---- rows


def settings(threads, users=512, more="", host="127.0.0.1"):
    with open("hub.toml", "w", encoding="utf-8") as file:
        file.write(f'listen = "{host}:0"\nmax_users = {users}\nthreads = {threads}\n{more}')


def friends_of(port):
    here, there = multiprocessing.Pipe()
    process = multiprocessing.Process(target=befriend, args=(port, FRIENDS, there), daemon=True)
    process.start()
    if not here.poll(20):
        process.kill()
        raise Gone("the friends were not admitted")
    here.recv()
    return process, here


def told_by(friends):
    process, pipe = friends
    try:
        pipe.send("stop")
        told = pipe.recv() if pipe.poll(30) else None
    except (OSError, EOFError):
        told = None
    process.join(5)
    if process.is_alive():
        process.kill()
    return told or {"lost": -1, "gone": FRIENDS, "longest": 99, "said": 0}


class Table:
    """The rows, as they come."""

    def __init__(self, options):
        self.options, self.failed, self.machine = options, 0, Machine()
        print("| Attack | Threads | Alive | Newcomers served | Friends lost | Lines lost | Longest wait, ms | Peak MB | Seconds | |")
        print("|---|---|---|---|---|---|---|---|---|---|", flush=True)

    def row(self, name, threads, began, cells, is_well):
        self.failed += not is_well
        texts = [name, threads, *cells, f"{time.monotonic() - began:.1f}", "" if is_well else "FAILED"]
        print("| " + " | ".join(str(it) for it in texts) + " |", flush=True)

    def wants(self, name):
        return not self.options.only or self.options.only in name


def start(options, **refuse):
    if options.against:
        hub = Hub(shlex.split(options.against[0]), int(options.against[1]), [(resource.RLIMIT_NOFILE, 1024)], **refuse)
    else:
        hub = Hub([options.program, "serve", "hub.toml"], None, [(resource.RLIMIT_NOFILE, 1024)], **refuse)
    return hub


def play(table, name, attack, threads, users=512):
    """One attack beside friends, and again where it was the machine that let them wait."""
    if not table.wants(name):
        return
    for attempt in range(1 + AGAIN):
        if play_once(table, name, attack, threads, users, attempt == AGAIN):
            return


def play_once(table, name, attack, threads, users, is_last):
    """Whether the row is written."""
    began = time.monotonic()
    settings(threads, users)
    table.machine.begin()
    hub = start(table.options)
    try:
        if not hub.listens():
            table.row(name, threads, began, ["no"] * 6, False)
            return True
        friends = friends_of(hub.port)
        attack(hub.port, table.options.short)
        told = told_by(friends)
        is_served = serves(hub.port)
        is_alive, peak = hub.status() is None, hub.megabytes() or 0
        limit = BASE_MB + PLACE_MB * users
        is_well = is_alive and is_served and told["lost"] == 0 and told["gone"] == 0 and peak <= limit
        late, still = told["longest"] > LONGEST, table.machine.stood_still()
        if is_well and late and still >= STOOD_STILL and not is_last:
            print(f"{name}: {told['longest'] * 1000:.0f} ms, but the machine stood still for {still * 1000:.0f}; once more", flush=True)
            return False
        yes = lambda it: "yes" if it else "no"
        cells = [yes(is_alive), yes(is_served), told["gone"], told["lost"], f"{told['longest'] * 1000:.0f}", f"{peak:.1f}"]
        table.row(name, threads, began, cells, is_well and not late)
    except (OSError, Gone) as error:
        table.row(f"{name}: {error}", threads, began, ["no"] * 6, False)
    finally:
        hub.stop()
    return True


def come_and_chat(port, number):
    """A client that logs in and chats a little, as far as it is served."""
    try:
        client = Client(port, 0.5).log_in(number)
        for _ in range(5):
            client.say(b"BMSG %s hello\n" % client.sid)
            client.hear(b"BMSG " + client.sid)
        client.close()
        return True
    except (OSError, Gone):
        return False


def refused(table, each, threads):
    """Each so many-th growth is refused for a while, under logins and chat. A hub may end with status 4 then, at once."""
    name = f"each {each}. growth refused"
    if not table.wants(name):
        return
    began = time.monotonic()
    settings(threads, 64)
    first = start(table.options, FROM=1 << 40)
    first.listens()
    begin = first.report().counted + 20
    first.stop()
    window = max(120, each * (8 if table.options.short else 40))
    hub = start(table.options, FROM=begin, TO=begin + window, EACH=each)
    number, until = 400_000, time.monotonic() + 20
    try:
        listened = hub.listens()
        while listened and hub.status() is None and hub.report().counted <= begin + window and time.monotonic() < until:
            number += 1
            come_and_chat(hub.port, number)
        time.sleep(1 if hub.status() is None and not listened else 0)
        is_served = hub.status() is None and listened and serves(hub.port)
        if not is_served:
            time.sleep(1)
        status, peak = hub.status(), hub.megabytes() or 0
        is_well = is_served or (status == 4 and not (hub.port and answers(hub.port)))
        cells = ["yes" if status is None else f"status {status}", "yes" if is_served else "no", "", "", "", f"{peak:.1f}"]
        table.row(f"{name} ({hub.report().refused} refused)", threads, began, cells, is_well)
    finally:
        hub.stop()


def warned_of_memory():
    with open("warned", "rb") as file:
        return b"a session ended by Memory" in file.read()


def starts(table, threads):
    """Want of memory or of threads at the start: status 4 before it says that it listens, or it serves. With so little room that a client
    has none it listens, and says of each session that memory ended it."""
    name = "want at the start"
    if not table.wants(name) or table.options.against:
        return
    began = time.monotonic()
    settings(threads, 64)
    first = start(table.options, FROM=1 << 40)
    first.listens()
    growths = first.report().counted
    first.stop()
    step = max(1, growths // (20 if table.options.short else 200))
    ways = [({"FROM": growth}, (), (4,)) for growth in range(1, growths + 1, step)]
    sizes = range(8, 80, 12) if table.options.short else range(4, 80, 2)
    # With less room than its own code takes, the system's loader ends it with status 127 before it begins.
    ways += [({"FROM": 1 << 40}, ((resource.RLIMIT_AS, size << 20),), (4, 127)) for size in sizes]
    failed, ended, served, full = 0, 0, 0, 0
    for refuse, limits, statuses in ways:
        hub = Hub([table.options.program, "serve", "hub.toml"], None, limits, **refuse)
        listened = hub.listens(5)
        if listened and serves(hub.port):
            served += 1
        elif not listened and hub.status() in statuses:
            ended += 1
        elif listened and limits and hub.status() is None and warned_of_memory():
            full += 1
        else:
            failed += 1
        hub.stop()
    cells = [f"{served} of {len(ways)} serve, {full} have no room for a client", f"{ended} end with their status", "", "", "", ""]
    # That room is smaller than the steps between these sizes.
    table.row(name, threads, began, cells, failed == 0 and full <= 1)


OPERATOR = '[[account]]\nnick = "op"\npassword = "sesame"\noperator = true\n'


def decoded(text):
    bits = "".join(f"{'ABCDEFGHIJKLMNOPQRSTUVWXYZ234567'.index(letter):05b}" for letter in text)
    return bytes(int(bits[at : at + 8], 2) for at in range(0, len(bits) // 8 * 8, 8))


def operator(port):
    """An operator, who proves a password of six letters and a challenge of 24 bytes."""
    client = Client(port)
    client.greet()
    client.say(login_line(client.sid, 500_000, b"op"))
    client.challenge = decoded(client.hear(b"IGPA ")[5:].decode())
    client.say(b"HPAS %s\n" % base32(tiger(b"sesame" + client.challenge)))
    client.hear(b"BINF " + client.sid)
    return client


def kicked(port, number):
    """Whether one who is slow, and who sent what the hub has not read, hears all and why it was kicked."""
    op, bob = operator(port), Client(port, window=4096).log_in(500_001 + number, b"bob")
    op.hear(b"BINF " + bob.sid)
    for turn in range(200):
        op.say(b"DMSG %s %s %s\n" % (op.sid, bob.sid, b"x" * 2000))
    time.sleep(0.2)
    bob.say(b"BMSG %s here\n" % bob.sid)
    op.say(b"HMSG !kick\\sbob\\sgo\n")
    op.hear(b"IQUI " + bob.sid)
    time.sleep(0.2)
    try:
        bob.say(b"BMSG %s still\\shere\n" % bob.sid)
        lines = sum(bob.hear(b"DMSG ") is not None for _ in range(200))
        bob.hear(b"IQUI " + bob.sid)
        try:
            bob.line()
        except Gone:
            return lines == 200
        return False
    except (OSError, Gone):
        return False
    finally:
        bob.close()
        op.close()


def last_lines(table, threads):
    name = "last lines of who is slow"
    if not table.wants(name) or table.options.against:
        return
    began, times = time.monotonic(), 2 if table.options.short else 20
    settings(threads, 64, OPERATOR)
    hub = start(table.options)
    try:
        hub.listens()
        arrived = 0
        for number in range(times):
            arrived += kicked(hub.port, number)
        cells = ["yes" if hub.status() is None else "no", f"{arrived} of {times} arrive", "", "", "", f"{hub.megabytes() or 0:.1f}"]
        table.row(name, threads, began, cells, arrived == times and serves(hub.port))
    except (OSError, Gone) as error:
        table.row(f"{name}: {error}", threads, began, ["no"] * 6, False)
    finally:
        hub.stop()


# ---- what a hub is given at its start


# The fourth connection's challenge is bytes 72 to 95 of the ChaCha20 stream of this seed. RFC 8439, appendix A.1, test vector 3, prints the
# bytes of the stream from 64 on.
SEED = bytes(31) + b"\1"
FOURTH_CHALLENGE = bytes.fromhex("9b9d828db1ced4dd832025e8018b8160b82284f3c949aa5a")


def enter_from(port, address, number):
    """A client that enters from this address, and the line that shows it."""
    client = Client(port, source=address)
    client.greet()
    client.say(login_line(client.sid, number).replace(b" SL1", b" I40.0.0.0 SL1"))
    return client, client.hear(b"BINF " + client.sid)


def up_of(port):
    """The seconds since the start of the hub, as a pinger is told."""
    client = Client(port)
    client.greet(b"HSUP ADBASE ADTIGR ADPING\n")
    fields = client.hear(b"IINF ").split()
    client.close()
    return next(int(field[2:]) for field in fields if field.startswith(b"UP"))


def has_journal_lines(port):
    """Whether the hub began its lines with priorities, and told the journal what it serves."""
    with open("warned", "rb") as file:
        line = file.readline()
    return line.startswith(b"<6>") and b" serves hub.toml at 127.0.0.1:%d," % port in line


def has_plain_lines():
    """Whether none of the hub's lines begins with a priority."""
    with open("warned", "rb") as file:
        return not any(line.startswith(b"<") for line in file)


def facts_of_start(port, began, journal):
    """What the hub makes of its seed, its clock, its environment and the addresses of clients: a name and whether it is right."""
    (ana, of_ana), (bob, of_bob) = enter_from(port, "127.0.0.2", 600_000), enter_from(port, "127.0.0.3", 600_001)
    heard = ana.hear(b"BINF " + bob.sid)
    yield "addresses", b" I4127.0.0.2 " in of_ana and b" I4127.0.0.3 " in of_bob and heard == of_bob
    up = up_of(port)
    yield "opening", up <= time.monotonic() - began + 1
    yield "seed", operator(port).challenge == FOURTH_CHALLENGE
    yield "journal", has_journal_lines(port) if journal else has_plain_lines()
    time.sleep(1.1)
    yield "clock", up_of(port) > up


def given_at_start(table, threads, journal):
    """Whether the hub goes by its seed file, its hash, its clock and its environment."""
    name = "its seed, clock, journal and addresses" if journal else "its seed, clock and addresses without a journal"
    if not table.wants(name) or table.options.against:
        return
    began = time.monotonic()
    with open("seed.bin", "wb") as file:
        file.write(SEED)
    settings(threads, 64, 'seed_file = "seed.bin"\n' + OPERATOR)
    hub = start(table.options, journal=journal)
    try:
        if not hub.listens():
            raise Gone("it does not listen")
        wrong = [fact for fact, is_right in facts_of_start(hub.port, began, journal) if not is_right]
        cells = ["yes" if hub.status() is None else "no", f"wrong: {', '.join(wrong) or 'nothing'}", "", "", "", f"{hub.megabytes() or 0:.1f}"]
        table.row(name, threads, began, cells, not wrong and serves(hub.port))
    except (OSError, Gone) as error:
        table.row(f"{name}: {error}", threads, began, ["no"] * 6, False)
    finally:
        hub.stop()


# A system acknowledges data after 40 milliseconds where it has nothing to send itself.
TRIES, AT_ONCE = 11, 0.02


def wait_of_second_line(ana, bob, number):
    """The seconds between two lines that ana says one after the other, as bob hears them, whose system acknowledges none at once."""
    bob.socket.setsockopt(socket.IPPROTO_TCP, socket.TCP_QUICKACK, 0)
    texts = [b"BMSG %s %d.%d" % (ana.sid, number, place) for place in range(2)]
    for text in texts:
        ana.say(text + b"\n")
        ana.hear(text)
    bob.hear(texts[0])
    first = time.monotonic()
    bob.hear(texts[1])
    return time.monotonic() - first


def lines_one_by_one(table, threads):
    """Whether a line waits until its receiver has acknowledged the one before."""
    name = "a line after another is sent at once"
    if not table.wants(name) or table.options.against:
        return
    began = time.monotonic()
    settings(threads)
    hub = start(table.options)
    try:
        if not hub.listens():
            raise Gone("it does not listen")
        ana, bob = [Client(hub.port).log_in(800_000 + number) for number in range(2)]
        waits = sorted(wait_of_second_line(ana, bob, number) for number in range(TRIES))
        cells = ["yes" if hub.status() is None else "no", "", "", "", f"{waits[TRIES // 2] * 1000:.1f}", f"{hub.megabytes() or 0:.1f}"]
        table.row(name, threads, began, cells, waits[TRIES // 2] < AT_ONCE and serves(hub.port))
    except (OSError, Gone) as error:
        table.row(f"{name}: {error}", threads, began, ["no"] * 6, False)
    finally:
        hub.stop()


# Each newcomer is sent a menu of about 500 kB at once. The hub may not keep room for it: 60 newcomers may add this many MB.
ENTRIES, ENTRY = 25, 20_000
NEWCOMERS, KEPT_MB = 60, 12


def room_for_output(table, threads):
    """Whether newcomers who stay take no more memory for what they were sent at once."""
    name = "room for output is given back"
    if not table.wants(name) or table.options.against:
        return
    began = time.monotonic()
    settings(threads, 64, "".join(f'[[command]]\nname = "m{number}"\ncontext = 1\ntext = "{"x" * ENTRY}"\n' for number in range(ENTRIES)))
    hub = start(table.options)
    try:
        if not hub.listens():
            raise Gone("it does not listen")
        clients, first = [], None
        for number in range(NEWCOMERS + 4):
            client = Client(hub.port)
            client.greet(b"HSUP ADBASE ADTIGR ADUCM0\n")
            client.say(login_line(client.sid, 700_000 + number))
            client.hear(b"ICMD m%d " % (ENTRIES - 1))
            clients.append(client)
            # The first few fill the hub's own pools.
            first = hub.megabytes() if number == 3 else first
        added = hub.megabytes() - first
        cells = ["yes" if hub.status() is None else "no", f"{added:.1f} MB added", "", "", "", f"{hub.megabytes():.1f}"]
        for client in clients:
            client.close()
        table.row(name, threads, began, cells, added <= KEPT_MB and serves(hub.port))
    except (OSError, Gone) as error:
        table.row(f"{name}: {error}", threads, began, ["no"] * 6, False)
    finally:
        hub.stop()


def main():
    # They take their clients from here.
    import floods
    import stuck

    parser = argparse.ArgumentParser(prog="bench/hostile")
    parser.add_argument("program")
    parser.add_argument("--short", action="store_true")
    parser.add_argument("--only")
    parser.add_argument("--against", nargs=2, metavar=("COMMAND", "PORT"))
    options = parser.parse_args()
    limit = resource.getrlimit(resource.RLIMIT_NOFILE)[1]
    if limit < 4096:
        sys.exit("bench/hostile: ulimit -n has to be 4096 at least")
    resource.setrlimit(resource.RLIMIT_NOFILE, (limit, limit))
    table = Table(options)
    play(table, "bursts of 3,000 connections, 512 places", bursts, 2)
    play(table, "bursts of 3,000 connections, 900 places", bursts, 2, 900)
    play(table, "resets at each stage of a login", resets, 2)
    play(table, "a third of many never read", deaf, 2)
    play(table, "half lines", halves, 2)
    play(table, "lines of 65,537 bytes", long_lines, 2)
    play(table, "many who come and go", comers, 2)
    play(table, "logins with long identifiers", long_logins, 2)
    last_lines(table, 2)
    given_at_start(table, 2, True)
    given_at_start(table, 2, False)
    room_for_output(table, 2)
    lines_one_by_one(table, 2)
    floods.floods(table)
    stuck.stuck(table)
    starts(table, 2)
    # Each of 18 ways; a short run takes six of them.
    for place, each in enumerate((2, 3, 7, 20, 50, 997)):
        for threads in (1, 2, 4):
            if not options.short or threads == (1, 2, 4)[place % 3]:
                refused(table, each, threads)
    print(f"{table.failed} rows failed" if table.failed else "all rows are well")
    return 1 if table.failed else 0


if __name__ == "__main__":
    sys.exit(main())
