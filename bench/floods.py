"""Floods: what `bench/hostile` plays beside its attacks. Clients that flood and read are beside readers in a process of their own, over loopback or
behind slow links, and beside ten who chat. No reader may be lost, nobody else may wait for an echo, and the lines of who floods may."""

import collections
import contextlib
import ctypes
import multiprocessing
import os
import select
import signal
import socket
import subprocess
import time

from hostile import AGAIN, LONGEST, OPERATOR, STOOD_STILL, Client, Gone, Hub, friends_of, operator, serves, settings, told_by

READERS = 10
LENGTHS = (60, 1000, 2000, 2100, 4000, 16_000, 65_000)
# A network: its name, the pace of each link in Mbit/s (none over loopback), and how many links the readers share.
Net = collections.namedtuple("Net", "name pace links")
LOOPBACK = Net("loopback", None, 0)
NETS = (LOOPBACK, Net("100 Mbit/s each", 100, READERS), Net("20 Mbit/s each", 20, READERS), Net("5 Mbit/s each", 5, READERS), Net("20 Mbit/s for all", 20, 1))
NEWNET = 0x40000000


# ---- links


def run(words):
    return subprocess.run(words.split(), stdout=subprocess.DEVNULL, stderr=subprocess.PIPE, text=True, check=True)


@contextlib.contextmanager
def links_of(net):
    """Network namespaces behind links of this pace, which are gone at the end. Nothing where they cannot be made."""
    names = [f"hub{os.getpid()}n{number}" for number in range(net.links)]
    links = [(f"h{os.getpid() % 100000}a{number}", f"h{os.getpid() % 100000}b{number}") for number in range(net.links)]
    try:
        yield names if make_links(net, names, links) else None
    finally:
        # The links first: with a namespace they would go by and by.
        for name, (here, _) in zip(names, links):
            subprocess.run(["ip", "link", "del", here], stderr=subprocess.DEVNULL, check=False)
            subprocess.run(["ip", "netns", "del", name], stderr=subprocess.DEVNULL, check=False)


def make_links(net, names, links):
    try:
        for number, (name, (here, there)) in enumerate(zip(names, links)):
            run(f"ip netns add {name}")
            run(f"ip link add {here} type veth peer name {there} netns {name}")
            run(f"ip addr add 10.213.{number}.1/24 dev {here}")
            run(f"ip link set {here} up")
            run(f"ip -n {name} addr add 10.213.{number}.2/24 dev {there}")
            run(f"ip -n {name} link set {there} up")
            run(f"tc qdisc add dev {here} root tbf rate {net.pace}mbit burst {max(16, net.pace)}kb latency 100ms")
        return True
    except (OSError, subprocess.CalledProcessError) as error:
        print(f"no namespaces: {getattr(error, 'stderr', None) or error}", flush=True)
        return False


def enter(name):
    """Lets this process make its sockets in a namespace."""
    libc = ctypes.CDLL(None, use_errno=True)
    file = os.open(f"/run/netns/{name}", os.O_RDONLY)
    if libc.setns(file, NEWNET) != 0:
        raise OSError(ctypes.get_errno(), "setns")
    os.close(file)


# ---- those who read, and those who flood


def read(port, names, pipe):
    """Logs the readers in, and reads until it is told to stop; answers how many were lost."""
    signal.signal(signal.SIGINT, signal.SIG_IGN)
    clients = []
    for number in range(READERS):
        host = "127.0.0.1"
        if names:
            enter(names[number % len(names)])
            host = f"10.213.{number % len(names)}.1"
        clients.append(Client(port, 10, host=host).log_in(600_000 + number))
    pipe.send([client.sid for client in clients])
    lost, taken, end = 0, 0, time.monotonic() + 1800
    open_ones = {client.socket: client for client in clients}
    for it in open_ones:
        it.setblocking(False)
    while open_ones and not pipe.poll() and time.monotonic() < end:
        for it in select.select(open_ones, [], [], 0.05)[0]:
            try:
                more = it.recv(1 << 18)
            except BlockingIOError:
                continue
            except OSError:
                more = b""
            taken += len(more)
            if not more:
                lost += 1
                del open_ones[it]
    pipe.send({"lost": lost, "taken": taken})


class Flooder:
    """A client that says as much as is taken, and reads."""

    def __init__(self, port, number):
        client = Client(port).log_in(700_000 + number)
        self.socket, self.sid, self.is_gone, self.taken = client.socket, client.sid, False, 0
        self.socket.setblocking(False)

    def begin(self, length, target):
        front = b"DMSG %s %s " % (self.sid, target) if target else b"BMSG %s " % self.sid
        line = front + b"x" * (length - len(front) - 1) + b"\n"
        self.block = memoryview(line * max(1, 32_768 // length))
        self.at = 0

    def step(self):
        try:
            self.at = (self.at + self.socket.send(self.block[self.at :])) % len(self.block)
        except BlockingIOError:
            pass
        except OSError:
            self.is_gone = True

    def read(self):
        try:
            more = self.socket.recv(1 << 18)
            self.taken += len(more)
            self.is_gone |= not more
        except BlockingIOError:
            pass
        except OSError:
            self.is_gone = True


def flood(port, count, lengths, seconds, target, pipe):
    """Floods with lines of each length for so long; answers how much came back, and how many were lost."""
    signal.signal(signal.SIGINT, signal.SIG_IGN)
    flooders = [Flooder(port, number) for number in range(count)]
    for length in lengths:
        # What was begun is ended, so that each line is one.
        until, begun = time.monotonic() + seconds, []
        for it in flooders:
            it.begin(length, target)
        while time.monotonic() < until + 5:
            if time.monotonic() < until:
                begun = [it for it in flooders if not it.is_gone]
            else:
                begun = [it for it in flooders if not it.is_gone and it.at]
                if not begun:
                    break
            open_ones = {it.socket: it for it in flooders if not it.is_gone}
            readable, writable, _ = select.select(open_ones, [it.socket for it in begun], [], 0.05)
            for it in readable:
                open_ones[it].read()
            for it in writable:
                open_ones[it].step()
    pipe.send({"gone": sum(it.is_gone for it in flooders), "taken": sum(it.taken for it in flooders)})


def beside(work, *words):
    """Has a process do this, and gives it and its pipe."""
    here, there = multiprocessing.Pipe()
    process = multiprocessing.Process(target=work, args=(*words, there), daemon=True)
    process.start()
    return process, here


def answer(worker, seconds):
    process, pipe = worker
    try:
        return pipe.recv() if pipe.poll(seconds) else None
    except (OSError, EOFError):
        return None


def end(worker):
    process, _ = worker
    process.join(2)
    if process.is_alive():
        process.kill()


# ---- rows


def play_flood(table, net, kind, count, threads, lengths, seconds):
    """Who floods beside who reads, over one network."""
    name = f"flood by {count}, {kind}, {net.name}, {lengths[0]} to {lengths[-1]} bytes" if len(lengths) > 1 else f"flood by {count}, {kind}, {net.name}, {lengths[0]} bytes"
    if not table.wants(name):
        return
    with links_of(net) as names:
        if names is None:
            print(f"{name}: not played")
            table.failed += 1
            return
        for attempt in range(1 + AGAIN):
            if flood_once(table, name, net, kind, count, threads, lengths, seconds, names, attempt == AGAIN):
                return


def flood_once(table, name, net, kind, count, threads, lengths, seconds, names, is_last):
    """Whether the row is written: it is not where all are there, and it was the machine that let them wait."""
    began = time.monotonic()
    settings(threads, 64, host="0.0.0.0" if names else "127.0.0.1")
    table.machine.begin()
    hub = Hub([table.options.program, "serve", "hub.toml"])
    workers = []
    try:
        if not hub.listens():
            raise Gone("the hub does not listen")
        readers = beside(read, hub.port, names)
        workers.append(readers)
        sids = answer(readers, 30)
        if not sids:
            raise Gone("the readers were not admitted")
        friends = friends_of(hub.port)
        flooders = beside(flood, hub.port, count, lengths, seconds, sids[0] if kind == "DMSG" else None)
        workers.append(flooders)
        flooded = answer(flooders, (seconds + 6) * len(lengths) + 10) or {"gone": count, "taken": 0}
        told = told_by(friends)
        with contextlib.suppress(OSError):
            readers[1].send("stop")
        heard = answer(readers, 10) or {"lost": READERS, "taken": 0}
        is_alive, is_served = hub.status() is None, serves(hub.port)
        is_well = is_alive and is_served and not heard["lost"] and not told["lost"] and not told["gone"] and not flooded["gone"]
        late, still = told["longest"] > LONGEST, table.machine.stood_still()
        if is_well and late and still >= STOOD_STILL and not is_last:
            print(f"{name}: {told['longest'] * 1000:.0f} ms, but the machine stood still for {still * 1000:.0f}; once more", flush=True)
            return False
        yes = lambda it: "yes" if it else "no"
        gone = f"{heard['lost']} readers, {told['gone']} friends, {flooded['gone']} who flood"
        cells = [yes(is_alive), yes(is_served), gone, told["lost"], f"{told['longest'] * 1000:.0f}", f"{hub.megabytes() or 0:.1f}"]
        more = f" ({heard['taken'] / 1e6:.0f} MB read, machine {still * 1000:.0f} ms)"
        table.row(name + more, threads, began, cells, is_well and not late)
    except (OSError, Gone) as error:
        table.row(f"{name}: {error}", threads, began, ["no"] * 6, False)
    finally:
        hub.stop()
        for it in workers:
            end(it)
    return True


# ---- a kick's reason


def hears_why(port, names, number):
    """Whether one behind a slow link, with 400 KB on the way, hears all and why it was kicked although it goes on talking."""
    op = operator(port)
    here = os.open("/proc/self/ns/net", os.O_RDONLY)
    enter(names[0])
    bob = Client(port, 10, host="10.213.0.1").log_in(500_001 + number, b"bob")
    ctypes.CDLL(None).setns(here, NEWNET)
    os.close(here)
    op.hear(b"BINF " + bob.sid)
    for _ in range(200):
        op.say(b"DMSG %s %s %s\n" % (op.sid, bob.sid, b"x" * 2000))
    op.say(b"HMSG !kick\\sbob\\sgo\n")
    op.hear(b"IQUI " + bob.sid)
    op.close()
    heard, until = bob.rest, time.monotonic() + 20
    try:
        while time.monotonic() < until:
            if select.select([bob.socket], [], [], 0.005)[0]:
                more = bob.socket.recv(1 << 16)
                if not more:
                    break
                heard += more
            with contextlib.suppress(OSError):
                bob.socket.send(b"BMSG %s still\\shere\n" % bob.sid)
    except OSError:
        pass
    bob.close()
    return heard.count(b"DMSG ") == 200 and b"\nIQUI %s " % bob.sid in heard


def play_reason(table, times):
    name = "a kick's reason behind 1 Mbit/s"
    if not table.wants(name):
        return
    with links_of(Net("1 Mbit/s", 1, 1)) as names:
        if names is None:
            print(f"{name}: not played")
            table.failed += 1
            return
        began, arrived = time.monotonic(), 0
        settings(2, 64, OPERATOR, host="0.0.0.0")
        hub = Hub([table.options.program, "serve", "hub.toml"])
        try:
            hub.listens()
            for number in range(times):
                arrived += hears_why(hub.port, names, number)
            cells = ["yes" if hub.status() is None else "no", f"{arrived} of {times} arrive", "", "", "", f"{hub.megabytes() or 0:.1f}"]
            table.row(name, 2, began, cells, arrived == times and serves(hub.port))
        except (OSError, Gone) as error:
            table.row(f"{name}: {error}", 2, began, ["no"] * 6, False)
        finally:
            hub.stop()


def floods(table):
    """All floods, or with --short four of them."""
    if table.options.against:
        return
    play_reason(table, 1 if table.options.short else 10)
    if table.options.short:
        play_flood(table, LOOPBACK, "BMSG", 1, 2, (2100, 65_000), 0.6)
        play_flood(table, LOOPBACK, "DMSG", 5, 4, (2100, 65_000), 0.6)
        play_flood(table, NETS[3], "BMSG", 5, 2, (60, 4000), 0.6)
        play_flood(table, NETS[1], "BMSG", 1, 1, (2100,), 0.8)
        return
    for net in NETS:
        for kind in ("BMSG", "DMSG"):
            for count in (1, 5):
                for threads in (1, 2, 4):
                    play_flood(table, net, kind, count, threads, LENGTHS, 1.0)
