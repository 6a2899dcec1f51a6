"""Builds programs without proof: compiled and optimised, but nothing is checked beyond what a compiler of Rust checks. What is built stands
in crates/NAME/out/unproved.

The kit compiles without proof only for `rt try`, whose tool reads all sources and calls a `clang` for machine code. Here that tool is given a
`clang` of our own, which keeps the module it is handed and ends. The kit's clang then compiles that module, optimised. Two thirds of its
functions are never called; linked into an empty module they are left out, and with -O1 in place of -O2 that saves a third of the compiler's time."""

import contextlib
import fcntl
import os
import subprocess
import sys
import tempfile
import threading
import time
from concurrent.futures import Future

import kit
import programs
import progress

# What such a build of the hub takes on a quiet machine, in seconds, and which part of that it reads the sources.
TAKES, READING = 100, 0.5
# Words of the tool for clang that do not fit an optimised build without its checks.
UNWANTED = ("-O0", "-Werror", "-fsanitize=address")
# The tool first asks clang for a tiny module, to see that it works; the real one is to have the checks of AddressSanitizer.
CLANG = """#!/bin/sh
case " $* " in *" -fsanitize=address "*) ;; *) exec '{real}' "$@" ;; esac
printf '%s\\n' "$@" >'{room}/words.part'
cp module.bc '{room}' && mv '{room}/words.part' '{room}/words'
exit 1
"""


class Failed(Exception):
    pass


class Build:
    """A build of one program, in a folder of its own."""

    def __init__(self, rtlib, crate, room):
        self.rtlib, self.crate, self.room = rtlib, crate, f"{room}/{crate.name}"
        # What it does, and how many seconds it read the sources.
        self.step, self.begun, self.read_for = "reading the sources", time.monotonic(), None

    def run(self):
        sources = programs.sum_of_sources(self.crate.name)
        path = programs.unproved_path(self.crate.name)
        self.make_toolchain()
        with open(f"{os.path.dirname(path)}/build.log", "w", encoding="utf-8") as log:
            how = {"stdin": subprocess.DEVNULL, "stdout": log, "stderr": log}
            self.read(how)
            # What the tool says of its clang's end would mislead.
            log.truncate(log.seek(0))
            self.compile(how)
            self.link(how, path, sources)

    def make_toolchain(self):
        """Makes a folder that is the kit's toolchain but for its clang."""
        real = kit.toolchain_of(self.rtlib)
        os.makedirs(f"{self.room}/toolchain/bin")
        os.symlink(f"{real}/lib", f"{self.room}/toolchain/lib")
        for it in os.listdir(f"{real}/bin"):
            if it != "clang":
                os.symlink(f"{real}/bin/{it}", f"{self.room}/toolchain/bin/{it}")
        clang = f"{self.room}/toolchain/bin/clang"
        with open(clang, "w", encoding="utf-8") as it:
            it.write(CLANG.format(real=f"{real}/bin/clang", room=self.room))
        os.chmod(clang, 0o755)

    def read(self, how):
        """Has the kit's tool make one module of all sources. It ends with an error, since its clang does."""
        words = kit.try_words(self.rtlib, self.crate, f"{self.room}/toolchain")
        # What the tool writes on the way goes with the folder.
        subprocess.run(words, cwd=self.crate.folder, env={**os.environ, "TMPDIR": self.room}, **how)
        if not os.path.exists(f"{self.room}/words"):
            raise Failed

    def compile(self, how):
        self.step, self.read_for = "compiling", time.monotonic() - self.begun
        with open(f"{self.room}/words", encoding="utf-8") as it:
            words = [word for word in it.read().split("\n")[:-1] if word not in UNWANTED]
        with open(f"{self.room}/empty.ll", "w", encoding="utf-8"):
            pass
        words[words.index("module.bc")] = "empty.ll"
        words += ["-O1", "-Xclang", "-mlink-bitcode-file", "-Xclang", "module.bc"]
        words = [*self.rtlib.guarded(), f"{kit.toolchain_of(self.rtlib)}/bin/clang", *words]
        if subprocess.run(words, cwd=self.room, **how).returncode:
            raise Failed

    def link(self, how, path, sources):
        self.step = "linking"
        words = kit.link_words(self.rtlib, f"{self.room}/program", f"{self.room}/module.o")
        if subprocess.run(words, cwd=self.room, **how).returncode:
            raise Failed
        # A copy of another file system would not be put there at once.
        part = f"{path}.part"
        with open(f"{self.room}/program", "rb") as made, open(part, "wb") as it:
            it.write(made.read())
        os.chmod(part, 0o755)
        os.replace(part, path)
        if programs.sum_of_sources(self.crate.name) == sources:
            programs.record(path, sources)


def start(build):
    ended = Future()

    def work():
        try:
            ended.set_result(build.run())
        except BaseException as fault:
            ended.set_exception(fault)

    threading.Thread(target=work, daemon=True).start()
    return ended


def text_of(who, build):
    """Returns the line that says how far this build is. How long it has read tells how long it compiles."""
    spent = time.monotonic() - build.begun
    whole = build.read_for / READING if build.read_for else max(TAKES, spent / READING)
    return f"{who}: {progress.clock(spent)}, {progress.left(whole - spent)}: {build.step}"


def build_all(rtlib, who, names, room):
    """Builds these programs side by side. Returns whether all are built."""
    crates = {it.name: it for it in rtlib.crates_below(programs.TOP) if it.name in names}
    builds = [Build(rtlib, crates[it], room) for it in names]
    # The first is the longest.
    line = progress.Progress(lambda: text_of(who, builds[0]))
    is_well = True
    try:
        for build, ended in [(it, start(it)) for it in builds]:
            with contextlib.suppress(Failed):
                ended.result()
                continue
            log = os.path.relpath(f"{os.path.dirname(programs.unproved_path(build.crate.name))}/build.log", os.getcwd())
            line.say(f"{who}: {build.crate.name} is not built; {log} says why")
            is_well = False
    finally:
        line.close()
    return is_well


@contextlib.contextmanager
def alone(who, names):
    """Waits until no other process builds these programs."""
    folders = [os.path.dirname(programs.unproved_path(it)) for it in sorted(names)]
    for it in folders:
        os.makedirs(it, exist_ok=True)
    held = [os.open(it, os.O_RDONLY) for it in folders]
    try:
        for it in held:
            try:
                fcntl.flock(it, fcntl.LOCK_EX | fcntl.LOCK_NB)
            except BlockingIOError:
                print(f"{who}: waiting for another build to end", file=sys.stderr, flush=True)
                fcntl.flock(it, fcntl.LOCK_EX)
        yield
    finally:
        for it in held:
            os.close(it)


def build(who, names):
    """Builds those of these programs that are not built, the longest first. Returns whether all are built then."""
    rtlib, rooms = kit.load_rtlib(who), []
    progress.end_at_signals(rtlib, who, "the next call begins this build anew", rooms)
    try:
        with alone(who, names), tempfile.TemporaryDirectory(prefix=f"{who}-") as room:
            rooms.append(room)
            # Another process may have built them in the meantime.
            names = [it for it in names if not programs.built(it)]
            if names:
                print(f"{who}: building without proof ({', '.join(names)}), which takes about two minutes", file=sys.stderr, flush=True)
            return not names or build_all(rtlib, who, names, room)
    finally:
        kit.kill_started(rtlib)
        progress.forget_signals()
