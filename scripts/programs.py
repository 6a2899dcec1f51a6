"""Which built programs there are, and whether they were built from the sources as they are now. This needs no toolchain."""

import contextlib
import hashlib
import os
import re

TOP = os.path.dirname(os.path.dirname(os.path.abspath(__file__)))
LIST = f"{TOP}/crates.txt"
PARTS = ("src", "specs", "proofs")


def rows():
    """Returns for each crate its line of crates.txt, and the crates that it stands on directly."""
    found = {}
    with open(LIST, encoding="utf-8") as it:
        for line in it:
            line = line.partition("#")[0].strip()
            if line:
                head, _, deps = line.partition(":")
                found[head.split()[0]] = line, re.split(r"[\s,]+", deps.strip())
    return found


def crates_of(name):
    """Returns the lines of crates.txt of this crate and of all that it stands on, by name."""
    known, found, left = rows(), {}, [name]
    while left:
        it = left.pop()
        if it in known and it not in found:
            found[it] = known[it][0]
            left += known[it][1]
    return dict(sorted(found.items()))


def files_of(name):
    """Returns the files that this crate and all that it stands on are built from."""
    found = []
    for crate in crates_of(name):
        for part in PARTS:
            for at, folders, names in os.walk(f"{TOP}/crates/{crate}/{part}"):
                folders.sort()
                found += [f"{at}/{it}" for it in sorted(names)]
    return found


def text_of(fault):
    """Returns what a file could not be used for, as one line: a folder that may not be written, a full disk."""
    return f"{fault.filename}: {fault.strerror}" if fault.filename else f"{fault.strerror}"


def sum_of(path):
    with open(path, "rb") as it:
        return hashlib.sha256(it.read()).hexdigest()


def sum_of_sources(name):
    """Returns one SHA-256 over all that a program is built from."""
    whole = hashlib.sha256(repr(crates_of(name)).encode())
    for file in files_of(name):
        whole.update(f"{os.path.relpath(file, TOP)} {sum_of(file)}\n".encode())
    return whole.hexdigest()


def proved_path(name):
    return f"{TOP}/crates/{name}/out/{name}"


def unproved_path(name):
    return f"{TOP}/crates/{name}/out/unproved/{name}"


def record(path, sources):
    """Notes beside a program of which sources it was built, and its own SHA-256."""
    with open(f"{path}.of.part", "w", encoding="utf-8") as it:
        it.write(f"{sources} {sum_of(path)}\n")
    os.replace(f"{path}.of.part", f"{path}.of")


def recorded(path):
    """Returns the SHA-256 of the sources that this program was built from, or nothing if no record is about this program."""
    with contextlib.suppress(OSError, ValueError), open(f"{path}.of", encoding="utf-8") as it:
        sources, program = it.read().split()
        return sources if program == sum_of(path) else None


def is_newest(path, name):
    """Returns whether a program is newer than all that it is built from: `rt ci` leaves no record beside the programs that it proved."""
    made = os.stat(path).st_mtime
    return all(os.stat(it).st_mtime < made for it in [LIST, *files_of(name)])


def proved(name):
    """Returns the path of the proved program of the sources as they are now, or nothing."""
    path = proved_path(name)
    if not os.access(path, os.X_OK):
        return None
    of = recorded(path)
    fits = of == sum_of_sources(name) if of else is_newest(path, name)
    return path if fits else None


def unproved(name):
    """Returns the path of the program that was built without proof from the sources as they are now, or nothing."""
    path = unproved_path(name)
    return path if os.access(path, os.X_OK) and recorded(path) == sum_of_sources(name) else None


def built(name):
    """Returns the program that runs, the proved one if it exists: its path, and whether it is proved. Nothing if there is none."""
    path = proved(name)
    if path:
        return path, True
    path = unproved(name)
    return (path, False) if path else None
