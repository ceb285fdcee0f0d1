"""The library at hand: where nothing that it is made of was touched since the last run, nothing is read or built (dig/build.py does that)."""
import hashlib
import os

from viskorrel._library import VARIABLE

ROOT = os.path.dirname(os.path.dirname(os.path.realpath(__file__)))
LISTING = os.path.join(ROOT, "crates.txt")
TARGET = os.path.join(ROOT, "target")
SHARED = os.path.join(TARGET, "libviskorrel.so")
ARCHIVE = os.path.join(TARGET, "staticlib", "libviskorrel.a")
SEEN = os.path.join(TARGET, "build.seen")
SOURCES = ("crates", "shared", "include")
INSTALLED = not os.path.exists(LISTING)


def library(named=None):
    """The path of the shared object, as dig.build.library has it."""
    own = not (named or os.environ.get(VARIABLE) or INSTALLED)
    if own and untouched():
        return SHARED
    from dig import build
    before = stamps(sources()) if own else None  # what is changed from here on was perhaps not read
    path = build.library(named)
    if own:
        with open(SEEN, "w") as file:
            file.write(seen(before))
    return path


def untouched():
    try:
        with open(SEEN) as file:
            return file.read() == seen(stamps(sources()))
    except FileNotFoundError:
        return False


def seen(of_sources):
    """A sum over all that the library is made of, and over what was made."""
    return hashlib.sha256(repr((os.environ.get("CC"), of_sources, stamps([SHARED, ARCHIVE]))).encode()).hexdigest()


def sources():
    """The files that the library is made of, and some more."""
    found, folders = [LISTING], [os.path.join(ROOT, name) for name in SOURCES]
    while folders:
        for entry in os.scandir(folders.pop()):
            if not entry.is_dir():
                found.append(entry.path)
            elif entry.name not in ("must-fail", "out"):  # no part of the library; what rt makes
                folders.append(entry.path)
    return found


def stamps(paths):
    """Names, sizes and times of files. The time of a file's last change can't be set back."""
    found = sorted((path, os.stat(path)) for path in paths)
    return [(path, stat.st_ino, stat.st_size, stat.st_mtime_ns, stat.st_ctime_ns) for path, stat in found]
