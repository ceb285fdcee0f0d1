"""The proved library: its archive by `rt`, and the shared object of the archive and of shared/ (batches, words).

Each is made anew where what it is made of has changed, by content: beside each stands a file with the sum of that and its own.

  python3 -m dig.build     builds both, from the repository's top folder
"""
import contextlib
import fcntl
import glob
import hashlib
import os
import re
import shutil
import signal
import subprocess
import sys
import time

from dig.problems import Problems
from dig.ready import ARCHIVE, INSTALLED, LISTING, ROOT, SHARED, TARGET
from viskorrel import LibraryMissing, load
from viskorrel._library import VARIABLE

CRATE = os.path.join(ROOT, "crates", "viskorrel")
MADE = os.path.join(CRATE, "out", "libviskorrel.a")  # where rt leaves it
LOG = os.path.join(TARGET, "build.log")  # the prover's lines
DEMO = "viskorrel-demo" if INSTALLED else os.path.join(TARGET, "demo")
TICK = 20  # seconds between signs of life
WORDS = ("lib", "--cpu", "x86-64")  # any of them: rt's own choice is x86-64-v2
COMMAND = f"rt {' '.join(WORDS)}, in crates/viskorrel,"
EACH = 1000  # what a crate costs beside its code, in bytes of code: the estimate of the time left


def library(named=None):
    """The path of the shared object: the one that is named (--library, VISKORREL_LIBRARY), the installed one, or the repository's own,
    built where that is due."""
    if named or os.environ.get(VARIABLE) or INSTALLED:
        try:
            return load(named).path
        except LibraryMissing as fault:
            raise Problems(str(fault)) from None
    os.makedirs(TARGET, exist_ok=True)
    with alone():
        prove()
        link()
    return SHARED


@contextlib.contextmanager
def alone():
    """One build at a time."""
    with open(os.path.join(TARGET, "build.lock"), "w") as file:
        try:
            fcntl.flock(file, fcntl.LOCK_EX | fcntl.LOCK_NB)
        except BlockingIOError:
            say("Another build is going on; this one waits for it.")
            fcntl.flock(file, fcntl.LOCK_EX)
        yield


# ---- The archive ----


def crates():
    """The crate viskorrel and all that it stands on, near or far, each with its own line of crates.txt; in the order in which rt builds them."""
    listed, reached = {}, {}
    with open(LISTING) as lines:
        for line in lines:
            name, colon, needs = line.partition("#")[0].partition(":")
            if colon:
                name, *kind = name.split()
                listed[name] = [*kind, ":", *needs.split()]

    def reach(name):
        if name in listed and name not in reached:  # others are libraries of the kit
            words = listed[name]
            for need in words[words.index(":") + 1:]:
                reach(need)
            reached[name] = words

    reach("viskorrel")
    return reached


def files(crate, rooms=("specs", "src", "proofs")):
    return sorted(os.path.join(folder, file) for room in rooms
                  for folder, _, names in os.walk(os.path.join(ROOT, "crates", crate, room)) for file in names)


def of_sources(lines):
    """One sum over the crates: their lines of crates.txt, their files."""
    return total(*(part for crate in sorted(lines) for part in (
        " ".join([crate, *lines[crate]]).encode(),
        *(part for path in files(crate) for part in (os.path.relpath(path, ROOT).encode(), content(path))))))


def prove():
    """Proves and builds the archive, if it is not there or was made of something else."""
    lines = crates()
    made_of = of_sources(lines)
    if is_made_of(ARCHIVE, made_of):
        return
    known = "was made of other sources" if os.path.exists(ARCHIVE) else "is not there"
    say(f"The library {known}: {COMMAND} proves and builds it (what was proved before is not proved again; from nothing it takes long).")
    if shutil.which("rt") is None:
        raise Problems("rt is not on the path: the Rattle kit is needed to prove and build the library",
                       "a library that was built elsewhere is taken with --library PATH or VISKORREL_LIBRARY")
    forget(ARCHIVE)
    with contextlib.suppress(FileNotFoundError):
        os.remove(MADE)
    start = time.monotonic()
    run(Progress({crate: EACH + sum(map(os.path.getsize, files(crate, ["src"]))) for crate in lines}))
    if not os.path.exists(MADE):
        raise Problems(f"{COMMAND} made no archive; its lines are in {LOG}")
    os.makedirs(os.path.dirname(ARCHIVE), exist_ok=True)
    shutil.copyfile(MADE, ARCHIVE)
    if of_sources(crates()) != made_of:
        raise Problems("the sources changed while they were proved: what was built is perhaps of neither; build again")
    remember(ARCHIVE, made_of)
    say(f"Proved and built in {spent(time.monotonic() - start)}.")


def run(progress):
    """Runs rt; its lines go to the log, what they tell of the crates is shown."""
    with heard() as stopped, open(LOG, "w", encoding="utf-8") as log, open(LOG, encoding="utf-8", errors="replace") as lines:
        process = subprocess.Popen(["rt", *WORDS], cwd=CRATE, stdin=subprocess.DEVNULL, stdout=log, stderr=log,
                                   start_new_session=True)  # so that all of it can be ended
        while process.poll() is None:
            if stopped:
                os.killpg(process.pid, signal.SIGTERM)
                process.wait()
                raise KeyboardInterrupt
            with contextlib.suppress(subprocess.TimeoutExpired):
                process.wait(timeout=0.5)
            progress.read(lines.read())
            progress.sign()
        progress.read(lines.read())
    if stopped:
        raise KeyboardInterrupt
    progress.end()
    if process.returncode != 0:
        raise Problems(f"{COMMAND} failed with status {process.returncode}; its lines are in {LOG}", *progress.failures)


@contextlib.contextmanager
def heard():
    """Signs to stop are noted, not raised: one that came while rt is being started would leave it running."""
    came, before = [], {}
    for sign in (signal.SIGINT, signal.SIGTERM):
        if signal.getsignal(sign) != signal.SIG_IGN:
            before[sign] = signal.signal(sign, lambda number, _: came.append(number))
    try:
        yield came
    finally:
        for sign, handler in before.items():
            signal.signal(sign, handler)


class Progress:
    """Crate n of N and about how long it still takes, from rt's lines. It takes one crate after the other, and is silent of what it proved before."""

    STARTED = re.compile(r"rt: chose --jobs \d+ for (\w+)")
    UNPROVED = re.compile(r"(?:fn|struct|impl) (\S+): (?:not proved|no proof)\b")

    def __init__(self, weights):
        self.weights = weights
        self.left = dict(weights)
        self.proving = None
        self.pace = 0  # seconds for each unit of weight, of the crates that were proved in this run
        self.proved_now = 0  # their weight
        self.failures = []
        self.rest = ""
        self.start = self.shown = self.last = time.monotonic()
        self.on_terminal = sys.stderr.isatty()

    def read(self, text):
        *lines, self.rest = (self.rest + text).split("\n")
        for line in lines:
            started, unproved = self.STARTED.fullmatch(line), self.UNPROVED.match(line)
            if started:
                self.started(started[1])
            elif line.startswith("logic=proved "):
                self.passed()
            elif unproved:
                self.failures.append(f"{unproved[1]} is not proved")
            elif line.startswith("rt: "):
                self.failures.append(line)

    def started(self, crate):
        """What comes before it in rt's order and was not told of was proved by an earlier run."""
        self.proving = crate
        for before in list(self.left):
            if before == crate:
                break
            del self.left[before]

    def passed(self):
        weight = self.left.pop(self.proving, 0)
        if weight:
            self.proved_now += weight
            self.last = time.monotonic()
            self.pace = (self.last - self.start) / self.proved_now
            self.show(f"{self.proving} proved")

    def sign(self):
        """A sign of life: in place on a terminal, else now and then."""
        if time.monotonic() - self.shown >= (1 if self.on_terminal else TICK):
            self.show(f"proving {self.proving}" if self.proving in self.left else "proving")

    def show(self, what):
        self.shown = time.monotonic()
        done = len(self.weights) - len(self.left)
        line = f"  crate {done} of {len(self.weights)}: {what}; {spent(self.shown - self.start)}{self.time_left()}"
        if self.on_terminal:
            print(f"\r\033[K{line}", end="", file=sys.stderr, flush=True)
        else:
            say(line)

    def time_left(self):
        if not self.left or self.proved_now < sum(self.weights.values()) / 20:  # too little to tell
            return ""
        seconds = self.pace * sum(self.left.values()) - (self.shown - self.last)
        return f", about {spent(max(10, round(seconds, -1)))} left"

    def end(self):
        if self.on_terminal:
            print(file=sys.stderr)


# ---- The shared object ----


def link():
    """Links the shared object, if it is not there or was made of something else."""
    command = link_command()
    parts = sorted(glob.glob(os.path.join(ROOT, "shared", "*")) + glob.glob(os.path.join(ROOT, "include", "*.h")))
    made_of = total(" ".join(command).encode(), *map(content, [ARCHIVE, *parts]))
    if is_made_of(SHARED, made_of):
        return
    if shutil.which(command[0]) is None:
        raise Problems(f"no C compiler {command[0]}: it is needed to link the library (CC names another)")
    unfinished = f"{SHARED}.{os.getpid()}"
    try:
        done = subprocess.run([*command, "-o", unfinished], stdin=subprocess.DEVNULL, capture_output=True, text=True)
        if done.returncode != 0:
            raise Problems(f"{command[0]} could not link the library", *done.stderr.splitlines())
        forget(SHARED)
        os.replace(unfinished, SHARED)
    finally:
        if os.path.exists(unfinished):
            os.remove(unfinished)
    remember(SHARED, made_of)


def link_command():
    shared = os.path.join(ROOT, "shared")
    return [os.environ.get("CC", "cc"), "-std=c99", "-O2", "-Wall", "-Wextra", "-fPIC", "-fvisibility=hidden", "-shared",
            "-Wl,-soname,libviskorrel.so.2", "-Wl,-z,noexecstack", f"-Wl,--version-script={os.path.join(shared, 'exports.map')}",
            "-I", os.path.join(ROOT, "include"), *(os.path.join(shared, file) for file in ("batch.c", "measure.c", "words.c")),
            "-Wl,--whole-archive", ARCHIVE, "-Wl,--no-whole-archive"]


# ---- What a file was made of ----


def is_made_of(file, made_of):
    """Whether a file is there, as it was made, and made of this."""
    try:
        return content(record(file)).decode().split() == [made_of, total(content(file))]
    except FileNotFoundError:
        return False


def remember(file, made_of):
    with open(record(file), "w") as out:
        out.write(f"{made_of} {total(content(file))}\n")


def forget(file):
    with contextlib.suppress(FileNotFoundError):
        os.remove(record(file))


def record(file):
    return f"{file}.made-of"


def content(path):
    with open(path, "rb") as file:
        return file.read()


def total(*parts):
    """One sum over parts, each by its own sum, so that no two lists of parts run together."""
    return hashlib.sha256(b"".join(hashlib.sha256(part).digest() for part in parts)).hexdigest()


# ---- Words ----


def spent(seconds):
    return f"{seconds:.0f} s" if seconds < 100 else f"{seconds // 60:.0f} min {seconds % 60:02.0f} s"


def say(line):
    print(line, file=sys.stderr, flush=True)


if __name__ == "__main__":
    try:
        print(library())
    except Problems as problems:
        sys.exit("\n".join(f"error: {line}" for line in problems.lines))
    except KeyboardInterrupt:
        sys.exit("\nStopped.")
