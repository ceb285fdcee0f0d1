"""What the tests share: the command run, files made of the demo's, and the count."""
import csv
import hashlib
import os
import re
import shutil
import sqlite3
import struct
import subprocess
import sys
import tempfile

HERE = os.path.dirname(os.path.realpath(__file__))
ROOT = os.path.dirname(os.path.dirname(HERE))
sys.path.insert(0, ROOT)

from dig import bounds

COMMAND = os.environ.get("VISKORREL_COMMAND", os.path.join(ROOT, "viskorrel"))
STAMP = re.compile(r"\ADIG LIST\n(?:.+\n)+\n")


def point(x, y, z, srid=32633):
    return struct.pack("<2sBBiBI3d", b"GP", 0, 1, srid, 1, 1001, x, y, z)


def run(*words, **more):
    return subprocess.run([COMMAND, *words], capture_output=True, text=True, stdin=subprocess.DEVNULL, **more)


def told(done):
    return f"status {done.returncode}\n{done.stdout}{done.stderr}"


def body(stdout):
    """The list without its stamp, whose date and sums differ from run to run."""
    return STAMP.sub("", stdout, count=1)


def rows(path):
    with open(path, newline="") as file:
        return list(csv.DictReader(file))


def content(path):
    with open(path, "rb") as file:
        return file.read()


def sha256(path):
    return hashlib.sha256(content(path)).hexdigest()


def ogr(*words):
    """A program of GDAL; its absence is a failure, not a reason to pass."""
    try:
        return subprocess.run(words, capture_output=True, text=True, stdin=subprocess.DEVNULL, timeout=120)
    except FileNotFoundError:
        return subprocess.CompletedProcess(words, 127, "", f"{words[0]} is not there (Debian: gdal-bin)")


class Tests:
    """A folder with the demo's file in it, and the count of what passed."""

    def __init__(self):
        self.passed = self.failed = self.files = 0
        self.folder = tempfile.mkdtemp(prefix="viskorrel-test")
        self.demo = run("demo", os.path.join(self.folder, "demo"))
        self.whole = os.path.join(self.folder, "demo", "corridor.gpkg")
        if self.demo.returncode != 0:
            raise SystemExit(told(self.demo))

    def close(self):
        shutil.rmtree(self.folder)

    def check(self, name, holds, why=""):
        if holds:
            self.passed += 1
        else:
            self.failed += 1
            print(f"FAILED {name}", why, sep="\n", flush=True)

    def path(self, end=".gpkg"):
        self.files += 1
        return os.path.join(self.folder, f"file{self.files}{end}")

    def changed(self, *statements, source=None, path=None):
        """A copy of the demo's file, or of another, after some SQL."""
        path = path or self.path()
        shutil.copyfile(source or self.whole, path)
        file = sqlite3.connect(path)
        bounds.functions(file)
        for statement, *values in statements:
            file.execute(statement, values)
        file.commit()
        file.close()
        return path

    def no_list(self, name, path, *lines, options=()):
        """Status 1, the errors as given, nothing on stdout and no file written."""
        outputs = [f"{path}.{form}" for form in ("csv", "svg")]
        done = run(path, "--csv", outputs[0], "--svg", outputs[1], *options)
        self.check(name, done.returncode == 1 and done.stdout == "" and not any(map(os.path.exists, outputs))
                   and done.stderr.splitlines() == [f"error: {line}" for line in lines] + ["No dig list."], told(done))

    def refused(self, name, path, *words, options=()):
        """Status 1, no list, and all the words among the errors."""
        done = run(path, *options)
        self.check(name, done.returncode == 1 and done.stdout == "" and all(word in done.stderr for word in words)
                   and "error: " in done.stderr and "Traceback" not in done.stderr, told(done))
