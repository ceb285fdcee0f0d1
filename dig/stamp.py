"""What every output carries: which file, by which programs, when, with which tolerance, and by which pair rule where it is not 1."""
import datetime
import os
from collections import namedtuple

from dig.opening import hashed
from viskorrel import __version__, library_version

OTHER_RULE = "what passes through a face touches it"

class Stamp(namedtuple("Stamp", "file sha256 log_sha256 made tolerance rule system program library")):
    """`log_sha256` is that of FILE-wal, where the file was read with one, else None."""
    __slots__ = ()

    def rows(self):
        """Name and value of each line, for people."""
        return [("file", self.file), ("SHA-256", self.sha256)] + (
            [("SHA-256 of its -wal", self.log_sha256)] if self.log_sha256 else []) + [
            ("made", self.made), ("tolerance", f"{self.tolerance!r} m"), *([("rule", f"{self.rule}: {OTHER_RULE}")] if self.rule != 1 else []),
            ("system", self.system), ("program", f"viskorrel {self.program}"), ("library", self.library)]

    def columns(self):
        """Name and value of each column, for programs."""
        return [("file", self.file), ("sha256", self.sha256 + (f"+{self.log_sha256}" if self.log_sha256 else "")), ("made", self.made),
                ("tolerance", repr(self.tolerance)), *([("rule", str(self.rule))] if self.rule != 1 else []), ("system", self.system),
                ("program", self.program), ("library", self.library)]

    def line(self):
        return "; ".join(f"{name} {value}" for name, value in self.rows())


def of(opened, tolerance, rule, system, path):
    made = datetime.datetime.now().astimezone().isoformat(" ", "seconds")
    return Stamp(os.path.basename(opened.path), opened.sha256, opened.log_sha256, made, tolerance, rule, system, __version__, library(path))


def library(path):
    """The library's version, and the start of its sum: two builds of one version differ in it."""
    return f"{library_version()}, SHA-256 {hashed(path)[:16]}"
