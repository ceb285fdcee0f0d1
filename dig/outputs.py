"""The files that a run writes: all of them or none, and none of an earlier run left where it would look current."""
import os

from dig.opening import ASIDE, MAGIC
from dig.problems import Problems

EARLIER = ".earlier"


class Outputs:
    """In a `with`: `add` each file as it is ready, `publish` all at the end. Any failure undoes all, and tells so in its `told`."""

    def __init__(self, paths, inputs, ours=lambda path: False):
        """`ours`: whether an SQLite file may be replaced. It is somebody's data, unless it is a list."""
        self.paths, self.set_aside_paths, self.ready, self.new, self.faults = [], [], [], [], []
        foreign = [path + end for path in inputs for end in ("",) + ASIDE]
        taken = []
        for path in paths:
            clash = next((other for other in foreign + taken if same(path, other)), None)
            if clash is not None:
                self.faults.append(f"{path}: an output must be a file of its own, not {clash}")
            elif is_database(path) and not ours(path):
                self.faults.append(f"{path}: is there and is an SQLite file, no dig list of viskorrel: it is left alone")
            else:
                self.paths.append(path)
                taken += [path, path + EARLIER]

    def __enter__(self):
        """Outputs of an earlier run are set aside first, whatever fails then."""
        try:
            self.set_aside()
            if self.faults:
                raise Problems(*self.faults)
        except BaseException as fault:
            fault.told = self.told()
            raise
        return self

    def __exit__(self, kind, fault, trace):
        if fault is None:
            self.finish()
        else:
            self.undo()
            fault.told = self.told()

    def set_aside(self):
        """Outputs of an earlier run get another name before anything else can fail."""
        for path in list(self.paths):
            if os.path.lexists(path) and not os.path.isfile(path):
                self.paths.remove(path)
                self.faults.append(f"{path}: is there and is no regular file: it is left alone")
            elif os.path.lexists(path):
                os.replace(path, path + EARLIER)
                self.set_aside_paths.append(path)

    def add(self, path, make):
        """`make` writes the file under a name that it is given."""
        unfinished = f"{path}.{os.getpid()}"
        self.ready.append((unfinished, path))
        try:
            make(unfinished)
            descriptor = os.open(unfinished, os.O_RDONLY)
            try:
                os.fsync(descriptor)
            finally:
                os.close(descriptor)
        except OSError as fault:
            raise Problems(f"{path}: cannot be written: {fault.strerror or fault}") from fault

    def text(self, path, content):
        def make(unfinished):
            with open(unfinished, "w", encoding="utf-8", newline="") as file:
                file.write(content)
        self.add(path, make)

    def bytes(self, path, content):
        def make(unfinished):
            with open(unfinished, "wb") as file:
                file.write(content)
        self.add(path, make)

    def publish(self):
        for unfinished, path in self.ready:
            os.replace(unfinished, path)
            self.new.append(path)

    def undo(self):
        """After a failure: nothing new stays."""
        for unfinished, path in self.ready:
            for leftover in (unfinished, unfinished + "-journal", path if path in self.new else None):
                if leftover and os.path.lexists(leftover):
                    os.remove(leftover)

    def finish(self):
        """After success: what was set aside, by this run or by a failed one before it, is replaced."""
        for path in self.paths:
            if os.path.lexists(path + EARLIER):
                os.remove(path + EARLIER)

    def told(self):
        """What to say after a failure."""
        return [f"{path} of an earlier run is now {path}{EARLIER}" for path in self.set_aside_paths]


def same(path, other):
    if os.path.realpath(path) == os.path.realpath(other):
        return True
    try:
        return os.path.samefile(path, other)
    except OSError:
        return False


def is_database(path):
    try:
        with open(path, "rb") as file:
            return file.read(len(MAGIC)) == MAGIC
    except OSError:
        return False
