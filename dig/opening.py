"""A GeoPackage file opened for reading: nothing is written beside it, and it is known which bytes were read."""
import hashlib
import os
import sqlite3

from dig.problems import Problems

WAIT = 3  # seconds for a lock
MAGIC = b"SQLite format 3\0"
ASIDE = ("-wal", "-shm", "-journal")


class Opened:
    """`file` is the connection, in one read transaction; `sha256` that of the file's bytes; `warnings` what may be wrong with it."""

    def __init__(self, path):
        self.path, self.warnings, self._folder, self.file = path, [], None, None
        try:
            with open(path, "rb") as file:
                head = file.read(100)
        except FileNotFoundError:
            raise Problems(f"{path}: no such file") from None
        except IsADirectoryError:
            raise Problems(f"{path}: is a directory, not a GeoPackage file") from None
        except OSError as fault:
            raise Problems(f"{path}: {fault.strerror}") from None
        if len(head) < 100 or not head.startswith(MAGIC):
            raise Problems(f"{path}: no GeoPackage file (it does not start as an SQLite file)" if head else f"{path}: the file is empty")
        self._before = self._seen()
        try:
            self._open(head[18] == 2 or head[19] == 2)
        except sqlite3.Error as fault:
            self.close()
            raise Problems(self.words(fault)) from fault
        except BaseException:
            self.close()
            raise

    def _open(self, log):
        """`log`: the file is in WAL mode, where SQLite would write beside it to read it."""
        source, options = self.path, "mode=ro"
        if log and os.path.exists(self.path + "-wal") and os.path.getsize(self.path + "-wal") > 0:
            source = self._copied()
        elif log:
            options += "&immutable=1"  # nothing stands in a log, so the file is all; `unchanged` sees a writer
            self.warnings.append(
                f"{self.path} is in WAL mode and has no {os.path.basename(self.path)}-wal beside it: if it was copied while a program had it "
                "open, the last changes stand in that file and are missing here")
        self.file = sqlite3.connect(f"file:{quoted(os.path.abspath(source))}?{options}", uri=True, timeout=WAIT,
                                    isolation_level=None)
        self.file.execute("BEGIN")
        self.file.execute("SELECT count(*) FROM sqlite_master").fetchone()  # from here on no writer can change what is read
        self.sha256 = hashed(self.path)
        self.log_sha256 = hashed(self.path + "-wal") if source != self.path else None
        if source != self.path and (hashed(source), hashed(source + "-wal")) != (self.sha256, self.log_sha256):
            raise Problems(f"{self.path}: another program wrote to the file while it was read; close it there, and run again")
        damage = [row[0] for row in self.file.execute("PRAGMA quick_check(3)")]
        if damage != ["ok"]:
            raise Problems(f"{self.path}: the file is damaged: " + "; ".join(" ".join(line.split()) for line in damage))

    def _copied(self):
        """A copy with its log, in a folder of its own: there SQLite may write."""
        import shutil
        import tempfile
        self._folder = tempfile.mkdtemp(prefix="viskorrel")
        copy = os.path.join(self._folder, "copy.gpkg")
        for end in ("", "-wal"):
            shutil.copyfile(self.path + end, copy + end)
        return copy

    def _seen(self):
        return [(found.st_ino, found.st_size, found.st_mtime_ns) if found else None
                for found in (status(self.path + end) for end in ("", "-wal"))]

    def unchanged(self):
        """To be asked when all is read: a writer in between would make a list of two states."""
        if self._seen() != self._before:
            raise Problems(f"{self.path}: the file changed while it was read; run again")

    def words(self, fault):
        told = str(fault)
        if "locked" in told:
            return f"{self.path}: the file is locked: another program is writing to it; save and close it there, and run again"
        if "malformed" in told or "not a database" in told:
            return f"{self.path}: the file is damaged: {told}"
        if os.path.exists(self.path + "-journal"):
            return (f"{self.path}: a program stopped while it wrote, and {os.path.basename(self.path)}-journal is to undo it ({told}); open and close "
                    "the file in the program that wrote it, in a folder that it may write to, and run again")
        return f"{self.path}: {told}"

    def close(self):
        if self.file:
            self.file.close()
            self.file = None
        if self._folder:
            import shutil
            shutil.rmtree(self._folder, ignore_errors=True)
            self._folder = None


def quoted(path):
    """As the path of a URI: without what would end it there."""
    return path.replace("%", "%25").replace("?", "%3f").replace("#", "%23")


def status(path):
    try:
        return os.stat(path)
    except FileNotFoundError:
        return None


def hashed(path):
    digest = hashlib.sha256()
    with open(path, "rb") as file:
        while block := file.read(1 << 20):
            digest.update(block)
    return digest.hexdigest()
