"""The shared object: where it is, and its functions as ctypes calls them (include/viskorrel.h, viskorrel_batch.h, viskorrel_words.h)."""
import ctypes
import os
import threading

VARIABLE = "VISKORREL_LIBRARY"
NAME = "libviskorrel.so"
SONAME = "libviskorrel.so.2"

NOTHING, ANSWERED, REFUSED, NO_SURFACE = 0, 1, 2, 3
POINT_BYTES, LINE_BYTES = 37, 65
JOIN_BYTES = 17  # beside those of both geometries
COORDINATE_FLOATS, RUN_NUMBERS = 4, 2  # what each takes of a workspace: x, y, z, m; kind and count

size, address = ctypes.c_size_t, ctypes.c_void_p


class Reply(ctypes.Structure):
    _fields_ = [("outcome", ctypes.c_uint32), ("number", ctypes.c_uint32), ("side", ctypes.c_uint32), ("value", ctypes.c_double)]


class Pair(ctypes.Structure):
    _fields_ = [("outcome", ctypes.c_uint32), ("number", ctypes.c_uint32), ("side", ctypes.c_uint32), ("first", size), ("second", size)]


class Root(ctypes.Structure):
    _fields_ = [("root", ctypes.c_double), ("digits", ctypes.c_uint32)]


class BlobList(ctypes.Structure):
    _fields_ = [("blobs", address), ("lengths", address), ("count", size)]


class Elements(ctypes.Structure):
    _fields_ = [("first", address), ("second", address), ("numbers", address), ("numbers_count", size), ("start", size), ("end", size)]


class AnswerArrays(ctypes.Structure):
    _fields_ = [("outcomes", address), ("numbers", address), ("sides", address), ("values", address), ("output", address)]


class NearestArrays(ctypes.Structure):
    _fields_ = [(name, address) for name in ("outcomes", "numbers", "sides", "values", "places", "measured")]


BLOB = [ctypes.c_char_p, size]  # the address of the bytes themselves; they are only read
WORKSPACE = [address, size, address, size]
OUTPUT = [address, size]
LIST = [address, size]
NUMBER = [ctypes.c_double]
RULE = [ctypes.c_uint32]

# each function: what it returns, what it takes
FUNCTIONS = {
    "viskorrel_sizes": (Pair, BLOB),
    "viskorrel_3d_distance": (Reply, BLOB * 2 + RULE + WORKSPACE * 2),
    "viskorrel_3d_max_distance": (Reply, BLOB * 2 + WORKSPACE * 2),
    "viskorrel_3d_intersects": (Reply, BLOB * 2 + RULE + WORKSPACE * 2),
    "viskorrel_3d_dwithin": (Reply, BLOB * 2 + NUMBER + RULE + WORKSPACE * 2),
    "viskorrel_3d_dfully_within": (Reply, BLOB * 2 + NUMBER + WORKSPACE * 2),
    "viskorrel_3d_closest_point": (Reply, BLOB * 2 + RULE + WORKSPACE * 2 + OUTPUT),
    "viskorrel_3d_shortest_line": (Reply, BLOB * 2 + RULE + WORKSPACE * 2 + OUTPUT),
    "viskorrel_3d_longest_line": (Reply, BLOB * 2 + WORKSPACE * 2 + OUTPUT),
    "viskorrel_3d_line_interpolate_point": (Reply, BLOB + NUMBER + WORKSPACE + OUTPUT),
    "viskorrel_read": (Pair, BLOB + WORKSPACE),
    "viskorrel_join": (Pair, BLOB * 2 + OUTPUT),
    "viskorrel_job": (Pair, BLOB + WORKSPACE * 2 + LIST * 3),
    "viskorrel_patch": (Pair, BLOB + [ctypes.c_uint64]),
    "viskorrel_patches": (Pair, BLOB),
    "viskorrel_next_patch": (Pair, BLOB + [size] * 2),
    "viskorrel_root_digits": (Root, NUMBER),
    "viskorrel_batch": (ctypes.c_int, [ctypes.c_uint32] + [address] * 2 + RULE + [address] * 2),
    "viskorrel_boxes": (ctypes.c_int, [address] * 2),
    "viskorrel_nearest": (ctypes.c_int, [address] * 2 + RULE + [address] * 2 + [size] * 2 + [address]),
    "viskorrel_blob_refusal": (Reply, BLOB),
    "viskorrel_version": (ctypes.c_char_p, []),
    "viskorrel_words": (ctypes.c_char_p, [ctypes.c_uint32]),
    "viskorrel_advice": (ctypes.c_char_p, [ctypes.c_uint32] + BLOB),
}


class LibraryMissing(ImportError):
    """The shared object is not there, or is not this one."""


_loaded = None
_loading = threading.Lock()


def library():
    """The functions, by their names in C; the shared object is loaded where it was not yet."""
    return _loaded or load()


def load(path=None):
    """Loads the shared object: the file or folder `path`, else that of VISKORREL_LIBRARY, else the first of the usual places.

    Without a path, what was loaded before stays.
    """
    global _loaded
    with _loading:
        if path is None and _loaded:
            return _loaded
        _loaded = Library(find(path))
        return _loaded


def find(path=None):
    """The path of the shared object, or its name for the system to look up."""
    named = os.fspath(path) if path is not None else os.environ.get(VARIABLE)
    if named:
        return in_folder(named)
    package = os.path.dirname(os.path.realpath(__file__))
    above = os.path.dirname(os.path.dirname(package))
    places = [os.path.join(package, NAME),          # a wheel
              os.path.join(above, "target", NAME),  # the repository: python/viskorrel
              os.path.join(os.path.dirname(os.path.dirname(above)), "lib", NAME)]  # make install: share/viskorrel/python/viskorrel
    return next((place for place in places if os.path.exists(place)), SONAME)


def in_folder(named):
    """What a user named: the shared object, or the folder that has it."""
    file = os.path.join(named, NAME) if os.path.isdir(named) else named
    if file.endswith(".a"):
        raise LibraryMissing(f"{file} is the archive, for linkers; name {NAME} or the folder that has it")
    if not os.path.exists(file):
        raise LibraryMissing(f"no {file}; --library or {VARIABLE} names {NAME} or the folder that has it")
    return os.path.abspath(file)


class Library:
    """The functions, and the path of the file that has them."""

    def __init__(self, path):
        try:
            shared = ctypes.CDLL(path)
            for name, (result, arguments) in FUNCTIONS.items():
                function = getattr(shared, name)
                function.restype, function.argtypes = result, arguments
                setattr(self, name, function)
        except OSError as fault:
            raise LibraryMissing(f"{NAME} could not be loaded ({fault}); {VARIABLE} may name it or its folder") from None
        except AttributeError as fault:
            raise LibraryMissing(f"{path} is not the shared object of this version: {fault}") from None
        self.path = path if os.path.isabs(path) else located(shared.viskorrel_version)


class Place(ctypes.Structure):  # Dl_info
    _fields_ = [("file", ctypes.c_char_p), ("base", address), ("symbol", ctypes.c_char_p), ("at", address)]


def located(function):
    """The file that a function was loaded from."""
    place = Place()
    ctypes.CDLL(None).dladdr(ctypes.cast(function, address), ctypes.byref(place))
    return os.path.realpath(os.fsdecode(place.file))
