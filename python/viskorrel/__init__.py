"""3D measures between geometries, by the proved library.

    import viskorrel
    viskorrel.distance(a, b)              # a number, or None where a side has nothing to measure
    viskorrel.batch.distance(a, many)     # one against many, in one call

A geometry is bytes (GeoPackage blob, WKB or EWKB) or shapely's. Bytes that can't be measured raise Refusal, with its number and words.
"""
from . import batch
from ._geometry import Blobs, srid, wkb
from ._job import Hit, Tape, job
from ._library import LibraryMissing, load
from ._nearest import Nearest, nearest
from ._operations import (
    NoSurface, closest_point, dfully_within, distance, dwithin, intersects, join, library_version, line_interpolate_point, longest_line,
    max_distance, patch, patches, read, refusal, shortest_line, sizes)
from ._refusal import Refusal
from ._root import RootAndDigits, root_digits

__version__ = "0.7.6"

__all__ = [
    "Blobs", "Hit", "LibraryMissing", "Nearest", "NoSurface", "Refusal", "RootAndDigits", "Tape", "batch", "closest_point", "dfully_within",
    "distance", "dwithin", "intersects", "job", "join", "library_version", "line_interpolate_point", "load", "longest_line", "max_distance", "nearest", "patch", "patches",
    "read", "refusal", "root_digits", "shortest_line", "sizes", "srid", "wkb"]
