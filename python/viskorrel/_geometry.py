"""What may be measured, as bytes: GeoPackage blobs, WKB and EWKB as they are; shapely's and geopandas' geometries by their EWKB."""
import ctypes
import struct
from array import array

ENVELOPE_BYTES = {0: 0, 1: 32, 2: 48, 3: 48, 4: 64}


def is_one(geometry):
    """Whether it is one geometry, not a sequence of them."""
    return isinstance(geometry, (bytes, bytearray, memoryview, str)) or geometry is None or hasattr(geometry, "wkb")


def blob(geometry):
    """The bytes of one geometry."""
    if isinstance(geometry, bytes):
        return geometry
    if isinstance(geometry, (bytearray, memoryview)):
        return bytes(geometry)
    if hasattr(geometry, "wkb"):
        return ewkb(geometry)
    raise TypeError(f"{type(geometry).__name__} is no geometry: bytes (GeoPackage blob, WKB, EWKB) or a shapely geometry is")


def ewkb(geometry):
    """A geometry's bytes; shapely's with its SRID where it has one."""
    if type(geometry).__module__.partition(".")[0] != "shapely":
        return bytes(geometry.wkb)
    from shapely.wkb import dumps
    return dumps(geometry, include_srid=True)


def wkb(blob):
    """The WKB in a GeoPackage blob, as shapely.from_wkb takes it; other bytes as they are."""
    if blob[:2] != b"GP":
        return blob
    return blob[8 + ENVELOPE_BYTES[blob[3] >> 1 & 7]:]


def srid(blob):
    """The SRID in the header of a GeoPackage blob."""
    return struct.unpack_from("<i" if blob[3] & 1 else ">i", blob, 4)[0]


class Blobs:
    """Geometries made ready for batches, once for many of them. It is a sequence of bytes."""

    def __init__(self, geometries):
        if is_one(geometries):
            geometries = [geometries]
        geometries = getattr(geometries, "geometry", geometries)  # of a GeoDataFrame
        self._bytes = []
        for place, geometry in enumerate(geometries):
            try:
                self._bytes.append(blob(geometry))
            except TypeError as fault:
                raise TypeError(f"element {place}: {fault}") from None
        self.pointers = (ctypes.c_char_p * len(self._bytes))(*self._bytes)
        self.lengths = array("Q", map(len, self._bytes))

    def __len__(self):
        return len(self._bytes)

    def __getitem__(self, place):
        return self._bytes[place]
