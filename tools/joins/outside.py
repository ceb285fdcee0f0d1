"""What GDAL and GEOS read of a join: the runs of each of its two members, as blobs.py has them. Either may be missing: then it is None."""
try:
    from osgeo import ogr
    ogr.UseExceptions()
except ImportError:
    ogr = None
try:
    import shapely.wkb as geos
except ImportError:
    geos = None


def by_gdal(wkb):
    whole = ogr.CreateGeometryFromWkb(wkb)
    assert whole.GetGeometryType() in (ogr.wkbGeometryCollection25D, ogr.wkbGeometryCollectionZM), whole.GetGeometryName()
    return [list(gdal_runs(whole.GetGeometryRef(n))) for n in range(whole.GetGeometryCount())]


def gdal_runs(geometry):
    kind = ogr.GT_Flatten(geometry.GetGeometryType())
    parts = [geometry.GetGeometryRef(n) for n in range(geometry.GetGeometryCount())]
    if kind not in (ogr.wkbPoint, ogr.wkbLineString, ogr.wkbPolygon, ogr.wkbTriangle):
        for part in parts:
            yield from gdal_runs(part)
        return
    for run in parts if kind in (ogr.wkbPolygon, ogr.wkbTriangle) else [geometry]:
        if run.GetPointCount():
            yield kind, [run.GetPointZM(n) for n in range(run.GetPointCount())]


def by_geos(wkb):
    """GEOS 3.11 drops M: it is 0 here. Of an empty collection shapely tells no members."""
    whole = geos.loads(wkb)
    assert whole.geom_type == "GeometryCollection", whole.geom_type
    return [[], []] if whole.is_empty else [list(geos_runs(member)) for member in whole.geoms]


def geos_runs(geometry):
    if hasattr(geometry, "geoms"):
        for member in geometry.geoms:
            yield from geos_runs(member)
        return
    kind = {"Point": 1, "LineString": 2, "Polygon": 3}[geometry.geom_type]
    for run in [] if geometry.is_empty else [geometry.exterior, *geometry.interiors] if kind == 3 else [geometry]:
        yield kind, [(*(*vertex, 0.0)[:3], 0.0) for vertex in run.coords]
