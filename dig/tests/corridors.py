"""Larger corridors than the demo's, for tests and timings."""
import math
import os
import random
import sqlite3

import common  # so that dig is found
from dig import corridor

SRID = corridor.SRID


def make(path, groups, dents_each=4, struck=None, spacing=30.0, seed=1):
    """So many groups along a winding pipe; half of the dents have a struck-off one within 0.2 m, unless `struck` says how many to strew."""
    random.seed(seed)
    length = spacing * (groups + 1)
    pipe = [axis(10.0 * step) for step in range(int(length / 10) + 2)]
    layers = {"centreline": [(corridor.line(pipe), ["main"], pipe)], "dents": [], "struck_off": [], "welds": []}
    for number in range(groups):
        name, way = f"G{number + 1}", spacing * (number + 1)
        for at in range(dents_each):
            place = skin(way + random.uniform(-2, 2), random.uniform(0, 360))
            layers["dents"].append((corridor.point(place), [name], [place]))
            if struck is None and at % 2:
                put(layers["struck_off"], tuple(p + random.uniform(-0.1, 0.1) for p in place))
        ring = [skin(way + 3, 45 * step) for step in range(9)]
        layers["welds"].append((corridor.line(ring), [name], ring))
    for _ in range(struck or 0):
        put(layers["struck_off"], skin(random.uniform(0, length), random.uniform(0, 360)))
    if os.path.exists(path):
        os.remove(path)
    file = sqlite3.connect(path)
    corridor.empty(file, [("WGS 84 / UTM zone 33N", SRID, "EPSG", SRID, corridor.PROJECTED, None, None)])
    for name, kind, column in (("centreline", "LINESTRING", "name"), ("dents", "POINT", "dent_group"), ("struck_off", "POINT", "name"),
                               ("welds", "LINESTRING", "dent_group")):
        corridor.layer(file, name, kind, SRID, "made up", [(column, "TEXT")], layers[name])
    file.commit()
    file.close()
    return path


def put(rows, place):
    rows.append((corridor.point(place), [f"fix {len(rows) + 1}"], [place]))


def axis(way):
    return (500000.0 + way, 5600000.0 + 0.05 * way + 40 * math.sin(way / 300), -2 + 0.5 * math.sin(way / 90))


def skin(way, clock):
    x, y, z = axis(way)
    s, c = math.sin(math.radians(clock)), math.cos(math.radians(clock))
    return (round(x, 3), round(y + 0.25 * s, 3), round(z + 0.25 * c, 3))
