"""Marks, lines, names and scales of a drawing, as SVG. What is drawn is not proved."""
import bisect
import html
import math
import unicodedata

from dig.diglist import NEW

PIPE, FITTING, WELD, DIG, OLD = "#4a4f57", "#8e6bbf", "#1f6fb2", "#e08a00", "#6b7280"
FRESH, DONE = "#d11f2f", "#1d8a4e"
POINT, LINE = 1, 2
PX_PER_M = 96 / 0.0254  # a CSS pixel is 1/96 inch on paper
SCALES = [base * 10 ** power for power in range(1, 7) for base in (1, 2, 2.5, 5)]
LONGEST_NAME = 16


class Frame:
    """A rectangle of the picture, and where coordinates fall in it."""

    def __init__(self, left, top, width, height, us, vs, equal, pad=18):
        self.left, self.top, self.width, self.height = left, top, width, height
        u0, u1, v0, v1 = min(us), max(us), min(vs), max(vs)
        inner_w, inner_h = width - 2 * pad, height - 2 * pad
        self.su = inner_w / max(u1 - u0, 1e-3)
        self.sv = inner_h / max(v1 - v0, 1e-3)
        if equal:
            self.su = self.sv = min(self.su, self.sv)
        self.middle = ((u0 + u1) / 2, (v0 + v1) / 2)

    def round_scale(self):
        """Down to a round scale on paper; its number, the 50 of 1:50."""
        number = next((number for number in SCALES if PX_PER_M / number <= self.su), math.ceil(PX_PER_M / self.su))
        self.su = self.sv = PX_PER_M / number
        return number

    def at(self, u, v):
        return (self.left + self.width / 2 + (u - self.middle[0]) * self.su,
                self.top + self.height / 2 - (v - self.middle[1]) * self.sv)

    def u(self, x):
        return (x - self.left - self.width / 2) / self.su + self.middle[0]

    def v(self, y):
        return self.middle[1] - (y - self.top - self.height / 2) / self.sv


def nice(span, steps):
    """A round step that divides a span into about so many."""
    raw = span / steps
    base = 10 ** math.floor(math.log10(raw))
    return next(base * k for k in (1, 2, 5, 10) if base * k >= raw * 0.999)


def ticks(low, high, steps):
    step = nice(high - low, steps)
    return [k * step for k in range(math.ceil(low / step), math.floor(high / step) + 1)]


def points(places):
    return " ".join(f"{x:.1f},{y:.1f}" for x, y in places)


def words(x, y, content, size=13, anchor="start", colour="#222", weight="normal", more=""):
    return (f'<text x="{x:.1f}" y="{y:.1f}" font-size="{size}" text-anchor="{anchor}" fill="{colour}" '
            f'font-weight="{weight}" {more}>{html.escape(str(content))}</text>')


def halo(x, y, content, **style):
    """Words over a drawing: a white rim below them."""
    return words(x, y, content, more='stroke="#fff" stroke-width="3.5" stroke-linejoin="round" paint-order="stroke" class="name"', **style)


def path(places, colour, width, closed=False, fill="none", more=""):
    shape = "polygon" if closed else "polyline"
    return f'<{shape} points="{points(places)}" fill="{fill}" stroke="{colour}" stroke-width="{width}" stroke-linejoin="round" {more}/>'


def shapes(feature, at, colour, width):
    """A feature's runs: lines as lines, faces filled, points as dots."""
    out = []
    for kind, run in feature.runs:
        places = [at(place) for place in run]
        if kind == POINT:
            out += [f'<circle cx="{x:.1f}" cy="{y:.1f}" r="{width + 1}" fill="{colour}"/>' for x, y in places]
        elif kind == LINE:
            out.append(path(places, colour, width))
        else:
            out.append(path(places, colour, width, closed=True, fill=colour, more='fill-opacity="0.35"'))
    return out


def square(x, y, r):
    """A struck-off dent of the record."""
    return (f'<rect x="{x - r:.1f}" y="{y - r:.1f}" width="{2 * r}" height="{2 * r}" fill="none" stroke="{OLD}" '
            f'stroke-width="1.8"/>')


def mark(x, y, r, state):
    """A dent: a disc if struck off, a larger diamond if new, so that they differ without colour too."""
    if state != NEW:
        return f'<circle class="done" cx="{x:.1f}" cy="{y:.1f}" r="{r}" fill="{DONE}" stroke="#fff" stroke-width="1"/>'
    r = 1.7 * r
    return path([(x, y - r), (x + r, y), (x, y + r), (x - r, y)], "#fff", 1, closed=True, fill=FRESH, more='class="new"')


def box(frame, id):
    rect = f'<rect x="{frame.left}" y="{frame.top}" width="{frame.width}" height="{frame.height}"'
    return f'{rect} fill="#fafafa" stroke="#c9ccd1"/><clipPath id="{id}">{rect}/></clipPath>'


def scale_bar(frame):
    step = nice(frame.width / frame.su, 8)
    long = step * frame.su
    x, y = frame.left + 14, frame.top + frame.height - 14
    return path([(x, y - 5), (x, y), (x + long, y), (x + long, y - 5)], "#222", 1.5, more='class="scale"') + halo(
        x + long + 6, y + 1, f"{step:g} m", size=12)


def north_arrow(frame):
    """North of the grid is up in every plan."""
    x, y = frame.left + frame.width - 20, frame.top + 12
    return (path([(x, y), (x + 6, y + 24), (x, y + 19), (x - 6, y + 24)], "#222", 1, closed=True, fill="#222", more='class="north"')
            + halo(x, y + 37, "N", size=12, anchor="middle", weight="bold"))


class Pieces:
    """Features cut for close-ups: lines by segment, other runs whole, by the left end of each in plan."""

    def __init__(self, features):
        found = []
        for feature in features:
            for kind, run in feature.runs:
                for piece in [run] if kind != LINE else zip(run, run[1:]):
                    xs, ys = [p[0] for p in piece], [p[1] for p in piece]
                    found.append((min(xs), max(xs), min(ys), max(ys), len(found), feature._replace(runs=[(kind, piece)])))
        self.found = sorted(found, key=lambda piece: piece[0])
        self.lefts = [piece[0] for piece in self.found]
        self.widest = max((piece[1] - piece[0] for piece in found), default=0.0)

    def near(self, frame):
        """Those that reach into a frame, in the order of the features."""
        left, right = frame.u(frame.left), frame.u(frame.left + frame.width)
        low, high = frame.v(frame.top + frame.height), frame.v(frame.top)
        here = self.found[bisect.bisect_left(self.lefts, left - self.widest):bisect.bisect_right(self.lefts, right)]
        return [piece[5] for piece in sorted(here, key=lambda piece: piece[4]) if piece[1] >= left and piece[2] <= high and piece[3] >= low]


def scene(at, made, digs, dents, struck, welds, r):
    """All in the order that keeps the important on top: new dents last, above whatever lies at their place."""
    out = []
    for feature in made["pipe"]:
        out += shapes(feature, at, PIPE, 2)
    for feature in made["fittings"]:
        out += shapes(feature, at, FITTING, 2)
    for feature in welds:
        out += shapes(feature, at, WELD, 2)
    for dig in digs:
        out.append(path([at(dig.start), at(dig.end)], DIG, 3, more='stroke-linecap="round" stroke-opacity="0.9"'))
    for feature in struck:
        out += [square(*at(place), r + 1.5) for place in feature.vertices]
    for dent in sorted(dents, key=lambda dent: dent.state == NEW):
        out += [mark(*at(place), r, dent.state) for place in dent.feature.vertices]
    return out


def legend(x, y):
    out = []
    for at, sign, name in [
            (16, mark(x + 6, y, 4.5, NEW), "new dent"),
            (111, mark(x + 101, y, 5, ""), "dent already struck off"),
            (293, square(x + 281, y, 6), "struck-off dent"),
            (431, path([(x + 405, y), (x + 425, y)], WELD, 2.5), "weld"),
            (516, path([(x + 490, y), (x + 510, y)], DIG, 3.5), "longest line: the dig's width"),
            (741, path([(x + 715, y), (x + 735, y)], PIPE, 3), "centreline"),
            (846, path([(x + 828, y - 6), (x + 840, y - 6), (x + 840, y + 6), (x + 828, y + 6)], FITTING, 2, closed=True, fill="#d9cdec"), "fitting")]:
        out += [sign, words(x + at, y + 4, name, size=12.5)]
    return out


# ---- Names that do not pile up ----

def short(name):
    return name if len(name) <= LONGEST_NAME else name[:LONGEST_NAME - 1] + "…"


def wide(name, size):
    """A bound of a name's width in pixels."""
    return size * sum(1.05 if unicodedata.east_asian_width(c) in "WF" else 0.72 for c in name) + 4


class Names:
    """Places names in a frame, each near its place and clear of the others and of marks; those without room are left out and counted."""

    CELL = 40

    def __init__(self, frame):
        self.frame, self.cells, self.spots, self.missing, self.out = frame, {}, set(), 0, []
        right, bottom = frame.left + frame.width, frame.top + frame.height
        # the corners that the scale, the arrow and the count of names left out take
        self.take((frame.left, bottom - 30, frame.left + frame.width / 3, bottom))
        self.take((right - 36, frame.top, right, frame.top + 54))
        self.take((right - 170, bottom - 24, right, bottom))

    def take(self, rect):
        for cell in self.covered(rect):
            self.cells.setdefault(cell, []).append(rect)

    def covered(self, rect):
        return [(i, j) for i in range(int(rect[0] // self.CELL), int(rect[2] // self.CELL) + 1)
                for j in range(int(rect[1] // self.CELL), int(rect[3] // self.CELL) + 1)]

    def mark(self, x, y, r):
        spot = round(x / 4), round(y / 4)  # marks over each other are one
        if spot not in self.spots:
            self.spots.add(spot)
            self.take((x - r, y - r, x + r, y + r))

    def free(self, rect):
        inside = (rect[0] >= self.frame.left + 2 and rect[1] >= self.frame.top + 2 and rect[2] <= self.frame.left + self.frame.width - 2
                  and rect[3] <= self.frame.top + self.frame.height - 2)
        return inside and not any(
            rect[0] < other[2] and other[0] < rect[2] and rect[1] < other[3] and other[1] < rect[3]
            for cell in self.covered(rect) for other in self.cells.get(cell, []))

    def put(self, x, y, name, size=12, colour="#222", reach=6):
        """A name for the place x, y. `reach`: so many steps away at most, with a thin line to the place."""
        name = short(name)
        width, height = wide(name, size), size + 3
        for step in range(1, reach + 1):
            gap = 8 + (step - 1) * height
            for dx, dy in ((0, -1), (0, 1), (1, -1), (-1, -1), (1, 1), (-1, 1), (1, 0), (-1, 0)):
                left = x + dx * (gap + width / 2) - width / 2
                top = y + dy * (gap + height / 2) - height / 2
                rect = (left, top, left + width, top + height)
                if self.free(rect):
                    self.take(rect)
                    if step > 1:
                        self.out.append(f'<line x1="{x:.1f}" y1="{y:.1f}" x2="{left + width / 2:.1f}" y2="{top + height / 2:.1f}" '
                                        'stroke="#9aa0a8" stroke-width="0.8"/>')
                    self.out.append(halo(left + width / 2, top + height - 4, name, size=size, anchor="middle", colour=colour, weight="bold"))
                    return
        self.missing += 1

    def svg(self):
        if self.missing:
            plural = "name" if self.missing == 1 else "names"
            self.out.append(halo(self.frame.left + self.frame.width - 8, self.frame.top + self.frame.height - 10,
                                 f"{self.missing} {plural} left out: no room", size=11, anchor="end", colour="#666"))
        # lines first, so that no line runs over a name
        return sorted(self.out, key=lambda part: part.startswith("<text"))
