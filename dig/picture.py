"""The dig list as an SVG: plan, profile, and each dig by itself."""
import math

from dig.drawing import DONE, FRESH, Frame, Names, Pieces, box, legend, north_arrow, scale_bar, scene, short, ticks, words
from dig.diglist import NEW
from dig.listing import summary

WIDTH, MARGIN = 1200, 50
INSIDE = WIDTH - 2 * MARGIN
PROFILE = 240
COLUMNS, GAP, HEAD = 4, 20, 60
SIDE = (INSIDE - GAP * (COLUMNS - 1)) / COLUMNS
MANY = 60          # digs: from there on marks are smaller
MOST_NAMES = 300   # of digs in one drawing: of more, every second is named, or every third, ...


def places(made):
    return [place for features in made.features.values() for feature in features for _, run in feature.runs for place in run] or [(0.0, 0.0, 0.0)]


def draw(made):
    top, out = head(made)
    for part in (plan, profile, digs):
        top, drawn = part(made, top)
        out += drawn
    return (f'<svg xmlns="http://www.w3.org/2000/svg" width="{WIDTH}" height="{top:.0f}" viewBox="0 0 {WIDTH} {top:.0f}" '
            'font-family="Helvetica, Arial, sans-serif">\n<rect width="100%" height="100%" fill="#fff"/>\n' + "\n".join(out) + "\n</svg>\n")


def head(made):
    """Title, stamp, warnings, legend; where the plan may start."""
    out = [words(MARGIN, 40, "Dig list", size=24, weight="bold"), words(MARGIN + 110, 40, summary(made.list), size=15, colour="#555")]
    y = 60
    for name, value in made.list.stamp.rows():
        out.append(words(MARGIN, y, f"{name}: {value}", size=11, colour="#555"))
        y += 14
    for line in made.list.warnings:
        for part in wrapped(f"! {line}", 150):
            out.append(words(MARGIN, y + 4, part, size=12, colour=FRESH, weight="bold"))
            y += 16
    return y + 14, out + legend(MARGIN, y + 10)


def wrapped(line, length):
    lines = [""]
    for word in line.split():
        if lines[-1] and len(lines[-1]) + 1 + len(word) > length:
            lines.append("")
        lines[-1] += (" " if lines[-1] else "") + word
    return lines


def plan(made, top, width=INSIDE, left=MARGIN, tallest=560):
    top += 46
    every = places(made)
    xs, ys = [p[0] for p in every], [p[1] for p in every]
    tall = (max(ys) - min(ys)) / max(max(xs) - min(xs), 1e-3) * width + 110
    frame = Frame(left, top, width, round(min(tallest, max(220, tall))), xs, ys, True, pad=48)

    def at(place):
        return frame.at(place[0], place[1])
    out = [words(left, top - 8, "Plan", size=15, weight="bold"), words(left + 46, top - 8, "names are digs", size=12.5, colour="#555"),
           box(frame, "plan"), '<g clip-path="url(#plan)">']
    return top + frame.height, out + all_digs(made, frame, at) + [scale_bar(frame), north_arrow(frame), "</g>"]


def all_digs(made, frame, at):
    """Everything at its place, with the names of the digs."""
    r = 3.5 if len(made.list.digs) < MANY else 2.2
    out = scene(at, made.features, made.list.digs, made.list.dents, made.features["struck"], made.features["welds"], r)
    names = Names(frame)
    for dent in made.list.dents:
        if dent.state == NEW:
            names.mark(*at(dent.feature.vertices[0]), 1.7 * r)
    apart = math.ceil(len(made.list.digs) / MOST_NAMES) or 1
    for number, dig in enumerate(made.list.digs):
        if number % apart:
            names.missing += 1
        else:
            (a, b), (c, d) = at(dig.start), at(dig.end)
            names.put((a + c) / 2, (b + d) / 2, dig.name)
    return out + names.svg()


def profile(made, top):
    top += 44
    every = places(made)
    least = min(place[0] for place in every)
    ways = made.chainage.in_plan(every) if made.chainage.there() else {place: place[0] - least for place in every}
    us, vs = [ways[p] for p in every], [p[2] for p in every]
    frame = Frame(MARGIN, top, INSIDE, PROFILE, us, vs, False, pad=34)
    ratio = frame.sv / frame.su
    larger = f"{ratio:.0f}" if ratio >= 10 else f"{ratio:.2g}"
    along = "along the pipe" if made.chainage.there() else "along x"
    out = [words(MARGIN, top - 8, "Profile", size=15, weight="bold"),
           words(MARGIN + 62, top - 8, f"{along}, heights {larger} times as large", size=12.5, colour="#555"),
           box(frame, "profile")]
    for height in ticks(frame.v(top + PROFILE), frame.v(top), 5):
        y = frame.at(0, height)[1]
        out.append(f'<line x1="{MARGIN}" y1="{y:.1f}" x2="{MARGIN + INSIDE}" y2="{y:.1f}" stroke="#e3e5e8"/>')
        out.append(words(MARGIN - 6, y + 4, f"{height:g}", size=11, anchor="end", colour="#555"))
    for step in ticks(frame.u(MARGIN), frame.u(MARGIN + INSIDE), 12):
        x = frame.at(step, 0)[0]
        out.append(f'<line x1="{x:.1f}" y1="{top}" x2="{x:.1f}" y2="{top + PROFILE}" stroke="#e3e5e8"/>')
        out.append(words(x, top + PROFILE + 14, f"{step:g} m", size=11, anchor="middle", colour="#555"))
    out.append('<g clip-path="url(#profile)">')

    def at(place):
        return frame.at(ways[place], place[2])
    return top + PROFILE, out + all_digs(made, frame, at) + ["</g>"]


def digs(made, top):
    """Each dig by itself, in rows."""
    top += 60
    listed, around = made.list.digs, cut(made)
    out = []
    if listed:
        out = [words(MARGIN, top - 8, "Digs", size=15, weight="bold"),
               words(MARGIN + 46, top - 8, "in plan, each to its own scale; names are dents", size=12.5, colour="#555")]
    for number, dig in enumerate(listed):
        left, head = MARGIN + number % COLUMNS * (SIDE + GAP), top + number // COLUMNS * (SIDE + HEAD)
        frame = Frame(round(left, 1), round(head + 38, 1), round(SIDE, 1), round(SIDE, 1), *spread(dig), True, pad=44)
        way = f"chainage {dig.chainage:.2f} m, " if dig.chainage is not None else ""
        out += [words(left, head + 14, short(dig.name), weight="bold"),
                words(left, head + 30, f"{way}{dig.width:.3f} m wide, {dig.new} of {dig.count} new", size=12)]
        out += close_up(around, dig, frame, f"dig{number}")
    return top + math.ceil(len(listed) / COLUMNS) * (SIDE + HEAD) + 10, out


def spread(dig):
    here = [p for dent in dig.dents for p in dent.feature.vertices] + [p for weld in dig.welds for p in weld.vertices]
    return [p[0] for p in here], [p[1] for p in here]


def close_up(around, dig, frame, id):
    """One dig in plan, with the names of its dents; `around` is what `cut` made."""
    def at(place):
        return frame.at(place[0], place[1])
    nearest = list({id_of(dent.nearest): dent.nearest for dent in dig.dents if dent.nearest}.values())
    around = {role: pieces.near(frame) for role, pieces in around.items()}
    out = [box(frame, id), f'<g clip-path="url(#{id})">'] + scene(at, around, [dig], dig.dents, nearest, dig.welds, 5.5)
    names = Names(frame)
    for dent in dig.dents:
        names.mark(*at(dent.feature.vertices[0]), 7)
    for dent in sorted(dig.dents, key=lambda dent: dent.state != NEW):
        names.put(*at(dent.feature.vertices[0]), dent.feature.name, colour=FRESH if dent.state == NEW else DONE)
    return out + names.svg() + [scale_bar(frame), north_arrow(frame), "</g>"]


def cut(made):
    """What lies around the digs, ready for their close-ups."""
    return {role: Pieces(made.features[role]) for role in ("pipe", "fittings")}


def id_of(feature):
    return feature.table, feature.id
