"""The dig list as one page that needs no network: the list, the plan, and a sheet of A4 for each dig."""
import html

from dig import picture
from dig.diglist import NEW
from dig.drawing import Frame, legend
from dig.listing import PASSAGE, WIDTH, digits, passage, passage_heads, state, summary, way

SHEET = 680         # pixels: 180 mm on paper
CLOSE_UP = 420
MOST_VERTICES = 8   # of a dent or weld: more are told by their box

STYLE = """
body { font: 14px/1.4 Helvetica, Arial, sans-serif; color: #222; margin: 24px auto; max-width: 1200px; padding: 0 16px; }
h1 { font-size: 24px; margin: 0 0 4px; } h2 { font-size: 18px; margin: 18px 0 6px; } h3 { font-size: 14px; margin: 12px 0 4px; }
table { border-collapse: collapse; font-variant-numeric: tabular-nums; } th, td { padding: 2px 8px; text-align: right; white-space: nowrap; }
th { border-bottom: 1px solid #888; font-weight: bold; } td { border-bottom: 1px solid #ddd; }
td.word, th.word { text-align: left; white-space: normal; overflow-wrap: anywhere; }
tr.new td.state { font-weight: bold; color: #b00; }
.warnings { border: 2px solid #b00; padding: 6px 12px; margin: 10px 0; } .warnings b { color: #b00; }
.stamp { font-size: 11px; color: #444; border-top: 1px solid #888; margin-top: 8px; padding-top: 4px; overflow-wrap: anywhere; }
.stamp span { margin-right: 12px; }
.wide { overflow-x: auto; } svg { max-width: 100%; }
.sheet { width: 680px; max-width: 100%; border-top: 2px solid #222; margin-top: 40px; padding-top: 10px; }
.sheet svg { max-width: none; } .facts { font-size: 16px; margin: 2px 0 8px; }
@page { size: A4; margin: 15mm; }
@media print {
  body { margin: 0; padding: 0; max-width: none; } .sheet { break-before: page; border-top: none; margin: 0; padding: 0; }
  .wide { overflow: visible; } .wide table { font-size: 11px; } .wide th, .wide td { padding: 1px 4px; } tr { break-inside: avoid; }
  .overview svg { width: 680px; height: auto; }
}
"""


def draw(made, tolerance):
    listed = made.list
    title = f"Dig list of {listed.stamp.file}"
    parts = [f"<h1>{text(title)}</h1><p>{text(summary(listed))}.</p>", warned(listed.warnings), overview(made), digs(listed),
             dents("h2", listed.dents, tolerance), quiet(listed), stamped(listed)]
    around = picture.cut(made)
    parts += [sheet(listed, around, dig, number, tolerance) for number, dig in enumerate(listed.digs)]
    return ('<!DOCTYPE html>\n<html lang="en"><head><meta charset="utf-8"><meta name="viewport" content="width=device-width">'
            f"<title>{text(title)}</title><style>{STYLE}</style></head><body>\n" + "\n".join(parts) + "\n</body></html>\n")


def text(content):
    return html.escape(str(content))


def warned(lines):
    if not lines:
        return ""
    return '<div class="warnings"><b>Warnings</b><ul>' + "".join(f"<li>{text(line)}</li>" for line in lines) + "</ul></div>"


def stamped(listed):
    return '<div class="stamp">' + "".join(f"<span><b>{text(name)}</b> {text(value)}</span>" for name, value in listed.stamp.rows()) + "</div>"


def rows(heads, words, content, classes=None):
    """A table; `words` are the columns of words."""
    def cells(tag, row):
        return "".join(f'<{tag} class="{"word" if at in words else ""}{" state" if heads[at] == "state" else ""}">{text(cell)}</{tag}>'
                       for at, cell in enumerate(row))
    body = "".join(f'<tr class="{classes[at] if classes else ""}">{cells("td", row)}</tr>' for at, row in enumerate(content))
    return f'<div class="wide"><table><thead><tr>{cells("th", heads)}</tr></thead><tbody>{body}</tbody></table></div>'


def svg(width, height, parts):
    return (f'<svg xmlns="http://www.w3.org/2000/svg" width="{width:.0f}" height="{height:.0f}" viewBox="0 0 {width:.0f} {height:.0f}" '
            'font-family="Helvetica, Arial, sans-serif">' + "\n".join(parts) + "</svg>")


def overview(made):
    bottom, plan = picture.plan(made, 0, tallest=700)
    below, profile = picture.profile(made, bottom)
    return '<div class="overview">' + svg(picture.WIDTH, below + 60, plan + profile + legend(picture.MARGIN, below + 40)) + "</div>"


def digs(listed):
    content = [[dig.name, way(dig.chainage), dig.count, dig.new, f"{dig.width:.3f}", *place(dig.start), *place(dig.end), *passage(dig)] for dig in listed.digs]
    hours = f" The hour of passage is {text(PASSAGE)}." if listed.passages else ""
    return f"<h2>Digs</h2><p>Groups with a new dent. The width is {text(WIDTH)}.{hours}</p>" + rows(
        ["group", "chainage m", "dents", "new", "width m", "from dent x", "y", "z", "to weld x", "y", "z", *passage_heads(listed)], {0}, content)


def dents(heading, those, tolerance):
    content = [[dent.feature.name, dent.feature.group, way(dent.chainage), dent.nearest.name if dent.nearest else "-",
                digits(dent.distance, tolerance, dent.state) if dent.nearest else "-", state(dent)] for dent in those]
    return (f"<{heading}>Dents</{heading}><p>Struck off within {tolerance!r} m of a struck-off dent.</p>" + rows(
        ["dent", "group", "chainage m", "nearest struck-off", "distance m", "state"], {0, 1, 3, 5}, content,
        ["new" if dent.state == NEW else "" for dent in those]))


def quiet(listed):
    if not listed.quiet:
        return ""
    return "<h2>No dig</h2><p>Every dent of the group is struck off.</p>" + rows(
        ["group", "chainage m", "dents"], {0}, [[group.name, way(group.chainage), group.count] for group in listed.quiet])


def place(vertex):
    return [f"{number:.3f}" for number in vertex]


def sheet(listed, around, dig, number, tolerance):
    """What a crew takes along: where the dig is, what to stake out, what is in it."""
    frame = Frame(0.5, 0.5, SHEET - 1, CLOSE_UP, *picture.spread(dig), True, pad=44)
    scale = frame.round_scale()
    drawn = svg(SHEET, CLOSE_UP + 2, picture.close_up(around, dig, frame, f"sheet{number}"))
    way_there = f"chainage {way(dig.chainage)} m, " if dig.chainage is not None else ""
    return (f'<section class="sheet"><h2>Dig {text(dig.name)}</h2>'
            f'<p class="facts">{way_there}<b>{dig.width:.3f} m wide</b>, {dig.new} of {dig.count} dents new{passed(dig)}</p>'
            + warned(dig.warnings + list(dict.fromkeys(line for dent in dig.dents for line in dent.warnings)))
            + drawn + f"<p>Scale 1:{scale:g} on A4 (printed at 100 %); north of the grid is up.</p>"
            + stakes(dig) + dents("h3", dig.dents, tolerance) + stamped(listed) + "</section>")


def passed(dig):
    if not dig.passage:
        return ""
    hour, fix, distance = passage(dig)
    return f", hour of passage <b>{text(hour)}</b> (fix {text(fix)}, {distance} m away)"


def stakes(dig):
    content = [["longest line, at a dent", *place(dig.start)], ["longest line, at the weld", *place(dig.end)]]
    for dent in dig.dents:
        content += vertices(f"dent {dent.feature.name}, {dent.state}", dent.feature.vertices)
    for weld in dig.welds:
        content += vertices(f"weld {weld.id}", weld.vertices)
    return "<h3>Stake-out</h3>" + rows(["", "x", "y", "z"], {0}, content)


def vertices(name, those):
    if len(those) == 1:
        return [[name, *place(those[0])]]
    if len(those) <= MOST_VERTICES:
        return [[f"{name}, vertex {at + 1}", *place(vertex)] for at, vertex in enumerate(those)]
    axes = list(zip(*those))
    return [[f"{name}, {len(those)} vertices: least", *place(map(min, axes))], [f"{name}: greatest", *place(map(max, axes))]]
