"""A sheet to draw on, as SVG: boxes, texts, arrows. The same calls make the same bytes, and no other program is needed.

A sheet has the colours of a light page and of a dark one, and the reader's own setting chooses. Widths of texts are those of a font whose
letters are all as wide.
"""
import html
import math

WIDE = 0.602  # of a letter of the font, in sizes
LINE = 1.35  # from a line of text to the next, in sizes

# The colours of the light page and of the dark one: of a page, of boxes by their kind (inside, edge), of texts, small texts and lines, and of
# arrows by their kind.
LIGHT = {"page": "#fff", "box": ("#f6f8fa", "#6e7781"), "lit": ("#fff4d6", "#9a6700"), "in1": ("#f6f8fa", "#6e7781"), "in2": ("#e3eefc", "#6e7781"),
         "in3": ("#d8f0dd", "#6e7781"), "in4": ("#fff4d6", "#6e7781"), "text": "#1f2328", "small": "#57606a", "line": "#57606a",
         "rf": "#c01c28", "fr": "#a85800", "po": "#1f2328", "co": "#0550ae", "other": "#0550ae"}
DARK = {"page": "#0d1117", "box": ("#161b22", "#8b949e"), "lit": ("#3a2d00", "#d29922"), "in1": ("#161b22", "#8b949e"), "in2": ("#10243e", "#8b949e"),
        "in3": ("#12311c", "#8b949e"), "in4": ("#3a2d00", "#d29922"), "text": "#e6edf3", "small": "#9da7b3", "line": "#9da7b3",
        "rf": "#ff7b72", "fr": "#ffa657", "po": "#e6edf3", "co": "#79c0ff", "other": "#79c0ff"}
BOXES, ARROWS = ("box", "lit", "in1", "in2", "in3", "in4"), ("rf", "fr", "po", "co", "other")


def rules(colours):
    """The rules of a style for these colours."""
    lines = ["svg{background:%s}.page,.wait{fill:%s}.part,.wait{stroke:%s}" % (colours["page"], colours["page"], colours["box"][1]),
             "text{fill:%s}text.small{fill:%s}" % (colours["text"], colours["small"]),
             "path,line{stroke:%s}.head{fill:%s}" % (colours["line"], colours["line"])]
    lines += [".%s{fill:%s;stroke:%s}" % (name, *colours[name]) for name in BOXES]
    lines += ["path.%s{stroke:%s}text.%s,.head.%s{fill:%s}" % (name, colours[name], name, name, colours[name]) for name in ARROWS]
    return lines


STYLE = "\n".join([
    "svg{font-family:'DejaVu Sans Mono',Menlo,Consolas,monospace}path,line{fill:none;stroke-width:1.5px}.part{fill:none}",
    "path.other{stroke-dasharray:5 3}.wait{stroke-dasharray:4 3}line.thin{stroke-width:1px}", *rules(LIGHT),
    "@media (prefers-color-scheme:dark){", *rules(DARK), "}"]) + "\n"


def width(text, size=13):
    return len(text) * WIDE * size


class Sheet:
    """A picture of this size, in pixels, and what it shows in words, for those who don't see it."""

    def __init__(self, wide, high, told):
        self.wide, self.high, self.told, self.parts = wide, high, told, []

    def box(self, x, y, wide, high, kind="box", round_by=6):
        self.parts.append('<rect class="%s" x="%s" y="%s" width="%s" height="%s" rx="%d"/>' % (kind, *map(number, (x, y, wide, high)), round_by))

    def text(self, x, y, text, size=13, at="middle", kind=None, title=None):
        """A text, or lines of it, the first with its middle at this height; `title` is what a pointer over it sees."""
        within = "<title>%s</title>" % html.escape(title, quote=False) if title else ""
        for at_line, line in enumerate(text.split("\n")):
            self.parts.append('<text%s x="%s" y="%s" font-size="%d" text-anchor="%s">%s%s</text>' % (
                ' class="%s"' % kind if kind else "", number(x), number(y + size * (0.36 + LINE * at_line)), size, at, within,
                html.escape(line.replace("  ", "\u00a0 "), quote=False)))

    def boxed(self, x, y, text, kind="box", size=13, wide=None, high=None):
        """A text in a box with its middle here; answers half the box's width and height."""
        lines = text.split("\n")
        wide = wide or max(width(line, size) for line in lines) + 16
        high = high or len(lines) * size * LINE + 10
        self.box(x - wide / 2, y - high / 2, wide, high, kind)
        self.text(x, y - (len(lines) - 1) * size * LINE / 2, text, size)
        return wide / 2, high / 2

    def line(self, x0, y0, x1, y1, kind=None):
        self.parts.append('<line%s x1="%s" y1="%s" x2="%s" y2="%s"/>' % (' class="%s"' % kind if kind else "", *map(number, (x0, y0, x1, y1))))

    def arrow(self, start, end, kind="", bend=0, label=None, at=0.5, size=13, title=None, head=True):
        """An arrow from a point to a point. It bends to its left by so many pixels; the label is at this part of its way."""
        (x0, y0), (x1, y1) = start, end
        long = math.hypot(x1 - x0, y1 - y0) or 1
        away = ((y1 - y0) / long * 2 * bend, -(x1 - x0) / long * 2 * bend)
        xm, ym = (x0 + x1) / 2 + away[0], (y0 + y1) / 2 + away[1]
        self.parts.append('<path%s d="M%s %s Q%s %s %s %s"/>' % (' class="%s"' % kind if kind else "", *map(number, (x0, y0, xm, ym, x1, y1))))
        if head:
            turn = math.atan2(y1 - ym, x1 - xm)
            corners = [(x1 - 9 * math.cos(turn + by), y1 - 9 * math.sin(turn + by)) for by in (0.4, -0.4)]
            self.parts.append('<polygon class="%s" points="%s"/>' % (("head " + kind).strip(), " ".join(
                "%s,%s" % (number(x), number(y)) for x, y in [(x1, y1)] + corners)))
        if label:
            rest = 1 - at
            x, y = (rest * rest * begin + 2 * rest * at * middle + at * at * end for begin, middle, end in ((x0, xm, x1), (y0, ym, y1)))
            wide = width(label, size) + 6
            self.box(x - wide / 2, y - size * 0.62, wide, size * 1.24, "page", 2)
            self.text(x, y, label, size, kind=kind or None, title=title)

    def svg(self):
        told = html.escape(self.told)
        return "\n".join([
            '<svg xmlns="http://www.w3.org/2000/svg" width="%d" height="%d" viewBox="0 0 %d %d" role="img" aria-label="%s">' % (
                self.wide, self.high, self.wide, self.high, told), "<title>%s</title>" % told, "<style>\n%s</style>" % STYLE,
            '<rect class="page" width="%d" height="%d"/>' % (self.wide, self.high), *self.parts, "</svg>"]) + "\n"


def number(value):
    """A number of pixels, with at most one digit after the point."""
    return ("%.1f" % value).rstrip("0").rstrip(".").replace("-0", "0") if abs(value) < 0.05 else ("%.1f" % value).rstrip("0").rstrip(".")


def edge_of(point, half, towards):
    """Where a line from a box's middle towards a point leaves the box, of which half the width and height are given."""
    (x, y), (wide, high), (u, v) = point, half, towards
    across, down = u - x, v - y
    scale = min(wide / abs(across) if across else math.inf, high / abs(down) if down else math.inf)
    return (x, y) if scale is math.inf else (x + across * scale, y + down * scale)
