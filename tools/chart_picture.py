"""Draws the rows of tools/chart.py as SVG. It prints nothing and has no exit status.

A player's column is taken by another once it left, so that a chart is as wide as players were there at once. Its name
stands where it first appears, and again each so many rows.
"""
import colorsys
import heapq
from xml.sax.saxutils import escape

STEP, TOP, BOTTOM = 30, 84, 40
FIRST_COLUMN, COLUMN_STEP, WIDE_STEP, MARGIN = 132, 120, 360, 90
ROWS_BETWEEN_NAMES = 25
# Players' hues go round by the golden section, and leave out those near a refusal's red.
FIRST_HUE, HUES, GOLDEN = 35, 290, 0.618034
NOBODY, REFUSAL, INK = "#5b6b7b", "#c62828", "#1b1b1b"
STYLE = """
text { font: 11px 'DejaVu Sans', Verdana, sans-serif; fill: currentColor }
text { paint-order: stroke; stroke: #fff; stroke-width: 3px }
.name { font-weight: bold } .beside { text-anchor: end } .middle { text-anchor: middle }
.head { font-size: 14px; text-anchor: middle; stroke: none } .entry { fill: #777; text-anchor: end }
.line { stroke: currentColor; stroke-width: 1.3; fill: none } .tip { fill: currentColor }
.life { stroke: currentColor; stroke-width: 1; stroke-dasharray: 4 4; fill: none; opacity: .6 }
.note { fill: #fff; stroke: currentColor } .box { fill: #eaf1f8; stroke: #33475b }
.bar { stroke: #fff; stroke-width: .5 } .on { text-anchor: middle; stroke: none; fill: #1b1b1b }
"""


def colour(owner, lightness=0.36):
    """The colour of a player, or of nobody."""
    if owner is None:
        return NOBODY if lightness < 0.5 else "#d5dbe1"
    hue = (FIRST_HUE + HUES * (owner * GOLDEN % 1)) / 360
    return "#%02x%02x%02x" % tuple(round(255 * part) for part in colorsys.hls_to_rgb(hue, lightness, 0.65))


def counted(frames):
    """Frames as they are told."""
    return "%s frame%s, %s bytes" % (format(frames.count, ","), "" if frames.count == 1 else "s",
                                     format(frames.size, ","))


class Span:
    """From which row to which a player is in the chart, and its column."""

    def __init__(self, first):
        self.first, self.last, self.column, self.is_closed = first, first, 0, False


def spans_of(rows):
    """The span of each player, in the order in which they appear."""
    spans = {}
    for place, row in enumerate(rows):
        for part in row.parts:
            if part.owner is not None:
                span = spans.setdefault(part.owner, Span(place))
                span.last = place
                span.is_closed |= part.is_note and part.label != "enters"
        for owner in row.frames or ():
            if owner is not None:
                spans.setdefault(owner, Span(place)).last = place
    return spans


def place_columns(spans):
    """Gives each player the first column that is free from its first row on; how many columns there are."""
    free, taken, count = [], [], 0
    for span in spans.values():
        while taken and taken[0][0] < span.first:
            heapq.heappush(free, heapq.heappop(taken)[1])
        if not free:
            heapq.heappush(free, count)
            count += 1
        span.column = heapq.heappop(free)
        if span.is_closed:
            heapq.heappush(taken, (span.last, span.column))
    return count


class Chart:
    """A picture of rows."""

    def __init__(self, rows):
        self.rows, self.spans, self.parts = rows, spans_of(rows), []
        self.columns = max(place_columns(self.spans), 1)
        self.gateway = FIRST_COLUMN + COLUMN_STEP * (self.columns - 1) + WIDE_STEP
        self.server = self.gateway + WIDE_STEP
        self.size = self.server + MARGIN, TOP + STEP * len(rows) + BOTTOM

    def x(self, owner):
        """Where the column of a player is."""
        return FIRST_COLUMN + COLUMN_STEP * self.spans[owner].column

    def y(self, place):
        """Where a row is."""
        return TOP + STEP * place

    def add(self, text, *values):
        """Adds a piece of SVG."""
        self.parts.append(text % values)

    def text(self, x, y, line, kind=""):
        """Adds words."""
        self.add('<text class="%s" x="%d" y="%d">%s</text>', kind, x, y, escape(line))

    def draw(self):
        """Draws lives first, and then row by row."""
        bottom = self.size[1] - 12
        for x, name in ((self.gateway, "gateway"), (self.server, "server")):
            self.add('<g color="%s"><path class="life" d="M%d 46V%d"/>', INK, x, bottom)
            self.add('<rect class="box" x="%d" y="14" width="116" height="32" rx="5"/>', x - 58)
            self.text(x, 35, name, "head")
            self.add("</g>")
        for owner, span in self.spans.items():
            self.draw_life(owner, span, span.last if span.is_closed else len(self.rows) - 1, bottom)
        for place, row in enumerate(self.rows):
            self.text(44, self.y(place) + 4, str(row.entry), "entry")
            if row.frames:
                self.draw_bar(self.y(place), row.frames)
            for part in row.parts:
                self.draw_part(self.y(place), part)
        return self

    def draw_life(self, owner, span, last, bottom):
        """The line of a player and its name, which stands above the line's begin, and then beside the line."""
        x, name = self.x(owner), "player %d" % owner
        self.add('<g color="%s"><path class="life" d="M%d %dV%d"/>', colour(owner), x, self.y(span.first) - 13,
                 self.y(last) if span.is_closed else bottom)
        self.text(x - 8, self.y(span.first) - 15, name, "name")
        for place in range(span.first + ROWS_BETWEEN_NAMES, last + 1, ROWS_BETWEEN_NAMES):
            self.text(x - 5, self.y(place) + 4, name, "name beside")
        self.add("</g>")

    def draw_part(self, y, part):
        """An arrow or a note, with all that it says as a tooltip."""
        whose = "" if part.owner is None else "player %d\n" % part.owner
        self.add('<g class="part" color="%s"><title>%s</title>', REFUSAL if part.is_refusal else colour(part.owner),
                 escape(whose + part.whole))
        outer = self.server if part.side == "right" else self.x(part.owner)
        if part.is_note:
            width = 12 + 6.4 * len(part.label)
            left = outer - 10 if part.side == "left" else outer - width + 60
            self.add('<rect class="note" x="%d" y="%d" width="%d" height="17" rx="3"/>', left, y - 11, width)
            self.text(left + 6, y + 2, part.label)
        else:
            self.draw_arrow(y, outer, part)
        self.add("</g>")

    def draw_arrow(self, y, outer, part):
        """An arrow; its words begin at the player, or stand between the gateway and the server."""
        begin, end = (outer, self.gateway) if part.is_inward else (self.gateway, outer)
        step = 1 if end > begin else -1
        self.add('<path class="line" d="M%d %dH%d"/><path class="tip" d="M%d %dl%d -4v8z"/>', begin, y, end - 6 * step,
                 end - step, y, -8 * step)
        if part.side == "right":
            self.text((self.gateway + self.server) / 2, y - 5, part.label, "middle")
        else:
            self.text(outer + 9, y - 5, part.label)

    def draw_bar(self, y, frames):
        """The frames between two other events: a bar that is shared out by the bytes of each player."""
        sums = {owner: sum(one.size for one in ways.values()) for owner, ways in frames.items()}
        count, size = sum(one.count for ways in frames.values() for one in ways.values()), sum(sums.values())
        known = [self.x(owner) for owner in frames if owner is not None]
        left, right = min(known, default=self.gateway), self.server
        lines = ["%s: %s" % ("nobody" if owner is None else "player %d" % owner, ", ".join(
            "%s %s" % (way, counted(one)) for way, one in sorted(ways.items()))) for owner, ways in frames.items()]
        self.add('<g class="part" color="%s"><title>%s</title>', INK, escape("frames\n" + "\n".join(lines)))
        at = left
        for owner in frames:
            width = (right - left) * sums[owner] / size
            self.add('<rect class="bar" x="%.1f" y="%d" width="%.1f" height="17" fill="%s"/>', at, y - 11, width,
                     colour(owner, 0.82))
            at += width
        said = "%s frame%s, %s bytes" % (format(count, ","), "" if count == 1 else "s", format(size, ","))
        self.text((left + right) / 2, y + 2, said, "on")
        self.add("</g>")

    def svg(self):
        """The picture as text."""
        return "\n".join(
            ['<svg xmlns="http://www.w3.org/2000/svg" viewBox="0 0 %d %d" width="%d" height="%d">' % (self.size * 2),
             "<title>what players and the server said, and what they were handed</title>", "<style>%s</style>" % STYLE,
             '<rect width="%d" height="%d" fill="#fff"/>' % self.size] + self.parts + ["</svg>", ""])


def drawn(rows):
    """The picture of rows."""
    return Chart(rows).draw()
