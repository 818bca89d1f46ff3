"""Pictures in SVG, for tools/pictures."""
from xml.sax.saxutils import escape

STYLE = """
text { font: 13px 'DejaVu Sans', Verdana, sans-serif; fill: #1b1b1b; text-anchor: middle }
.left { text-anchor: start } .small { font-size: 11px } .title { font-size: 15px; font-weight: bold } .name { font-weight: bold }
.note { font-size: 11px; fill: #6b3d00 } .quiet { font-size: 11px; fill: #555 }
rect { stroke: #33475b; stroke-width: 1.2; fill: #eaf1f8; rx: 5 }
rect.page { fill: #fff; stroke: none; rx: 0 } rect.kit { fill: #f2f2f2; stroke: #999 }
rect.ready { fill: #fff7e0; stroke: #b98b1d; stroke-dasharray: 5 3 } rect.top { fill: #d8ead6; stroke: #3a6b35 }
rect.hold { fill: #fff7e0; stroke: #b98b1d } rect.over { fill: #f2f2f2; stroke: #999 } rect.region { fill: #f7fafd; stroke: #999 }
path, line { fill: none; stroke: #5b6b7b; stroke-width: 1.1 } .faint { stroke: #b6c0ca }
.life { stroke: #b6c0ca; stroke-dasharray: 4 4 } .later { stroke-dasharray: 5 3 }
"""
HEAD = ('<marker id="head" viewBox="0 0 10 10" refX="9" refY="5" markerWidth="8" markerHeight="8" orient="auto-start-reverse">'
        '<path d="M0 0L10 5L0 10z" style="fill:#5b6b7b;stroke:none"/></marker>')


class Picture:
    """The parts of a picture, in the order in which they are drawn."""

    def __init__(self, width, height, title):
        self.size = (width, height)
        self.parts = ["<title>%s</title>" % escape(title)]

    def box(self, x, y, width, height, lines, kind=""):
        """A box with lines of text, round a middle."""
        self.parts.append('<rect class="%s" x="%d" y="%d" width="%d" height="%d"/>' % (kind, x - width / 2, y - height / 2, width, height))
        for place, line in enumerate(lines):
            kind_of = "small" if place else ""
            self.text(x, y + 17 * (place - (len(lines) - 1) / 2), line, kind_of)

    def text(self, x, y, line, kind=""):
        self.parts.append('<text class="%s" x="%d" y="%d">%s</text>' % (kind, x, y + 4, escape(line)))

    def texts(self, x, y, lines, kind="small"):
        """Small lines of text below each other, the first one here."""
        for place, line in enumerate(lines):
            self.text(x, y + 14 * place, line, kind)

    def region(self, x, y, width, height):
        """What stands behind boxes that are in one."""
        self.parts.append('<rect class="region" x="%d" y="%d" width="%d" height="%d"/>' % (x, y, width, height))

    def path(self, data, kind="", arrow=False):
        self.parts.append('<path class="%s" d="%s"%s/>' % (kind, data, ' marker-end="url(#head)"' if arrow else ""))

    def svg(self):
        width, height = self.size
        return "\n".join(
            ['<svg xmlns="http://www.w3.org/2000/svg" viewBox="0 0 %d %d" width="%d" height="%d">' % (width, height, width, height),
             "<style>%s</style>" % STYLE, "<defs>%s</defs>" % HEAD,
             '<rect class="page" width="%d" height="%d"/>' % (width, height)] + self.parts + ["</svg>", ""])
