"""The crates by their layers, as crates.txt has them, and the pictures of both; for tools/pictures.

A line `# layer NAME: a sentence` begins each layer, the lowest first. A crate that is named nowhere at a line's beginning is of the
kit.
"""
import re
from dataclasses import dataclass, field

from svg import Picture

HEAD = re.compile(r"# layer (?P<name>[^:]+): (?P<what>.+)")
PROGRAM, TESTS = "rtspgate", "tests"
# What a letter takes in a box's first line, and in a small one.
WIDE, SMALL = 8, 6.4
# How many letters stand in a line of a layer's box at most.
LINE = 54
# Between two boxes of a row, from row to row, round a whole picture, and what a line that passes a row takes of it.
GAP, STEP, EDGE, PASSING = 22, 44, 26, 30
TURNS = 400


class Wrong(Exception):
    """What crates.txt should not say."""


@dataclass
class Layer:
    """A layer: its name, its sentence, and what each of its crates stands on."""
    name: str
    what: str
    crates: dict = field(default_factory=dict)

    def file(self):
        """The name of its picture, below docs."""
        return "layers/" + self.name.replace(" ", "_")


def layers_of(text):
    """The layers of crates.txt, the lowest first."""
    layers = []
    for line in text.splitlines():
        head = HEAD.fullmatch(line)
        if head:
            layers.append(Layer(head["name"], head["what"]))
        elif line.strip() and not line.startswith("#"):
            if not layers:
                raise Wrong("crates.txt: no line `# layer NAME: a sentence` stands before the first crate")
            name, _, below = line.partition(":")
            layers[-1].crates[name.strip()] = below.split()
    return layers


def upward(layers):
    """Each crate that stands on one of a higher layer: the crate, its layer, the other crate and that one's layer."""
    return [(name, layer.name, other, above.name) for place, layer in enumerate(layers) for above in layers[place + 1:]
            for name, below in layer.crates.items() for other in below if other in above.crates]


def below_layers(layers):
    """Which lower layers each layer stands on."""
    return {layer.name: [lower.name for lower in layers[:place]
                         if any(other in lower.crates for below in layer.crates.values() for other in below)]
            for place, layer in enumerate(layers)}


def reach(below, name):
    """All that something stands on, straight or not."""
    found = set()
    for other in below[name]:
        found |= {other} | reach(below, other)
    return found


def straight(below):
    """The same without what another way leads to."""
    return {name: [other for other in others if not any(other in reach(below, third) for third in others)]
            for name, others in below.items()}


def height(below, name):
    """How high something stands: on the highest of those below it."""
    return max([0] + [1 + height(below, other) for other in below[name]])


def spread(wanted, weights, apart):
    """The places nearest to those wanted, by least squares, of which each is so far from the one before it at least."""
    offsets, groups = [sum(apart[:place + 1]) for place in range(len(apart))], []
    for want, weight, offset in zip(wanted, weights, offsets):
        groups.append([weight * (want - offset), weight, 1])
        while groups[1:] and groups[-2][0] / groups[-2][1] > groups[-1][0] / groups[-1][1]:
            last = groups.pop()
            groups[-1] = [one + other for one, other in zip(groups[-1], last)]
    means = [total / weight for total, weight, count in groups for _ in range(count)]
    return [mean + offset for mean, offset in zip(means, offsets)]


class Plan:
    """Where boxes of these sizes go, in rows above what they stand on, and the ways between them."""

    def __init__(self, below, sizes):
        self.sizes, self.below = sizes, straight(below)
        high = {name: height(below, name) for name in below}
        self.rows, self.ways = [[] for _ in range(1 + max(high.values()))], []
        for name in below:
            self.rows[high[name]].append(name)
        # A way over several rows goes by a place in each row between.
        for name in below:
            for other in self.below[name]:
                between = [(name, other, row) for row in range(high[name] - 1, high[other], -1)]
                for place in between:
                    self.rows[place[2]].append(place)
                self.ways.append([name] + between + [other])
        self.joined = {}
        for way in self.ways:
            for one, other in zip(way, way[1:]):
                # A line that passes rows is straight before all else.
                weight = (1, 2, 8)[(one not in sizes) + (other not in sizes)]
                self.joined.setdefault(one, []).append((other, weight))
                self.joined.setdefault(other, []).append((one, weight))
        self.order()
        self.place()

    def order(self):
        """Orders each row, so that what is joined stands near each other."""
        for turn in range(TURNS):
            at = {part: place / max(1, len(row) - 1) for row in self.rows for place, part in enumerate(row)}
            for row in self.rows if turn % 2 else reversed(self.rows):
                wanted = {part: self.mean(part, at) for part in row}
                row.sort(key=lambda part: (wanted[part], str(part)))
                at.update({part: place / max(1, len(row) - 1) for place, part in enumerate(row)})

    def mean(self, part, at):
        """Where those are, in the middle, that something is joined to; else where it is."""
        near = self.joined.get(part)
        return sum(weight * at[other] for other, weight in near) / self.weight(part) if near else at[part]

    def weight(self, part):
        """How much that counts."""
        return sum(weight for _, weight in self.joined.get(part, ())) or 1

    def place(self):
        """Gives each part its place: those of a row by what they are joined to, and the rows above each other."""
        wide = {part: self.sizes[part][0] if part in self.sizes else PASSING for row in self.rows for part in row}
        across = {}
        for row in self.rows:
            total, x = sum(wide[part] + GAP for part in row), 0
            for part in row:
                across[part] = x + (wide[part] + GAP) / 2 - total / 2
                x += wide[part] + GAP
        for turn in range(TURNS):
            for row in self.rows if turn % 2 else reversed(self.rows):
                apart = [0] + [(wide[one] + wide[other]) / 2 + GAP for one, other in zip(row, row[1:])]
                weights = [self.weight(part) for part in row]
                across.update(zip(row, spread([self.mean(part, across) for part in row], weights, apart)))
        left = min(across[part] - wide[part] / 2 for part in across)
        self.width = max(across[part] + wide[part] / 2 for part in across) - left + 2 * EDGE
        highs = [max(self.sizes[part][1] for part in row if part in self.sizes) for row in self.rows]
        self.height = sum(highs) + STEP * (len(highs) - 1) + 2 * EDGE
        self.at, foot = {}, self.height - EDGE
        for row, high in zip(self.rows, highs):
            for part in row:
                self.at[part] = (across[part] - left + EDGE, foot - high / 2)
            foot -= high + STEP
        self.highs = {part: high for row, high in zip(self.rows, highs) for part in row}

    def draw(self, picture, down):
        """Draws the ways between boxes, so far down."""
        for way in self.ways:
            data, before = "", None
            for part in way:
                x, y = self.at[part][0], self.at[part][1] + down
                # A passing line goes straight through its row.
                half = (self.sizes[part][1] if part in self.sizes else self.highs[part]) / 2
                if before is None:
                    data = "M%d %d" % (x, y + half)
                else:
                    u, v = before
                    middle = (v + y - half) / 2
                    data += "C%d %d %d %d %d %d" % (u, middle, x, middle, x, y - half)
                    data += "V%d" % (y + half) if part != way[-1] else ""
                before = (x, y + half)
            picture.path(data)


def lines_within(words, most):
    """Words in lines of so many letters at most."""
    lines = [words[0]]
    for word in words[1:]:
        if len(lines[-1]) + 1 + len(word) > most:
            lines.append(word)
        else:
            lines[-1] += " " + word
    return lines


def lines_of(text):
    """A text in as few lines as it fits into, and these as short as can be."""
    few = len(lines_within(text.split(), LINE))
    return next(lines for most in range(LINE + 1) for lines in [lines_within(text.split(), most)] if len(lines) <= few)


def kind_of(layer):
    """The colour of a layer."""
    return "top" if PROGRAM in layer.crates else "ready" if layer.name == TESTS else ""


def draw_layers(layers):
    """The layers, with their crates, and what each stands on."""
    texts = {layer.name: [(layer.name, "name"), *((line, "quiet") for line in lines_of(layer.what)),
                          *((line, "small") for line in lines_of(", ".join(layer.crates)))] for layer in layers}
    sizes = {name: (max(SMALL * len(line) for line, _ in lines) + 30, 17 * len(lines) + 14) for name, lines in texts.items()}
    plan = Plan(below_layers(layers), sizes)
    picture = Picture(plan.width, plan.height, "the layers of the crates, and what each uses")
    plan.draw(picture, 0)
    for layer in layers:
        (x, y), lines = plan.at[layer.name], texts[layer.name]
        picture.box(x, y, *sizes[layer.name], [], kind_of(layer))
        for place, (line, kind) in enumerate(lines):
            picture.text(x, y + 17 * (place - (len(lines) - 1) / 2), line, kind)
    for name, lower, other, higher in upward(layers):
        (x, y), (u, v) = ((plan.at[one][0] - sizes[one][0] / 4, plan.at[one][1]) for one in (lower, higher))
        top, foot = y - sizes[lower][1] / 2, v + sizes[higher][1] / 2
        said = "%s uses %s" % (name, other)
        picture.path("M%d %dC%d %d %d %d %d %d" % (x, top, x, (top + foot) / 2, u, (top + foot) / 2, u, foot + 2), "later", True)
        picture.text(min(x, u) - 12 - SMALL * len(said) / 2, (top + foot) / 2 + 6, said, "small")
    return picture


def draw_layer(layer, layers):
    """The crates of a layer, and what each stands on of them."""
    below = {name: [other for other in others if other in layer.crates] for name, others in layer.crates.items()}
    plan = Plan(below, {name: (WIDE * len(name) + 20, 32) for name in below})
    kit = {other for others in layer.crates.values() for other in others} - {name for one in layers for name in one.crates}
    on = [other.name for other in layers if other.name in straight(below_layers(layers))[layer.name]]
    above = ["%s uses %s, of %s" % (name, other, higher) for name, lower, other, higher in upward(layers) if lower == layer.name]
    said = ["%s: %s" % (what, ", ".join(names)) for what, names in (("uses", on), ("upward", above), ("of the kit", sorted(kit))) if names]
    wide = max(plan.width, SMALL * max(len(line) for line in said + [layer.what]) + 2 * EDGE)
    picture = Picture(wide, plan.height + 54 + 16 * len(said), layer.name + ": " + layer.what)
    picture.text(EDGE, 24, layer.name, "title left")
    picture.text(EDGE, 44, layer.what, "quiet left")
    plan.draw(picture, 46)
    for name in below:
        x, y = plan.at[name]
        picture.box(x, y + 46, *plan.sizes[name], [name], "top" if name == PROGRAM else kind_of(layer) if layer.name == TESTS else "")
    for place, line in enumerate(said):
        picture.text(EDGE, plan.height + 50 + 16 * place, line, "quiet left")
    return picture
