"""The clusters of a program with their links as a drawing (SVG) that stands in a page."""
import html

from sigc.view import picture_names

LETTER, LINE, PAD, GAP = 7.3, 16, 10, 18


class Box:
    """A box with lines of text, the first of them its head."""

    def __init__(self, lines, x, y, width, height):
        self.lines, self.x, self.y, self.width, self.height = lines, x, y, width, height

    @property
    def middle(self):
        return self.y + self.height / 2

    def drawn(self):
        yield f'<rect x="{self.x:.0f}" y="{self.y:.0f}" width="{self.width:.0f}" height="{self.height:.0f}" rx="5"/>'
        for number, line in enumerate(self.lines):
            how = ' class="head"' if not number else ""
            yield text(self.x + PAD, self.y + PAD + LINE * (number + 0.8), line, how)


def text(x, y, line, how=""):
    return f'<text x="{x:.0f}" y="{y:.0f}" xml:space="preserve"{how}>{html.escape(line)}</text>'


def width_of(lines):
    return max((len(it) for it in lines), default=0) * LETTER


def height_of(lines):
    return LINE * len(lines) + 2 * PAD


def lanes_of(pairs):
    """The lane of each pair of clusters, from the clusters outwards. Those that stand below one another share one."""
    lanes, found = [], {}
    for pair in sorted(pairs, key=lambda it: abs(it[0] - it[1])):
        low, high = sorted(pair)
        lane = next((at for at, taken in enumerate(lanes) if all(high <= one or other <= low for one, other in taken)), len(lanes))
        lanes += [[]] if lane == len(lanes) else []
        lanes[lane].append((low, high))
        found[pair] = lane
    return found


class Drawing:
    """The clusters one below the other, the collector at their right, and an arrow for the links between two actors.

    An arrow to the collector is straight; one to another cluster goes at the left, in a lane of its own.
    """

    def __init__(self, code, classes, names):
        self.arrows = {pair: picture_names.arrow_of(signals, names) for pair, signals in code.bundles().items()}
        self.collector = next(it.number for it in code.actors if it.is_collector)
        self.clusters = [it.number for it in code.actors if not it.is_collector]
        self.lanes = lanes_of(pair for pair in self.arrows if self.collector not in pair)
        self.boxes = {}
        self.stand({it.number: [it.name, *picture_names.signals_of(it, classes, names)] for it in code.actors})

    def x_of(self, lane):
        """How far a lane is from the clusters: the names of those between stand beside them."""
        widths = [max(width_of(self.arrows[pair]) for pair, it in self.lanes.items() if it == inner) for inner in range(lane)]
        return 2 * GAP + sum(widths) + GAP * lane

    def stand(self, lines):
        """Gives each actor its box."""
        left = self.x_of(max(self.lanes.values(), default=-1) + 1) if self.lanes else 2
        width = max(width_of(lines[it]) for it in self.clusters) + 2 * PAD
        y = 2
        for it in self.clusters:
            ends = sum(it in pair for pair in self.lanes)
            height = max(height_of(lines[it]), 2 * height_of(self.arrows.get((it, self.collector), [])), LINE * (ends + 1))
            self.boxes[it] = Box(lines[it], left, y, width, height)
            y += height + GAP
        between = max((width_of(label) for pair, label in self.arrows.items() if self.collector in pair), default=0) + 60
        own = lines[self.collector]
        self.boxes[self.collector] = Box(own, left + width + between, 2, width_of(own) + 2 * PAD, y - GAP - 2)
        self.width = left + width + between + width_of(own) + 2 * PAD + 2
        self.height = y - GAP + 2

    def end_of(self, cluster, pair):
        """Where the arrow of a pair meets a cluster: at its end that is nearer, so that few arrows cross."""
        others = {it: sum(it) - cluster for it in self.lanes if cluster in it}
        ends = sorted(others, key=lambda it: (others[it] > cluster, -others[it], it))
        box = self.boxes[cluster]
        return box.y + box.height * (ends.index(pair) + 1) / (len(ends) + 1)

    def straight(self, writer, label):
        """The arrow from a cluster to the collector, with what it carries above it."""
        box, end = self.boxes[writer], self.boxes[self.collector].x
        begin = box.x + box.width
        yield f'<path d="M{begin:.0f} {box.middle:.0f}H{end - 6:.0f}" marker-end="url(#tip)"{reported(label)}/>'
        for number, line in enumerate(label[::-1]):
            yield text((begin + end) / 2, box.middle - 6 - LINE * number, line, ' text-anchor="middle"')

    def aside(self, pair, label):
        """The arrow from one cluster to another, with what it carries at its left."""
        (begin, end), left = (self.end_of(it, pair) for it in pair), self.boxes[pair[0]].x
        x, bend = left - self.x_of(self.lanes[pair]), 8 if begin < end else -8
        path = f"M{left:.0f} {begin:.0f}H{x + 8:.0f}Q{x:.0f} {begin:.0f} {x:.0f} {begin + bend:.0f}V{end - bend:.0f}Q{x:.0f} {end:.0f} {x + 8:.0f} {end:.0f}H{left - 6:.0f}"
        yield f'<path d="{path}" marker-end="url(#tip)"{reported(label)}/>'
        for number, line in enumerate(label):
            yield text(x - 5, (begin + end) / 2 + 4 + LINE * (number - (len(label) - 1) / 2), line, ' text-anchor="end"')

    def svg(self):
        yield f'<svg viewBox="0 0 {self.width:.0f} {self.height:.0f}" width="{self.width:.0f}" height="{self.height:.0f}" role="img">'
        yield '<defs><marker id="tip" viewBox="0 0 8 8" refX="4" refY="4" markerWidth="7" markerHeight="7" orient="auto"><path d="M0 0L8 4L0 8Z"/></marker></defs>'
        parts = [it for box in self.boxes.values() for it in box.drawn()]
        for pair, label in self.arrows.items():
            parts += self.straight(pair[0], label) if self.collector in pair else self.aside(pair, label)
        yield from sorted(parts, key=lambda it: it.startswith("<text"))
        yield "</svg>"


def reported(label):
    """How a link without signals is drawn: it carries a report alone."""
    return "" if label else ' class="report"'
