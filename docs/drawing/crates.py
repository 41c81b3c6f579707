"""The crates and which stands on which, from crates.txt; what each is about, from the table of the map. Those that only use them
stand on so many that their lines would hide the others: they have none."""
import re

from layers import Drawing, layers_of, reduced
from svg import PALE, Picture

ROW, HIGH, LEFT, SIDE, TOP, MARGIN = 66, 30, 48, 20, 112, 12
GROUND = "#f8fafc"
# What the groups of crates.txt are called, in its order.
GROUPS = "product", "programs", "uses"
# A fill and a line for each kind of crate, in the order of the map's table.
COLOURS = [
    ("#dbeafe", "#2563eb"),
    ("#dcfce7", "#15803d"),
    ("#fef3c7", "#b45309"),
    ("#fce7f3", "#be185d"),
    ("#ede9fe", "#6d28d9"),
    ("#e2e8f0", "#334155"),
    ("#f5f5f4", "#78716c"),
]


def groups_of(top):
    """The crates of each comment of crates.txt, with those that each stands on."""
    groups, below = [], {}
    for line in (top / "crates.txt").read_text().splitlines():
        if line.startswith("#"):
            groups.append([])
        elif ":" in line:
            crate, libraries = line.split(":")
            groups[-1].append(crate)
            below[crate] = libraries.split()
    return groups, {crate: [each for each in below[crate] if each in below] for crate in below}


def kinds_of(top):
    """What each crate is about: the headings in the table of crates/README.md."""
    kinds, kind = {}, None
    for line in (top / "crates/README.md").read_text().splitlines():
        heading = re.fullmatch(r"\| \*\*(\w[^*]*)\*\*(?:: (.*))? \| \|", line)
        crate = re.match(r"\| `(\w+)` \| ", line)
        if heading:
            kind = heading.group(2) or heading.group(1).lower()
        elif crate and kind:
            kinds[crate.group(1)] = kind
    return kinds


def width_of(node):
    """Of a crate its box, and of a line that passes a layer little."""
    return 10 if isinstance(node, tuple) else 22 + 8.4 * len(node)


def picture(top):
    groups, every = groups_of(top)
    kinds, below = kinds_of(top), reduced(every) | {crate: [] for crate in groups[-1]}
    for crate in below:
        if crate not in kinds:
            raise SystemExit(f"crates/README.md: its table lacks {crate}, so it can't be drawn")
    colours = dict(zip(dict.fromkeys(kinds.values()), COLOURS))
    drawing = Drawing(below, layers_of(below, groups), width_of, 16)
    x = {node: drawing.x[node] + LEFT for node in drawing.x}
    y = {node: TOP + (len(drawing.rows) - 1 - drawing.layer[node]) * ROW for node in drawing.x}
    wide = max(x[node] + width_of(node) / 2 for node in x) + SIDE
    it = Picture(wide, max(y.values()) + HIGH + MARGIN + 12, "The crates: each stands on those that lines lead down to")
    told = "Each crate stands on those that lines lead down to, and on what these stand on; those that only use them, on any."
    it.text(SIDE, 32, told, 14, PALE, "start")
    for group, name in zip(groups, GROUPS):
        high, low = min(y[crate] for crate in group) - MARGIN, max(y[crate] for crate in group) + HIGH + MARGIN
        it.box(SIDE / 2, high, wide - SIDE, low - high, GROUND, GROUND)
        it.upright(SIDE + 8, (high + low) / 2, name, 11, PALE)
    legend(it, [kinds[crate] for crate in groups[0]], colours)
    ports = ports_of(drawing, x)
    for (upper, lower), way in drawing.ways.items():
        passed = [point for node in way[1:-1] for point in ((x[node], y[node]), (x[node], y[node] + HIGH))]
        points = [(ports[upper, way[1], 0], y[upper] + HIGH), *passed, (ports[lower, way[-2], 1], y[lower])]
        it.path(curve(points), colours[kinds[upper]][1], 1.3)
    for crate in below:
        fill, stroke = colours[kinds[crate]]
        it.box(x[crate] - width_of(crate) / 2, y[crate], width_of(crate), HIGH, fill, stroke)
        it.text(x[crate], y[crate] + 20, crate, 14)
    return it


def legend(it, kinds, colours):
    """The colours of these kinds, in as many lines as they take."""
    x, y = SIDE, 46
    for kind in dict.fromkeys(kinds):
        long = 34 + 7.4 * len(kind)
        if x + long > it.width - SIDE:
            x, y = SIDE, y + 22
        it.box(x, y, 16, 14, *colours[kind], round_by=3)
        it.text(x + 22, y + 12, kind, 13, PALE, "start")
        x += long


def ports_of(drawing, x):
    """Where on a box a line to a neighbour begins: side by side, in the order in which they leave."""
    ports = {}
    for node in drawing.x:
        for side in (0, 1):
            near = sorted(drawing.near[node][side], key=lambda each: x[each])
            step = min(14, (width_of(node) - 24) / max(1, len(near) - 1))
            for at, each in enumerate(near):
                ports[node, each, side] = x[node] + (at - (len(near) - 1) / 2) * step
    return ports


def curve(points):
    """A line through these points, from above to below, that leaves and meets each upright."""
    words = [f"M{points[0][0]:.1f},{points[0][1]:.1f}"]
    for (x1, y1), (x2, y2) in zip(points, points[1:]):
        half = (y1 + y2) / 2
        words.append(f"C{x1:.1f},{half:.1f} {x2:.1f},{half:.1f} {x2:.1f},{y2:.1f}")
    return " ".join(words)
