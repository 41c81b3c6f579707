"""A picture in SVG, and what is put into it."""
import re
from xml.sax.saxutils import escape, quoteattr

SANS = "system-ui, -apple-system, 'Segoe UI', 'DejaVu Sans', Helvetica, Arial, sans-serif"
MONO = "ui-monospace, SFMono-Regular, Menlo, Consolas, 'DejaVu Sans Mono', monospace"
PAPER, INK, PALE, FAINT = "#ffffff", "#1f2933", "#5b6773", "#cbd2d9"


class Picture:
    """It has a ground of its own, so that it can be read on a light page and on a dark one."""

    def __init__(self, width, height, title):
        self.width, self.height, self.title, self.parts = round(width), round(height), title, []

    def add(self, name, text=None, **attributes):
        given = {key.replace("_", "-"): told(value) for key, value in attributes.items() if value is not None}
        words = "".join(f" {key}={quoteattr(value)}" for key, value in given.items())
        self.parts.append(f"<{name}{words}/>" if text is None else f"<{name}{words}>{escape(text)}</{name}>")

    def box(self, x, y, width, height, fill=PAPER, stroke=FAINT, round_by=6, **more):
        self.add("rect", x=x, y=y, width=width, height=height, rx=round_by, fill=fill, stroke=stroke, **more)

    def text(self, x, y, words, size=15, fill=INK, anchor="middle", bold=False, mono=False, halo=False):
        """Its baseline is at y. With a halo it can be read over lines."""
        look = {"font_family": MONO if mono else None, "font_weight": "600" if bold else None}
        if halo:
            look.update(stroke=PAPER, stroke_width=4, paint_order="stroke")
        self.add("text", words, x=x, y=y, font_size=size, fill=fill, text_anchor=anchor, **look)

    def upright(self, x, y, words, size, fill):
        """Read from below; its middle is at y."""
        self.add("text", words, x=x, y=y, font_size=size, fill=fill, text_anchor="middle", transform=f"rotate(-90 {told(x)} {told(y)})")

    def line(self, points, stroke=PALE, width=1.5, arrow=False, dash=None):
        path = "M" + " L".join(f"{told(x)},{told(y)}" for x, y in points)
        self.path(path, stroke, width, arrow, dash)

    def path(self, path, stroke=PALE, width=1.5, arrow=False, dash=None):
        self.add("path", d=path, fill="none", stroke=stroke, stroke_width=width, stroke_dasharray=dash)
        if arrow:
            self.head(path, stroke)

    def head(self, path, fill):
        """The head of an arrow at the end of a path."""
        (x1, y1), (x2, y2) = (map(float, point.split(",")) for point in re.sub("[MLC]", "", path).split()[-2:])
        long = ((x2 - x1) ** 2 + (y2 - y1) ** 2) ** 0.5 or 1
        along, across = ((x2 - x1) / long, (y2 - y1) / long), (-(y2 - y1) / long, (x2 - x1) / long)
        back = [(x2 - 9 * along[0] + side * across[0], y2 - 9 * along[1] + side * across[1]) for side in (4.5, -4.5)]
        self.add("polygon", points=" ".join(f"{told(x)},{told(y)}" for x, y in [(x2, y2), *back]), fill=fill)

    def __str__(self):
        wide, high = self.width, self.height
        size = f'viewBox="0 0 {wide} {high}" width="{wide}" height="{high}"'
        head = f'<svg xmlns="http://www.w3.org/2000/svg" {size} role="img" font-family="{SANS}">'
        ground = f'<rect x="0.5" y="0.5" width="{wide - 1}" height="{high - 1}" rx="8" fill="{PAPER}" stroke="{FAINT}"/>'
        return "\n".join([head, f"<title>{escape(self.title)}</title>", ground, *self.parts, "</svg>\n"])


def told(value):
    """A number to a tenth at most, so that a picture is the same whoever makes it."""
    return re.sub(r"\.0$", "", f"{value:.1f}") if isinstance(value, float) else str(value)
