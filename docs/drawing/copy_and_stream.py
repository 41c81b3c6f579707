"""A table is copied and then followed, while sessions commit: from docs/drawing/copy.txt, which bench/copy-and-stream prints."""
from svg import FAINT, INK, PALE, Picture

WIDE, PUBLISHER, SUBSCRIBER, TOP, ROW = 960, 216, 716, 96, 27
ASKED, COPIED, STREAMED = "#2563eb", "#15803d", "#7c3aed"


def lines_of(top):
    return [line.split("\t", 1) for line in (top / "docs/drawing/copy.txt").read_text().splitlines()]


class Tables:
    """What the subscriber's table comes to: the keys of its rows, each with how often it was changed."""

    def __init__(self):
        self.keys, self.streamed = [], []

    def after(self, words):
        """What stands beside a line of the server, if it tells of rows."""
        kind, _, rest = words.partition(" ")
        if kind in ("INSERT", "UPDATE"):
            self.streamed.append((kind, rest))
            return ""
        if kind == "COMMIT":
            done = [f"{key} {'added' if kind == 'INSERT' else 'changed'}" for kind, key in self.streamed]
            self.streamed = []
            return ", ".join(done)
        if kind == "COPY":
            return f"rows {', '.join(self.keys)}"
        if "\\t" in words:
            self.keys.append(words.partition("\\t")[0])
        return ""


def picture(top):
    lines, tables = lines_of(top), Tables()
    it = Picture(WIDE, TOP + (len(lines) + 1) * ROW, "A table is copied and then followed, while sessions commit")
    it.text(20, 34, "A table is copied, and then followed", 17, INK, "start", bold=True)
    it.text(20, 58, "The snapshot has what committed before the slot's position, and the stream all that commits from there on.", 14, PALE, "start")
    for x, name in ((PUBLISHER, "publisher"), (SUBSCRIBER, "subscriber")):
        it.text(x, TOP - 12, name, 14, INK, bold=True)
        it.line([(x, TOP - 4), (x, it.height - 14)], FAINT, 2)
    y, colour = TOP + ROW * 0.7, COPIED
    for who, words in lines:
        if who == "session":
            it.text(PUBLISHER - 14, y + 4, words, 12.5, INK, "end")
        elif who == "client":
            it.line([(SUBSCRIBER, y), (PUBLISHER, y)], ASKED, 1.3, arrow=True, dash="5 4")
            it.text((PUBLISHER + SUBSCRIBER) / 2, y - 5, words.partition(" (proto")[0], 11.5, ASKED, mono=True)
            colour = STREAMED if words.startswith("START") else colour
        else:
            it.line([(PUBLISHER, y), (SUBSCRIBER, y)], colour, 1.3, arrow=True)
            it.text((PUBLISHER + SUBSCRIBER) / 2, y - 5, words, 11.5, colour, mono=True)
            it.text(SUBSCRIBER + 14, y + 4, tables.after(words), 12.5, colour, "start")
        y += ROW
    return it
