"""A run of ./demo, from what it printed: examples/demo/run.txt."""
from svg import INK, PALE, Picture

WIDE, LEFT, RIGHT, TOP, ROW = 880, 24, 452, 78, 19
CUT, UNDONE, CAME = "#b91c1c", "#b45309", "#15803d"
# Which transactions are shown, by their place in the run, and what each shows.
SHOWN = {1: "an order", 3: "one that is called off", 4: "one of which an article is taken back", 6: "one in which the connection is cut"}
MARKS = {"cut ": CUT, "abort": UNDONE, "savepoint": UNDONE, "rollback": UNDONE, "nothing": UNDONE, "arrived": CAME}


def blocks_of(top):
    """The lines of each transaction, left and right, after the two of the head."""
    found = [[]]
    for line in (top / "examples/demo/run.txt").read_text().splitlines()[2:]:
        left, bar, right = line.partition("│")
        if not bar:
            break
        if left.strip() or right.strip():
            found[-1].append((left.strip(), right.strip()))
        else:
            found.append([])
    return found


def colour_of(text):
    return next((colour for mark, colour in MARKS.items() if text.startswith(mark)), INK)


def picture(top):
    blocks = [(told, blocks_of(top)[at]) for at, told in SHOWN.items()]
    high = TOP + sum(ROW * (len(lines) + 1) + 14 for _, lines in blocks)
    it = Picture(WIDE, high, "A run of ./demo: what pubd is told, and what arrives at a subscriber")
    it.text(LEFT, 32, "./demo", 17, INK, "start", bold=True, mono=True)
    it.text(LEFT, 58, "what pubd is told, line by line", 13.5, PALE, "start")
    it.text(RIGHT, 58, "what arrives at the subscriber", 13.5, PALE, "start")
    y = TOP
    for told, lines in blocks:
        it.line([(LEFT, y - 6), (WIDE - LEFT, y - 6)], "#cbd2d9", 1)
        it.text(LEFT, y + 10, told, 12.5, PALE, "start")
        for at, (left, right) in enumerate(lines, 1):
            it.text(LEFT + 12, y + 10 + ROW * at, left, 12.5, colour_of(left), "start", mono=True)
            it.text(RIGHT, y + 10 + ROW * at, right, 12.5, colour_of(right), "start", mono=True)
        y += ROW * (len(lines) + 1) + 14
    return it
