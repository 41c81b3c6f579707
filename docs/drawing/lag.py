"""How a slot falls back and comes again, as the status page tells it: from docs/drawing/lag.txt, which bench/lag prints."""
from svg import FAINT, INK, PALE, Picture

WIDE, HIGH, LEFT, RIGHT, TOP, LOW = 880, 332, 78, 846, 62, 276
END, CONFIRMED, LAG, QUIET = "#64748b", "#2563eb", "#fee2e2", "#f1f5f9"
# From which second to which one nothing came, and why: as bench/lag does it.
SPANS = [(3, 6, "held: pubd_slot_active is 1"), (8, 10, "no client: it is 0")]


def rows(top):
    lines = (top / "docs/drawing/lag.txt").read_text().splitlines()
    return [tuple(float(word) for word in line.split()) for line in lines]


def picture(top):
    data = rows(top)
    last, most = 12, max(end for _, end, *_ in data)

    def x(second):
        return LEFT + (RIGHT - LEFT) * second / last

    def y(count):
        return LOW - (LOW - TOP) * count / most

    it = Picture(WIDE, HIGH, "How a slot falls back and comes again")
    it.text(20, 30, "How a slot falls back, and comes again", 17, INK, "start", bold=True)
    for begin, end, told in SPANS:
        it.box(x(begin), TOP - 6, x(end) - x(begin), LOW - TOP + 6, QUIET, QUIET, round_by=0)
        it.text((x(begin) + x(end)) / 2, TOP + 10, told, 12, PALE)
    for count in range(0, int(most) + 1, 50_000):
        it.line([(LEFT, y(count)), (RIGHT, y(count))], FAINT, 1)
        it.text(LEFT - 8, y(count) + 4, f"{count // 1000} kB" if count else "0", 12, PALE, "end")
    for second in range(0, last + 1, 2):
        it.text(x(second), LOW + 18, f"{second} s", 12, PALE)
    ends = [(x(second), y(end)) for second, end, *_ in data]
    confirmed = [(x(second), y(count)) for second, _, _, count, _ in data]
    it.add("polygon", points=" ".join(f"{a:.1f},{b:.1f}" for a, b in [*ends, *reversed(confirmed)]), fill=LAG)
    it.line(ends, END, 2)
    it.line(confirmed, CONFIRMED, 2)
    for at, colour, told in ((0, END, "pubd_log_end_position"), (220, CONFIRMED, "pubd_slot_confirmed_position"), (490, LAG, "pubd_slot_behind_bytes")):
        it.box(LEFT + at, HIGH - 22, 16, 12, colour, colour, round_by=2)
        it.text(LEFT + at + 22, HIGH - 12, told, 12.5, PALE, "start", mono=True)
    return it
