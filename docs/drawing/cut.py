"""A connection that is cut within a transaction, and what comes again: the case of tests/schedules/rendered, which holds it against
what pubsim prints."""
import importlib.machinery
import importlib.util

from svg import FAINT, INK, PALE, PAPER, Picture

CASE = "a connection that is cut within a transaction"
WIDE, PUBLISHER, SUBSCRIBER, TOP, ROW = 960, 216, 676, 190, 27
LOST, APPLIED, PASSED, BACK = "#b91c1c", "#15803d", "#78716c", "#2563eb"
# Where the log's drawing begins, and how many pixels a byte of it takes.
LOG, BYTE = PUBLISHER, 2.4


def case_of(top):
    """The lines of the schedule, and what each start produced; then the last line of the slot and of the subscriber."""
    loader = importlib.machinery.SourceFileLoader("rendered", str(top / "tests/schedules/rendered"))
    module = importlib.util.module_from_spec(importlib.util.spec_from_loader("rendered", loader))
    loader.exec_module(module)
    schedule, printed = module.CASES[CASE]
    starts, last = [], []
    for line in printed.splitlines():
        if line == "c:":
            starts.append([])
        else:
            (starts[-1] if line.startswith("  ") else last).append(line.strip())
    return schedule.splitlines(), starts, last


def number(position):
    """A position as a number; those here have nothing in their upper half."""
    return int(position.partition("/")[2], 16)


class Time:
    """The drawing from above to below: what goes either way, and what stands beside it."""

    def __init__(self, it):
        self.it, self.y, self.position, self.slot, self.half = it, TOP, "0/0", None, None

    def note(self, publisher="", subscriber="", fill=PALE):
        self.it.text(PUBLISHER - 14, self.y + 4, publisher, 12.5, fill, "end")
        self.it.text(SUBSCRIBER + 14, self.y + 4, subscriber, 12.5, fill, "start")

    def send(self, words, fill=INK, far=1.0):
        """A frame to the subscriber, or the beginning of one."""
        end = PUBLISHER + (SUBSCRIBER - PUBLISHER) * far
        self.it.line([(PUBLISHER, self.y), (end, self.y)], fill, 1.3, arrow=far == 1)
        self.it.text((PUBLISHER + SUBSCRIBER) / 2, self.y - 5, words, 11.5, fill, mono=True)

    def answer(self, words, fill=BACK, far=1.0):
        """What the subscriber says, or what is lost of it on the way."""
        end = SUBSCRIBER - (SUBSCRIBER - PUBLISHER) * far
        self.it.line([(SUBSCRIBER, self.y), (end, self.y)], fill, 1.3, arrow=far == 1, dash="5 4")
        self.it.text((PUBLISHER + SUBSCRIBER) / 2, self.y - 5, words, 11.5, fill, mono=True)

    def stop(self, far):
        """A cross where something is cut off."""
        x, y = PUBLISHER + (SUBSCRIBER - PUBLISHER) * far, self.y
        for side in (5, -5):
            self.it.line([(x - 5, y - side), (x + 5, y + side)], LOST, 2)

    def frames(self, frames):
        """The frames of one connection. A transaction is applied at its Commit, unless that starts below the position before it."""
        xid = begun = None
        for frame in frames:
            kind = frame.split()[1]
            if kind == "BEGIN":
                xid, begun = frame.split()[2:4]
            again = number(begun) < number(self.position)
            if frame.endswith("of a frame"):
                self.send(frame, LOST, 0.82)
                self.stop(0.82)
                self.note("", f"{xid} isn't whole: nothing is applied", LOST)
                self.half = xid
            else:
                self.send(frame, PASSED if again else INK)
            if kind == "BEGIN" and xid == self.half:
                self.note("", f"{xid} from its beginning")
            if kind == "COMMIT" and again:
                self.note("", f"{xid} passed over: below {self.position}", PASSED)
            elif kind == "COMMIT":
                self.position = frame.split()[3]
                self.note("", f"{xid} applied, position {self.position}", APPLIED)
            self.y += ROW

    def start(self, line):
        self.answer(line)
        self.note(f"from slot s: {self.slot}", f"position {self.position}")
        self.y += ROW

    def cut(self):
        self.y += ROW / 4
        points = [(PUBLISHER + at * 10, self.y + (4 if at % 2 else -4)) for at in range((SUBSCRIBER - PUBLISHER) // 10 + 1)]
        self.it.line(points, LOST, 2)
        middle = (PUBLISHER + SUBSCRIBER) / 2
        self.it.box(middle - 88, self.y - 10, 176, 20, PAPER, PAPER)
        self.it.text(middle, self.y + 5, "the connection is cut", 14, LOST, bold=True)
        self.note("slot s is free again", f"half of {self.half} is forgotten", LOST)
        self.y += ROW * 1.5


def log(it, frames):
    """The records that the frames tell of, by their positions."""
    boxes, begun, end = [], None, None
    for frame in frames:
        position, kind, *words = frame.split()
        if kind == "BEGIN":
            xid, begun = words[0], words[1]
        elif kind == "INSERT":
            boxes.append((position, f"insert {xid}"))
        elif kind == "COMMIT":
            boxes.append((begun, f"commit {xid}"))
            end = words[1]
    first = number(boxes[0][0])
    for (position, words), (other, _) in zip(boxes, [*boxes[1:], (end, "")]):
        x, wide = LOG + (number(position) - first) * BYTE, (number(other) - number(position)) * BYTE
        it.box(x, 84, wide, 30, "#dcfce7" if words.startswith("insert") else "#bbf7d0", APPLIED, round_by=0)
        it.text(x + wide / 2, 103, words, 11)
        it.text(x, 130, position, 11, PALE, mono=True)
    it.text(LOG + (number(end) - first) * BYTE, 130, end, 11, PALE, mono=True)
    return boxes[0][0]


def picture(top):
    schedule, (one, two), (slot, subscriber) = case_of(top)
    begun = next(line for line in schedule if line.startswith("start"))
    it = Picture(WIDE, TOP + (len(one) + len(two) + 6) * ROW, "A connection that is cut within a transaction, and what comes again")
    it.text(20, 34, "A connection is cut within a transaction", 17, INK, "start", bold=True)
    it.text(20, 58, "What was committed comes again from the slot's position on, and is applied once.", 14, PALE, "start")
    it.text(PUBLISHER - 14, 104, "the log", 14, INK, "end")
    time = Time(it)
    time.slot = log(it, two)
    end = it.height - 18
    for x, name in ((PUBLISHER, "publisher"), (SUBSCRIBER, "subscriber")):
        it.text(x, TOP - 26, name, 14, INK, bold=True)
        it.line([(x, TOP - 16), (x, end)], FAINT, 2)
    time.start(begun)
    time.frames(one)
    time.answer(f"status {time.position}", LOST, 0.82)
    time.stop(1 - 0.82)
    time.note("", "the status is lost", LOST)
    time.y += ROW
    time.cut()
    time.start(begun)
    time.frames(two)
    time.answer(f"status {time.position}")
    time.slot = slot.split()[2]
    time.note(f"slot s at {time.slot}", f"{subscriber.split()[3]} transactions applied, each once", APPLIED)
    return it
