"""The way of one insert from a session's line to its subscriber: which crates have it, and what it is there."""
import re
import textwrap

from crates import COLOURS, kinds_of
from svg import INK, PALE, Picture

WIDE, LEFT, STEP, DATA, TOP, HIGH, GAP = 900, 58, 384, 462, 66, 62, 14
GROUND, OTHER = "#f8fafc", "#b91c1c"
REFUSED = "refused: S1, S2, S6, S5, S3, S7; nothing changes"
# The record and its body, by the coding of LOG.
RECORD = "0/1000000 to 0/1000030, of 700:", "01 00004000 0003 02 00000001", "04 00000002 6162 03 0000000000000007"
# How many letters of code have room in a line.
LETTERS = 52


class Code(str):
    """What stands so in a text, a log or a frame."""


def frame_of(top):
    """The third frame of the sample in PROTOCOL: its head with that of XLogData, and the message."""
    text = (top / "docs/PROTOCOL.md").read_text().partition("## A sample")[2]
    frames = re.split(r"^64 ", re.search(r"^```\n(.*?)^```", text, re.MULTILINE | re.DOTALL).group(1), flags=re.MULTILINE)
    head, message = frames[3].strip().split("\n")
    return Code(f"64 {head}"), Code(message.strip())


def steps(top):
    """Each thread with its steps: which crates do it, what they do, what the insert is then, and how else it may end there."""
    schedule = (top / "crates/pubsim/data/one-insert.sched").read_text().splitlines()
    line = next(line for line in schedule if line.startswith("insert"))
    documents = (top / "docs/SCHEDULES.md").read_text()
    printed = re.search(r"^  \S+ (INSERT .*)$", documents, re.MULTILINE).group(1)
    slot = re.search(r"`(slot \w+ 0/1000050)`", documents).group(1)
    head, message = frame_of(top)
    row = line[line.index("(") :]
    return [
        ("a session's thread", "under the publisher's lock", [
            ("pubd schedule hub", "A line of a script, or a call of the library", [Code(line)], ""),
            ("txlog store tables", "The table takes the row; its key is held", [Code(f"public.item {row}"), "key 1 held by transaction 700"], REFUSED),
            ("txlog wal shared_log", "One Change goes to the end of the log", map(Code, RECORD), ""),
        ]),
        ("a stream's writing thread", "reads the log without a lock", [
            ("shared_log walsender", "It is fetched, up to 1,024 records at a time", ["the same record, shared and not copied"], ""),
            ("reorder chgarena", "It waits with its transaction for the Commit", ["a copy in the arena, in the strand of 700"], "rolled back or aborted: given back, never sent"),
            ("publication rowfilter", "The Commit is read: which of it is published?", ["operation, row filter, column list: all of it"], "not published: no message"),
            ("publication pgoutput", "It becomes a message, after its Relation", [message], ""),
            ("walsender copyboth frames", "The message goes into XLogData, into CopyData", [head, "and the message"], ""),
            ("hub", "A turn's bytes go to the socket", ["Begin, Relation, Insert, Commit: 253 bytes"], ""),
        ]),
        ("a subscriber", "", [
            ("follower client", "It is applied with its Commit, and once", [Code(printed)], "a cut before the Commit: it comes again, whole"),
        ]),
        ("the server", "", [
            ("server walsender slots", "A status confirms the slot, cut to what was read", [Code(slot)], ""),
        ]),
    ]


def picture(top):
    lanes, kinds = steps(top), kinds_of(top)
    colours = dict(zip(dict.fromkeys(kinds.values()), COLOURS))
    count = sum(len(lane) for *_, lane in lanes)
    it = Picture(WIDE, TOP + count * (HIGH + GAP) + len(lanes) * 16, "The way of one insert, from a session's line to its subscriber")
    it.text(20, 36, "The way of one insert", 17, INK, "start", bold=True)
    it.text(DATA, 30, "what it is there", 13.5, PALE, "start")
    it.text(DATA, 49, "how else it may end", 12.5, OTHER, "start")
    y, last = TOP, None
    for who, how, lane in lanes:
        tall = len(lane) * (HIGH + GAP) - GAP + 16
        it.box(10, y, WIDE - 20, tall, GROUND, GROUND)
        it.upright(26, y + tall / 2, who, 12, PALE)
        it.upright(42, y + tall / 2, how, 12, PALE)
        y += 8
        for crates, told, data, other in lane:
            if last:
                it.line([(LEFT + STEP / 2, last), (LEFT + STEP / 2, y)], arrow=True)
            it.box(LEFT, y, STEP, HIGH)
            it.text(LEFT + 12, y + 24, told, 14, INK, "start")
            chips(it, LEFT + 12, y + 34, crates.split(), kinds, colours)
            lines(it, y, data, other)
            last = y + HIGH
            y += HIGH + GAP
        y += 8
    return it


def chips(it, x, y, crates, kinds, colours):
    for crate in crates:
        fill, stroke = colours[kinds[crate]]
        wide = 12 + 7.3 * len(crate)
        it.box(x, y, wide, 20, fill, stroke, round_by=4)
        it.text(x + wide / 2, y + 14.5, crate, 12)
        x += wide + 8


def lines(it, y, data, other):
    """What the insert is, and below it how else it may end, beside the middle of the step."""
    told = [(each, isinstance(words, Code)) for words in data for each in textwrap.wrap(words, LETTERS if isinstance(words, Code) else 200)]
    at = y + (HIGH - 18 * (len(told) + bool(other))) / 2 + 13
    for words, code in told:
        it.text(DATA, at, words, 12 if code else 13, INK, "start", mono=code)
        at += 18
    if other:
        it.text(DATA, at, other, 12.5, OTHER, "start")
