"""Messages in the log, told to streams that ask for them. Each case answers what is wrong, a line each."""
import struct

from connection import Connection
from driving import Publisher
from server import CONFIGURATION, FIRST

# Where the records of `LINES` start: a message's, a note's, a Commit, an insert's.
MESSAGE, NOTE, COMMIT, INSERT = (FIRST + at for at in (0, 0x20, 0x40, 0x60))


def message(is_transactional, start, prefix, content):
    """The bytes of a logical message."""
    return b"M" + struct.pack(">BQ", is_transactional, start) + prefix + b"\0" + struct.pack(">I", len(content)) + content


def begin(commit, time, xid):
    return b"B" + struct.pack(">QqI", commit, time, xid)


def messages_go_where_they_are_asked_for(pubd, subcat):
    """A note in a transaction goes out at once, and a message with its transaction; a stream that asks for none gets neither."""
    with Publisher(pubd, CONFIGURATION) as publisher:
        asking, other = Connection(publisher.port), Connection(publisher.port)
        asking.create("s")
        other.create("t")
        asking.start("s", ", messages 'true'")
        other.start("t")
        wrong = []
        for line in "begin A", "message A 'p' 'ab'", "note 'q' 'c'":
            publisher.say(line)
        wrong += wrong_of("the note", taken(asking, 1), [message(False, NOTE, b"q", b"c")])
        publisher.say("commit A 5")
        wrong += wrong_of("the transaction", taken(asking, 3)[:2], [begin(COMMIT, 5, 700), message(True, MESSAGE, b"p", b"ab")])
        for line in "begin B", "insert B public.item (1,'ab',7)", "note 'q' 'd'", "commit B 6":
            publisher.say(line)
        wrong += wrong_of("what is sent to the other", [each[:1] for each in taken(other, 4)], [b"B", b"R", b"I", b"C"])
        asking.close()
        other.close()
        return wrong


def taken(client, count):
    """The next so many messages of a stream."""
    came = []
    while len(came) < count:
        kind, body = client.frame()
        if kind == b"d" and body[:1] == b"w":
            came.append(body[25:])
    return came


def wrong_of(what, came, due):
    return [f"{what} is {came}, and not {due}"] * (came != due)
