"""What the clocks of a stream, and of a follower's statuses, tell. Each case answers what is wrong, a line each."""
import pathlib
import sys
import time

from connection import YEAR_2000, Connection, clock_of, position, status, timeless_stream
from server import CONFIGURATION
from systems import END, Following

sys.path.insert(0, str(pathlib.Path(__file__).resolve().parent.parent.parent / "examples" / "driven"))
from driven import Publisher

# How far a clock may be off, in seconds, and for how much longer a stream is held.
OFF, HELD = 1, 3


def wrong_clock(what, clock, begun):
    """Unless it tells a time from when this began to now."""
    now = time.time()
    return [f"{what} has the clock {clock:.3f}, between {begun:.3f} and {now:.3f}"] * (not begun - OFF <= clock <= now + OFF)


def wrong_clocks(client, begun, is_last):
    """Of the frames of a stream up to the one of which this is so."""
    wrong = []
    while True:
        kind, body = client.timed_frame()
        if kind != b"d":
            return wrong + [f"in a stream comes {kind + body}"]
        wrong += wrong_clock(f"a frame {body[:1]}", clock_of(body), begun)
        if is_last(body):
            return wrong


def is_keepalive(body):
    return body[:1] == b"k"


def is_keepalive_of(end):
    return lambda body: body[:9] == b"k" + end.to_bytes(8, "big")


def is_message(letter):
    return lambda body: body[:1] == b"w" and body[25:26] == letter


def a_client_sees_clocks_of_its_own_time(pubd, subcat):
    """Within a second: of a keepalive as a stream begins, of each message of a transaction and the keepalive after it, of the answer
    to a status, of a note, and of a question. What was held back is made when it is let go, and tells that time; so does a stream
    that is held before it begins."""
    with Publisher(pubd, CONFIGURATION) as publisher:
        client = Connection(publisher.port)
        client.create("s")
        begun = time.time()
        client.start("s", ", messages 'true'")
        wrong = wrong_clocks(client, begun, is_keepalive)
        end = position(publisher.commit("insert public.item (1,'ab',7)", time=5))
        wrong += wrong_clocks(client, begun, is_keepalive_of(end))
        client.socket.sendall(status(end, asks=True))
        wrong += wrong_clocks(client, begun, is_keepalive)
        publisher.say("ask s")
        wrong += wrong_clocks(client, begun, lambda body: body[:1] == b"k" and body[17:] == b"\1")
        publisher.say("hold s")
        publisher.say("note 'p' 'q'")
        publisher.commit("insert public.item (2,'ab',7)", time=5)
        time.sleep(HELD)
        begun = time.time()
        publisher.say("resume s")
        wrong += wrong_clocks(client, begun, is_message(b"C"))
        other = Connection(publisher.port)
        other.create("t")
        publisher.say("hold t")
        other.start("t")
        time.sleep(HELD)
        begun = time.time()
        publisher.say("resume t")
        wrong += wrong_clocks(other, begun, is_keepalive)
        for each in (client, other):
            each.close()
        return wrong


def a_follower_tells_the_time_whatever_its_server_tells(pubd, subcat):
    """The clock of its statuses is its own. That of its server may jump, back too, and be before 2000: each transaction is taken."""
    now = int((time.time() - YEAR_2000) * 1e6)
    clocks = [now, now - 3_600_000_000, 0, -1, -(2**63), 2**63 - 1, now]
    wrong = []
    with Following(subcat) as following:
        for turn, clock in enumerate(clocks):
            begun, end = time.time(), END + 0x50 * turn
            following.send(end, clock)
            frame = following.heard.read(39)
            wrong += [f"under the clock {clock} {end:X} is not acknowledged"] * (timeless_stream(frame) != status(end))
            wrong += wrong_clock("a status", clock_of(frame[5:]), begun)
    return wrong
