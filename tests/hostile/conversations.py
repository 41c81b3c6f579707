"""Conversations that no client should have: good ones that are cut, mixed up and changed, and how they end."""
import socket
import struct

from connection import STARTUP, TERMINATE, status

FIRST = 0x1000000
SLOT = "hostile"
LENGTHS = (0, 3, 4, 5, 8, 0x7FFF_FFFF, 0xFFFF_FFFF)
QUERIES = (
    "IDENTIFY_SYSTEM",
    "CREATE_REPLICATION_SLOT s0 LOGICAL pgoutput",
    "CREATE_REPLICATION_SLOT another LOGICAL pgoutput",
    "DROP_REPLICATION_SLOT s0",
    "DROP_REPLICATION_SLOT missing",
    "START_REPLICATION SLOT s1 LOGICAL 0/0 (proto_version '1', publication_names 'p')",
    "START_REPLICATION SLOT missing LOGICAL 0/0 (proto_version '1', publication_names 'p')",
    "START_REPLICATION SLOT " + SLOT + " LOGICAL 0/0 (proto_version '2', publication_names 'p')",
    "START_REPLICATION SLOT " + SLOT + " LOGICAL 0/0 (proto_version '1', publication_names '" + "p," * 500 + "p')",
    "SELECT 1",
    "",
    "'" * 1000,
)
START = f"START_REPLICATION SLOT {SLOT} LOGICAL 0/0 (proto_version '1', publication_names 'p')"
# Statuses that ask, whose answers nobody reads before the last of them.
FLOOD = 20_000
ENDS = ("close", "reset", "half", "read", "read", "idle")


def startup(body=STARTUP):
    return struct.pack(">I", len(body) + 4) + body


def framed(kind, body):
    return kind + struct.pack(">I", len(body) + 4) + body


def query(text):
    return framed(b"Q", text.encode() + b"\0")


def good(draw):
    """The frames of a conversation that a server answers, or refuses and goes on."""
    frames = [startup()]
    if draw.randrange(4) == 0:
        frames.insert(0, startup(struct.pack(">I", draw.choice((80877103, 80877104)))))
    frames += [query(draw.choice(QUERIES)) for _ in range(draw.randrange(4))]
    if draw.randrange(2) == 0:
        frames.append(query(START))
        for _ in range(draw.randrange(5)):
            frames.append(draw.choice((status(FIRST), status(draw.getrandbits(64)), status(FIRST, asks=True) * 50)))
        frames += [status(FIRST, asks=True) * FLOOD] * (draw.randrange(8) == 0)
        frames += [framed(b"c", b"")] * draw.randrange(2)
    return frames + [TERMINATE] * draw.randrange(2)


def changed(draw, frames):
    """The same with up to four mistakes."""
    for _ in range(draw.randrange(5)):
        at = draw.randrange(len(frames))
        frames[at] = draw.choice((flipped, shorter, longer, resized, renamed))(draw, frames[at])
        if draw.randrange(3) == 0:
            frames.insert(draw.randrange(len(frames) + 1), frames[at])
        if draw.randrange(3) == 0:
            other = draw.randrange(len(frames))
            frames[at], frames[other] = frames[other], frames[at]
    text = b"".join(frames)
    return text[: draw.randrange(len(text) + 1)] if draw.randrange(4) == 0 else text


def flipped(draw, frame):
    changed = bytearray(frame)
    for _ in range(draw.randint(1, 3)):
        if changed:
            changed[draw.randrange(len(changed))] = draw.randrange(256)
    return bytes(changed)


def shorter(draw, frame):
    at = draw.randrange(len(frame) + 1)
    return frame[:at] + frame[at + draw.randrange(9) :]


def longer(draw, frame):
    at = draw.randrange(len(frame) + 1)
    return frame[:at] + draw.randbytes(draw.randrange(40)) + frame[at:]


def resized(draw, frame):
    """A length of another kind, where a frame has its length."""
    return frame[:1] + struct.pack(">I", draw.choice(LENGTHS)) + frame[5:]


def renamed(draw, frame):
    return draw.randbytes(1) + frame[1:]


def pieces(draw, text):
    """What is sent at once: all of it, or up to five parts."""
    cuts = sorted(draw.randrange(len(text) + 1) for _ in range(draw.choice((0, 0, 1, 4))))
    return [text[begin:end] for begin, end in zip([0, *cuts], [*cuts, len(text)])]


class Peer:
    """One hostile client, and what it got."""

    def __init__(self, port):
        self.socket = socket.create_connection(("127.0.0.1", port), timeout=20)
        self.socket.settimeout(0.5)
        self.got = b""

    def send(self, parts):
        """The server may close before all is sent, or take no more of one who doesn't read."""
        try:
            for part in parts:
                self.socket.sendall(part)
        except OSError:
            pass

    def end(self, how):
        """Whether the connection is over; one that is left idle isn't."""
        if how == "idle":
            return False
        if how == "half":
            self.shut()
        if how in ("half", "read"):
            self.read(20 if how == "half" else 0.02)
        if how == "reset":
            self.socket.setsockopt(socket.SOL_SOCKET, socket.SO_LINGER, struct.pack("ii", 1, 0))
        self.socket.close()
        return True

    def shut(self):
        try:
            self.socket.shutdown(socket.SHUT_WR)
        except OSError:
            pass

    def read(self, seconds):
        """What comes until the server closes, or says nothing for so long."""
        self.socket.settimeout(seconds)
        try:
            while part := self.socket.recv(65536):
                self.got += part
        except TimeoutError:
            if seconds > 1:
                self.got += b"nothing for ever"
        except OSError:
            pass
