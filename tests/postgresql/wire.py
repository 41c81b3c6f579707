"""A session with a server, PostgreSQL or pubd, by bare frames."""
import socket
import struct
import time

SECONDS = 60
PAUSE = 0.02


class Refused(Exception):
    """What an ErrorResponse said: its code, and its text."""

    def __init__(self, code, text):
        super().__init__(f"{code} {text}")
        self.code = code


def refused(body):
    fields = {field[:1]: field[1:].decode() for field in body.split(b"\0") if field}
    return Refused(fields[b"C"], fields[b"M"])


class Session:
    def __init__(self, port, database="app", replication=False):
        self.socket = socket.create_connection(("127.0.0.1", port), SECONDS)
        self.bytes = self.socket.makefile("rb")
        words = ["user", "me", "database", database, *(["replication", "database"] if replication else []), ""]
        startup = struct.pack(">I", 3 << 16) + b"".join(word.encode() + b"\0" for word in words)
        self.socket.sendall(struct.pack(">I", len(startup) + 4) + startup)
        self.answers(b"Z")

    def frame(self):
        head = self.bytes.read(5)
        if len(head) < 5:
            raise EOFError
        return head[:1], self.bytes.read(struct.unpack(">I", head[1:])[0] - 4)

    def answers(self, last):
        """The frames up to one of this type; what is refused is raised once the session goes on."""
        frames, fault = [], None
        while not frames or frames[-1][0] != last:
            frames.append(self.frame())
            if frames[-1][0] == b"E":
                fault, last = refused(frames[-1][1]), b"Z"
        if fault:
            raise fault
        return frames

    def send(self, kind, body):
        self.socket.sendall(kind + struct.pack(">I", len(body) + 4) + body)

    def ask(self, text, last=b"Z"):
        """The rows that come of a query, each a list of texts and Nones, and what its last command is told to have done."""
        self.send(b"Q", text.encode() + b"\0")
        frames = self.answers(last)
        tags = [body[:-1].decode() for kind, body in frames if kind == b"C"]
        return [cells(body) for kind, body in frames if kind == b"D"], tags[-1] if tags else ""

    def start(self, slot, position, names, messages):
        options = f"proto_version '1', publication_names '{','.join(names)}'" + ", messages 'true'" * messages
        command = f"START_REPLICATION SLOT {slot} LOGICAL {position} ({options})"
        until = time.monotonic() + SECONDS
        while True:
            try:
                return self.ask(command, b"W")
            except Refused as fault:
                # A server takes a moment to see that the slot's client has gone.
                if fault.code != "55006" or until < time.monotonic():
                    raise
                time.sleep(PAUSE)

    def tell(self, position, asks):
        """A status by which all up to this position is flushed."""
        self.send(b"d", b"r" + struct.pack(">QQQqB", position, position, position, 0, asks))

    def read_to(self, target):
        """The messages of a stream, up to a keepalive that says that no more stand before the target."""
        found, until = [], time.monotonic() + SECONDS
        self.tell(0, True)
        while time.monotonic() < until:
            kind, body = self.frame()
            if kind == b"E":
                raise refused(body)
            if kind == b"d" and body[:1] == b"w":
                found.append(body[25:])
            if kind == b"d" and body[:1] == b"k":
                if struct.unpack(">Q", body[1:9])[0] >= target:
                    return found
                time.sleep(PAUSE)
                self.tell(0, True)
        raise TimeoutError("the stream doesn't come to its end")

    def close(self):
        self.bytes.close()
        self.socket.close()


def cells(body):
    (count,), at, found = struct.unpack(">H", body[:2]), 2, []
    for _ in range(count):
        (length,) = struct.unpack(">i", body[at : at + 4])
        at += 4
        found.append(None if length < 0 else body[at : at + length].decode())
        at += max(length, 0)
    return found


def position_of(text):
    high, low = text.split("/")
    return int(high, 16) << 32 | int(low, 16)
