"""A client by bare frames, which can be broken off anywhere."""
import socket
import struct
import time

TERMINATE = b"X\0\0\0\4"
# Where the clock stands in the body of a CopyData, by its kind: XLogData, a keepalive, and a status.
CLOCKS = {b"w": 17, b"k": 9, b"r": 25}
# How many seconds after the beginning of 1970 that of 2000 is.
YEAR_2000 = 946_684_800
STARTUP = b"\0\x03\0\0user\0me\0database\0app\0replication\0database\0\0"


def status(flushed, asks=False):
    """The frame of a status that tells this flushed position, under the clock 0."""
    return b"d" + struct.pack(">IcQQQqB", 38, b"r", flushed, flushed, flushed, 0, asks)


def clock_of(body):
    """The clock of the body of a CopyData, in seconds since the beginning of 1970; None where it has none."""
    at = CLOCKS.get(body[:1])
    return None if at is None else int.from_bytes(body[at : at + 8], "big", signed=True) / 1e6 + YEAR_2000


def timeless(body):
    """The body of a CopyData with 0 in the place of its clock, to be compared."""
    at = CLOCKS.get(body[:1])
    return body if at is None else body[:at] + bytes(8) + body[at + 8 :]


def timeless_stream(came):
    """The bytes of a stream, cut anywhere, with 0 in the places of their clocks."""
    came, at = bytearray(came), 0
    while at + 5 < len(came):
        clock = CLOCKS.get(bytes(came[at + 5 : at + 6])) if came[at : at + 1] == b"d" else None
        if clock is not None:
            first = at + 5 + clock
            last = min(first + 8, len(came))
            came[first:last] = bytes(max(0, last - first))
        at += 1 + int.from_bytes(came[at + 1 : at + 5], "big")
    return bytes(came)


def read_status(heard):
    """The next frame of a follower, a status, with 0 in the place of its clock."""
    return timeless_stream(heard.read(39))


def keepalive(position):
    """The frame of a keepalive that doesn't ask, under the clock 0."""
    return b"d" + struct.pack(">IcQqB", 22, b"k", position, 0, 0)


def framed(digits):
    """A frame by its type and its body in hexadecimal digits, as tests/loopback/conversation.frames has it."""
    bare = bytes.fromhex(digits)
    return bare[:1] + struct.pack(">I", len(bare) + 3) + bare[1:]


class Refused(Exception):
    """What an ErrorResponse said: its code."""


def code_of(error):
    """The code of the body of an ErrorResponse."""
    return next(field[1:].decode() for field in error.split(b"\0") if field[:1] == b"C")


def position(text):
    high, low = text.split("/")
    return int(high, 16) << 32 | int(low, 16)


class Connection:
    def __init__(self, port, receives=None, says_nothing=False, host="127.0.0.1"):
        self.socket = socket.socket()
        if receives:
            self.socket.setsockopt(socket.SOL_SOCKET, socket.SO_RCVBUF, receives)
        self.socket.settimeout(60)
        self.socket.connect((host, port))
        self.bytes = self.socket.makefile("rb")
        if not says_nothing:
            self.begin()
            self.answers()

    def begin(self):
        self.socket.sendall(struct.pack(">I", len(STARTUP) + 4) + STARTUP)

    def is_answered_or_closed(self):
        """Whether it got an answer to its first words, a refusal, or the end."""
        try:
            self.answers()
        except (EOFError, ConnectionError, Refused):
            pass
        except TimeoutError:
            return False
        return True

    def frame(self):
        """The next frame: its type, and its body, of one in a stream with 0 in the place of its clock."""
        kind, body = self.timed_frame()
        return kind, timeless(body) if kind == b"d" else body

    def timed_frame(self):
        """The next frame, with its clock."""
        head = self.bytes.read(5)
        if len(head) < 5:
            raise EOFError
        return head[:1], self.bytes.read(struct.unpack(">I", head[1:])[0] - 4)

    def answers(self, last=b"Z"):
        """The frames up to one of this type. What the server refuses is raised, after its ReadyForQuery."""
        frames, refused = [], None
        while not frames or frames[-1][0] != last:
            frames.append(self.frame())
            kind, body = frames[-1]
            if kind == b"E":
                refused, last = code_of(body), b"Z"
        if refused:
            raise Refused(refused)
        return frames

    def ask(self, command, last=b"Z"):
        text = command.encode() + b"\0"
        self.socket.sendall(b"Q" + struct.pack(">I", len(text) + 4) + text)
        return self.answers(last)

    def create(self, slot):
        self.ask(f"CREATE_REPLICATION_SLOT {slot} LOGICAL pgoutput")

    def start(self, slot, more=""):
        self.ask(f"START_REPLICATION SLOT {slot} LOGICAL 0/0 (proto_version '1', publication_names 'p'{more})", b"W")

    def start_when_free(self, slot):
        """A server takes a moment to see that another connection was broken off."""
        for _ in range(1000):
            try:
                return self.start(slot)
            except Refused as refused:
                if refused.args[0] not in ("55006", "53400"):
                    raise
                time.sleep(0.01)
        raise TimeoutError(f"{slot} is never free")

    def messages(self, commits):
        """The messages of a stream, up to so many Commits."""
        while commits:
            kind, body = self.frame()
            if kind == b"d" and body[:1] == b"w":
                yield body[25:]
                commits -= body[25:26] == b"C"

    def commits(self, count):
        """Where each of so many transactions of a stream ends."""
        return [int.from_bytes(each[10:18], "big") for each in self.messages(count) if each[:1] == b"C"]

    def refusal(self):
        """The code of the ErrorResponse that ends a stream, and the connection."""
        kind, body = self.frame()
        while kind != b"E":
            kind, body = self.frame()
        return code_of(body) if self.bytes.read(1) == b"" else "followed by more"

    def break_off(self):
        """Without a word, and with what wasn't read."""
        self.socket.setsockopt(socket.SOL_SOCKET, socket.SO_LINGER, struct.pack("ii", 1, 0))
        self.bytes.close()
        self.socket.close()

    def close(self):
        self.bytes.close()
        self.socket.close()


def refusal_of_one_more(port):
    """What is wrong where sixteen streams go on and one more begins: it has to be refused by 53400."""
    more = Connection(port)
    try:
        more.start("s0")
        return ["a seventeenth stream began"]
    except Refused as refused:
        return [f"a seventeenth stream was refused by {refused}"] * (refused.args[0] != "53400")
    finally:
        more.close()
