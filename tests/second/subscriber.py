"""A subscriber: the bytes of its connection in, its position and how many transactions it has applied out."""
import struct


class Subscriber:
    def __init__(self):
        self.position = self.applied = 0
        self.has_taken = False
        self.reconnect()

    def reconnect(self):
        self.unread, self.is_within = b"", False

    def take(self, data):
        self.has_taken |= bool(data)
        self.unread += data
        while len(self.unread) >= 5 and len(self.unread) > struct.unpack(">I", self.unread[1:5])[0]:
            length = 1 + struct.unpack(">I", self.unread[1:5])[0]
            body, self.unread = self.unread[5:length], self.unread[length:]
            self.word(body)

    def word(self, body):
        if body[:1] == b"k":
            self.position = max(self.position, struct.unpack(">Q", body[1:9])[0])
            return
        end, message = struct.unpack(">Q", body[9:17])[0], body[25:]
        if message[:1] == b"M" and message[1] == 0:
            self.takes(struct.unpack(">Q", message[2:10])[0], end)
        if message[:1] == b"C":
            self.takes(*struct.unpack(">QQ", message[2:18]))

    def takes(self, start, end):
        """A transaction, or a note."""
        self.applied += self.position <= start
        self.position = max(self.position, end)
