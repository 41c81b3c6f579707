"""Conversations and streams that nobody means: frames and bytes as they happen to come."""
import conversations
import streams

# What a client may send, in the words of a conversation.
HEARD = [
    "query IDENTIFY_SYSTEM",
    "query IDENTIFY_SYSTEM;",
    "query CREATE_REPLICATION_SLOT s LOGICAL pgoutput",
    "query CREATE_REPLICATION_SLOT there LOGICAL pgoutput",
    "query DROP_REPLICATION_SLOT s",
    "query DROP_REPLICATION_SLOT missing",
    "query START_REPLICATION SLOT busy LOGICAL 0/0 (proto_version '1', publication_names 'p')",
    "query nothing that is known",
    "51 0000000c ff",
    "51 00000009 61 c3 28 62 00",
    "50 00000004",
    "58 00000004",
    "64 00000026 72 0000000000000001 0000000000000002 0000000000000003 0000000000000004 01",
    "63 00000004",
]

# A stream from its beginning to its end.
STREAM = [
    "query START_REPLICATION SLOT s LOGICAL 0/0 (proto_version '1', publication_names 'p')",
    "64 00000026 72 0000000001000090 0000000001000050 0000000001000030 0000000000000009 00",
    "64 00000026 72 0000000000000001 0000000000000002 0000000000000003 0000000000000004 01",
    "64 00000026 72 0000000000000001 ffffffffffffffff 0000000000000003 ffffffffffffffff 02",
    "63 00000004",
]
COPY_DONE = bytes.fromhex("6300000004")

# What a server may send: two transactions of one table, a keepalive, and what is none of a stream.
SENT = [
    "64 00000032 77 0000000001000030 0000000001000030 0000000000000009 42 0000000001000030 0000000000000005 000002bc",
    "64 00000046 77 0000000001000000 0000000001000000 0000000000000009"
    " 52 00004001 7075626c696300 74616700 66 0002 01 6b00 00000019 ffffffff 01 7600 00000017 ffffffff",
    "64 0000002c 77 0000000001000000 0000000001000000 0000000000000009 49 00004001 4e 0002 74 00000001 62 6e",
    "64 00000037 77 0000000001000050 0000000001000050 0000000000000009 43 00 0000000001000030 0000000001000050 0000000000000005",
    "64 00000032 77 0000000001000080 0000000001000080 0000000000000009 42 0000000001000080 0000000000000006 000002bd",
    "64 0000003b 77 0000000001000050 0000000001000050 0000000000000009"
    " 55 00004001 4f 0002 74 00000001 62 6e 4e 0002 74 00000001 62 74 00000001 34",
    "64 00000037 77 00000000010000a0 00000000010000a0 0000000000000009 43 00 0000000001000080 00000000010000a0 0000000000000006",
    "64 00000016 6b 0000000001000030 0000000000000009 00",
    "45 00000005 00",
    "63 00000004",
]


class Numbers:
    """Numbers that follow from a seed (a linear congruential generator with Knuth's factors)."""

    def __init__(self, seed):
        self.state = seed

    def next(self):
        self.state = (self.state * 6364136223846793005 + 1442695040888963407) % 2**64
        return self.state

    def below(self, bound):
        return (self.next() >> 33) % bound

    def byte(self):
        return self.next() >> 56

    def noise(self, kind, longest):
        """Bytes of any kind, mostly in a frame of this type."""
        length = self.below(longest)
        head = kind + (length + 4).to_bytes(4, "big") if self.below(4) else b""
        return head + bytes(self.byte() for _ in range(length))

    def cut(self, whole, longest):
        """Pieces of at most this length, of which the last has no bytes."""
        pieces, at = [], 0
        for _ in whole:
            length = self.below(longest) + 1
            if at < len(whole):
                pieces.append(whole[at : at + length])
                at += length
        return [*pieces, b""]


def conversation(numbers):
    """Mostly a startup, then frames and streams, and now and then bytes that are none."""
    found = b""
    if numbers.below(8):
        found = conversations.heard("startup 'user' 'u' 'replication' 'database'")
    for _ in range(30):
        choice = numbers.below(22)
        if choice < len(HEARD):
            found += conversations.heard(HEARD[choice])
        elif numbers.below(4):
            found += b"".join(map(conversations.heard, STREAM))
        else:
            found += numbers.noise(b"Q", 30)
    return found


def ending(pieces):
    """Each piece, and that a stream ends as soon as it stops: at most so often as the bytes to its end have a CopyDone there."""
    found, so_far = [], b""
    for piece in pieces:
        so_far += piece
        begins = max(0, len(so_far) - len(piece) - len(COPY_DONE) + 1)
        found += [piece, *[".", b""] * so_far.count(COPY_DONE, begins)]
    return found


def stream(numbers):
    """Mostly the frames in order, and now and then another, or bytes of any kind."""
    found = b""
    for place in range(40):
        choice = place % 8 if numbers.below(24) else numbers.below(16)
        found += bytes.fromhex(SENT[choice]) if choice < len(SENT) else numbers.noise(b"d", 60)
    return found


def alike(seed, count, make, asked, came):
    """So many bytes in all, each conversation or stream at once and in random cuts, which comes to the same."""
    numbers, lines, made = Numbers(seed), [], 0
    while made < count:
        whole = make(numbers)
        lines.append(asked(whole, numbers))
        made += len(whole)

    def came_of(*answers):
        size = len(answers) // len(lines)
        for at in range(0, len(answers), size):
            came(*answers[at : at + size])
        return "= same"

    return [line for them in lines for line in them], came_of


def conversations_alike(seed, count):
    def asked(whole, numbers):
        return [conversations.talk(ending(pieces)) for pieces in ([whole], numbers.cut(whole, 40))]

    return alike(seed, count, conversation, asked, conversations.alike)


def streams_alike(seed, count):
    def asked(whole, numbers):
        return [*streams.twice([whole]), *streams.twice(numbers.cut(whole, 90))]

    return alike(seed, count, stream, asked, streams.alike)
