"""A client that copies a table as a subscriber of PostgreSQL does, and then follows it."""
import struct

from asking import ON
from connection import Connection, Refused, position
from server import Server, inserts

ROWS = 3000
BEGIN = "BEGIN READ ONLY ISOLATION LEVEL REPEATABLE READ"
CREATE = "CREATE_REPLICATION_SLOT \"c\" LOGICAL pgoutput (SNAPSHOT 'use')"
COPY = "COPY public.item (id, name, qty) TO STDOUT"
START = "START_REPLICATION SLOT \"c\" LOGICAL {} (proto_version '1', publication_names '\"p\"')"


def values_of(row):
    """The values of a DataRow, None for a null."""
    values, at = [], 2
    for _ in range(struct.unpack(">h", row[:2])[0]):
        (length,) = struct.unpack(">i", row[at : at + 4])
        at += 4
        values.append(None if length < 0 else row[at : at + length].decode())
        at += max(length, 0)
    return values


def answer_of(client, command):
    """The frames of an answer, as they came."""
    text = command.encode() + b"\0"
    client.socket.sendall(b"Q" + struct.pack(">I", len(text) + 4) + text)
    frames = [client.timed_frame()]
    while frames[-1][0] != b"Z":
        frames.append(client.timed_frame())
    return frames


def rows_copied(client, command=COPY):
    """The lines of a copy, and what is wrong with the frames round them."""
    frames = answer_of(client, command)
    kinds = b"".join(kind for kind, _ in frames)
    rows = b"".join(body for kind, body in frames if kind == b"d").decode().splitlines()
    due = b"H" + b"d" * len(rows) + b"cCZ"
    wrong = [f"a copy has the frames {kinds[:20]} .. {kinds[-5:]}"] * (kinds != due)
    tag = next((body for kind, body in frames if kind == b"C"), b"")
    wrong += [f"its tag is {tag}"] * (tag != b"COPY %d\0" % len(rows))
    return rows, wrong + [f"it leaves the state {frames[-1][1]}"] * (frames[-1][1] != b"T")


def key_of(insert):
    """The first value of an Insert."""
    (length,) = struct.unpack(">I", insert[9:13])
    return int(insert[13 : 13 + length])


def a_copy_and_its_stream_have_each_row_once(pubd, subcat):
    """Transactions commit before, while and after a table is copied: the copy has the first ones, and the stream exactly the others."""
    with Server(pubd, 1, inserts(ROWS), more=ON) as server:
        client = Connection(server.port)
        client.ask(BEGIN)
        created = next(values_of(body) for kind, body in client.ask(CREATE) if kind == b"D")
        rows, wrong = rows_copied(client)
        again, more = rows_copied(client)
        client.ask("COMMIT")
        client.ask(START.format(created[1]), b"W")
        due = list(range(len(rows) + 1, ROWS + 1))
        streamed = [key_of(message) for message in client.messages(len(due)) if message[:1] == b"I"]
        client.close()
        wrong += [f"the copy holds {rows[:3]} .."] * (rows != [f"{key}\tab\t7" for key in range(1, len(rows) + 1)])
        wrong += ["another copy of the same snapshot has other rows"] * (again != rows)
        wrong += [f"after {len(rows)} rows the stream begins with {streamed[:3]}"] * (streamed != due)
        return wrong + more + server.end()


def refused_by(client, command):
    try:
        client.ask(command)
    except Refused as refused:
        return refused.args[0]
    return None


def what_cannot_be_copied_is_refused(pubd, subcat):
    """A copy outside of a block with a snapshot, of what is not there, and by a filter that was never told."""
    due = [
        (COPY, "42601"),
        ("COPY public.no (id) TO STDOUT", "42P01"),
        ("COPY public.item (no) TO STDOUT", "42703"),
        ("COPY public.item (name, id) TO STDOUT", "42703"),
        ("COPY (SELECT id FROM ONLY public.item WHERE qty > 1) TO STDOUT", "42601"),
    ]
    with Server(pubd, 1, inserts(3), more=ON) as server:
        client = Connection(server.port)
        told = refused_by(client, COPY)
        wrong = [f"outside of a block: {told}"] * (told != due[0][1])
        for command, code in due[1:]:
            client.ask(BEGIN)
            client.ask(CREATE)
            told = refused_by(client, command)
            wrong += [f"{command}: {told}, and not {code}"] * (told != code)
            told = refused_by(client, COPY)
            wrong += [f"after it a copy is {told}"] * (told != "25P02")
            client.ask("ROLLBACK")
            client.ask('DROP_REPLICATION_SLOT "c" WAIT')
        client.close()
        return wrong + server.end()
