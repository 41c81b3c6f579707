"""Follows one transaction by psycopg 3: with_psycopg.py HOST PORT

psycopg 3 has calls for the commands; the stream goes over the functions of libpq that it lends as `pgconn`."""
import struct
import sys

import psycopg
from psycopg.pq import ExecStatus

START = b"START_REPLICATION SLOT s LOGICAL 0/0 (proto_version '1', publication_names 'p')"


def position(number):
    return f"{number >> 32:X}/{number & 0xFFFFFFFF:X}"


def print_row(word, cursor):
    print(word, *("null" if cell is None else cell for cell in cursor.fetchone()))


def take(pgconn):
    """Prints what came in a CopyData, and answers its kind: a logical message's own, or `k`."""
    _, data = pgconn.get_copy_data(0)
    body = bytes(data)
    if body[:1] == b"k":
        print("keepalive", position(*struct.unpack(">Q", body[1:9])))
        return b"k"
    start, end, clock = struct.unpack(">QQq", body[1:25])
    print("message", position(start), position(end), clock, body[25:].hex())
    return body[25:26]


def end_stream(pgconn):
    """Says that it wants no more, passes over what was under way, and takes the answer."""
    pgconn.put_copy_end()
    while pgconn.get_copy_data(0)[0] > 0:
        pass
    while result := pgconn.get_result():
        if result.status != ExecStatus.COMMAND_OK:
            sys.exit(f"the end: {result.error_message}")
    print("ended")


host, port = sys.argv[1:]
connection = psycopg.connect(f"host={host} port={port} user=u dbname=app replication=database", autocommit=True)
pgconn = connection.pgconn
print_row("system", connection.execute("IDENTIFY_SYSTEM"))
print_row("slot", connection.execute("CREATE_REPLICATION_SLOT s LOGICAL pgoutput"))
if pgconn.exec_(START).status != ExecStatus.COPY_BOTH:
    sys.exit(f"the start: {pgconn.error_message}")
print("started", flush=True)
while take(pgconn) != b"C":
    pass
pgconn.put_copy_data(struct.pack(">cQQQqB", b"r", 0x1001878, 0x1001878, 0x1001878, 0, 1))
pgconn.flush()
while take(pgconn) != b"k":
    pass
end_stream(pgconn)
connection.execute("DROP_REPLICATION_SLOT s")
print("dropped")
