"""Follows one transaction by psycopg2: with_psycopg2.py HOST PORT

psycopg2 has no call that ends a stream: the connection is closed instead, and another one shows what comes again, and a third drops the slot."""
import sys
import time

import psycopg2
from psycopg2.errors import ObjectInUse
from psycopg2.extras import LogicalReplicationConnection, StopReplication


def position(number):
    return f"{number >> 32:X}/{number & 0xFFFFFFFF:X}"


def connect():
    host, port = sys.argv[1:]
    return psycopg2.connect(
        host=host, port=port, user="u", dbname="app", connection_factory=LogicalReplicationConnection
    )


def print_row(word, cursor):
    print(word, *("null" if cell is None else cell for cell in cursor.fetchone()))


def take(message):
    body = message.payload
    print("message", position(message.data_start), position(message.wal_end), "-", body.hex())
    if body[:1] == b"C":
        message.cursor.send_feedback(flush_lsn=message.wal_end, reply=True, force=True)
        raise StopReplication


def when_free(call):
    """The server lets go of the slot a little after the connection that had it was closed."""
    for _ in range(100):
        try:
            return call()
        except ObjectInUse:
            time.sleep(0.1)
    sys.exit("the slot stays in use")


def start(cursor):
    cursor.start_replication("s", options={"proto_version": "1", "publication_names": "p", "messages": "true"})


with connect().cursor() as cursor:
    cursor.execute("IDENTIFY_SYSTEM")
    print_row("system", cursor)
    cursor.create_replication_slot("s", output_plugin="pgoutput")
    print_row("slot", cursor)
    start(cursor)
    print("started", flush=True)
    try:
        cursor.consume_stream(take)
    except StopReplication:
        cursor.connection.close()

# What was acknowledged right before a close doesn't come again.
with connect().cursor() as cursor:
    when_free(lambda: start(cursor))
    for _ in range(10):
        if message := cursor.read_message():
            print("again", message.payload.hex())
        time.sleep(0.1)
    cursor.connection.close()

with connect().cursor() as cursor:
    when_free(lambda: cursor.drop_replication_slot("s"))
print("dropped")
