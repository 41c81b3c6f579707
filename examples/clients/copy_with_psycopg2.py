"""Copies a table by psycopg2, and goes on with its changes: copy_with_psycopg2.py HOST PORT COUNT

The slot is made in a transaction, whose snapshot the copy reads (PostgreSQL 15, 55.4, CREATE_REPLICATION_SLOT): exactly what commits
before the slot's point. The stream has the rest. A line tells each row of the copy, and each message of an insert; so it goes on until
COUNT rows are told in all."""
import io
import sys

import psycopg2
from psycopg2.extras import LogicalReplicationConnection, StopReplication

host, port, count = sys.argv[1:]
connection = psycopg2.connect(host=host, port=port, user="u", dbname="app", connection_factory=LogicalReplicationConnection)
told = 0


def tell(*words):
    global told
    told += 1
    print(*words, flush=True)


def take(message):
    if message.payload[:1] == b"I":
        tell("insert", message.payload.hex())
    if message.payload[:1] == b"C" and told >= int(count):
        message.cursor.send_feedback(flush_lsn=message.wal_end, reply=True, force=True)
        raise StopReplication


with connection.cursor() as cursor:
    cursor.execute("BEGIN READ ONLY ISOLATION LEVEL REPEATABLE READ")
    cursor.execute("CREATE_REPLICATION_SLOT \"copied\" LOGICAL pgoutput (SNAPSHOT 'use')")
    slot, point, _, _ = cursor.fetchone()
    rows = io.BytesIO()
    cursor.copy_expert("COPY public.item (id, name, qty) TO STDOUT", rows)
    cursor.execute("COMMIT")
    for row in rows.getvalue().splitlines():
        tell("row", row.decode())
    if told < int(count):
        cursor.start_replication(slot, start_lsn=point, options={"proto_version": "1", "publication_names": "p"})
        try:
            cursor.consume_stream(take)
        except StopReplication:
            pass
connection.close()
