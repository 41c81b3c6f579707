#!/usr/bin/python3
"""How a consumer of PostgreSQL's changes is tested against a pubd that the test drives. It runs under pytest, with PUBD set to the
program, and by itself: test_consumer.py PUBD

The consumer here is psycopg2, which keeps the rows of a table as it reads them. What a test decides is which of two transactions in
progress commits first, and what is undone, which no script against a real server can."""
import os
import pathlib
import sys

import psycopg2
from psycopg2.extras import LogicalReplicationConnection

sys.path.insert(0, str(pathlib.Path(__file__).resolve().parent))
from driven import Publisher

CONFIGURATION = pathlib.Path(__file__).resolve().parent.parent / "clients" / "server.toml"


class Consumer:
    """The rows of public.item, by their ids."""

    def __init__(self, port):
        words = {"host": "127.0.0.1", "port": port, "user": "u", "dbname": "app"}
        connection = psycopg2.connect(**words, connection_factory=LogicalReplicationConnection)
        self.cursor = connection.cursor()
        self.cursor.create_replication_slot("s", output_plugin="pgoutput")
        self.cursor.start_replication("s", options={"proto_version": "1", "publication_names": "p"})
        self.rows, self.commits = {}, []

    def read_commits(self, count):
        while len(self.commits) < count:
            if message := self.cursor.read_message():
                self.take(message.payload)

    def take(self, payload):
        kind = payload[:1]
        if kind == b"I":
            number, name, quantity = texts(payload[8:])
            self.rows[int(number)] = name, int(quantity)
        elif kind == b"C":
            end = int.from_bytes(payload[10:18], "big")
            self.commits.append(f"{end >> 32:X}/{end & 0xFFFFFFFF:X}")


def texts(cells):
    """The texts of a tuple that has nothing else."""
    while cells:
        length = int.from_bytes(cells[1:5], "big")
        yield cells[5 : 5 + length].decode()
        cells = cells[5 + length :]


def test_the_order_of_commits_is_the_stream_s(pubd):
    with Publisher(pubd, CONFIGURATION) as publisher:
        consumer = Consumer(publisher.port)
        for line in ("begin A", "insert A public.item (1,'first',1)", "begin B", "insert B public.item (2,'second',2)"):
            publisher.say(line)
        ends = [publisher.say("commit B 1"), publisher.say("commit A 2")]
        consumer.read_commits(2)
        assert consumer.commits == ends
        assert list(consumer.rows) == [2, 1]


def test_what_is_undone_is_not_told(pubd):
    with Publisher(pubd, CONFIGURATION) as publisher:
        consumer = Consumer(publisher.port)
        for line in ("begin A", "savepoint A", "insert A public.item (1,'undone',1)", "rollback A 1", "insert A public.item (1,'kept',1)"):
            publisher.say(line)
        publisher.say("commit A 1")
        publisher.commit("insert public.item (2,'next',2)")
        consumer.read_commits(2)
        assert consumer.rows == {1: ("kept", 1), 2: ("next", 2)}


try:
    import pytest

    @pytest.fixture
    def pubd():
        return os.environ["PUBD"]

except ImportError:
    pass

if __name__ == "__main__":
    for test in (test_the_order_of_commits_is_the_stream_s, test_what_is_undone_is_not_told):
        test(sys.argv[1])
        print(f"{test.__name__.replace('_', ' ')}: holds")
