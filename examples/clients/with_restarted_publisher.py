"""A PostgreSQL subscriber whose publisher begins anew: with_restarted_publisher.py PUBD

The positions of a new run begin where those of the old one did, and its slots are gone. Where somebody makes the slot again by hand, the
subscriber asks for its stream at a position of the old run. That is refused, by the same system and by another one, until the
subscription is made anew; else all that the new run commits below that position would be lost in silence.
"""
import pathlib
import subprocess
import sys
import tempfile

from cluster import Cluster, is_installed
from driven import HERE, Driven
from with_subscription import comes

REASON = "all that its slot has sent: the publisher began anew"
ROWS = 8


def insert(server, key):
    server.do("begin T", f"insert T public.item ({key},'ab',7)", "commit T 5")


def keys_in(postgres):
    return [int(key) for key in postgres.ask("SELECT id FROM item ORDER BY id")]


def make_slot(port):
    words = ["psql", "-XAtq", f"host=127.0.0.1 port={port} user=u dbname=app replication=database"]
    subprocess.run([*words, "-c", "CREATE_REPLICATION_SLOT s LOGICAL pgoutput"], check=True, capture_output=True, timeout=30)


def refused(pubd, postgres, port, configuration):
    """What is wrong with a run at the old one's port whose slot is made by hand."""
    told = postgres.log.read_text().count(REASON)
    with Driven(pubd, port=port, configuration=configuration) as server:
        make_slot(server.port)
        for key in range(100, 100 + ROWS // 2):
            insert(server, key)
        wrong = ["its start isn't refused"] * (not comes(lambda: postgres.log.read_text().count(REASON) > told, 20))
        return wrong + [f"the table holds {keys_in(postgres)}"] * (keys_in(postgres) != list(range(ROWS)))


def run(pubd, folder):
    other = folder / "other.toml"
    other.write_text((HERE / "server.toml").read_text().replace('systemid = "42"', 'systemid = "43"'))
    with Cluster() as postgres:
        postgres.ask("CREATE TABLE item (id integer PRIMARY KEY, name text, qty bigint)")
        with Driven(pubd) as server:
            port = server.port
            connection = f"host=127.0.0.1 port={port} user=u dbname=app"
            postgres.ask(f"CREATE SUBSCRIPTION s CONNECTION '{connection}' PUBLICATION p WITH (copy_data = false)")
            for key in range(ROWS):
                insert(server, key)
            wrong = ["the first run's rows don't come"] * (not comes(lambda: keys_in(postgres) == list(range(ROWS))))
        for configuration in (HERE / "server.toml", other):
            wrong += refused(pubd, postgres, port, configuration)
        with Driven(pubd, port=port) as server:
            postgres.ask(
                "ALTER SUBSCRIPTION s DISABLE",
                "ALTER SUBSCRIPTION s SET (slot_name = NONE)",
                "DROP SUBSCRIPTION s",
                f"CREATE SUBSCRIPTION s CONNECTION '{connection}' PUBLICATION p WITH (copy_data = false)",
            )
            insert(server, 1000)
            return wrong + ["a new subscription gets nothing"] * (not comes(lambda: keys_in(postgres) == [*range(ROWS), 1000]))


def main():
    if not is_installed():
        print("left out, for want of PostgreSQL's server")
        return
    with tempfile.TemporaryDirectory() as name:
        wrong = run(sys.argv[1], pathlib.Path(name))
    print(*(wrong or ["got what is due"]), sep="\n")
    sys.exit(bool(wrong))


if __name__ == "__main__":
    main()
