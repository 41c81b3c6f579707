"""Plain CREATE SUBSCRIPTION of a PostgreSQL server, which copies the rows that are there: with_copies.py PUBD [SEED] [ROWS]

Six tables, with filters, column lists, all kinds, nulls, and texts of each byte that COPY escapes; one has no rows, one has one, one has
ROWS (2,000). While they are copied, sessions commit with savepoints, aborts, updates of keys and truncates, and connections are cut.
After that each table has to hold exactly what is published of the script's rows.
"""
import json
import pathlib
import random
import tempfile

from cluster import Cluster
from driven import Driven
from with_subscription import comes, main_of

SERVER = '[server]\nsystemid = "42"\nrecords = 1048576\nchunks = 1024\n\n'
# Of each column: its name, its type here and there, and where it belongs to the key.
TABLES = {
    "item": [("id", "int4", "integer", True), ("name", "text", "text", False), ("qty", "int8", "bigint", False)],
    "tag": [("k", "text", "text", True), ("v", "int4", "integer", False)],
    "kind": [
        ("id", "int8", "bigint", True), ("b", "bool", "boolean", False), ("s", "int2", "smallint", False), ("u", "uuid", "uuid", False),
        ("n", "numeric(10,2)", "numeric(10,2)", False), ("y", "bytea", "bytea", False), ("d", "date", "date", False),
        ("t", "timestamp", "timestamp", False)],
    "bare": [("id", "int4", "integer", True)],
    "one": [("id", "int4", "integer", True), ("select", "text", "text", False)],
    "list": [("id", "int4", "integer", True), ("hidden", "text", "text", False), ("shown", "text", "text", False)],
}
PUBLICATIONS = """
[[publication]]
name = "all"
tables = [{ name = "public.item" }, { name = "public.kind" }, { name = "public.bare" }, { name = "public.one" }]
[[publication]]
name = "odd \\"name\\" OR x"
tables = [{ name = "public.tag", where = "k = 'a'" }]
[[publication]]
name = "few"
publish = ["insert", "update", "delete"]
tables = [{ name = "public.tag", where = "k = 'b'" }, { name = "public.list", columns = ["id", "shown"] }]
"""
ESCAPED = "\\", "\b", "\t", "\n", "\v", "\f", "\r", "\\N", "\x01", "\x7f", "é", "€", ""


def table_text(oid, name):
    columns = ",".join(f'["{column}","{kind}"]' for column, kind, _, _ in TABLES[name])
    return f'[[table]]\noid = {oid}\nschema = "public"\nname = "{name}"\nidentity = "default"\nkey = ["{TABLES[name][0][0]}"]\ncolumns = [{columns}]\n'


def configuration():
    return SERVER + "".join(table_text(16384 + at, name) for at, name in enumerate(TABLES)) + PUBLICATIONS


def made_there(name):
    shown = [each for each in TABLES[name] if each[0] != "hidden"]
    return f"CREATE TABLE {name} (" + ", ".join(f'"{column}" {kind}' + " PRIMARY KEY" * key for column, _, kind, key in shown) + ")"


class Rows:
    """What the tables hold, as texts by their keys, and the lines that come to it."""

    def __init__(self, seed):
        self.by = random.Random(seed)
        self.tables = {name: {} for name in TABLES}

    def text(self):
        return None if self.by.random() < 0.1 else "".join(self.by.choices(ESCAPED + ("ab", "x y"), k=self.by.randint(0, 6)))

    def value(self, kind):
        by = self.by
        if kind != "text" and by.random() < 0.1:
            return None
        return {
            "text": self.text,
            "int4": lambda: str(by.randint(-(2**31), 2**31 - 1)),
            "int8": lambda: str(by.randint(-(2**63), 2**63 - 1)),
            "int2": lambda: str(by.randint(-(2**15), 2**15 - 1)),
            "bool": lambda: by.choice("tf"),
            "uuid": lambda: "-".join(f"{by.getrandbits(4 * size):0{size}x}" for size in (8, 4, 4, 4, 12)),
            "numeric(10,2)": lambda: f"{by.randint(-999999, 999999)}.{by.randint(0, 99):02}",
            "bytea": lambda: "\\x" + by.randbytes(by.randint(0, 5)).hex(),
            "date": lambda: f"{by.randint(1, 9999):04}-{by.randint(1, 12):02}-{by.randint(1, 28):02}",
            "timestamp": lambda: f"20{by.randint(10, 30)}-01-{by.randint(1, 28):02} {by.randint(0, 23):02}:00:00",
        }[kind]()

    def key(self, name):
        if name == "tag":
            return self.by.choice(["a", "b", "c", "d"])
        return str(self.by.randint(1, 400))

    def row(self, name, key):
        return (key, *(self.value(kind) for _, kind, _, _ in TABLES[name][1:]))

    def change(self, name):
        rows, key = self.tables[name], self.key(name)
        if key not in rows:
            rows[key] = self.row(name, key)
            return [f"insert T public.{name} {literal(name, rows[key])}"]
        done = self.by.choice(["update", "move", "delete"])
        if done == "delete":
            del rows[key]
            return [f"delete T public.{name} {literal(name, (key,))}"]
        other = self.key(name) if done == "move" else key
        if other != key and other in rows:
            other = key
        del rows[key]
        rows[other] = self.row(name, other)
        return [f"update T public.{name} {literal(name, (key,))} {literal(name, rows[other])}"]

    def some(self):
        return self.change(self.by.choice(["item", "item", "tag", "kind", "list"]))

    def undone(self):
        before = {name: dict(rows) for name, rows in self.tables.items()}
        lines = ["savepoint T", *self.some(), *self.some()]
        if self.by.random() < 0.5:
            self.tables = before
            return [*lines, "rollback T 1"]
        return [*lines, "release T 1"]

    def transaction(self):
        before = {name: dict(rows) for name, rows in self.tables.items()}
        lines = ["begin T"]
        for _ in range(self.by.randint(1, 5)):
            lines += self.undone() if self.by.random() < 0.2 else self.some()
        if self.by.random() < 0.02:
            lines.append("truncate T public.item")
            self.tables["item"] = {}
        if self.by.random() < 0.15:
            self.tables = before
            return [*lines, "abort T"]
        return [*lines, "commit T 5"]

    def due(self, name):
        """The lines of a table's published rows, as psql prints them."""
        rows = self.tables[name].values()
        if name == "tag":
            rows = [row for row in rows if row[0] in ("a", "b")]
        if name == "list":
            rows = [(row[0], row[2]) for row in rows]
        if name == "kind":
            rows = [(row[0], {"t": "true", "f": "false", None: None}[row[1]], *row[2:]) for row in rows]
        return lines_of(rows)


def lines_of(rows):
    return sorted("|".join("\\N" if value is None else value.encode("unicode_escape").decode() for value in row) for row in rows)


def literal(name, row):
    kinds = [kind for _, kind, _, _ in TABLES[name]]
    return "(" + ",".join(told(kind, value) for kind, value in zip(kinds, row)) + ")"


def told(kind, value):
    if value is None:
        return "null"
    if kind == "bool":
        return {"t": "true", "f": "false"}[value]
    return value if kind in ("int2", "int4", "int8") else "E'" + "".join(shown(letter) for letter in value) + "'"


def shown(letter):
    """A letter in a script's literal."""
    return f"\\x{ord(letter):02x}" if letter < " " or letter in "\\'\x7f" else letter


def held(postgres, name):
    """The same lines of what the table holds there."""
    shown = [column for column, _, _, _ in TABLES[name] if column != "hidden"]
    asked = "SELECT json_build_array(" + ",".join(f'"{column}"::text' for column in shown) + f") FROM {name}"
    return lines_of(json.loads(line) for line in postgres.ask(asked))


def wrong_rows(postgres, rows):
    return [f"{name} doesn't hold its rows" for name in TABLES if not comes(lambda: held(postgres, name) == rows.due(name), 60)]


def run(pubd, seed, count):
    rows = Rows(seed)
    with tempfile.TemporaryDirectory() as folder, Cluster() as postgres:
        file = pathlib.Path(folder) / "copies.toml"
        file.write_text(configuration())
        with Driven(pubd, configuration=file) as server:
            for first in range(1, count + 1, 500):
                lines = ["begin T"]
                for key in range(first, min(first + 500, count + 1)):
                    rows.tables["bare"][str(key)] = (str(key),)
                    lines.append(f"insert T public.bare ({key})")
                server.do(*lines, "commit T 5")
            rows.tables["one"]["1"] = ("1", "a\tb")
            server.do("begin T", "insert T public.one (1,'a\tb')", "commit T 5")
            for _ in range(300):
                server.do(*rows.transaction())
            postgres.ask(*(made_there(name) for name in TABLES))
            connection = f"host=127.0.0.1 port={server.port} user=u dbname=app"
            names = """"all", "few", "odd ""name"" OR x\""""
            postgres.ask(f"CREATE SUBSCRIPTION s CONNECTION '{connection}' PUBLICATION {names}")
            for _ in range(300):
                server.do(*rows.transaction())
            ready = lambda: set(postgres.ask("SELECT srsubstate FROM pg_subscription_rel")) == {"r"}
            wrong = ["the tables don't get ready"] * (not comes(ready, 120))
            for _ in range(50):
                server.do(*rows.transaction())
            wrong += wrong_rows(postgres, rows)
            postgres.ask("DROP SUBSCRIPTION s")
            return wrong + server.end()


if __name__ == "__main__":
    main_of(run, 1, 2000)
