"""Configurations and schedules by chance: each event as values, and as its line."""
import random
import uuid

from catalogue import AS_TEXT, OPERATIONS, Column, Comparison, Configuration, Constant, Is, Joint, Not, Part, Publication, Table
from publisher import FIRST
from world import World

KINDS = "bool", "int2", "int4", "int8", "text", "uuid", *AS_TEXT
SCHEMAS = "public", "shop"
NAMES = "id", "name", "Qty", "größe", "true", "k v", 'q"t'
CONNECTIONS, SESSIONS, SLOTS = ("c", "d", "e"), ("T", "U", "V"), ("s", "t", "u")
UUIDS = "00000000-0000-0000-0000-000000000000", "6BA7B810-9dad-11d1-80b4-00c04fd430c8", "ffffffff-ffff-ffff-ffff-ffffffffffff"
TEXTS = "", "a", "ab", "B", "it's", "é€𝄞", "two words"
# Texts of those that are kept as text, of which a few are none.
TOLD = {
    "bytea": ("\\x", "\\x00", "\\x0a27ff", "\\x" + "ab" * 999, "\\x" + "cd" * 1000, "\\xAB", "\\x0", ""),
    "varchar(4)": ("", "a", "it's", "é€𝄞", "five "),
    "date": ("2024-02-29", "1970-01-01", "0001-01-01", "infinity", "2023-02-29", "2024-13-01", "2024-1-1"),
    "numeric(4,1)": ("0.0", "-0.1", "999.9", "NaN", "1000.0", "-0.0", "1", "01.0"),
}
LONG = "x" * 2000, "y" * 2001, "z" * 2400
# A filter is at most so deep.
DEEPEST = 3


class Draw:
    def __init__(self, seed):
        self.by = random.Random(seed)

    # ---- A CONFIGURATION

    def configuration(self):
        places = self.by.sample([(schema, name) for schema in SCHEMAS for name in ("item", "tag", "Ö")], self.by.randint(1, 3))
        tables = [self.table(16384 + at, *place) for at, place in enumerate(places)]
        publications = [self.publication(f"p{at}", tables) for at in range(self.by.randint(1, 3))]
        return Configuration(self.by.choice([40, 200, 5000]), tables, publications)

    def table(self, oid, schema, name):
        names = self.by.sample(NAMES, self.by.randint(1, 4))
        key = sorted(self.by.sample(names, self.by.choice([1, 1, min(2, len(names))])), key=names.index)
        identity = self.by.choice(["default", "default", "full", "nothing"])
        return Table(oid, schema, name, identity, key, [(each, self.by.choice(KINDS)) for each in names])

    def publication(self, name, tables):
        publish = [each for each in OPERATIONS if self.by.random() < 0.8]
        how = self.by.choice(["tables", "tables", "tables", "schemas", "all_tables"])
        chosen = self.by.sample(tables, self.by.randint(1, len(tables)))
        schemas = {table.schema for table in chosen}
        covered = {"tables": chosen, "schemas": [table for table in tables if table.schema in schemas], "all_tables": tables}[how]
        if any(table.identity == "nothing" for table in covered):
            publish = [each for each in publish if each not in ("update", "delete")]
        changes = bool({"update", "delete"} & {*publish})
        return Publication(name, publish, how, [self.part(table, changes) if how == "tables" else Part(table) for table in covered])

    def part(self, table, changes):
        names = [name for name, _ in table.columns]
        columns = None
        if self.by.random() < 0.3 and not (changes and table.identity == "full"):
            columns = [name for name in names if self.by.random() < 0.6 or (changes and name in table.key)] or names
        filtered = table.identified_by if changes else names
        where = self.condition(table, filtered) if filtered and self.by.random() < 0.5 else None
        return Part(table, columns, where)

    def condition(self, table, names, depth=0):
        dice = self.by.random()
        if depth < DEEPEST and dice < 0.3:
            return Joint(self.condition(table, names, depth + 1), self.by.choice(["AND", "OR"]), self.condition(table, names, depth + 1))
        if depth < DEEPEST and dice < 0.4:
            return Not(self.condition(table, names, depth + 1))
        if depth < DEEPEST and dice < 0.5:
            return Is(self.condition(table, names, depth + 1), self.by.random() < 0.5, self.by.choice(["TRUE", "FALSE", "UNKNOWN"]))
        return self.simple(table, self.by.choice(names), names)

    def simple(self, table, name, names):
        kinds = dict(table.columns)
        column = Column(name, kinds[name])
        if column.kind in AS_TEXT or self.by.random() < 0.2:
            return Is(column, self.by.random() < 0.5, "NULL")
        if column.kind == "bool" and self.by.random() < 0.3:
            return column
        alike = [each for each in names if (kinds[each].startswith("int") and column.kind.startswith("int")) or kinds[each] == column.kind]
        other = self.by.choice(alike)
        right = Column(other, kinds[other]) if self.by.random() < 0.3 else self.constant(column.kind)
        return Comparison(column, self.by.choice(["=", "<>", "!=", "<", "<=", ">", ">="]), right)

    def constant(self, kind):
        if self.by.random() < 0.05:
            return Constant(None, kind)
        value = {"bool": True, "text": self.by.choice(TEXTS), "uuid": uuid.UUID(self.by.choice(UUIDS))}.get(kind, self.by.randint(-3, 6))
        return Constant(self.by.random() < 0.5 if kind == "bool" else value, kind)

    # ---- EVENTS

    def schedule(self, configuration, count):
        """Events that can happen, but for the last one now and then: so a run of them tells which those are."""
        self.configured, self.world = configuration, World(configuration)
        events = []
        while len(events) < count:
            events.append(self.event())
            self.world.run([(len(events), events[-1])])
        return events + [("ack", "none")] * (self.by.random() < 0.01)

    def event(self):
        dice = self.by.random()
        if dice < 0.5:
            return self.of_session(self.by.choice(SESSIONS))
        if dice < 0.54:
            return "note", self.prefix(), self.content()
        if dice < 0.57:
            return "slot", self.by.choice(SLOTS)
        if dice < 0.6:
            return (self.by.choice(["forget", "forget", "front"]),)
        return self.of_connection(self.by.choice(CONNECTIONS))

    def of_session(self, name):
        if name not in self.world.publisher.live:
            return "begin", name
        table = self.by.choice(self.configured.tables)
        dotted = table.dotted if self.by.random() < 0.98 else "public.none"
        kind = self.by.choices(
            ["insert", "update", "delete", "truncate", "message", "savepoint", "rollback", "release", "commit", "abort"], [30, 22, 10, 1, 6, 6, 4, 3, 24, 3]
        )[0]
        if kind == "insert":
            return kind, name, dotted, self.row(table)
        if kind == "update":
            key = self.key(table)
            return kind, name, dotted, key, self.row(table, key if self.by.random() < 0.6 else None)
        if kind == "delete":
            return kind, name, dotted, self.key(table)
        if kind == "truncate":
            return kind, name, *(each.dotted for each in self.by.choices(self.configured.tables, k=self.by.randint(1, 2)))
        if kind == "message":
            return kind, name, self.prefix(), self.content()
        if kind in ("rollback", "release"):
            return kind, name, self.by.randint(0, 3)
        return (kind, name, self.by.choice([0, 5, -(2**63), 2**63 - 1])) if kind == "commit" else (kind, name)

    def prefix(self):
        return self.by.choice(["p", "", "it's", "é" * 31, "x" * 64]).encode()

    def content(self):
        return self.by.choice(["", "c", "it's", "€" * 20, "x" * 8001]).encode()

    def row(self, table, key=None):
        row = [self.value(kind, name in table.key) for name, kind in table.columns]
        if key is not None and len(key) == len(table.key):
            for at, value in zip(table.places_of_key, key):
                row[at] = value
        return row + [1] * (self.by.random() < 0.01)

    def key(self, table):
        kinds = dict(table.columns)
        return [self.value(kinds[name], True) for name, _ in table.columns if name in table.key]

    def value(self, kind, is_of_key):
        dice = self.by.random()
        if dice < (0.01 if is_of_key else 0.2):
            return None
        if dice > 0.99:
            kind = self.by.choice(KINDS)
        if kind == "bool":
            return self.by.random() < 0.5
        if kind == "text":
            return self.by.choice(TEXTS[:4] if is_of_key and dice < 0.97 else (*TEXTS, *LONG, "w" * 8001)[: 10 + (dice < 0.3)])
        if kind in AS_TEXT:
            return self.by.choice(TOLD[kind][:4] if dice < 0.9 else TOLD[kind])
        if kind == "uuid":
            return self.by.choice(UUIDS) if dice < 0.98 else "none"
        most = 2 ** (int(kind[3:]) * 8 - 1) - 1
        return self.by.choice([0, 1, 2, 3]) if is_of_key else self.by.choice([0, 1, -1, 5, most, -most - 1, most + (dice > 0.97)])

    def of_connection(self, name):
        if name not in self.world.running:
            names = self.by.sample([each.name for each in self.configured.publications], self.by.randint(1, len(self.configured.publications)))
            if self.by.random() < 0.03:
                names.append("none")
            position = self.by.choice([0, 0, 0, FIRST, FIRST + self.by.randrange(2000), 2**64 - 1 if self.by.random() < 0.05 else FIRST])
            return "start", name, self.by.choice([None, *SLOTS]), position, names, self.by.random() < 0.5
        kind = self.by.choices(["read", "drain", "deliver", "keepalive", "status", "flushed", "ack", "cut"], [30, 30, 30, 8, 8, 2, 10, 3])[0]
        if kind == "ack" and not self.world.running[name].back:
            kind = "status"
        clock = self.by.choice([0, 9, -5, 2**63 - 1])
        more = {
            "read": (self.by.choice([0, 1, 3, 10, 50, 2**32 - 1, 2**32 - 1]), clock),
            "drain": (self.by.choice([0, 1, 50, 1000, 2**32 - 1, 2**32 - 1]),),
            "deliver": (self.by.choice([0, 1, 50, 1000, 2**32 - 1, 2**32 - 1]),),
            "keepalive": (clock,),
            "status": (clock,),
            "flushed": (self.by.choice([0, FIRST + self.by.randrange(3000), 2**64 - 1]),),
        }
        return kind, name, *more.get(kind, ())


def line_of(event):
    """An event as its line of a schedule."""
    word, *given = event
    if word == "insert":
        return f"insert {given[0]} {given[1]} {in_parentheses(given[2])}"
    if word == "update":
        return f"update {given[0]} {given[1]} {in_parentheses(given[2])} {in_parentheses(given[3])}"
    if word == "delete":
        return f"delete {given[0]} {given[1]} {in_parentheses(given[2])}"
    if word == "message":
        return f"message {given[0]} {quoted(given[1])} {quoted(given[2])}"
    if word == "note":
        return f"note {quoted(given[0])} {quoted(given[1])}"
    if word == "start":
        name, slot, position, names, messages = given
        return f"start {name} {slot or '-'} {position >> 32:X}/{position & 0xFFFFFFFF:X} {','.join(names)}" + " messages" * messages
    return " ".join([word, *map(str, given)])


def quoted(text):
    return "'" + text.decode().replace("'", "''") + "'"


def in_parentheses(values):
    return "(" + ",".join(map(literal, values)) + ")"


def literal(value):
    if value is None:
        return "null"
    if isinstance(value, bool):
        return str(value).lower()
    return str(value) if isinstance(value, int) else "'" + value.replace("'", "''") + "'"
