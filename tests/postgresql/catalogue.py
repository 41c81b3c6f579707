"""Tables and publications by chance, as TOML for pubd and as statements for PostgreSQL."""

# The kinds that filters compare.
COMPARED = "bool", "int2", "int4", "int8", "text", "uuid"
# Values of those that are kept as the texts that PostgreSQL sends of them.
AS_TEXT = {
    "numeric": ("0", "1", "1.00", "-12.5", "NaN", "Infinity", "-Infinity", "12345678901234567890.123456789", "0.000001"),
    "numeric(10,2)": ("0.00", "1.00", "-1.50", "99999999.99", "-0.01", "NaN"),
    "numeric(5)": ("0", "7", "-99999"),
    "varchar": ("", "a", "ab ", "it's", "é€𝄞", "z" * 150),
    "varchar(12)": ("", "a", "ab ", "it's", "é€𝄞", "twelve chars"),
    "char(4)": ("    ", "a   ", "it's", "é€𝄞 "),
    "bytea": ("\\x", "\\x00", "\\x0a27ff", "\\xdeadbeef"),
    "date": ("2024-02-29", "0001-01-01 BC", "4713-01-01 BC", "5874897-12-31", "10000-01-01", "infinity", "-infinity"),
    "time": ("00:00:00", "12:00:00.5", "23:59:59.999999", "24:00:00"),
    "timestamp": ("2024-02-29 12:00:00", "1999-12-31 23:59:59.000001", "0044-03-15 00:00:00 BC", "294276-12-31 23:59:59.999999", "infinity"),
    "timestamptz": ("2024-02-29 12:00:00+00", "1999-12-31 23:59:59.5+00", "0044-03-15 00:00:00+00 BC", "-infinity"),
}
# Texts of them that both refuse.
REFUSED = {
    "numeric(10,2)": ("100000000.00", "Infinity", "x"),
    "varchar(12)": ("thirteen char",),
    "bytea": ("\\x0", "\\xzz"),
    "date": ("2023-02-29", "2024-13-01", ""),
    "time": ("24:00:01", "noon-ish"),
    "timestamp": ("294277-01-01 00:00:00", "2024-02-30 00:00:00"),
    "timestamptz": ("2024-02-29 25:00:00+00",),
}
KINDS = (*COMPARED, *AS_TEXT)
# Those of which values may lie apart from their rows.
STORED_APART = "text", "varchar", "bytea"
SCHEMAS = "public", "shop", "Größe"
TABLES = "item", "Order", "tag", "note", "état", "select"
COLUMNS = "id", "name", "Qty", "of", "größe", "x1", "true", "k"
OPERATIONS = "insert", "update", "delete", "truncate"
NUMBERS = {"int2": (-32768, 32767), "int4": (-(2**31), 2**31 - 1), "int8": (-(2**63), 2**63 - 1)}
TEXTS = "", "a", "B", "ab", "it's", "é€𝄞", "two words", "z" * 150
UUIDS = "00000000-0000-0000-0000-000000000000", "6ba7b810-9dad-11d1-80b4-00c04fd430c8", "ffffffff-ffff-ffff-ffff-ffffffffffff"
# Long texts lie apart from their rows in PostgreSQL, and an update that doesn't set one leaves it out.
LONGEST = 3200
SHORTEST = 2200


def quoted(name):
    return '"' + name.replace('"', '""') + '"'


def text_of(value):
    return "'" + value.replace("'", "''") + "'"


def literal(value):
    """A value as a line of pubd and a statement of PostgreSQL write it."""
    if value is None:
        return "null"
    if isinstance(value, bool):
        return str(value).lower()
    return text_of(value) if isinstance(value, str) else str(value)


def long_value(by, kind):
    if kind == "bytea":
        return "\\x" + by.randbytes(2100).hex()
    return "".join(by.choices("abcdefghijklmnopqrstuvwxyz0123456789", k=by.randint(SHORTEST, LONGEST)))


class Table:
    def __init__(self, by, schema, name):
        self.schema, self.name, self.oid = schema, name, None
        names = by.sample(COLUMNS, by.randint(2, 5))
        self.columns = [(each, by.choice(KINDS)) for each in names]
        # Of numerics without places there are equal ones with several texts, so that no key of pubd has them.
        self.columns[0] = (names[0], "int4") if self.columns[0][1] == "numeric" else self.columns[0]
        told_apart = [each for each, kind in self.columns if kind != "numeric"]
        self.key = sorted(by.sample(told_apart, min(by.choice([1, 1, 1, 2]), len(told_apart))), key=names.index)
        self.identity = by.choice(["default", "default", "default", "full", "nothing"])
        self.long = [each for each, kind in self.columns if kind in STORED_APART and each not in self.key][:2]
        if all(dict(self.columns)[each] == "bytea" for each in self.long):
            # Two long ones are longer than a row.
            self.long = self.long[:1]

    @property
    def dotted(self):
        return f"{self.schema}.{self.name}"

    @property
    def named(self):
        return f"{quoted(self.schema)}.{quoted(self.name)}"

    @property
    def identified_by(self):
        """The columns that a filter of updates may name."""
        return {"default": self.key, "full": [name for name, _ in self.columns], "nothing": []}[self.identity]

    def value(self, by, name):
        kind = dict(self.columns)[name]
        if name not in self.key and by.random() < 0.2:
            return None
        if kind == "bool":
            return by.random() < 0.5
        if kind == "uuid":
            return by.choice(UUIDS)
        if name in self.long and by.random() < 0.3:
            return long_value(by, kind)
        if kind == "text":
            return by.choice(TEXTS)
        if kind in AS_TEXT:
            refused = name not in self.key and kind in REFUSED and by.random() < 0.03
            return by.choice((REFUSED if refused else AS_TEXT)[kind])
        least, most = NUMBERS[kind]
        return by.choice([0, 1, 2, 3, 4, 5, least, most, -1]) if name not in self.key else by.choice([0, 1, 2, 3, most])

    def row(self, by):
        return [self.value(by, name) for name, _ in self.columns]

    def statements(self):
        parts = [f"{quoted(name)} {kind}" + " NOT NULL" * (name in self.key) for name, kind in self.columns]
        keys = ", ".join(map(quoted, self.key))
        yield f"CREATE TABLE {self.named} ({', '.join(parts)}, PRIMARY KEY ({keys}))"
        yield f"ALTER TABLE {self.named} REPLICA IDENTITY {self.identity.upper()}"
        for name, kind in self.columns:
            if kind in STORED_APART:
                yield f"ALTER TABLE {self.named} ALTER {quoted(name)} SET STORAGE EXTERNAL"

    def toml(self):
        columns = ", ".join(f'["{name}", "{kind}"]' for name, kind in self.columns)
        keys = ", ".join(f'"{name}"' for name in self.key)
        return f'[[table]]\noid = {self.oid}\nschema = "{self.schema}"\nname = "{self.name}"\nidentity = "{self.identity}"\nkey = [{keys}]\ncolumns = [{columns}]\n'


def condition(by, table, names, depth=0):
    """The text of a condition over these columns."""
    kinds = dict(table.columns)
    dice = by.random()
    if depth < 3 and dice < 0.35:
        word = by.choice(["AND", "OR"])
        return f"({condition(by, table, names, depth + 1)} {word} {condition(by, table, names, depth + 1)})"
    if depth < 3 and dice < 0.45:
        return f"(NOT {condition(by, table, names, depth + 1)})"
    if depth < 3 and dice < 0.5:
        return f"({condition(by, table, names, depth + 1)} IS {by.choice(['', 'NOT '])}{by.choice(['TRUE', 'FALSE', 'UNKNOWN'])})"
    name = by.choice(names)
    if dice < 0.6 or kinds[name] not in COMPARED:
        return f"({quoted(name)} IS {by.choice(['', 'NOT '])}NULL)"
    same = [each for each in names if kinds[each] == kinds[name]]
    sign = by.choice(["=", "<>", "<", "<=", ">", ">=", "!="])
    other = quoted(by.choice(same)) if by.random() < 0.2 else literal(next(v for v in iter(lambda: table.value(by, name), 0.5) if v is not None and len(str(v)) < 200))
    return f"({quoted(name)} {sign} {other})"


class Publication:
    def __init__(self, by, name, tables):
        self.name = name
        self.publish = [each for each in OPERATIONS if by.random() < 0.85] or ["insert"]
        self.kind = by.choice(["tables", "tables", "tables", "schemas", "all"])
        chosen = by.sample(tables, by.randint(1, len(tables)))
        self.schemas = sorted({table.schema for table in chosen})
        covered = {"tables": chosen, "all": tables, "schemas": [table for table in tables if table.schema in self.schemas]}[self.kind]
        if any(table.identity == "nothing" for table in covered):
            self.publish = [each for each in self.publish if each not in ("update", "delete")] or ["insert"]
        self.changes = bool({"update", "delete"} & {*self.publish})
        self.parts = [(table, *self.part(by, table)) for table in covered]

    def part(self, by, table):
        """A table's column list and filter, or None for each."""
        names = [name for name, _ in table.columns]
        if self.kind != "tables":
            return None, None
        # PostgreSQL has no list for a table of which truncates alone are published.
        listed = by.random() < 0.3 and self.publish != ["truncate"] and not (self.changes and table.identity == "full")
        columns = [name for name in names if by.random() < 0.6 or (self.changes and name in table.key)] if listed else None
        filtered = table.identified_by if self.changes else names
        return columns or None, condition(by, table, filtered) if filtered and by.random() < 0.4 else None

    def lists(self):
        """The columns that it publishes of each table, by its name."""
        return {table.dotted: tuple(columns or [name for name, _ in table.columns]) for table, columns, _ in self.parts}

    def statement(self):
        if self.kind == "all":
            what = "ALL TABLES"
        elif self.kind == "schemas":
            what = "TABLES IN SCHEMA " + ", ".join(map(quoted, self.schemas))
        else:
            what = "TABLE " + ", ".join(
                table.named + (f" ({', '.join(map(quoted, columns))})" if columns else "") + (f" WHERE ({where})" if where else "") for table, columns, where in self.parts
            )
        return f"CREATE PUBLICATION {self.name} FOR {what} WITH (publish = '{', '.join(self.publish)}')"

    def toml(self):
        lines = ["[[publication]]", f'name = "{self.name}"', f"publish = [{', '.join(map(in_toml, self.publish))}]"]
        if self.kind == "all":
            lines.append("all_tables = true")
        elif self.kind == "schemas":
            lines.append(f"schemas = [{', '.join(map(in_toml, self.schemas))}]")
        else:
            parts = []
            for table, columns, where in self.parts:
                part = f"name = {in_toml(table.dotted)}"
                part += f", columns = [{', '.join(map(in_toml, columns))}]" if columns else ""
                parts.append("{ " + part + (f", where = {in_toml(where)}" if where else "") + " }")
            lines.append(f"tables = [{', '.join(parts)}]")
        return "\n".join(lines) + "\n"


def in_toml(text):
    return '"' + text.replace("\\", "\\\\").replace('"', '\\"') + '"'


class Catalogue:
    def __init__(self, by):
        places = by.sample([(schema, name) for schema in SCHEMAS for name in TABLES], by.randint(1, 4))
        self.tables = [Table(by, schema, name) for schema, name in places]
        self.publications = [Publication(by, f"p{number}", self.tables) for number in range(by.randint(1, 4))]

    def toml(self):
        server = '[server]\nsystemid = "1"\nrecords = 65536\nchunks = 512\n'
        return "\n".join([server, *(each.toml() for each in (*self.tables, *self.publications))])

    def selection(self, by):
        """Some publications, and whether their column lists agree."""
        chosen, lists, agree = by.sample(self.publications, by.randint(1, len(self.publications))), {}, True
        for each in chosen:
            agree &= all(lists.get(name, columns) == columns for name, columns in each.lists().items())
            lists |= each.lists()
        return [each.name for each in chosen], agree
