"""What a publisher is configured with, by docs/CONFIGURATION.md: tables, publications and filters, with their text in TOML."""
import dataclasses
import datetime
import json
import re
import uuid

INTEGERS = {"int2": 16, "int4": 32, "int8": 64}
OIDS = {"bool": 16, "int8": 20, "int2": 21, "int4": 23, "text": 25, "uuid": 2950}
# Types kept as text: OID and modifier, and what a text of one is.
AS_TEXT = {
    "bytea": (17, -1, lambda text: re.fullmatch(r"\\x([0-9a-f]{2})*", text)),
    "varchar(4)": (1043, 4 + 4, lambda text: len(text) <= 4 and "\0" not in text),
    "date": (1082, -1, lambda text: text == "infinity" or is_day(text)),
    "numeric(4,1)": (1700, (4 << 16) + 1 + 4, lambda text: text == "NaN" or re.fullmatch(r"-?(0|[1-9][0-9]{0,2})\.[0-9]", text) and text != "-0.0"),
}
OPERATIONS = "insert", "update", "delete", "truncate"


def in_toml(value):
    """A text or a list of texts; JSON's are TOML's too, but for characters in two escapes."""
    return json.dumps(value, ensure_ascii=False)


@dataclasses.dataclass
class Table:
    oid: int
    schema: str
    name: str
    identity: str
    key: list
    columns: list  # pairs of a name and a kind

    @property
    def dotted(self):
        return f"{self.schema}.{self.name}"

    @property
    def places_of_key(self):
        return [at for at, (name, _) in enumerate(self.columns) if name in self.key]

    @property
    def identified_by(self):
        """The columns by which a subscriber finds a row."""
        return {"default": self.key, "full": [name for name, _ in self.columns], "nothing": []}[self.identity]

    def key_of(self, row):
        return tuple(row[at] for at in self.places_of_key)

    def toml(self):
        columns = [list(column) for column in self.columns]
        names = [f"oid = {self.oid}", *(f"{name} = {in_toml(getattr(self, name))}" for name in ("schema", "name", "identity", "key"))]
        return "\n".join(["[[table]]", *names, f"columns = {in_toml(columns)}", ""])


@dataclasses.dataclass
class Part:
    """A table of a publication: its columns, or None for all, and its filter, if it has one."""

    table: Table
    columns: list = None
    where: object = None

    def listed(self):
        """The places of its columns."""
        return [at for at, (name, _) in enumerate(self.table.columns) if self.columns is None or name in self.columns]

    def passes(self, row):
        return self.where is None or self.where.of(dict(zip((name for name, _ in self.table.columns), row))) is True

    def toml(self):
        members = [f"name = {in_toml(self.table.dotted)}"]
        members += [f"where = {in_toml(self.where.text())}"] if self.where else []
        members += [f"columns = {in_toml(self.columns)}"] if self.columns is not None else []
        return f"{{ {', '.join(members)} }}"


@dataclasses.dataclass
class Publication:
    name: str
    publish: list
    how: str  # tables, schemas, all_tables
    parts: list

    def part_of(self, oid):
        return next((part for part in self.parts if part.table.oid == oid), None)

    def toml(self):
        if self.how == "tables":
            which = f"tables = [{', '.join(part.toml() for part in self.parts)}]"
        elif self.how == "schemas":
            which = f"schemas = {in_toml(sorted({part.table.schema for part in self.parts}))}"
        else:
            which = "all_tables = true"
        return "\n".join(["[[publication]]", f"name = {in_toml(self.name)}", f"publish = {in_toml(self.publish)}", which, ""])


@dataclasses.dataclass
class Configuration:
    records: int
    tables: list
    publications: list

    def table(self, dotted):
        return next((table for table in self.tables if table.dotted == dotted), None)

    def table_of(self, oid):
        return next(table for table in self.tables if table.oid == oid)

    def publication(self, name):
        return next((each for each in self.publications if each.name == name), None)

    def toml(self):
        server = f'[server]\nsystemid = "1"\nrecords = {self.records}\nchunks = 512\n'
        return "\n".join([server, *(each.toml() for each in (*self.tables, *self.publications))])


# ---- FILTERS: of a row each is True, False or None, which is unknown


@dataclasses.dataclass
class Column:
    name: str
    kind: str

    def of(self, row):
        return row[self.name]

    def text(self):
        return '"' + self.name.replace('"', '""') + '"'


@dataclasses.dataclass
class Constant:
    value: object
    kind: str

    def of(self, row):
        return self.value

    def text(self):
        if self.value is None:
            return "NULL"
        if isinstance(self.value, bool):
            return str(self.value).upper()
        if isinstance(self.value, int):
            return str(self.value)
        return "'" + str(self.value).replace("'", "''") + "'"


@dataclasses.dataclass
class Comparison:
    left: object
    sign: str
    right: object

    def of(self, row):
        left, right = self.left.of(row), self.right.of(row)
        if left is None or right is None:
            return None
        left, right = as_ordered(left), as_ordered(right)
        return {
            "=": left == right,
            "<>": left != right,
            "!=": left != right,
            "<": left < right,
            "<=": left <= right,
            ">": left > right,
            ">=": left >= right,
        }[self.sign]

    def text(self):
        return f"({self.left.text()} {self.sign} {self.right.text()})"


@dataclasses.dataclass
class Is:
    of_what: object
    is_not: bool
    what: str

    def of(self, row):
        found = self.of_what.of(row)
        came = {"NULL": found is None, "UNKNOWN": found is None, "TRUE": found is True, "FALSE": found is False}[self.what]
        return came != self.is_not

    def text(self):
        return f"({self.of_what.text()} IS {'NOT ' * self.is_not}{self.what})"


@dataclasses.dataclass
class Not:
    of_what: object

    def of(self, row):
        found = self.of_what.of(row)
        return None if found is None else not found

    def text(self):
        return f"(NOT {self.of_what.text()})"


@dataclasses.dataclass
class Joint:
    left: object
    word: str
    right: object

    def of(self, row):
        both = {self.left.of(row), self.right.of(row)}
        decides = self.word == "OR"
        if decides in both:
            return decides
        return None if None in both else not decides

    def text(self):
        return f"({self.left.text()} {self.word} {self.right.text()})"


def as_ordered(value):
    """Texts and UUIDs are compared by their bytes."""
    if isinstance(value, uuid.UUID):
        return value.bytes
    return value.encode() if isinstance(value, str) else value


def is_day(text):
    """Whether it is a day of four, two and two digits."""
    try:
        return bool(re.fullmatch(r"[0-9]{4}-[0-9]{2}-[0-9]{2}", text) and datetime.date.fromisoformat(text))
    except ValueError:
        return False
