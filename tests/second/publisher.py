"""The log, the transactions that write it, and the rows that it leaves, by docs/LOG.md and docs/SCHEDULES.md."""
import dataclasses
import uuid

from catalogue import AS_TEXT, INTEGERS

FIRST, FIRST_XID = 0x1000000, 700
MOST_LIVE, MOST_SAVEPOINTS = 256, 16
LONGEST_ROW, LONGEST_CONTENT, LONGEST_PREFIX = 8000, 8000, 63


class Refused(Exception):
    """A code."""


@dataclasses.dataclass
class Record:
    start: int
    end: int
    kind: str  # assign, change, undo, abort, commit, note
    transaction: object = None
    change: object = None
    time: int = 0


@dataclasses.dataclass
class Change:
    kind: str  # insert, update, delete, truncate, message
    table: object = None
    old: list = None
    new: list = None
    tables: list = None
    prefix: bytes = b""
    content: bytes = b""

    def length(self):
        """The bytes of its body."""
        if self.kind == "truncate":
            return 3 + 4 * len(self.tables)
        if self.kind == "message":
            return 7 + len(self.prefix) + len(self.content)
        return 5 + sum(length_of(row) for row in (self.old, self.new) if row is not None)


def length_of(row):
    """The bytes of a row's coding."""
    return 2 + sum(map(length_of_value, row))


def length_of_value(value):
    if value is None:
        return 1
    if isinstance(value, bool):
        return 2
    if isinstance(value, Integer):
        return 1 + value.bits // 8
    return 17 if isinstance(value, uuid.UUID) else 5 + len(value.encode())


class Integer(int):
    """One of so many bits."""

    def __new__(cls, value, bits):
        made = super().__new__(cls, value)
        made.bits = bits
        return made


def rounded(length):
    return (length + 7) // 8 * 8


class Transaction:
    def __init__(self, xid):
        self.xid, self.is_over = xid, False
        # The changes that stand, each with its record and how it is undone; how many stood where each savepoint was set.
        self.changes, self.savepoints = [], []

    def held(self, table):
        """The keys that it holds of a table; a truncate holds all."""
        found = set()
        for record, keys, _ in self.changes:
            change = record.change
            if change.kind == "truncate" and table in change.tables:
                return None
            if change.table is table:
                found |= keys
        return found


class Publisher:
    def __init__(self, configuration):
        self.configuration = configuration
        self.log, self.end, self.next_xid = [], FIRST, FIRST_XID
        # How many of its records were given back: the log has room for as many more.
        self.given = 0
        self.live = {}
        self.rows = {table.oid: {} for table in configuration.tables}

    # ---- THE LOG

    def room(self):
        return self.configuration.records + self.given - len(self.log) - len(self.live)

    def asks_room(self):
        if self.room() < 1:
            raise Refused("S7")

    def give_back(self, needed):
        """What stands before the record ahead of where a stream from a position begins to read, and before all transactions in progress."""
        self.given = max(self.given, min(restart_place(self.log, needed) - 1, restart_place(self.log, self.end)))

    def lacks(self, position):
        """Whether a stream from a position may need what was given back."""
        front = self.log[self.given].start if self.given < len(self.log) else self.end
        return self.given > 0 and (position < front or restart_place(self.log, position) < self.given)

    def write(self, kind, payload, **members):
        record = Record(self.end, self.end + 16 + rounded(payload), kind, **members)
        self.log.append(record)
        self.end = record.end
        return record

    # ---- THE CALLS OF A SESSION

    def begin(self, name):
        if len(self.live) == MOST_LIVE:
            raise Refused("S10")
        self.asks_room()
        self.live[name] = Transaction(self.new_xid())

    def new_xid(self):
        self.next_xid += 1
        return self.next_xid - 1

    def table(self, dotted):
        found = self.configuration.table(dotted)
        if found is None:
            raise Refused("S1")
        return found

    def insert(self, name, dotted, literals):
        table = self.table(dotted)
        row = fitted(table.columns, literals, table.places_of_key)
        self.asks_length(row)
        key = table.key_of(row)
        self.asks_free(name, table, {key})
        if key in self.rows[table.oid]:
            raise Refused("S3")
        self.changed(name, Change("insert", table, new=row), {key})

    def update(self, name, dotted, key_literals, literals):
        table = self.table(dotted)
        key = self.key(table, key_literals)
        row = fitted(table.columns, literals, table.places_of_key)
        self.asks_length(row)
        new = table.key_of(row)
        self.asks_free(name, table, {key, new})
        old = self.rows[table.oid].get(key)
        if old is None:
            raise Refused("S4")
        if new != key and new in self.rows[table.oid]:
            raise Refused("S3")
        self.changed(name, Change("update", table, old, row), {key, new})

    def delete(self, name, dotted, key_literals):
        table = self.table(dotted)
        key = self.key(table, key_literals)
        self.asks_free(name, table, {key})
        old = self.rows[table.oid].get(key)
        if old is None:
            raise Refused("S4")
        self.changed(name, Change("delete", table, old), {key})

    def truncate(self, name, *dotted):
        tables = [self.table(each) for each in dotted]
        if len({table.oid for table in tables}) < len(tables):
            raise Refused("S2")
        for table in tables:
            self.asks_free(name, table, None)
        self.changed(name, Change("truncate", tables=tables), set())

    def message(self, name, prefix, content):
        self.asks_message(prefix, content)
        self.changed(name, Change("message", prefix=prefix, content=content), set())

    def note(self, prefix, content):
        self.asks_message(prefix, content)
        self.asks_room()
        change = Change("message", prefix=prefix, content=content)
        self.write("note", 4 + change.length(), change=change)

    def savepoint(self, name):
        transaction = self.live[name]
        if len(transaction.savepoints) == MOST_SAVEPOINTS:
            raise Refused("S9")
        self.asks_room()
        self.new_xid()
        self.write("assign", 8, transaction=transaction)
        transaction.savepoints.append(len(transaction.changes))

    def rollback(self, name, depth):
        transaction = self.live[name]
        if not 1 <= depth <= len(transaction.savepoints):
            raise Refused("S8")
        self.asks_room()
        self.write("undo", 4, transaction=transaction)
        self.undo(transaction, transaction.savepoints[depth - 1])
        del transaction.savepoints[depth - 1 :]

    def release(self, name, depth):
        transaction = self.live[name]
        if not 1 <= depth <= len(transaction.savepoints):
            raise Refused("S8")
        del transaction.savepoints[depth - 1 :]

    def commit(self, name, time):
        transaction = self.live.pop(name)
        transaction.is_over = True
        self.write("commit", 12, transaction=transaction, time=time)

    def abort(self, name):
        transaction = self.live.pop(name)
        transaction.is_over = True
        self.undo(transaction, 0)
        self.write("abort", 4, transaction=transaction)

    # ---- WHAT THEY ASK

    def key(self, table, literals):
        columns = [table.columns[at] for at in table.places_of_key]
        return tuple(fitted(columns, literals, range(len(columns))))

    def asks_length(self, row):
        if length_of(row) > LONGEST_ROW:
            raise Refused("S6")

    def asks_free(self, name, table, keys):
        """No other transaction holds one of the keys, or, where these are None, any of the table."""
        for other, transaction in self.live.items():
            held = transaction.held(table)
            if other != name and (held is None or (held if keys is None else held & keys)):
                raise Refused("S5")

    def asks_message(self, prefix, content):
        if len(prefix) > LONGEST_PREFIX or 0 in prefix:
            raise Refused("S13")
        if len(content) > LONGEST_CONTENT:
            raise Refused("S6")

    def changed(self, name, change, keys):
        self.asks_room()
        transaction = self.live[name]
        record = self.write("change", 4 + change.length(), transaction=transaction, change=change)
        transaction.changes.append((record, keys, self.applied(change)))

    def applied(self, change):
        """Changes the rows, and answers what was there."""
        if change.kind == "message":
            return {}
        tables = change.tables if change.kind == "truncate" else [change.table]
        before = {table.oid: dict(self.rows[table.oid]) for table in tables} if change.kind == "truncate" else self.rows_before(change)
        for table in tables:
            rows = self.rows[table.oid]
            if change.kind == "truncate":
                rows.clear()
            if change.old is not None:
                del rows[table.key_of(change.old)]
            if change.new is not None:
                rows[table.key_of(change.new)] = change.new
        return before

    def rows_before(self, change):
        rows = self.rows[change.table.oid]
        keys = {change.table.key_of(row) for row in (change.old, change.new) if row is not None}
        return {key: rows.get(key) for key in keys}

    def undo(self, transaction, count):
        """Undoes all but so many of its changes."""
        while len(transaction.changes) > count:
            record, _, before = transaction.changes.pop()
            change = record.change
            if change.kind == "truncate":
                for oid, rows in before.items():
                    self.rows[oid] = rows
            elif change.kind != "message":
                for key, row in before.items():
                    self.rows[change.table.oid].pop(key, None)
                    if row is not None:
                        self.rows[change.table.oid][key] = row


def fitted(columns, literals, needed):
    """The row of these literals in these columns; those at the needed places aren't null."""
    if len(literals) != len(columns):
        raise Refused("S2")
    row = [value_of(kind, literal) for (_, kind), literal in zip(columns, literals)]
    if any(row[at] is None for at in needed):
        raise Refused("S2")
    return row


def value_of(kind, literal):
    if literal is None:
        return None
    if kind == "bool" and isinstance(literal, bool):
        return literal
    if kind in INTEGERS and isinstance(literal, int) and not isinstance(literal, bool):
        bits = INTEGERS[kind]
        if -(2 ** (bits - 1)) <= literal < 2 ** (bits - 1):
            return Integer(literal, bits)
    if isinstance(literal, str) and kind == "text" and "\0" not in literal:
        return literal
    if isinstance(literal, str) and kind == "uuid":
        return uuid_of(literal)
    if isinstance(literal, str) and kind in AS_TEXT and AS_TEXT[kind][2](literal):
        return literal
    raise Refused("S2")


def uuid_of(text):
    groups = text.split("-")
    if [len(group) for group in groups] != [8, 4, 4, 4, 12] or not set("".join(groups)) <= set("0123456789abcdefABCDEF"):
        raise Refused("S2")
    return uuid.UUID(text)


def restart_place(log, start):
    """Where a stream from a position begins to read: at the earliest record before it whose transaction is in progress there."""
    before = [record for record in log if record.start < start]
    over = {id(record.transaction) for record in before if record.kind in ("commit", "abort")}
    for place, record in enumerate(before):
        if record.kind != "note" and id(record.transaction) not in over:
            return place
    return len(before)
