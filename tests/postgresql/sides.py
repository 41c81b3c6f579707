"""The two sides of a workload: PostgreSQL, told by statements, and pubd, told by lines."""
from catalogue import AS_TEXT, literal, quoted, text_of
from wire import Refused, Session

# What each of pubd's refusals is there: a code, or what a statement that changes no row says.
NO_ROW = "no row"
# The prefix of a message that stands in PostgreSQL's log alone.
GAP = "gap"
# A lock that another transaction has.
LOCKED = "55P03"
CODES = {
    "S1": {"42P01"},
    # A table that another transaction empties is waited for before the row is looked at.
    "S2": {LOCKED, "22001", "22003", "22007", "22008", "22023", "23502", "22P02", "42804"},
    "S3": {"23505"},
    "S4": {NO_ROW},
    "S8": {"3B001"},
}
# Refused there, where PostgreSQL waits for the other transaction, or has no such limit.
WAITS = {"S5", "S6", "S9", "S10"}


class Differs(Exception):
    """What is not the same."""


class Pubd:
    """pubd's sessions: a line for each step."""

    def __init__(self, publisher, refused):
        # Where the last commit ends.
        self.publisher, self.refused, self.last = publisher, refused, None

    def say(self, line):
        """The code of a refusal, or None."""
        try:
            self.last = self.publisher.say(line) or self.last
        except self.refused as fault:
            return fault.code
        return None


def line_of(step, name):
    """The line of a step of this transaction."""
    word, *rest = step
    if word == "insert":
        return f"insert {name} {rest[0].dotted} ({values(rest[1])})"
    if word == "update":
        return f"update {name} {rest[0].dotted} ({values(rest[1])}) ({values(rest[2])})"
    if word == "delete":
        return f"delete {name} {rest[0].dotted} ({values(rest[1])})"
    if word == "truncate":
        return f"truncate {name} {' '.join(table.dotted for table in rest[0])}"
    if word == "message":
        return f"message {name} {text_of(rest[0])} {text_of(rest[1])}"
    if word in ("rollback", "release"):
        return f"{word} {name} {rest[0]}"
    return f"{word} {name}"


def values(row):
    return ",".join(map(literal, row))


class Postgres:
    """PostgreSQL's sessions: a connection for each transaction in progress."""

    def __init__(self, port, database):
        self.port, self.database, self.free, self.busy, self.depths = port, database, [], {}, {}

    def session(self):
        if self.free:
            return self.free.pop()
        session = Session(self.port, self.database)
        session.ask("SET lock_timeout = '500ms'")
        return session

    def row_at(self, name, table, key):
        """The row of this key that a transaction sees, or None. No lock of it stays."""
        session = self.busy[name]
        columns = ", ".join(quoted(column) for column, _ in table.columns)
        session.ask("SAVEPOINT probe")
        try:
            found, _ = session.ask(f"SELECT {columns} FROM {table.named} WHERE {condition_of(table, key)}")
        except Refused as fault:
            # Another transaction has emptied the table.
            if fault.code != LOCKED:
                raise
            found = []
        session.ask("ROLLBACK TO probe; RELEASE probe")
        return [value_of(kind, text) for (_, kind), text in zip(table.columns, found[0])] if found else None

    def do(self, step, name, code):
        """Does a step, of which pubd says this code, or None where it is done there."""
        word, *rest = step
        if word == "begin":
            self.busy[name], self.depths[name] = self.session(), 0
            self.busy[name].ask("BEGIN")
        elif word in ("commit", "abort"):
            session = self.busy.pop(name)
            session.ask(word.upper())
            self.free.append(session)
        elif code in WAITS:
            return
        else:
            self.tried(self.busy[name], name, word, rest, code)

    def tried(self, session, name, word, rest, code):
        """A step that may be refused, in a savepoint of its own."""
        session.ask("SAVEPOINT probe")
        try:
            came = getattr(self, word)(session, name, *rest)
        except Refused as fault:
            came = fault.code
        due = CODES[code] if code else {None}
        if came not in due:
            raise Differs(f"{word} of {name} is {came} in PostgreSQL and {code} in pubd")
        # One that rolls back or releases has taken the probe with it.
        if came is not None:
            session.ask("ROLLBACK TO probe")
        if came is not None or word not in ("rollback", "release", "savepoint"):
            session.ask("RELEASE probe")
        if came is None and word in ("rollback", "release"):
            self.depths[name] = rest[0] - 1
        if came is None and word == "savepoint":
            self.depths[name] += 1

    def insert(self, session, name, table, row):
        columns = ", ".join(quoted(column) for column, _ in table.columns)
        session.ask(f"INSERT INTO {table.named} ({columns}) VALUES ({', '.join(map(literal, row))})")

    def update(self, session, name, table, key, row):
        """Only what another value has is set: what isn't, and is long, is left out of the message."""
        where = condition_of(table, key)
        columns = ", ".join(quoted(column) for column, _ in table.columns)
        found, _ = session.ask(f"SELECT {columns} FROM {table.named} WHERE {where}")
        if not found:
            # A value that its column doesn't take is refused all the same.
            sets = ", ".join(f"{quoted(column)} = {literal(new)}" for (column, _), new in zip(table.columns, row))
            session.ask(f"UPDATE {table.named} SET {sets} WHERE {where}")
            return NO_ROW
        sets = [f"{quoted(column)} = {literal(new)}" for (column, kind), old, new in zip(table.columns, found[0], row) if value_of(kind, old) != new]
        sets = sets or [f"{quoted(table.key[0])} = {quoted(table.key[0])}"]
        session.ask(f"UPDATE {table.named} SET {', '.join(sets)} WHERE {where}")
        return None

    def delete(self, session, name, table, key):
        _, tag = session.ask(f"DELETE FROM {table.named} WHERE {condition_of(table, key)}")
        return NO_ROW if tag == "DELETE 0" else None

    def truncate(self, session, name, tables):
        session.ask("TRUNCATE " + ", ".join(table.named for table in tables))

    def message(self, session, name, prefix, content):
        """PostgreSQL orders a message by where its record ends, so that a change after it, of another subtransaction, may come first. A
        record between them keeps them apart."""
        session.ask(f"SELECT pg_logical_emit_message(true, {text_of(prefix)}, {text_of(content)})")
        session.ask(f"SELECT pg_logical_emit_message(false, {text_of(GAP)}, '')")

    def savepoint(self, session, name):
        session.ask(f"RELEASE probe; SAVEPOINT s{self.depths[name] + 1}")

    def rollback(self, session, name, depth):
        session.ask(f"ROLLBACK TO s{depth}; RELEASE s{depth}")

    def release(self, session, name, depth):
        session.ask(f"RELEASE s{depth}")

    def note(self, session, prefix, content):
        session.ask(f"SELECT pg_logical_emit_message(false, {text_of(prefix)}, {text_of(content)})")

    def close(self):
        for session in (*self.free, *self.busy.values()):
            session.close()


def condition_of(table, key):
    return " AND ".join(f"{quoted(name)} = {literal(value)}" for name, value in zip(table.key, key))


def value_of(kind, text):
    if text is None or kind in ("text", "uuid") or kind in AS_TEXT:
        return text
    return text == "t" if kind == "bool" else int(text)
