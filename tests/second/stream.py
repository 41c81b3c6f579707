"""What is sent of a log: the messages of its changes and the frames around them, by docs/PROTOCOL.md."""
import struct
import uuid

from catalogue import AS_TEXT, OIDS
from publisher import Refused, restart_place

# A text of more bytes isn't sent again where an update leaves it.
LONGEST_SENT_AGAIN = 2000


def frame(body):
    return b"d" + struct.pack(">I", 4 + len(body)) + body


def xlogdata(position, clock, message):
    return frame(b"w" + struct.pack(">QQq", position, position, clock) + message)


def keepalive(position, clock):
    return frame(b"k" + struct.pack(">QqB", position, clock, 0))


def string(text):
    return (text.encode() if isinstance(text, str) else text) + b"\0"


def cell(value):
    """A value's text, or null."""
    if value is None:
        return b"n"
    if isinstance(value, bool):
        text = b"t" if value else b"f"
    elif isinstance(value, uuid.UUID):
        text = str(value).encode()
    else:
        text = value.encode() if isinstance(value, str) else str(int(value)).encode()
    return b"t" + struct.pack(">I", len(text)) + text


def type_of(kind):
    """OID and modifier."""
    return AS_TEXT[kind][:2] if kind in AS_TEXT else (OIDS[kind], -1)


def put_tuple(cells):
    return struct.pack(">H", len(cells)) + b"".join(cells)


class Selection:
    """Some publications, by their names."""

    def __init__(self, configuration, names, messages):
        self.messages, self.publications = messages, []
        for name in names:
            found = configuration.publication(name)
            if found is None:
                raise Refused("P1")
            self.publications.append(found)
        for table in configuration.tables:
            if len({tuple(part.listed()) for part in self.parts(table)}) > 1:
                raise Refused("P2")

    def parts(self, table, operation=None):
        found = (each.part_of(table.oid) for each in self.publications if operation is None or operation in each.publish)
        return [part for part in found if part is not None]

    def columns(self, table):
        return self.parts(table)[0].listed()

    def passes(self, table, operation, row):
        return any(part.passes(row) for part in self.parts(table, operation))

    def message_of(self, change, position):
        """The tables that its message names, and the message; or None where it isn't published."""
        if change.kind == "message":
            if not self.messages:
                return None
            return [], b"M" + struct.pack(">BQ", 1, position) + string(change.prefix) + struct.pack(">I", len(change.content)) + change.content
        if change.kind == "truncate":
            tables = [table for table in change.tables if self.parts(table, "truncate")]
            if not tables:
                return None
            return tables, b"T" + struct.pack(">IB", len(tables), 0) + b"".join(struct.pack(">I", table.oid) for table in tables)
        message = getattr(self, change.kind)(change.table, change.old, change.new)
        return message and ([change.table], message)

    def insert(self, table, old, new):
        if not self.passes(table, "insert", new):
            return None
        return self.inserted(table, new)

    def update(self, table, old, new):
        """What leaves the published rows is deleted, and what comes to them inserted."""
        leaves, comes = (self.passes(table, "update", row) for row in (old, new))
        if leaves and comes:
            return self.updated(table, old, new)
        if comes:
            return self.inserted(table, new)
        return self.deleted(table, old) if leaves else None

    def delete(self, table, old, new):
        return self.deleted(table, old) if self.passes(table, "delete", old) else None

    def inserted(self, table, new):
        cells = [cell(new[at]) for at in self.columns(table)]
        return b"I" + struct.pack(">I", table.oid) + b"N" + put_tuple(cells)

    def updated(self, table, old, new):
        before = b""
        if table.identity == "full":
            before = self.old_row(table, old)
        elif table.identity == "default" and table.key_of(old) != table.key_of(new):
            before = self.old_key(table, old)
        cells = [b"u" if is_left(old[at], new[at]) else cell(new[at]) for at in self.columns(table)]
        return b"U" + struct.pack(">I", table.oid) + before + b"N" + put_tuple(cells)

    def deleted(self, table, old):
        if table.identity == "nothing":
            return None
        before = self.old_row(table, old) if table.identity == "full" else self.old_key(table, old)
        return b"D" + struct.pack(">I", table.oid) + before

    def old_row(self, table, old):
        return b"O" + put_tuple([cell(old[at]) for at in self.columns(table)])

    def old_key(self, table, old):
        return b"K" + put_tuple([cell(old[at] if at in table.places_of_key else None) for at in self.columns(table)])

    def relation(self, table):
        letter = {"default": b"d", "full": b"f", "nothing": b"n"}[table.identity]
        columns = [table.columns[at] for at in self.columns(table)]
        told = (struct.pack(">B", name in table.identified_by) + string(name) + struct.pack(">Ii", *type_of(kind)) for name, kind in columns)
        head = struct.pack(">I", table.oid) + string(table.schema) + string(table.name) + letter
        return b"R" + head + struct.pack(">H", len(columns)) + b"".join(told)


def is_left(old, new):
    return isinstance(new, str) and old == new and len(new.encode()) > LONGEST_SENT_AGAIN


class Sender:
    """Of what the selection publishes of a log from a position on."""

    def __init__(self, selection, start, publisher):
        self.selection, self.start = selection, start
        self.place = restart_place(publisher.log, start)
        # The end of what was read.
        self.position = publisher.log[self.place].start if self.place < len(publisher.log) else publisher.end
        self.held, self.told = b"", set()

    def read(self, log, most, clock):
        for record in log[self.place : self.place + most]:
            self.place += 1
            self.position = record.end
            if record.start < self.start:
                continue
            if record.kind == "commit":
                self.held += self.block(record, clock)
            if record.kind == "note" and self.selection.messages:
                change = record.change
                message = b"M" + struct.pack(">BQ", 0, record.start) + string(change.prefix) + struct.pack(">I", len(change.content)) + change.content
                self.held += xlogdata(record.end, clock, message)

    def block(self, commit, clock):
        """The frames of a transaction, or none where nothing of it is published."""
        changes = b""
        for record, _, _ in commit.transaction.changes:
            found = self.selection.message_of(record.change, record.start)
            if found is None:
                continue
            tables, message = found
            for table in tables:
                if table.oid not in self.told:
                    self.told.add(table.oid)
                    changes += xlogdata(record.start, clock, self.selection.relation(table))
            changes += xlogdata(record.start, clock, message)
        if not changes:
            return b""
        begin = b"B" + struct.pack(">QqI", commit.start, commit.time, commit.transaction.xid)
        end = b"C" + struct.pack(">BQQq", 0, commit.start, commit.end, commit.time)
        return xlogdata(commit.start, clock, begin) + changes + xlogdata(commit.end, clock, end)
