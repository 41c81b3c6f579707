"""What publications make of changes, over the tables of tables.toml."""
import pathlib
import struct
import uuid

import meanings
from case import Wrong, line_of, meant, values

HERE = pathlib.Path(__file__).resolve().parent
TABLES = (HERE / "tables.toml").read_text()
PUBLICATIONS = (HERE / "publications.toml").read_text()

# Of each table the rows that publications.samples tells.
ROWS = {
    16384: [(("int4", 10), "x", ("int8", 1)), (("int4", 11), "x", ("int8", 2)), (("int4", 11), "y", ("int8", 3))],
    16385: [("a", ("int4", 5)), ("a", ("int4", 6)), ("a", None)],
    16386: [(("int8", number), "m") for number in (1, 2, 3)],
    16388: [(("int2", number), ("int2", -1), ("int8", 7)) for number in (-32768, 6, 32767)],
    16389: [(uuid.UUID(int=number), "m", None) for number in (0, 0x6BA7B8109DAD11D180B400C04FD430C8, 2**128 - 1)],
}


# Of each kind of whole numbers its tag, and the form of its bytes.
NUMBERS = {"int2": (b"\5", ">h"), "int4": (b"\2", ">i"), "int8": (b"\3", ">q")}


def coded_value(value):
    if value is None:
        return b"\0"
    if isinstance(value, bool):
        return bytes([1, value])
    if isinstance(value, str):
        text = value.encode()
        return b"\4" + struct.pack(">I", len(text)) + text
    if isinstance(value, uuid.UUID):
        return b"\6" + value.bytes
    kind, number = value
    tag, form = NUMBERS[kind]
    return tag + struct.pack(form, number)


def coded_row(row):
    return struct.pack(">H", len(row)) + b"".join(map(coded_value, row))


def insert(oid, row):
    """The body of an insert in the log."""
    return b"\1" + struct.pack(">I", oid) + coded_row(row)


def update(oid, row):
    """The body of an update that leaves the row as it is."""
    return b"\2" + struct.pack(">I", oid) + coded_row(row) * 2


def delete(oid, row):
    return b"\3" + struct.pack(">I", oid) + coded_row(row)


def truncate(oid):
    return b"\4\0\1" + struct.pack(">I", oid)


def asked(names, bodies, publications):
    return line_of("published", names, ",".join(body.hex() for body in bodies), TABLES, publications)


def message_of(projected):
    return "nothing" if projected.word == "Nothing" else meanings.message(projected.inside[0])


def change(names, body):
    """What the publications of publications.toml make of one change."""
    body = bytes.fromhex(body.replace(" ", "").replace("|", ""))
    return [asked(names, [body], PUBLICATIONS)], lambda answer: meant(answer, lambda *found: message_of(found[-1]))


def tables(names):
    """The Relations of their tables."""
    return [asked(names, [], PUBLICATIONS)], lambda answer: meant(answer, lambda *found: " | ".join(map(meanings.message, found)))


def publications(names, text):
    """What publications are told of the rows of each table."""
    changes = [
        (oid, kind.__name__, str(number), kind(oid, row))
        for oid, rows in ROWS.items()
        for kind in (insert, update, delete)
        for number, row in enumerate(rows, 1)
    ]
    changes += [(oid, "truncate", "", truncate(oid)) for oid in ROWS]

    def table(relation, told):
        name, columns = relation.inside[0].name, ",".join(column.name for column in relation.inside[0].columns)
        shown = f"{name}({columns})"
        for kind in ("insert", "update", "delete", "truncate"):
            numbers = [number for oid, its_kind, number in told if (oid, its_kind) == (relation.inside[0].oid, kind)]
            if numbers:
                shown += f" {kind} {''.join(numbers)}".rstrip()
        return shown

    def meaning(*found):
        relations, projected = found[: -len(changes)], found[-len(changes) :]
        told = [it[:3] for it, message in zip(changes, projected) if message.word == "Message"]
        if not {oid for oid, _, _ in told} <= {relation.inside[0].oid for relation in relations}:
            raise Wrong("is told of a table that it hasn't")
        return " | ".join(table(relation, told) for relation in relations)

    return [asked(names, [it[3] for it in changes], text)], lambda answer: meant(answer, meaning)


def explained(text):
    """Why a text is refused, for whoever wrote it."""

    def came(answer):
        return "! " + values(answer)[0].replace("\n", "|")

    return [line_of("explained", TABLES, text)], came
