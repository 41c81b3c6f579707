"""What values mean, in the words of the sample files."""
import uuid


def position(number):
    return f"{number >> 32:X}/{number & 0xFFFFFFFF:X}"


def quoted(text):
    return "'" + text.replace("'", "''") + "'"


def words(*given):
    return " ".join(str(word) for word in given if word != "")


def pairs(parameters):
    return words(*(f"{quoted(it.name)} {quoted(it.value)}" for it in parameters))


def startup(it):
    if it.word == "Session":
        return words("Session", pairs(it.inside[0]))
    return words(it.word, *it.inside)


def column_description(it):
    kind = it.data_type
    return f", {quoted(it.name)} {it.table} {it.attribute} {kind.oid} {kind.size} {kind.modifier} {it.format}"


def data_value(it):
    return "null" if it.word == "Null" else "x" + bytes(it.inside[0]).hex()


def frame(it):
    """A frame of a client or of a server."""
    inner = it.inside[0] if it.inside else None
    match it.word:
        case "Query":
            return words("Query", quoted(inner.text))
        case "CopyFail":
            return words("CopyFail", quoted(inner.reason))
        case "CopyData":
            return words("CopyData", bytes(inner.bytes).hex())
        case "ParameterStatus":
            return words("ParameterStatus", pairs([inner]))
        case "BackendKeyData":
            return words("BackendKeyData", inner.process, inner.key)
        case "ReadyForQuery":
            return words("ReadyForQuery", inner.word)
        case "CommandComplete":
            return words("CommandComplete", quoted(inner.tag))
        case "RowDescription":
            return "RowDescription" + "".join(map(column_description, inner.columns))
        case "DataRow":
            return words("DataRow", *map(data_value, inner.values))
        case "ErrorResponse":
            return words("ErrorResponse", *(f"{chr(it.code)} {quoted(it.text)}" for it in inner.fields))
        case "CopyBothResponse":
            return words("CopyBothResponse", inner.format, *inner.formats)
    return it.word


def cell(it):
    return quoted(it.inside[0]) if it.word == "Text" else it.word.lower()


def cells(row):
    return words(*map(cell, row))


def old_tuple(it):
    return words(it.word.lower(), cells(it.inside[0]))


def relation_column(it):
    return f",{' key' * it.is_key} {quoted(it.name)} {it.kind} {it.modifier}"


def message(it):
    """A logical message."""
    inner = it.inside[0]
    match it.word:
        case "Begin":
            return words("Begin", position(inner.position), inner.time, inner.xid)
        case "Commit":
            return words("Commit", position(inner.position), position(inner.end), inner.time)
        case "Relation":
            head = words("Relation", inner.oid, quoted(inner.namespace), quoted(inner.name), inner.identity.word)
            return head + "".join(map(relation_column, inner.columns))
        case "Insert":
            return words("Insert", inner.oid, cells(inner.new))
        case "Update":
            return words("Update", inner.oid, old_tuple(inner.old) if inner.old else "", "new", cells(inner.new))
        case "Delete":
            return words("Delete", inner.oid, old_tuple(inner.old))
        case "Truncate":
            options = "cascade" * inner.options.cascade, "restart-identity" * inner.options.restart_identity
            return words("Truncate", *options, *inner.oids)
        case "Message":
            flag = "transactional" if inner.is_transactional else "outside"
            return words("Message", flag, position(inner.position), quoted(inner.prefix), bytes(inner.content).hex())
    raise ValueError(f"no message is {it.word}")


def server_body(it, payload=lambda data: f"[{data.hex()}]", silent=""):
    inner = it.inside[0]
    if it.word == "XLogData":
        return words("XLogData", position(inner.start), position(inner.end), inner.clock, payload(bytes(inner.payload)))
    return words("Keepalive", position(inner.end), inner.clock, "asks" if inner.ask else silent)


def status(it):
    return words("Status", *map(position, (it.written, it.flushed, it.applied)), it.clock, "asks" if it.ask else "")


def kind(it):
    """The kind of a column; of one that is kept as text its type, with what limits it."""
    if it.word != "AsText":
        return it.word
    (told,) = it.inside
    limit = told.inside[0] if told.inside else None
    return told.word + (f"({','.join(map(str, limit.named.values()))})" if limit else "")


def value(it):
    """A value of a row."""
    if it.word == "Null":
        return "null"
    inner = it.inside[0]
    shown = quoted(inner) if it.word == "Text" else uuid.UUID(int=inner) if it.word == "Uuid" else str(inner).lower()
    return f"{it.word.lower()} {shown}"


def change(it):
    """A change of a table, or a message."""
    match it.word:
        case "Message":
            message = it.inside[0]
            return words("Message", quoted(message.prefix), bytes(message.content).hex())
        case "Truncate":
            return words("Truncate", *it.inside[0])
        case "Update":
            oid, old, new = it.inside
            return words("Update", oid, *map(value, old), "to", *map(value, new))
    oid, row = it.inside
    return words(it.word, oid, *map(value, row))


def command(it):
    if it.word == "Start":
        names = "".join(f"[{name}]" for name in it.options.publications)
        return words("Start", it.slot, position(it.at), names, "messages" * it.options.messages)
    return words(it.word, it.named.get("slot", ""))


def lenient_command(it):
    """A slot with what is to be done with its snapshot."""
    return words(command(it), it.snapshot.word if it.word == "Create" else "")


def literal(it):
    match it.word:
        case "Text":
            return quoted(it.inside[0])
        case "Bool" | "Integer":
            return str(it.inside[0]).lower()
    return it.word.lower()


def literals(row):
    return words(*map(literal, row))


def event(it):
    """A line of a schedule."""
    if it.word == "Slot":
        return words("slot", *it.inside)
    if it.word == "Note":
        return words("note", *map(quoted, it.inside))
    name, step = it.inside
    return words(step.word.lower(), name, *asked(step))


def asked(step):
    """What a line asks after the name of its transaction or connection."""
    match step.word:
        case "Insert" | "Delete":
            return step.inside[0], literals(step.inside[1])
        case "Update":
            return step.inside[0], literals(step.inside[1]), "to", literals(step.inside[2])
        case "Truncate":
            return step.inside[0]
        case "Message":
            return tuple(map(quoted, step.inside))
        case "Start":
            slot, place, options = step.inside
            *before, last = options.publications
            return slot, position(place), *before, last + ", messages" * options.messages
    return step.inside


def table(it):
    head = f"{it.oid} {it.schema}.{it.name} {it.identity.word}"
    if len(it.columns) > 4:
        return f"{head} {len(it.columns)} columns"
    return words(head, *(f"{column.name}:{kind(column.kind)}{'*' * column.is_key}" for column in it.columns))


def catalog(it):
    return f"{len(it.tables)} tables" if len(it.tables) > 2 else " | ".join(map(table, it.tables))


def config(server, tables):
    return f"'{server.systemid}' {server.records} {server.chunks}, tables {len(tables.tables)}"
