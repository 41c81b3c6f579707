"""What PostgreSQL's own clients ask beside commands: it is answered where pubd is told to, word for word, and refused else."""
import struct
import threading
import time

from connection import Connection, Refused
from server import Server

ON = ["--answer-postgresql"]
PATH = "SELECT pg_catalog.set_config('search_path', '', false);"
MODE = "SHOW data_directory_mode"
COPY = "BEGIN READ ONLY ISOLATION LEVEL REPEATABLE READ"
PUBLICATIONS = "SELECT t.pubname FROM\n pg_catalog.pg_publication t WHERE\n t.pubname IN ({})"
TABLES = "SELECT DISTINCT t.schemaname, t.tablename \nFROM pg_catalog.pg_publication_tables t\n WHERE t.pubname IN ({})"
COLUMNS = TABLES.replace("\nFROM", "\n, t.attnames\nFROM")
DROP = 'DROP_REPLICATION_SLOT "s" WAIT'
# As PostgreSQL 15.18 writes a name that needs no quotes.
BARE_DROP = "DROP_REPLICATION_SLOT s WAIT"
SYNTAX = "42601"
UNSUPPORTED = "0A000"


def frame(kind, body):
    return kind + struct.pack(">I", len(body) + 4) + body


def answer(columns, rows, tag):
    """Columns of texts (type 25), rows, and the end of the answer."""
    described = b"".join(name.encode() + b"\0" + struct.pack(">IhIhih", 0, 0, 25, -1, -1, 0) for name in columns)
    frames = [frame(b"T", struct.pack(">h", len(columns)) + described)]
    for row in rows:
        values = b"".join(struct.pack(">I", len(value.encode())) + value.encode() for value in row)
        frames.append(frame(b"D", struct.pack(">h", len(row)) + values))
    return b"".join(frames) + completed(tag)


def completed(tag, state=b"I"):
    return frame(b"C", tag.encode() + b"\0") + frame(b"Z", state)


ANSWERED = [
    (PATH, answer(["set_config"], [[""]], "SELECT 1")),
    (MODE, answer(["data_directory_mode"], [["0700"]], "SHOW")),
    (PUBLICATIONS.format("'p'"), answer(["pubname"], [["p"]], "SELECT 1")),
    (PUBLICATIONS.format("'no', 'p', 'o''ne'"), answer(["pubname"], [["p"]], "SELECT 1")),
    (PUBLICATIONS.format("'P'"), answer(["pubname"], [], "SELECT 0")),
    (TABLES.format("'p'"), answer(["schemaname", "tablename"], [["public", "item"]], "SELECT 1")),
    (TABLES.format("'p', 'p', 'no'"), answer(["schemaname", "tablename"], [["public", "item"]], "SELECT 1")),
    (TABLES.format("'no'"), answer(["schemaname", "tablename"], [], "SELECT 0")),
    (DROP, completed("DROP_REPLICATION_SLOT")),
]

COLUMN_NAMES = ["schemaname", "tablename", "attnames"]
# What is asked only of a server that has answered others.
ANSWERED_LATER = [
    (COLUMNS.format("'p'"), answer(COLUMN_NAMES, [["public", "item", "{id,name,qty}"]], "SELECT 1")),
    (COLUMNS.format("'p', 'no', 'p'"), answer(COLUMN_NAMES, [["public", "item", "{id,name,qty}"]], "SELECT 1")),
    (COLUMNS.format("'no'"), answer(COLUMN_NAMES, [], "SELECT 0")),
    *((f"SHOW {name}", answer([name], [[value]], "SHOW")) for name, value in (
        ("server_version", "15.0"), ("wal_segment_size", "16MB"), ("wal_level", "logical"), ("integer_datetimes", "on"))),
]
NO_SUCH = "42704"
NEAR_MODES = [(MODE[:-1], NO_SUCH), ("SHOW work_mem", NO_SUCH), ("SHOW a.b", SYNTAX), ("SHOW ", SYNTAX), ("SHOW ALL", SYNTAX)]

ENDED = "'p'); DROP_REPLICATION_SLOT s; ("
LISTS = ["", "p", '"p"', "'p' ", " 'p'", "'p','p'", "'p',  'p'", "'p', ", "'p',", "'p''", "'p' -- ", "'p'/**/", "E 'p'", "E'p\\x'", "E'p\\'", ENDED]
NEAR = [
    *(text.format(each) for text in (PUBLICATIONS, TABLES, COLUMNS) for each in LISTS),
    *(change(text) for text in (PATH, MODE, COPY, PUBLICATIONS.format("'p'"), TABLES.format("'p'"), COLUMNS.format("'p'")) for change in (
        lambda text: text + " ",
        lambda text: " " + text,
        lambda text: text + "\n",
        lambda text: text + ";",
        lambda text: text + "; DROP_REPLICATION_SLOT s",
        lambda text: "DROP_REPLICATION_SLOT s; " + text,
        lambda text: text + " -- it",
        lambda text: "/* it */" + text,
        lambda text: text.replace(" ", "  ", 1),
        lambda text: text.replace(" ", "\t", 1),
        lambda text: text.swapcase(),
        lambda text: text[:-1],
        lambda text: text[1:],
    )),
    "SELECT 1",
    "",
]
NEAR_DROPS = [DROP + each for each in (";", " ", " -- it")]
NEAR_DROPS += [DROP.lower(), DROP.replace(" W", "  W"), DROP.replace('"s"', "'s'"), BARE_DROP.lower(), BARE_DROP.replace(" W", "  W")]
NEAR_DROPS += [BARE_DROP + each for each in (";", " ", " -- it")] + ["DROP_REPLICATION_SLOT  WAIT", "DROP_REPLICATION_SLOT s;s WAIT"]


def code_for(client, text):
    """By which code it is refused, if it is."""
    try:
        client.ask(text)
        return None
    except Refused as refused:
        return refused.args[0]


def said_to(client, text):
    return b"".join(frame(*each) for each in client.ask(text))


def questions_are_answered_where_they_may_be(pubd, subcat):
    """And a block in which something is refused ends as one that is undone, but for its slot."""
    wrong = []
    with Server(pubd, 1, more=ON) as server:
        client = Connection(server.port)
        client.create("s")
        for text, due in ANSWERED + ANSWERED_LATER:
            got = said_to(client, text)
            wrong += [f"{text!r} is answered by {got}, and not by {due}"] * (got != due)
        unknown = ("SHOW work_mem", NO_SUCH, 'unrecognized configuration parameter "work_mem"')
        wrong += wrong_texts(client, [unknown])
        copy_slot = "pg_16394_sync_16386_7000000000000000001"
        got = said_to(client, COPY)
        wrong += [f"{COPY!r} is answered by {got}"] * (got != completed("BEGIN", b"T"))
        kinds = [kind for kind, _ in client.ask(f"CREATE_REPLICATION_SLOT \"{copy_slot}\" LOGICAL pgoutput (SNAPSHOT 'use')")]
        wrong += [f"the slot of a copy is answered by {kinds}"] * (kinds != [b"T", b"D", b"C", b"Z"])
        wrong += wrong_texts(client, [unknown, (MODE, "25P02", "current transaction is aborted, commands ignored until its end")], b"E")
        got = said_to(client, "COMMIT")
        wrong += [f"COMMIT is answered by {got}"] * (got != completed("ROLLBACK"))
        drop = f"DROP_REPLICATION_SLOT {copy_slot}"
        wrong += ["the slot of a copy isn't dropped"] * (code_for(client, drop) is not None)
        wrong += wrong_texts(client, [(drop, "42704", f'replication slot "{copy_slot}" does not exist')])
        wrong += ["a slot isn't dropped"] * (code_for(client, "DROP_REPLICATION_SLOT s") != "42704")
        client.create("s")
        got = said_to(client, BARE_DROP)
        wrong += [f"{BARE_DROP!r} is answered by {got}"] * (got != completed("DROP_REPLICATION_SLOT"))
        client.close()
        told = ["unrecognized configuration parameter"] * 2
        told += ["current transaction is aborted, commands ignored until its end", "DROP_REPLICATION_SLOT of slot s: L1: the slot does not exist"]
        return wrong + server.end(ended=[f"pubd: connection 1: {each}" for each in told])


def questions_are_refused_where_they_may_not_be(pubd, subcat):
    """By the code of any text that is no command; the answer, and what is told once, name the word by which they are answered."""
    with Server(pubd, 1, more=["--log-min-messages", "info"]) as server:
        client = Connection(server.port)
        client.create("s")
        due = [(text, SYNTAX) for text, _ in ANSWERED[:-1]] + [(COPY, SYNTAX), (DROP, UNSUPPORTED), (BARE_DROP, UNSUPPORTED)]
        wrong = wrong_texts(client, [(text, code, "not answered without --answer-postgresql") for text, code in due])
        wrong += wrong_texts(client, [(text, SYNTAX, "syntax error") for text, _ in ANSWERED_LATER])
        wrong += wrong_texts(client, [("SELECT 1", SYNTAX, "syntax error")])
        client.close()
        told = [f": {shown(PATH)}: C1: syntax error: --answer-postgresql answers it", ": SELECT 1: C1: syntax error", " closed by its client"]
        told += [f": {shown(text)}: C1: syntax error" for text, _ in ANSWERED_LATER]
        return wrong + server.end(ended=[f"pubd: connection 1{each}" for each in told])


def shown(text):
    """A text as a message shows it."""
    return text.replace("'", "\\'").replace("\n", "\\n")


def wrong_texts(client, due, state=b"I"):
    """What is wrong where these have to be refused by this code and this text, and leave this state."""
    wrong = []
    for text, code, words in due:
        asked = text.encode() + b"\0"
        client.socket.sendall(frame(b"Q", asked))
        got = dict((field[:1], field[1:].decode()) for field in client.frame()[1].split(b"\0") if field)
        wrong += [f"{text!r} is refused by {got}"] * ((got[b"C"], got[b"M"]) != (code, words))
        wrong += ["no ReadyForQuery comes"] * (client.frame() != (b"Z", state))
    return wrong


def texts_near_questions_are_refused(pubd, subcat):
    """A blank, a quote, a comment, a statement more or less; and the slot is there still."""
    with Server(pubd, 1, more=ON) as server:
        client = Connection(server.port)
        client.create("s")
        texts = [text for text in NEAR if text not in (PATH, MODE[:-1])]
        wrong = refused_otherwise(client, [(text, SYNTAX) for text in texts] + NEAR_MODES)
        wrong += [f"{text!r} is taken" for text in NEAR_DROPS if code_for(client, text) is None]
        wrong += ["the slot has gone"] * (code_for(client, "DROP_REPLICATION_SLOT s") is not None)
        client.close()
        return wrong + server.end()


def refused_otherwise(client, due):
    got = [(text, code, code_for(client, text)) for text, code in due]
    return [f"{text!r} is refused by {code}, and not by {due}" for text, due, code in got if code != due]


def a_slot_is_dropped_once_its_stream_has_ended(pubd, subcat):
    """Two drops of it wait until then: one is answered, and to the other the slot is gone."""
    with Server(pubd, 4, more=ON) as server:
        streaming, *dropping = (Connection(server.port) for _ in range(3))
        streaming.create("s")
        streaming.start("s")
        codes = []
        threads = [threading.Thread(target=lambda each=each: codes.append(code_for(each, DROP))) for each in dropping]
        for thread in threads:
            thread.start()
        time.sleep(0.5)
        wrong = ["a slot is dropped under its stream"] * bool(codes)
        streaming.break_off()
        for thread in threads:
            thread.join(20)
        wrong += [f"the drops are answered by {codes}"] * (sorted(codes, key=str) != ["42704", None])
        again = Connection(server.port)
        wrong += ["the slot is there still"] * (code_for(again, "DROP_REPLICATION_SLOT s") != "42704")
        for client in (*dropping, again):
            client.close()
        return wrong + server.end()
