"""What subcat --json prints, of what a script did and of what hostile servers send. Each case answers what is wrong, a line each."""
import json
import pathlib
import re
import socket
import struct
import subprocess
import tempfile
import time

from connection import Connection, framed, position
from driving import Publisher
from followers import asked_of, server_frames
from resuming import CONNECTIONS, KILLS, STRIDE, TRANSACTIONS, over_cuts_and_kills, refused_of, words_of
from server import FIRST, Server, inserts, messages

# Tables of each type, and of each replica identity that changes are published of.
CONFIGURATION = """
[server]
systemid = "42"
records = 65536
chunks = 64

[[table]]
oid = 16384
schema = "public"
name = "item"
identity = "default"
key = ["id"]
columns = [["id", "int4"], ["a \\"name\\"", "text"], ["qty", "int8"], ["is_new", "bool"]]

[[table]]
oid = 16385
schema = "ödön"
name = "tag"
identity = "full"
key = ["id"]
columns = [["id", "int4"], ["text", "text"], ["size", "int2"]]

[[publication]]
name = "p"
all_tables = true
"""
ITEM = "public", "item", [("id", "integer"), ('a "name"', "text"), ("qty", "bigint"), ("is_new", "boolean")]
TAG = "ödön", "tag", [("id", "integer"), ("text", "text"), ("size", "smallint")]
# What a line of a script can say in a text.
HOSTILE = ["", "plain", "it's", 'a "quote"', "a \\ backslash\\n", "tab\tbell\x07escape\x1bdelete\x7f", "ä ∷ 😀", "\u2028 \ufeff", "null", "7", "{}"]
# What it can't say, and a server can send.
MORE_HOSTILE = [*HOSTILE, "two\nlines\r\n", "\x01" * 50, "\U0010ffff", '"},{"action":"C"', "x" * 100_000]


def shown(at):
    return f"{at >> 32:X}/{at & 0xFFFFFFFF:X}"


def values(columns, row):
    """The values of a row, as they are told."""
    return [{"name": name, "type": kind, "value": value} for (name, kind), value in zip(columns, row)]


def change(action, table, new=None, old=None):
    """A change, but for where in the log it is told."""
    schema, name, columns = table
    told = {"action": action, "schema": schema, "table": name}
    if new is not None:
        told["columns"] = values(columns, new)
    if old is not None:
        told["identity"] = values(columns, old)
    return told


def written(row):
    """A row as a line of a script has it."""
    words = {True: "true", False: "false", None: "null"}
    return "(" + ",".join(words[v] if v is None or isinstance(v, bool) else str(v) if isinstance(v, int) else "'" + v.replace("'", "''") + "'" for v in row) + ")"


def dumped(*objects):
    """Lines as subcat writes them."""
    return "".join(json.dumps(each, ensure_ascii=False, separators=(",", ":")) + "\n" for each in objects)


def script_of_everything():
    """The lines of two transactions, each with the changes that it is told by."""
    rows = [(k, text, (-1) ** k * 2**k, [True, False, None][k % 3]) for k, text in enumerate(HOSTILE)]
    rows += [(-(2**31), None, -(2**63), True), (2**31 - 1, "", 2**63 - 1, False)]
    first = [(f"insert public.item {written(row)}", [change("I", ITEM, row)]) for row in rows]
    second = [
        ("update public.item (1) (1,'new',5,null)", [change("U", ITEM, (1, "new", 5, None))]),
        ("update public.item (2) (50,'moved',6,true)", [change("U", ITEM, (50, "moved", 6, True), [2])]),
        ("delete public.item (3)", [change("D", ITEM, old=[3])]),
        ("insert ödön.tag (1,'one',-32768)", [change("I", TAG, (1, "one", -(2**15)))]),
        ("update ödön.tag (1) (1,null,32767)", [change("U", TAG, (1, None, 2**15 - 1), (1, "one", -(2**15)))]),
        ("delete ödön.tag (1)", [change("D", TAG, old=(1, None, 2**15 - 1))]),
        ("truncate public.item ödön.tag", [change("T", ITEM), change("T", TAG)]),
    ]
    return [first, second]


def lines_of_json_tell_what_a_script_did(pubd, subcat):
    """Values of each kind, hostile texts, keys and whole old rows; over one connection and over lost ones the same lines."""
    wrong, transactions = [], script_of_everything()
    with tempfile.TemporaryDirectory() as folder:
        configuration = pathlib.Path(folder) / "configuration"
        configuration.write_text(CONFIGURATION)
        with Publisher(pubd, configuration) as publisher:
            creating = Connection(publisher.port)
            creating.create("s")
            creating.create("t")
            creating.close()
            ends = [position(publisher.commit(*(line for line, _ in lines), time=5 - 9 * at)) for at, lines in enumerate(transactions)]
            publisher.say("note 'it''s' 'a \\ \"note\" ä'")
            ways = [[subcat, "--json", "--messages"], [subcat, "--json", "--messages", "--follow"]]
            words = [[*way, f"127.0.0.1:{publisher.port}", slot, "0/0", "p", "3"] for way, slot in zip(ways, "st")]
            printed = [subprocess.run(each, stdout=subprocess.PIPE, timeout=60).stdout for each in words]
    wrong += ["over lost connections it prints something else"] * (printed[0] != printed[1])
    lines = [json.loads(line) for line in printed[0].decode().split("\n")[:-1]]
    for at, (transaction, end) in enumerate(zip(transactions, ends)):
        due = [each for _, told in transaction for each in told]
        told, lines = lines[: len(due) + 2], lines[len(due) + 2 :]
        wrong += wrong_transaction(told, due, 700 + at, 5 - 9 * at, end)
    note = {"action": "M", "transactional": False, "lsn": shown(ends[-1]), "prefix": "it's", "content": 'a \\ "note" ä'}
    changes = sum(len(told) for transaction in transactions for _, told in transaction)
    last = {"summary": {"transactions": 3, "changes": changes, "lsn": shown(ends[-1] + 1)}}
    return wrong + [f"after them it tells {lines}"] * (lines != [note, last])


def wrong_transaction(told, due, xid, time, end):
    """What is wrong with the lines of a transaction."""
    commit = end - 32
    begin, *changes, committed = told
    wrong = [f"it begins with {begin}"] * (begin != {"action": "B", "xid": xid, "lsn": shown(commit), "timestamp": time})
    wrong += [f"it ends with {committed}"] * (committed != {"action": "C", "lsn": shown(commit), "nextlsn": shown(end), "timestamp": time})
    places = [position(each.pop("lsn")) for each in changes]
    wrong += [f"its changes are told at {places}"] * (places != sorted(places) or not FIRST <= min(places) <= max(places) < commit)
    return wrong + [f"it tells {each}, and not {other}" for each, other in zip(changes, due) if each != other] + [f"it tells {len(changes)} changes, and not {len(due)}"] * (len(changes) != len(due))


def text(value):
    """A value as a cell has it."""
    if value is None:
        return b"n"
    if value is ...:
        return b"u"
    return b"t" + struct.pack(">I", len(value.encode())) + value.encode()


def row(letter, *cells):
    return letter + struct.pack(">H", len(cells)) + b"".join(text(cell) for cell in cells)


def sent(payload, start):
    """The frame of a logical message."""
    body = b"w" + struct.pack(">QQq", start, start, 0) + payload
    return b"d" + struct.pack(">I", len(body) + 4) + body


def relation(oid, name, *columns):
    told = b"".join(bytes([is_key]) + each.encode() + b"\0" + struct.pack(">Ii", kind, -1) for is_key, each, kind in columns)
    return b"R" + struct.pack(">I", oid) + b"s\0" + name.encode() + b"\0d" + struct.pack(">H", len(columns)) + told


def lines_of_json_tell_what_a_server_sends(pubd, subcat):
    """Texts that a script can't say, types without a name, values that aren't sent, numbers that are none, contents that are no text."""
    kinds = [(1, "k", 23), (0, "v", 114), (0, "b", 16), (0, "long", 25)]
    due, said = [], [relation(7, 'a "table"', *kinds)]

    def told(name, kind, value):
        types = {16: {"type": "boolean"}, 23: {"type": "integer"}, 25: {"type": "text"}}
        return {"name": name, **types.get(kind, {"typeoid": kind}), "value": value}

    def changed(action, **rows):
        return {"action": action, "lsn": shown(9), "schema": "s", "table": 'a "table"', **rows}

    for each in MORE_HOSTILE:
        said.append(b"I\0\0\0\x07" + row(b"N", "1", each, "t", each))
        due.append(changed("I", columns=[told("k", 23, 1), told("v", 114, each), told("b", 16, True), told("long", 25, each)]))
    for number, value in [("-0", 0), ("1e5", 1e5), ("007", "007"), ("+5", "+5"), ("", ""), ("-12", -12), ("NaN", "NaN"), (" 1", " 1"), ("9" * 40, int("9" * 40))]:
        said.append(b"I\0\0\0\x07" + row(b"N", number, None, "f", ""))
        due.append(changed("I", columns=[told("k", 23, value), told("v", 114, None), told("b", 16, False), told("long", 25, "")]))
    said.append(b"U\0\0\0\x07" + row(b"N", "1", "x", "true", ...))
    due.append(changed("U", columns=[told("k", 23, 1), told("v", 114, "x"), told("b", 16, "true")]))
    said.append(b"U\0\0\0\x07" + row(b"K", "1", None, None, None) + row(b"N", "2", ..., None, ...))
    due.append(changed("U", columns=[told("k", 23, 2), told("b", 16, None)], identity=[told("k", 23, 1)]))
    said.append(b"D\0\0\0\x07" + row(b"O", "1", None, "f", None))
    due.append(changed("D", identity=[told("k", 23, 1), told("v", 114, None), told("b", 16, False), told("long", 25, None)]))
    for content, member in [(b"\xff\x00\"", {"contenthex": "ff0022"}), (b"\x00\xc3\xa4", {"content": "\0ä"}), (b"", {"content": ""})]:
        said.append(b"M\x01" + struct.pack(">Q", 9) + b"p\n\0" + struct.pack(">I", len(content)) + content)
        due.append({"action": "M", "transactional": True, "lsn": shown(9), "prefix": "p\n", **member})
    begin = b"B" + struct.pack(">QqI", 0x1_0000_0010, -(2**63), 2**32 - 1)
    commit = b"C\0" + struct.pack(">QQq", 0x1_0000_0010, 2**64 - 1, -(2**63))
    ends = [{"action": "B", "xid": 2**32 - 1, "lsn": "1/10", "timestamp": -(2**63)}]
    ends += [{"action": "C", "lsn": "1/10", "nextlsn": "FFFFFFFF/FFFFFFFF", "timestamp": -(2**63)}]
    changes = sum(each["action"] in "IUDT" for each in due)
    last = {"summary": {"transactions": 1, "changes": changes, "lsn": "FFFFFFFF/FFFFFFFF"}}
    wrong = []
    for more in [], ["--follow"]:
        came = followed(subcat, [begin, *said, commit], "--json", *more)
        lines = [json.loads(line) for line in came.decode().split("\n")[:-1]]
        wrong += [f"{more} tells {each}, and not {other}"[:400] for each, other in zip(lines, [ends[0], *due, ends[1], last]) if each != other]
        wrong += [f"{more} prints {len(lines)} lines, and not {len(due) + 3}"] * (len(lines) != len(due) + 3)
    return wrong


def lines_of_json_tell_a_table_as_it_was(pubd, subcat):
    """Where a column is added between two transactions that come at once, each is told by the columns of its own."""
    first, second = [(1, "k", 23)], [(1, "k", 23), (0, "new", 25)]
    said, due = [], []
    for at, columns, cells in (10, first, ["1"]), (20, second, ["2", "x"]):
        said += [b"B" + struct.pack(">QqI", at, 1, 7), relation(7, "t", *columns), b"I\0\0\0\x07" + row(b"N", *cells), b"C\0" + struct.pack(">QQq", at, at + 1, 1)]
        due.append([{"name": "k", "type": "integer", "value": at // 10}, {"name": "new", "type": "text", "value": "x"}][: len(columns)])
    wrong = []
    for more in [], ["--follow"]:
        lines = map(json.loads, followed(subcat, said, "--json", *more, count=2).splitlines())
        told = [line["columns"] for line in lines if line.get("action") == "I"]
        wrong += [f"{more} tells {told}, and not {due}"] * (told != due)
    return wrong


def followed(subcat, payloads, *options, count=1):
    """What it prints of a server that sends these messages."""
    with socket.create_server(("127.0.0.1", 0)) as listener:
        words = [subcat, *options, f"127.0.0.1:{listener.getsockname()[1]}", "s", "0/0", "p", str(count)]
        follower = subprocess.Popen(words, stdout=subprocess.PIPE)
        client = listener.accept()[0]
        asked_of(client, client.makefile("rb"), server_frames())
        client.sendall(framed("57000000") + b"".join(sent(payload, 9) for payload in payloads))
        came = follower.communicate(timeout=60)[0]
        client.close()
        return came


def inserted(count):
    """What is due of so many inserts, one a transaction: each takes 48 bytes of the log, and its Commit 32."""
    for k in range(1, count + 1):
        start = FIRST + 80 * k - 32
        yield {"action": "B", "xid": 699 + k, "lsn": shown(start), "timestamp": k}
        yield item(k, start - 48)
        yield {"action": "C", "lsn": shown(start), "nextlsn": shown(start + 32), "timestamp": k}
    yield {"summary": {"transactions": count, "changes": count, "lsn": shown(FIRST + 80 * count)}}


def item(k, at):
    columns = [("id", "integer"), ("name", "text"), ("qty", "bigint")]
    return {"action": "I", "lsn": shown(at), "schema": "public", "table": "item", "columns": values(columns, (k, "ab", 7))}


def messages_told(count):
    """What is due of `messages`: an insert takes 48 bytes of the log, and each of the others 32."""
    for k in range(1, count + 1):
        first = FIRST + 144 * (k - 1)
        yield {"action": "B", "xid": 699 + k, "lsn": shown(first + 80), "timestamp": k}
        yield item(k, first)
        yield {"action": "M", "transactional": True, "lsn": shown(first + 48), "prefix": "p", "content": f"{k:03}"}
        yield {"action": "C", "lsn": shown(first + 80), "nextlsn": shown(first + 112), "timestamp": k}
        yield {"action": "M", "transactional": False, "lsn": shown(first + 112), "prefix": "q", "content": f"{k:03}"}
    yield {"summary": {"transactions": 2 * count, "changes": count, "lsn": shown(FIRST + 144 * count - 31)}}


def wholes_of(printed):
    """The whole transactions, each with its lines, and the notes among them."""
    return re.findall(r'^(?:\{"action":"B",.*?^\{"action":"C",|\{"action":"M","transactional":false,).*?\n', printed, re.DOTALL | re.MULTILINE)


def cuts_and_kills_lose_and_repeat_no_line_of_json(pubd, subcat):
    """As with lines of text: each transaction is in the file once and whole, and one last line after all of them."""
    due = dumped(*inserted(TRANSACTIONS // 2))
    wrong = over_cuts_and_kills(pubd, subcat, inserts(TRANSACTIONS // 2), due, 150, KILLS // 2, 2 * STRIDE // 3, "--json", wholes=wholes_of)
    due = dumped(*messages_told(100))
    return wrong + over_cuts_and_kills(pubd, subcat, messages(100), due, 40, 15, STRIDE // 3, "--json", "--messages", wholes=wholes_of)


def an_output_of_the_other_form_is_left_alone(pubd, subcat):
    """Lines of text where JSON is asked for, JSON where it isn't, and a letter. One in its own form goes on before its last line."""
    wrong = []
    with tempfile.TemporaryDirectory() as folder, Server(pubd, 10, inserts(4), awaited=1) as server:
        output = pathlib.Path(folder) / "output"
        for held, more in ("BEGIN 700 0/1000030 1\n", ["--json"]), ("a letter\n", ["--json"]), ('{"action":"X",', ["--json"]), ('{"action":"B",', []), ('{"summary":{', []):
            output.write_text(held)
            wrong += refused_of(words_of(subcat, server.port, *more, "--output", output), "subcat: the output file holds something else")
            wrong += [f"a file with {held!r} is cut"] * (output.read_text() != held)
        output.write_text('{"action":"')
        for count in 2, 4, 4:
            subprocess.run(words_of(subcat, server.port, "--json", "--output", output, count=count), stderr=subprocess.DEVNULL, timeout=60)
            wrong += [f"of {count} transactions it holds {output.read_text()!r}"] * (output.read_text() != dumped(*inserted(count)))
        server.process.kill()
    return wrong


# Between the beginnings of 1970 and of 2000, in seconds.
YEAR_2000 = 946_684_800


def lines_of_json_tell_when_they_were_sent(pubd, subcat):
    """By --send-times the last line of each transaction and each note have one member more; a run goes on after such lines."""
    wrong = []
    with tempfile.TemporaryDirectory() as folder:
        configuration, output = (pathlib.Path(folder) / name for name in ("configuration", "output"))
        configuration.write_text(CONFIGURATION)
        with Publisher(pubd, configuration) as publisher:
            creating = Connection(publisher.port)
            for slot in "stuv":
                creating.create(slot)
            creating.close()
            for key in (1, 2):
                publisher.commit(f"insert public.item ({key},'a',1,true)", "message 'p' 'q'", time=5)
            publisher.say("note 'p' 'q'")
            address, begun = f"127.0.0.1:{publisher.port}", time.time()
            common = [subcat, "--json", "--messages"]
            plain = subprocess.run([*common, address, "s", "0/0", "p", "3"], stdout=subprocess.PIPE, timeout=60).stdout.decode()
            timed = [subprocess.run([*common, "--send-times", *more, address, slot, "0/0", "p", "3"], stdout=subprocess.PIPE, timeout=60).stdout.decode() for slot, more in (("t", []), ("u", ["--follow"]))]
            for count in (1, 3):
                subprocess.run([*common, "--send-times", "--follow", "--output", output, address, "v", "0/0", "p", str(count)], timeout=60)
            timed, ended = [*timed, output.read_text()], time.time()
        for way, text in zip(("once", "--follow", "--output"), timed):
            lines = [json.loads(line) for line in text.splitlines()]
            times = [line.pop("sent") for line in lines if line.get("action") == "C" or line.get("transactional") is False]
            wrong += [f"{way}: sent at {times}"] * (times != sorted(times) or not all(begun <= at / 1e6 + YEAR_2000 <= ended for at in times))
            wrong += [f"{way}: other lines: {text}"] * (dumped(*lines) != plain)
    alone = subprocess.run([subcat, "--send-times", "127.0.0.1:1", "s", "0/0", "p", "1"], stdin=subprocess.DEVNULL, capture_output=True, text=True, timeout=60)
    return wrong + [f"without --json: {alone}"] * (alone.returncode != 2)
