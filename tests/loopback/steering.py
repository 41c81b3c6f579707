"""Streams that are steered on purpose, as tests of consumers need it. Each case answers what is wrong, a line each."""
import pathlib
import socket
import struct
import sys

from connection import Connection, position, status, timeless_stream
from driving import wrong_refusal
from server import CONFIGURATION, Server

sys.path.insert(0, str(pathlib.Path(__file__).resolve().parent.parent.parent / "examples" / "driven"))
from driven import Publisher

# How long a stream is watched that is to say nothing.
SILENCE = 0.3
# The bytes of the frames of a transaction of one insert, the first of its stream: Begin, Relation, Insert and Commit.
TRANSACTION = 51 + 89 + 57 + 56


def insert(publisher, key):
    """A transaction of one row; where it ends."""
    return position(publisher.commit(f"insert public.item ({key},'ab',7)", time=key))


def stream_of(publisher, slot, is_new=True):
    client = Connection(publisher.port)
    if is_new:
        client.create(slot)
        client.start(slot)
    else:
        client.start_when_free(slot)
    return client


def is_silent(client):
    """Whether nothing comes for a while."""
    client.socket.settimeout(SILENCE)
    try:
        return client.socket.recv(1, socket.MSG_PEEK) is None
    except TimeoutError:
        return True
    finally:
        client.socket.settimeout(60)


def all_that_comes(client):
    """The bytes up to the connection's end."""
    came = client.bytes.read()
    client.close()
    return came


def a_stream_is_held_and_let_go(pubd, subcat):
    """While it is held nothing comes, of what is committed and of keepalives that are asked for; then all of it does, in order."""
    with Publisher(pubd, CONFIGURATION) as publisher:
        client = stream_of(publisher, "s")
        ends = [insert(publisher, 1)]
        came = client.commits(1)
        kind, body = client.frame()
        wrong = ["after a transaction comes no keepalive"] * ((kind, body[:1]) != (b"d", b"k"))
        publisher.say("hold s")
        ends += [insert(publisher, key) for key in (2, 3)]
        client.socket.sendall(status(ends[0], asks=True))
        wrong += ["a held stream says something"] * (not is_silent(client))
        publisher.say("resume s")
        came += client.commits(2)
        publisher.say(f"await s 0/{ends[0]:X}")
        client.close()
        publisher.say("hold s")
        again = stream_of(publisher, "s", is_new=False)
        wrong += ["a stream that begins while its slot is held says something"] * (not is_silent(again))
        publisher.say("resume s")
        came += again.commits(2)
        again.close()
        due = ends + ends[1:]
        return wrong + [f"transactions end at {came}, and not at {due}"] * (came != due)


def a_connection_is_cut_after_a_byte(pubd, subcat):
    """After each number of bytes as many come and no more, whatever frame they end in; the stream after that has all again."""
    with Publisher(pubd, CONFIGURATION) as publisher:
        client = stream_of(publisher, "s")
        client.frame()
        insert(publisher, 1)
        whole = transaction_of(client)
        publisher.say("cut s")
        wrong = wrong_bytes("at once", all_that_comes(client), b"", pieces=23)
        for count in (*range(TRANSACTION), TRANSACTION):
            publisher.say(f"cut s {count}")
            client = stream_of(publisher, "s", is_new=False)
            wrong += wrong_bytes(f"after {count} bytes", all_that_comes(client), whole[:count])
        client = stream_of(publisher, "s", is_new=False)
        wrong += wrong_bytes("after no byte", client.bytes.read(TRANSACTION), whole)
        client.close()
        return wrong


def transaction_of(client):
    """The bytes of the next transaction. A keepalive before it tells of what a turn has read of it."""
    whole = b""
    while len(whole) < TRANSACTION:
        kind, body = client.frame()
        if body[:1] == b"w":
            whole += kind + struct.pack(">I", len(body) + 4) + body
    return whole


def wrong_bytes(where, came, due, pieces=1):
    """Of a cut between two frames it isn't known how many keepalives came before it, each of so many bytes."""
    came = timeless_stream(came[: len(came) % pieces] if pieces > 1 else came)
    return [f"of a connection that is cut {where} comes {came.hex()}, and not {due.hex()}"] * (came != due)


def a_client_is_asked_and_awaited(pubd, subcat):
    """`ask` sends a keepalive that asks; `await` waits for what is confirmed, and is done at once where it is already."""
    with Publisher(pubd, CONFIGURATION) as publisher:
        client = stream_of(publisher, "s")
        end = insert(publisher, 1)
        client.commits(1)
        publisher.say("ask s")
        kind, body = client.frame()
        while kind == b"d" and body[:1] == b"k" and body[17:] == b"\0":
            kind, body = client.frame()
        asks = kind == b"d" and body[:1] == b"k" and body[17:] == b"\x01"
        print(f"await s 0/{end:X}", file=publisher.process.stdin)
        client.socket.sendall(status(end))
        answer = publisher.process.stdout.readline()
        publisher.say(f"await s 0/{end - 1:X}")
        wrong = ["a keepalive that was asked for asks for nothing"] * (not asks)
        wrong += [f"a slot that is awaited is answered by {answer!r}"] * (answer != "ok\n")
        for line, due in (("hold t", "L1"), ("await t 0/0", "L1"), ("cut s x", "V1"), ("cut s +1", "V1"), ("hold", "V1"), ("await s", "V1"), ("end s", "V1"), ("hold S", "V1")):
            wrong += wrong_refusal(publisher, line, due)
        client.close()
        return wrong


def a_server_ends_in_order(pubd, subcat):
    """At `end` streams get what is left, a held one too, and CopyDone; who has none is closed; the program ends with 0."""
    with Publisher(pubd, CONFIGURATION) as publisher:
        idle = Connection(publisher.port)
        silent = Connection(publisher.port, says_nothing=True)
        clients = [stream_of(publisher, slot) for slot in ("s", "held")]
        publisher.say("hold held")
        end, wrong = insert(publisher, 1), []
        publisher.say("end")
        for client in clients:
            wrong += ["a stream lacks its last transaction"] * (client.commits(1) != [end])
            kind, body = client.frame()
            while kind == b"d":
                kind, body = client.frame()
            wrong += [f"a stream ends with {kind}"] * (kind != b"c")
            wrong += ["more comes after CopyDone"] * (all_that_comes(client) != b"")
            client.close()
        wrong += [f"it ends with status {ended}" for ended in [publisher.process.wait()] if ended]
        for client in (idle, silent):
            wrong += ["who has no stream isn't closed"] * (all_that_comes(client) != b"")
        try:
            Connection(publisher.port, says_nothing=True)
            wrong.append("a server that has ended takes a connection")
        except ConnectionRefusedError:
            pass
        return wrong


def a_script_steers_too(pubd, subcat):
    """Lines that steer are told with the script's name and their numbers; `end` ends a server that would serve on."""
    lines = ["begin T", "insert T public.item (1,'ab',7)", "commit T 1", "hold t", "await s 0/1000050", "cut s", "end", "begin T"]
    with Server(pubd, "forever", lines, awaited=1) as server:
        client = Connection(server.port)
        client.create("s")
        client.start("s")
        end, = client.commits(1)
        client.socket.sendall(status(end))
        rest = all_that_comes(client)
        script = server.script
        due = [f"{script} 4 L1 there is no such slot", f"{script} 5 ok", f"{script} 6 ok"]
        return [f"after the transaction comes {rest.hex()}"] * (rest[:1] not in (b"", b"d")) + server.end(due)
