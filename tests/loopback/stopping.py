"""Clients that read nothing any more, that wait or go while the server waits for them, and a server that is stopped. Each case answers
what is wrong, a line each."""
import pathlib
import signal
import socket
import struct
import subprocess
import sys
import threading
import time

from connection import TERMINATE, Connection, Refused, framed, position, status
from server import CONFIGURATION, FIRST, Server

sys.path.insert(0, str(pathlib.Path(__file__).resolve().parent.parent.parent / "examples" / "driven"))
from driven import Publisher

COPY_DONE = b"c\0\0\0\4"
SSL_REQUEST = struct.pack(">II", 8, 80_877_103)
QUERY = b"Q" + struct.pack(">I", 20) + b"IDENTIFY_SYSTEM\0"
DROP = b"Q" + struct.pack(">I", 33) + b"DROP_REPLICATION_SLOT s WAIT\0"
# Transactions of so many rows: more than all buffers between a server and its clients hold.
TRANSACTIONS, ROWS, NAME = 16, 64, "n" * 7900
# How long it may take on a busy machine until a slot or a place is free, and until `end` has ended a server.
LATEST, ENDING = 20, 15
# How many places a server has that clients without a startup take, and for how many seconds.
PLACES, STARTUP_TIME = 3, 30
# How often a stream begins while its server ends.
MEETINGS = 200
IN_USE, MISSING = "55006", "42704"

WAYS = {
    "a CopyDone": lambda client: client.socket.sendall(COPY_DONE),
    "a Terminate": lambda client: client.socket.sendall(TERMINATE),
    "a half-closed socket": lambda client: client.socket.shutdown(socket.SHUT_WR),
    "a Query within the stream": lambda client: client.socket.sendall(QUERY),
    "bytes that are no frame": lambda client: client.socket.sendall(framed("7a")),
}


def publisher_of(pubd, *options):
    """A server that tells nothing of its connections."""
    return Publisher(pubd, CONFIGURATION, options=["--log-min-messages", "error", *options])


def fill(publisher):
    """Commits more than a client takes that reads nothing."""
    for at in range(TRANSACTIONS):
        rows = (f"insert T public.item ({ROWS * at + k},'{NAME}',7)" for k in range(ROWS))
        lines = ["begin T", *rows, f"commit T {at + 1}"]
        publisher.process.stdin.write("".join(f"{line}\n" for line in lines))
        publisher.process.stdin.flush()
        for _ in lines:
            publisher.process.stdout.readline()


def stopped_streams(publisher):
    """A client for each way to end, which reads nothing any more and has ended its side."""
    first = Connection(publisher.port)
    for at in range(len(WAYS)):
        first.create(f"s{at}")
    first.close()
    fill(publisher)
    clients = [Connection(publisher.port, receives=4096) for _ in WAYS]
    for at, client in enumerate(clients):
        client.start(f"s{at}")
    time.sleep(0.3)
    for way, client in zip(WAYS.values(), clients):
        way(client)
    return clients


def is_free(client, slot):
    """Whether the client claims the slot in time."""
    begun = time.monotonic()
    while time.monotonic() - begun < LATEST:
        try:
            client.start(slot)
            return True
        except Refused as refused:
            if refused.args[0] != IN_USE:
                raise
            time.sleep(0.05)
    return False


def who_reads_nothing_any_more_is_let_go(pubd, subcat):
    """However it has ended its side of a stream: its slot is free once it has taken nothing for wal_sender_timeout."""
    with publisher_of(pubd, "--wal-sender-timeout", "2s") as publisher:
        clients = stopped_streams(publisher)
        wrong = []
        for at, way in enumerate(WAYS):
            again = Connection(publisher.port)
            wrong += [f"after {way} a slot isn't free {LATEST} s later"] * (not is_free(again, f"s{at}"))
            again.close()
        for client in clients:
            client.close()
        return wrong


def who_reads_no_answer_before_its_startup_is_let_go(pubd, subcat):
    """Clients that ask for encryption without end, in places of which there are no more, leave them once authentication_timeout is over.
    Until a server waits to write, they have to send some 20 MB."""
    limits = ["--authentication-timeout", f"{STARTUP_TIME}s", "--max-connections", str(PLACES)]
    with Server(pubd, PLACES + 1, more=limits) as server:
        clients = [Connection(server.port, says_nothing=True, receives=4096) for _ in range(PLACES)]
        begun = time.monotonic()
        senders = [threading.Thread(target=fill_socket, args=(client, SSL_REQUEST)) for client in clients]
        for sender in senders:
            sender.start()
        wrong = [f"no place is free {LATEST} s later"]
        while wrong and time.monotonic() - begun < STARTUP_TIME + LATEST:
            try:
                Connection(server.port).close()
                wrong = []
            except (EOFError, ConnectionError, Refused):
                time.sleep(0.5)
        took = time.monotonic() - begun
        server.process.kill()
        for client in clients:
            client.break_off()
        return wrong + [f"a place is free {took:.1f} s later"] * (not wrong and took < STARTUP_TIME - 1)


def fill_socket(client, bytes_again):
    """Sends this again and again, until the server takes no more."""
    try:
        while True:
            client.socket.sendall(bytes_again * 1000)
    except OSError:
        pass


def an_end_takes_ten_seconds(pubd, subcat):
    """Whatever its clients do: who reads nothing any more, who has ended a stream that is held, who waits to drop a slot, and who
    sends questions and reads no answer. There is no other timeout."""
    options = "--wal-sender-timeout", "0", "--authentication-timeout", "0", "--answer-postgresql", "--max-connections", "11"
    with publisher_of(pubd, *options) as publisher:
        clients = [*stopped_streams(publisher), *(Connection(publisher.port, receives=4096) for _ in range(4))]
        streaming, held, waiting, asking = clients[len(WAYS) :]
        for slot, client in (("s", streaming), ("held", held)):
            client.create(slot)
            client.start(slot)
        publisher.say("hold held")
        held.socket.sendall(COPY_DONE)
        waiting.socket.sendall(DROP)
        clients += [Connection(publisher.port, says_nothing=True, receives=4096) for _ in range(4)]
        for client, again in ((asking, QUERY), (clients[-4], SSL_REQUEST)):
            client.socket.settimeout(0.5)
            fill_socket(client, again)
        publisher.say("end")
        try:
            ended = publisher.process.wait(ENDING)
            return [f"it ends with status {ended}"] * bool(ended)
        except subprocess.TimeoutExpired:
            return [f"it doesn't end in {ENDING} s"]
        finally:
            for client in clients:
                client.close()


def who_acknowledges_at_the_end_is_heard_out(pubd, subcat):
    """A server that has said CopyDone reads statuses until its client closes its side or says CopyDone too: none of them is answered by
    a reset, at which what was sent would be lost."""
    wrong = []
    for leave in (lambda client: client.close(), lambda client: client.socket.sendall(COPY_DONE)):
        with publisher_of(pubd) as publisher:
            client = Connection(publisher.port)
            client.create("s")
            client.start("s")
            end = position(publisher.commit("insert public.item (1,'ab',7)", time=1))
            publisher.say("end")
            came = client.bytes.read()
            try:
                for _ in range(3):
                    client.socket.sendall(status(end))
                    time.sleep(0.1)
                leave(client)
            except OSError as reset:
                wrong.append(f"a status after CopyDone: {reset}")
            begun = time.monotonic()
            ended, took = publisher.process.wait(ENDING), time.monotonic() - begun
            client.close()
            wrong += [f"a stream ends behind {came!r}"] * (not came.endswith(COPY_DONE))
            wrong += [f"it ends with status {ended}, {took:.1f} s after its client"] * (ended != 0 or took > LATEST / 4)
    return wrong


def a_signal_ends_a_server_in_order(pubd, subcat):
    """SIGTERM, which its launcher has blocked: four streams get what was committed, and CopyDone. Where it isn't blocked, that is said."""
    refused = subprocess.run([pubd, "--end-on-sigterm", CONFIGURATION, "127.0.0.1:0", "forever"], capture_output=True, text=True)
    wrong = [] if refused.returncode == 2 and "block-signal" in refused.stderr else [f"a signal that isn't blocked: {refused.returncode}, {refused.stderr!r}"]
    for lines in ((), ("-",)):
        words = ["env", "--block-signal=TERM", pubd, "--end-on-sigterm", "--log-min-messages", "error", CONFIGURATION, "127.0.0.1:0", "forever", *lines]
        server = subprocess.Popen(words, stdin=subprocess.PIPE, stdout=subprocess.PIPE, text=True)
        try:
            wrong += ended_by_signal(server, bool(lines))
        finally:
            server.kill()
            server.communicate()
    return wrong


def ended_by_signal(server, has_input):
    """What is wrong with the end of a server, and of the streams of four clients."""
    port = int(server.stdout.readline().rpartition(":")[2])
    clients = [Connection(port) for _ in range(4)]
    for at, client in enumerate(clients):
        client.create(f"s{at}")
        client.start(f"s{at}")
    if has_input:
        server.stdin.write("begin T\ninsert T public.item (1,'ab',7)\ncommit T 5\n")
        server.stdin.flush()
        for _ in range(3):
            server.stdout.readline()
    server.terminate()
    wrong = []
    for client in clients:
        came = client.bytes.read()
        wrong += ["a stream lacks its CopyDone"] * (COPY_DONE not in came)
        wrong += ["a stream lacks a transaction"] * (has_input and b"ab" not in came)
        client.close()
    ended = server.wait(ENDING)
    return wrong + [f"it ends with status {ended}"] * bool(ended)


def a_stream_that_begins_as_its_server_ends_is_whole(pubd, subcat):
    """Where START_REPLICATION is answered with CopyBothResponse, what was committed follows, and CopyDone. How the two meet differs by
    chance, so it is tried again and again."""
    query = b"START_REPLICATION SLOT s LOGICAL 0/0 (proto_version '1', publication_names 'p')\0"
    wrong, begun = [], 0
    for at in range(MEETINGS):
        with publisher_of(pubd) as publisher:
            client = Connection(publisher.port)
            client.create("s")
            publisher.commit("insert public.item (1,'ab',7)", time=1)
            client.socket.sendall(b"Q" + struct.pack(">I", len(query) + 4) + query)
            time.sleep(at % 20 * 2e-5)
            publisher.process.stdin.write("end\n")
            came = rest_of(client)
            client.close()
        begun += came.startswith(b"W")
        wrong += [f"a stream ends behind {came!r}"] * (came.startswith(b"W") and not (b"ab" in came and COPY_DONE in came))
    return wrong[:1] + ["no stream began"] * (not begun)


def rest_of(client):
    """All that comes yet; nothing where the server closed the socket before it read what was sent to it."""
    try:
        return client.bytes.read()
    except ConnectionError:
        return b""


def a_server_that_was_stopped_goes_on(pubd, subcat):
    """SIGSTOP and SIGCONT, again and again: a stream, a session and a client without a startup go on, and who is silent is still lost."""
    with publisher_of(pubd, "--wal-sender-timeout", "2s") as publisher:
        idle, streaming, silent = (Connection(publisher.port) for _ in range(3))
        late = Connection(publisher.port, says_nothing=True)
        for slot, client in (("s", streaming), ("silent", silent)):
            client.create(slot)
            client.start(slot)
        ends, came = [], []
        begun = time.monotonic()
        while time.monotonic() - begun < 4:
            publisher.process.send_signal(signal.SIGSTOP)
            time.sleep(0.1)
            publisher.process.send_signal(signal.SIGCONT)
            key = len(ends) + 1
            ends.append(publisher.commit(f"insert public.item ({key},'ab',7)", time=key))
            came += [f"0/{end:X}" for end in streaming.commits(1)]
            streaming.socket.sendall(status(FIRST))
        late.begin()
        late.answers()
        idle.ask("IDENTIFY_SYSTEM")
        wrong = [f"commits end at {came}, and not at {ends}"] * (came != ends)
        wrong += ["who is silent isn't lost"] * (not is_free(idle, "silent"))
        for client in (idle, streaming, silent, late):
            client.close()
        return wrong


def a_held_stream_is_not_cut_for_silence(pubd, subcat):
    """For longer than wal_sender_timeout: its client isn't asked, and answers as soon as it is. Behind that its silence counts again."""
    with publisher_of(pubd, "--wal-sender-timeout", "1s") as publisher:
        client = Connection(publisher.port)
        client.create("s")
        client.start("s")
        publisher.say("hold s")
        end = int(publisher.commit("insert public.item (1,'ab',7)", time=1).split("/")[1], 16)
        time.sleep(2.5)
        publisher.say("resume s")
        wrong = ["a held stream has lost a transaction"] * (client.commits(1) != [end])
        client.socket.sendall(status(end))
        publisher.say(f"await s 0/{end:X}")
        begun = time.monotonic()
        while client.bytes.read(1):
            pass
        took = time.monotonic() - begun
        client.close()
        return wrong + [f"a silent client is lost {took:.1f} s later"] * (not 0.5 < took < LATEST)


def a_drop_that_waits_ends_with_its_client(pubd, subcat):
    """Clients that wait for a slot and go leave their places, however they go, and drop nothing later."""
    leaving = (lambda client: None, lambda client: client.socket.sendall(TERMINATE))
    limits = ["--answer-postgresql", "--max-connections", str(1 + len(leaving))]
    with Server(pubd, 2 * len(leaving) + 1, more=limits) as server:
        streaming = Connection(server.port)
        streaming.create("s")
        streaming.start("s")
        for leave in leaving:
            client = Connection(server.port)
            client.socket.sendall(DROP)
            time.sleep(0.2)
            leave(client)
            client.close()
        others = []
        begun = time.monotonic()
        while len(others) < len(leaving) and time.monotonic() - begun < LATEST:
            try:
                others.append(Connection(server.port))
            except (EOFError, ConnectionError, Refused):
                time.sleep(0.05)
        wrong = ["who waited and has gone keeps its place"] * (len(others) < len(leaving))
        streaming.close()
        wrong += ["who has gone drops the slot later"] * bool(others and not is_there(others[0]))
        server.process.kill()
        for client in others:
            client.close()
        return wrong


def is_there(client):
    """Whether the slot is still there once it is free."""
    try:
        return is_free(client, "s")
    except Refused as refused:
        return refused.args[0] != MISSING
