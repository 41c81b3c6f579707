"""What subcat --follow does over lost connections, and where it is killed and started again. Each case answers what is wrong, a line
each."""
import pathlib
import random
import re
import socket
import subprocess
import tempfile
import time

from connection import Connection, Refused, framed, read_status, status
from cutting import Cutting
from followers import asked_of, server_frames
from server import Server, inserts, messages, printed_of_inserts, printed_of_messages

CONNECTIONS = 1000
TRANSACTIONS, CUTS, KILLS = 1000, 300, 50
# How many bytes pass before a stream begins, at most, and how many more before a cut.
ASKING, STREAMING = 800, 1000
# How many bytes pass between two kills, at most.
STRIDE = 9000
# For how many seconds a server may be silent before it is asked, and then again.
PATIENCE = 30
STREAM_BEGINS = framed("57000000")


def some_bytes(draw):
    """Before how many bytes a connection is cut: some while it asks for its stream."""
    return draw.randrange(ASKING) if draw.random() < 0.1 else ASKING + draw.randrange(STREAMING)


def words_of(subcat, port, *more, slot="s", publication="p", count=TRANSACTIONS):
    return [subcat, "--create", "--follow", *more, f"127.0.0.1:{port}", slot, "0/0", publication, str(count)]


def without_tables(text):
    return [line for line in text.splitlines() if not line.startswith("RELATION ")]


def cuts_and_kills_lose_and_repeat_nothing(pubd, subcat):
    """1,000 transactions are printed into a file over 300 cuts, and subcat is killed and started again 50 times."""
    return over_cuts_and_kills(pubd, subcat, inserts(TRANSACTIONS), printed_of_inserts(TRANSACTIONS), CUTS, KILLS, STRIDE)


def cuts_and_kills_lose_and_repeat_no_message(pubd, subcat):
    """The same of messages, each second one in a transaction, and the others outside of all."""
    return over_cuts_and_kills(pubd, subcat, messages(200), printed_of_messages(200), 80, 20, STRIDE // 3, "--messages")


def over_cuts_and_kills(pubd, subcat, lines, due, cuts, kills, stride, *more, wholes=None):
    """The file has to hold what is due. Each run finds a half transaction at its end, as a kill within a write leaves one. `wholes`
    are the whole transactions of a text."""
    draw, wrong, wholes = random.Random(11), [], wholes or transactions_of
    with (
        tempfile.TemporaryDirectory() as folder,
        Server(pubd, CONNECTIONS, lines, awaited=1) as server,
        Cutting(server.port, cuts, some_bytes, draw) as proxy,
    ):
        output = pathlib.Path(folder) / "output"
        words = words_of(subcat, proxy.port, *more, "--output", output, count=len(wholes(due)))
        for kill in range(1, kills + 1):
            follower = subprocess.Popen(words, stderr=subprocess.DEVNULL)
            proxy.strike(follower, draw.randrange(stride))
            ended = follower.wait(60)
            wrong += [f"kill {kill} finds it ended with {ended}"] * (ended != -9)
            leave_a_half(output, due, draw, wholes)
        wrong += ["no cut is left for the last run"] * (proxy.left == 0)
        ended = subprocess.run(words, stderr=subprocess.DEVNULL, timeout=120).returncode
        wrong += [f"the last run ends with {ended}"] * bool(ended)
        wrong += [f"{proxy.left} cuts didn't come"] * bool(proxy.left)
        printed = output.read_text()
        server.process.kill()
    wrong += ["transactions are lost, half, or come twice"] * (without_tables(printed) != without_tables(due))
    return wrong + ["a table is told more than once a run"] * (printed.count("RELATION ") > kills + 1)


def leave_a_half(output, due, draw, wholes):
    """Adds a beginning of the transaction that is due next, and not all of it, unless the kill left one already."""
    have = output.read_text() if output.exists() else ""
    following = wholes(due)[len(wholes(have))]
    if have == "".join(wholes(have)):
        output.write_text(have + following[: draw.randrange(len(following))])


def transactions_of(text):
    """The whole ones, each with its lines, and the notes among them."""
    return re.findall(r"^(?:BEGIN .*?^COMMIT |MESSAGE 0 ).*?\n", text, re.DOTALL | re.MULTILINE)


def cuts_do_not_show(pubd, subcat):
    """What one run prints on its standard output is byte by byte what it prints without a cut."""
    count, cuts = 200, 30
    draw = random.Random(5)
    with Server(pubd, CONNECTIONS, inserts(count), awaited=1) as server, Cutting(server.port, cuts, some_bytes, draw) as proxy:
        ran = subprocess.run(words_of(subcat, proxy.port, count=count), capture_output=True, text=True, timeout=120)
        server.process.kill()
    wrong = ["it prints something else"] * (ran.stdout != printed_of_inserts(count))
    wrong += [f"it ends with {ran.returncode}"] * bool(ran.returncode)
    told = ran.stderr.splitlines()
    known = re.compile(r"subcat: (K6: .*|server: 55006 .*); tries again in \d+ ms")
    wrong += [f"it says {line!r}" for line in told if not known.fullmatch(line)]
    return wrong + [f"of {cuts} cuts it tells {len(told)}, and {proxy.left} didn't come"] * (len(told) < cuts or proxy.left != 0)


def pauses_grow_and_begin_again(pubd, subcat):
    """While no server is there; and once one is, all is printed. A slot that is active is waited for."""
    with socket.create_server(("127.0.0.1", 0)) as free:
        port = free.getsockname()[1]
    follower = subprocess.Popen(words_of(subcat, port, count=2), stdout=subprocess.PIPE, stderr=subprocess.PIPE, text=True)
    told = [follower.stderr.readline() for _ in range(4)]
    follower.kill()
    follower.communicate()
    pauses = [int(line.split()[-2]) for line in told if line.startswith("subcat: K6: ")]
    wrong = [f"it pauses {pauses} ms, of {told}"] * (pauses != [100, 200, 400, 800])
    with Server(pubd, 10, inserts(2), awaited=2) as server:
        holder, other = Connection(server.port), Connection(server.port)
        holder.create("s")
        holder.start("s")
        follower = subprocess.Popen(words_of(subcat, server.port, count=2), stdout=subprocess.PIPE, stderr=subprocess.PIPE, text=True)
        told = follower.stderr.readline()
        wrong += [f"of an active slot it says {told!r}"] * (not told.startswith("subcat: server: 55006 "))
        holder.close()
        time.sleep(0.5)
        other.create("t")
        other.start("t")
        printed = follower.communicate(timeout=60)[0]
        wrong += ["after an active slot it prints something else"] * (printed != printed_of_inserts(2))
        server.process.kill()
    return wrong


def a_silent_server_is_asked_and_then_lost(pubd, subcat):
    """One that begins a stream and says nothing more."""
    with socket.create_server(("127.0.0.1", 0)) as listener:
        words = [word for word in words_of(subcat, listener.getsockname()[1]) if word != "--create"]
        follower = subprocess.Popen(words, stdout=subprocess.DEVNULL, stderr=subprocess.PIPE, text=True)
        client = listener.accept()[0]
        heard = client.makefile("rb")
        asked_of(client, heard, server_frames())
        client.settimeout(3 * PATIENCE)
        client.sendall(STREAM_BEGINS)
        begun = time.monotonic()
        asked = read_status(heard)
        took = [time.monotonic() - begun]
        told = follower.stderr.readline()
        took.append(time.monotonic() - begun)
        follower.kill()
        follower.communicate()
        client.close()
    wrong = ["it isn't asked"] * (asked != status(0, asks=True)) + [f"it is lost as {told!r}"] * (told != "subcat: K6: the server is silent; tries again in 100 ms\n")
    late = [each for each, due in zip(took, (PATIENCE, 2 * PATIENCE)) if not due <= each < due + PATIENCE / 2]
    return wrong + [f"that takes {took} s"] * bool(late)


def begun(start):
    """A Begin in an XLogData, as a server sends it."""
    return framed(f"6477{start:016x}{start:016x}{9:016x}42{start:016x}{5:016x}{700:08x}")


def committed(start, end):
    """Its Commit."""
    return framed(f"6477{end:016x}{end:016x}{9:016x}4300{start:016x}{end:016x}{5:016x}")


def a_transaction_that_ends_where_it_starts_ends_it(pubd, subcat):
    """A broken server sends one after a whole one, twice. It would be printed each time."""
    with socket.create_server(("127.0.0.1", 0)) as listener:
        words = [word for word in words_of(subcat, listener.getsockname()[1]) if word != "--create"]
        follower = subprocess.Popen(words, stdout=subprocess.PIPE, stderr=subprocess.PIPE, text=True)
        client = listener.accept()[0]
        asked_of(client, client.makefile("rb"), server_frames())
        broken = begun(0xC8) + committed(0xC8, 0xC8)
        client.sendall(STREAM_BEGINS + begun(0x64) + committed(0x64, 0xC8) + broken + broken)
        printed, told = follower.communicate(timeout=60)
        client.close()
    wrong = [f"it ends with {follower.returncode}"] * (follower.returncode != 1)
    wrong += [f"it prints {printed!r}"] * (printed != "BEGIN 700 0/64 5\nCOMMIT 0/64 0/C8 5\n")
    return wrong + [f"it says {told!r}"] * (told != "subcat: K8: a commit does not end past its start\n")


def a_refusal_for_good_ends_it(pubd, subcat):
    """A publication that is unknown, a slot that isn't there, and a name that no slot may have."""
    wrong = []
    with Server(pubd, 3) as server:
        cases = [
            (words_of(subcat, server.port, publication="none"), "server: 42704 "),
            ([word for word in words_of(subcat, server.port, slot="t") if word != "--create"], "server: 42704 "),
            (words_of(subcat, server.port, slot="T"), "server: 42602 "),
        ]
        for words, due in cases:
            ran = subprocess.run(words, capture_output=True, text=True, timeout=60)
            lines = ran.stderr.splitlines()
            wrong += [f"it ends with {ran.returncode}, and says {lines}"] * (ran.returncode != 1 or len(lines) != 1 or not lines[0].startswith(due))
        return wrong + server.end()


def an_output_of_others_is_left_alone(pubd, subcat):
    """A file that holds something else isn't cut, and one that a run has isn't taken by another."""
    wrong = []
    with tempfile.TemporaryDirectory() as folder, Server(pubd, 10) as server:
        other = pathlib.Path(folder) / "other"
        other.write_text("a letter\n")
        words = words_of(subcat, server.port, "--output", other)
        wrong += refused_of(words, "subcat: the output file holds something else")
        wrong += ["a file of others is cut"] * (other.read_text() != "a letter\n")
        words = words_of(subcat, server.port, "--output", pathlib.Path(folder) / "own")
        first = subprocess.Popen(words, stderr=subprocess.DEVNULL)
        connection = Connection(server.port)
        while not is_there(connection, "s"):
            time.sleep(0.01)
        wrong += refused_of(words, "subcat: the output file is in use")
        first.kill()
        first.wait()
        server.process.kill()
    return wrong + refused_of([subcat, "--output", "own", "127.0.0.1:1", "s", "0/0", "p", "1"], "error: ", ends_with=2)


def is_there(connection, slot):
    """Whether somebody has created the slot."""
    try:
        connection.start(slot)
    except Refused as refused:
        return refused.args[0] != "42704"
    return True


def refused_of(words, due, ends_with=1):
    ran = subprocess.run(words, capture_output=True, text=True, timeout=60)
    return [f"it ends with {ran.returncode}, and says {ran.stderr!r}"] * (ran.returncode != ends_with or not ran.stderr.startswith(due))
