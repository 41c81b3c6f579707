"""What is limited: connections at once, the time of a startup, places for slots; and what is told of how connections end."""
import os
import pathlib
import shutil
import struct
import subprocess
import tempfile
import time

from asking import wrong_texts
from connection import STARTUP, TERMINATE, Connection, Refused, framed
from server import CONFIGURATION, NOBODY, Server

CLOSED = " closed by its client"
CROWD = "pubd: a connection was closed, since max_connections are served"
# For longer than a startup of a second may take here, and for how long one may last all the same on a busy machine.
LATER, LATEST = 1.5, 10
# The types of columns, as a refusal tells them.
TYPES = "bool, int2, int4, int8, numeric, numeric(p,s), text, varchar, varchar(n), char(n), bytea, date, time, timestamp, timestamptz and uuid"
# How many clients that are too many are heard out at once.
MOST_HEARD = 16
# How many lines are told of an address within a minute.
MOST_LINES = 1000
# What a client may send before its startup, and what the server answers.
SSL_REQUEST, GSS_REQUEST = (struct.pack(">II", 8, number) for number in (80_877_103, 80_877_104))
CANCEL_REQUEST = struct.pack(">IIII", 16, 80_877_102, 1, 1)
# Clients of PostgreSQL, and what is due of each where it is one too many: its status and its words.
INSTALLED = [("psql", 2, "FATAL:  sorry, too many clients already"), ("pg_isready", 0, "accepting connections")]


def a_startup_has_its_time(pubd, subcat):
    """Who says none, or byte by byte, is closed when it is over; who has said it may be silent for ever."""
    with Server(pubd, 3, more=["--authentication-timeout", "1s"]) as server:
        begun = time.monotonic()
        idle = Connection(server.port)
        silent, slow = (Connection(server.port, says_nothing=True) for _ in range(2))
        wrong = [] if is_closed_while_it_speaks(slow) else ["a startup of single bytes goes on for ever"]
        wrong += ["a connection without a startup goes on for ever"] * (silent.bytes.read(1) != b"")
        took = time.monotonic() - begun
        wrong += [f"they are closed after {took:.1f} s"] * (not 1 <= took < LATEST)
        time.sleep(LATER)
        idle.ask("IDENTIFY_SYSTEM")
        for client in (idle, silent, slow):
            client.close()
        late = "closed: no startup came within authentication_timeout"
        return wrong + server.end(ended=[f"pubd: connection {n} {late}" for n in (2, 3)])


def is_closed_while_it_speaks(client):
    whole = struct.pack(">I", len(STARTUP) + 4) + STARTUP
    try:
        for at in range(len(whole) - 1):
            client.socket.sendall(whole[at : at + 1])
            time.sleep(0.1)
    except ConnectionError:
        return True
    return False


def as_many_are_served_as_may_be(pubd, subcat):
    """One more is refused by 53300, and doesn't count; where one has gone, the next is served. One more that says nothing is not waited
    for at the end."""
    wrong, told = [], []
    with Server(pubd, 5, more=["--max-connections", "2", "--log-min-messages", "info"]) as server:
        first, second = (Connection(server.port) for _ in range(2))
        silent = Connection(server.port, says_nothing=True)
        for _ in range(3):
            wrong += refusal_in_a_crowd(server.port)
            told.append(CROWD)
        for number in (3, 4, 5):
            first.close()
            first, second = second, let_in(server.port, told)
            told.append(f"pubd: connection {number - 2} closed by its client")
        for number, client in ((4, first), (5, second)):
            client.socket.sendall(TERMINATE)
            client.close()
            told.append(f"pubd: connection {number} closed by its client")
        begun = time.monotonic()
        wrong += server.end(ended=told)
        took = time.monotonic() - begun
        silent.close()
        return wrong + [f"it ends {took:.1f} s later"] * (took > LATEST)


def refusal_in_a_crowd(port):
    client = Connection(port, says_nothing=True)
    client.begin()
    code = client.refusal()
    client.close()
    return [f"a third connection is refused by {code}"] * (code != "53300")


def a_client_too_many_is_heard_out(pubd, subcat):
    """It is answered as by PostgreSQL: encryption is denied, and its startup refused; a request to cancel gets no word. Who says nothing
    holds up nobody, and has its time; of more than a few such clients each is refused at once."""
    startup = struct.pack(">I", len(STARTUP) + 4) + STARTUP
    said = {
        "a startup": [startup],
        "a startup in pieces": [startup[:1], startup[1:6], startup[6:]],
        "an SSLRequest": [SSL_REQUEST, startup],
        "an SSLRequest and a GSSENCRequest": [SSL_REQUEST, GSS_REQUEST, startup],
        "requests without end": [SSL_REQUEST] * 3,
        "bytes that are no startup": [b"GET / HTTP/1.1\r\n"],
    }
    # All that comes before the last of them takes less, on a slow machine too.
    patience = 6
    with Server(pubd, 2, more=["--max-connections", "1", "--authentication-timeout", f"{patience}s"]) as server:
        first = Connection(server.port)
        begun = time.monotonic()
        silent = [Connection(server.port, says_nothing=True)]
        wrong = [f"{what} is answered otherwise" for what, pieces in said.items() if not is_told_of_a_crowd(server.port, pieces)]
        cancelling = Connection(server.port, says_nothing=True)
        cancelling.socket.sendall(CANCEL_REQUEST)
        wrong += ["a request to cancel gets words"] * (cancelling.bytes.read() != b"")
        cancelling.close()
        wrong += [told for told in (installed_in_a_crowd(server.port, *each) for each in INSTALLED) if told]
        silent += [Connection(server.port, says_nothing=True) for _ in range(MOST_HEARD - 1)]
        more = Connection(server.port, says_nothing=True)
        wrong += ["one of too many that say nothing isn't refused at once"] * (more.refusal() != "53300")
        wrong += ["who says nothing gets words"] * any(client.bytes.read() for client in silent)
        wrong += ["who says nothing is closed early"] * (time.monotonic() - begun < patience)
        first.close()
        told = []
        for client in (*silent, more, let_in(server.port, told)):
            client.close()
        refused = len(said) + 1 + sum(shutil.which(name) is not None for name, _, _ in INSTALLED)
        return wrong + server.end(ended=[CROWD] * refused + told)


def installed_in_a_crowd(port, name, status, due):
    """What is wrong with what this client of PostgreSQL says, if it is installed."""
    if not shutil.which(name):
        return None
    ran = subprocess.run([name, "-h", "127.0.0.1", "-p", str(port), "-U", "me", "-d", "app"], capture_output=True, text=True, timeout=60)
    said = ran.stdout + ran.stderr
    return None if ran.returncode == status and due in said else f"{name} ends with {ran.returncode} and says {said!r}"


def is_told_of_a_crowd(port, pieces):
    """Whether each request for encryption gets an N, and the client a refusal in the end."""
    client = Connection(port, says_nothing=True)
    denied = sum(piece in (SSL_REQUEST, GSS_REQUEST) for piece in pieces[:2])
    for at, piece in enumerate(pieces):
        client.socket.sendall(piece)
        if at < denied and client.bytes.read(1) != b"N":
            return False
        time.sleep(0.05)
    code = client.refusal()
    client.close()
    return code == "53300"


def let_in(port, told):
    """A server takes a moment to see that another connection has gone."""
    for _ in range(1000):
        try:
            return Connection(port)
        except (EOFError, ConnectionError, Refused):
            told.append(CROWD)
            time.sleep(0.01)
    raise TimeoutError("nobody is let in")


def why_a_connection_is_not_taken_is_told(pubd, subcat):
    """No descriptor for the end of the server to reach it by, or for the next connection itself, which a listener that waits has already;
    no thread. Only root can be a user who has no more threads."""
    closed = "pubd: a connection was closed, since no {} was to be had for it"
    accepted = "pubd: a connection could not be accepted: Too many open files (os error 24)"
    wrong = why_none_is_taken(pubd, "nofile", 1, None, {closed.format("descriptor")})
    wrong += why_none_is_taken(pubd, "nofile", 0, None, {closed.format("descriptor"), accepted})
    if os.getuid() == 0:
        wrong += why_none_is_taken(pubd, "nproc", 0, NOBODY, {closed.format("thread")})
    return wrong


def why_none_is_taken(pubd, what, more, user, due):
    """What is wrong with what a server tells that may have so much more of this while a client comes."""
    with Server(pubd, 1, user=user) as server:
        time.sleep(0.3)
        has = len(os.listdir(f"/proc/{server.process.pid}/fd")) if what == "nofile" else server.threads()
        server.limit(what, has + more)
        client = Connection(server.port, says_nothing=True)
        time.sleep(0.3)
        client.close()
        server.process.kill()
        told = set(server.process.stderr.read().splitlines())
        return [f"with {more} more of {what} it tells {told}, and not {due}"] * (told != due)


def an_end_is_told_with_its_cause(pubd, subcat):
    """Each once, by what ended it."""
    more = ["--log-min-messages", "info", "--wal-sender-timeout", "1s"]
    with Server(pubd, 6, more=more) as server:
        polite, gone, reset, wrong, silent, stalled = (Connection(server.port, receives=4096) for _ in range(6))
        polite.socket.sendall(TERMINATE)
        gone.close()
        reset.create("s0")
        reset.start("s0")
        reset.break_off()
        wrong.socket.sendall(framed("7a"))
        silent.create("s1")
        silent.start("s1")
        while silent.bytes.read(1):
            pass
        ask_until_it_is_closed(stalled)
        for client in (polite, wrong, silent, stalled):
            client.close()
        told = server.end(
            ended=[
                "pubd: connection 1 closed by its client",
                "pubd: connection 2 closed by its client",
                "pubd: connection 3 closed by its client",
                "pubd: connection 4 closed: its client sent what no server takes then",
                "pubd: connection 5 closed: its client was silent for wal_sender_timeout",
                "pubd: connection 6 closed: its client took nothing for wal_sender_timeout",
            ]
        )
        return told + [f"of six connections it tells from where {server.begun} come"] * (len(server.begun) != 6)


def what_is_told_of_an_address_is_bounded(pubd, subcat):
    """Of clients that are too many, of which each costs a line: a thousand lines a minute, and one that says so."""
    with tempfile.TemporaryFile("w+") as errors:
        words = [pubd, "--max-connections", "1", CONFIGURATION, "127.0.0.1:0", "forever", "-"]
        process = subprocess.Popen(words, stdin=subprocess.PIPE, stdout=subprocess.PIPE, stderr=errors, text=True)
        port = int(process.stdout.readline().rpartition(":")[2])
        one = Connection(port)
        for _ in range(MOST_LINES + 50):
            try:
                Connection(port).close()
            except (EOFError, ConnectionError):
                pass
        one.close()
        process.communicate("end\n", timeout=60)
        errors.seek(0)
        told = errors.read().splitlines()
    crowd = sum("max_connections" in line for line in told)
    last = "pubd: further lines of clients at 127.0.0.1 are not told for a minute"
    return [f"{crowd} lines are told, and then {told[-1:]}"] * ((crowd, told.count(last)) != (MOST_LINES, 1))


def has_keepalive(port):
    """Of each connection of a server, whether a timer of TCP's keepalive runs at its end: proc(5), /proc/net/tcp."""
    rows = [line.split() for line in pathlib.Path("/proc/net/tcp").read_text().splitlines()[1:]]
    return [row[5].startswith("02:") for row in rows if row[1].endswith(f":{port:04X}") and row[3] == "01"]


def a_client_that_says_nothing_is_asked_for_by_the_system(pubd, subcat):
    """Also one without a stream."""
    with Server(pubd, 1) as server:
        client = Connection(server.port)
        # Until its last answer is acknowledged another timer runs in its place.
        until = time.monotonic() + LATEST
        while (runs := has_keepalive(server.port)) != [True] and time.monotonic() < until:
            time.sleep(0.05)
        client.close()
        return server.end() + [f"keepalive runs: {runs}"] * (runs != [True])


def ask_until_it_is_closed(client):
    """Reading no answer."""
    try:
        while True:
            client.socket.sendall(1000 * framed("51" + b"IDENTIFY_SYSTEM\0".hex()))
    except ConnectionError:
        pass


def only_what_is_asked_for_is_told(pubd, subcat):
    """By default nothing of a client that goes, with bytes that it hasn't read too, and of a level that tells less nothing of a connection
    that was served."""
    wrong = []
    for more, told in (([], ["pubd: connection 3 closed: its client sent what no server takes then"]), (["--log-min-messages", "error"], [])):
        with Server(pubd, 3, more=more) as server:
            Connection(server.port).close()
            leaving = Connection(server.port)
            leaving.socket.sendall(framed("51" + b"IDENTIFY_SYSTEM\0".hex()))
            time.sleep(0.1)
            leaving.close()
            client = Connection(server.port)
            client.socket.sendall(framed("7a"))
            client.bytes.read()
            client.close()
            wrong += server.end(ended=told)
    return wrong


def a_refusal_is_told_with_what_was_asked(pubd, subcat):
    """By default with the slot alone, in a short line; at `info` with all words that the answer to the client has no place for, in
    one line whatever is in them."""
    text = "START_REPLICATION SLOT s LOGICAL 0/0 (proto_version \\'9\\',\\n origin \\'any\\'): "
    short = [
        "C5: bad option",
        "CREATE_REPLICATION_SLOT of slot s: L3: the slot already exists",
        "DROP_REPLICATION_SLOT of slot t: L1: the slot does not exist",
        "START_REPLICATION of slot s: P1: the publication does not exist",
    ]
    whole = [text + short[0], *short[1:3], short[3].replace(": P1", ', publication "p\\nq", publication "p": P1')]
    return wrong_reports(pubd, [], short) + wrong_reports(pubd, ["--log-min-messages", "info"], [*whole, CLOSED])


def wrong_reports(pubd, more, due):
    """What is wrong where four commands are refused, and the server says this of their connection."""
    with Server(pubd, 1, more=more) as server:
        client = Connection(server.port)
        client.create("s")
        options = "(proto_version '1', publication_names '\"p\nq\", \"p\"')"
        asked = ["START_REPLICATION SLOT s LOGICAL 0/0 (proto_version '9',\n origin 'any')", "CREATE_REPLICATION_SLOT s LOGICAL pgoutput", "DROP_REPLICATION_SLOT t", f"START_REPLICATION SLOT s LOGICAL 0/0 {options}"]
        wrong = [told for command, code in zip(asked, ("22023", "42710", "42704", "42704")) for told in refused(client.ask, command, code)]
        client.close()
        told = [f"pubd: connection 1{each if each == CLOSED else f': {each}'}" for each in due]
        return wrong + server.end(ended=told)


def a_refusal_names_what_it_is_of(pubd, subcat):
    """As PostgreSQL names it: a slot that isn't there, that is there already, or that another connection streams from, and a publication
    where it is the only one that was asked for."""
    with Server(pubd, 2) as server:
        holder, client = Connection(server.port), Connection(server.port)
        holder.create("s")
        holder.start("s")
        start = "START_REPLICATION SLOT {} LOGICAL 0/0 (proto_version '1', publication_names 'p')"
        due = [
            (start.format('"t_1"'), "42704", 'replication slot "t_1" does not exist'),
            ("DROP_REPLICATION_SLOT t_1", "42704", 'replication slot "t_1" does not exist'),
            ("CREATE_REPLICATION_SLOT s LOGICAL pgoutput", "42710", 'replication slot "s" already exists'),
            (start.format("s"), "55006", 'replication slot "s" is active'),
            ("DROP_REPLICATION_SLOT s", "55006", 'replication slot "s" is active'),
            (start.format("s").replace("'p'", "'no'"), "42704", 'publication "no" does not exist'),
            (start.format("s").replace("'p'", f"'{'p' * 64}'"), "42704", "publication does not exist"),
            (start.format("s").replace("'p'", "'p, no'"), "42704", "publication does not exist"),
        ]
        wrong = wrong_texts(client, due)
        for each in (holder, client):
            each.close()
        return wrong + server.end()


def refused(ask, slot, code):
    """What is wrong where this has to be refused by this code."""
    try:
        ask(slot)
    except Refused as refusal:
        return [f"{slot} is refused by {refusal}"] * (refusal.args[0] != code)
    return [f"{slot} isn't refused"]


WORK_MEMORY = "SIZE of --logical-decoding-work-mem is a number, and kB, MB, GB or TB after it, from 64kB to 2147483647kB"


def a_word_that_is_none_is_told(pubd, subcat):
    """With status 2 and in one line, before anything is served or sent."""
    served = [CONFIGURATION, "127.0.0.1:0"]
    followed = ["127.0.0.1:1", "s", "0/0", "p"]
    cases = [
        (pubd, [*served, "+5"], "pubd: CONNECTIONS is a number from 0 to 1000, or forever"),
        (pubd, ["--await-streams", "+1", *served, "0"], "pubd: N of --await-streams is a number from 0 to 4294967295"),
        (pubd, ["--max-connections", "0", *served, "0"], "pubd: N of --max-connections is a number from 1 to 4294967295"),
        *((pubd, ["--logical-decoding-work-mem", size, *served, "0"], f"pubd: {WORK_MEMORY}") for size in ("63kB", "2048GBs", "3TB", "")),
        (pubd, ["--authentication-timeout", "1y", *served, "0"], "pubd: TIME of --authentication-timeout is a number, and ms, s, min, h or d after it, as in 60s"),
        (pubd, ["--wal-sender-timeout", "+1s", *served, "0"], "pubd: TIME of --wal-sender-timeout is a number, and ms, s, min, h or d after it, as in 60s"),
        (pubd, ["--status", "9187", *served, "0"], "pubd: ADDR of --status is an address and a port, as in 127.0.0.1:9187"),
        (pubd, ["--log-min-messages", "debug", *served, "0"], "pubd: LEVEL of --log-min-messages is info, warning or error"),
        (subcat, [*followed, "+5"], "subcat: COUNT is a number from 0 to 4294967295"),
    ]
    wrong = []
    for program, words, due in cases:
        ran = subprocess.run([program, *words], capture_output=True, text=True, timeout=60)
        came = ran.returncode, ran.stdout, ran.stderr
        wrong += [f"{words[0]} {words[-1]}: it ends with {came}"] * (came != (2, "", f"{due}\n"))
    return wrong


def a_column_of_no_type_is_named(pubd, subcat):
    """With the types that there are, in one line; where a line can't show it, as any other fault of columns."""
    wrong, text = [], CONFIGURATION.read_text()
    plain = "pubd: in the configuration: N1: table 1 wants columns: a list of 1 to 64 pairs of a name and a type, each name once"
    cases = [
        ('["qty", "int8"]', '["qty", "bigint"]', ": qty has the type bigint, and there are " + TYPES),
        ('["qty", "int8"]', '["qty", "Int8"], ["more", "x"]', ": qty has the type Int8, and there are " + TYPES),
        ('["qty", "int8"]', '["qty", "a\\nb"]', ""),
        ('["qty", "int8"]', '["qty", "' + "x" * 101 + '"]', ""),
        ('["qty", "int8"]', '["qty"]', ""),
        ('["qty", "int8"]', '["name", "text"]', ""),
    ]
    for was, column, due in cases:
        came = ended_over(pubd, text.replace(was, column))
        wrong += [f"of {column} it ends with {came}"] * (came != (2, "", f"{plain}{due}\n"))
    key = "pubd: in the configuration: N1: table 1 wants key: a list of columns, each once"
    vague = ": id has the type numeric, whose equal values may have several texts: give it its digits, as in numeric(10,2)"
    came = ended_over(pubd, text.replace('["id", "int4"]', '["id", "numeric"]'))
    wrong += [f"of a numeric in a key it ends with {came}"] * (came != (2, "", f"{key}{vague}\n"))
    return wrong


def ended_over(pubd, configuration):
    """How it ends over this configuration."""
    with tempfile.NamedTemporaryFile("w", suffix=".toml") as file:
        file.write(configuration)
        file.flush()
        ran = subprocess.run([pubd, file.name, "127.0.0.1:0", "0"], capture_output=True, text=True, timeout=60)
    return ran.returncode, ran.stdout, ran.stderr
