"""Who may connect where passwords are asked. Each case answers what is wrong, a line each."""
import base64
import hashlib
import hmac
import os
import pathlib
import random
import shutil
import socket
import statistics
import struct
import subprocess
import tempfile
import time

from passwords import verifier_of
from server import CONFIGURATION

FATAL = "password authentication failed for user"


class Guarded:
    """A pubd that asks for passwords, of these lines."""

    def __init__(self, pubd, lines, more=()):
        self.folder = tempfile.TemporaryDirectory()
        self.file = pathlib.Path(self.folder.name) / "passwords"
        self.file.write_text("".join(f"{line}\n" for line in lines))
        words = [pubd, "--passwords", self.file, *more, CONFIGURATION, "127.0.0.1:0", "forever", "-"]
        self.process = subprocess.Popen(words, stdin=subprocess.PIPE, stdout=subprocess.PIPE, stderr=subprocess.PIPE, text=True)
        self.port = int(self.process.stdout.readline().rsplit(":", 1)[1])

    def say(self, line):
        self.process.stdin.write(f"{line}\n")
        self.process.stdin.flush()
        return self.process.stdout.readline().strip()

    def __enter__(self):
        return self

    def __exit__(self, *raised):
        self.process.communicate(timeout=60)
        self.folder.cleanup()


class Client:
    """A client of its own, that may say anything."""

    def __init__(self, port, user="me"):
        self.socket = socket.create_connection(("127.0.0.1", port), timeout=60)
        pairs = b"".join(it.encode() + b"\0" for pair in (("user", user), ("database", "d"), ("replication", "database")) for it in pair)
        self.startup = struct.pack("!II", len(pairs) + 9, 196608) + pairs + b"\0"

    def say(self, body):
        self.socket.sendall(b"p" + struct.pack("!I", len(body) + 4) + body)

    def hear(self):
        """The next frame; None once the connection is closed."""
        head = self.read(5)
        return head and (head[:1], self.read(struct.unpack("!I", head[1:])[0] - 4))

    def read(self, count):
        got = b""
        while len(got) < count:
            try:
                more = self.socket.recv(count - len(got))
            except ConnectionResetError:
                more = b""
            if not more:
                return None
            got += more
        return got

    def ask(self, command, last=b"Z"):
        """The code by which a command is refused; None where it isn't."""
        text = command.encode() + b"\0"
        self.socket.sendall(b"Q" + struct.pack("!I", len(text) + 4) + text)
        code = None
        while True:
            frame = self.hear()
            if frame is None or frame[0] == last:
                return code
            if frame[0] == b"E":
                code, last = code_of([frame]), b"Z"

    def start(self, slot, publications="p"):
        return self.ask(f"START_REPLICATION SLOT {slot} LOGICAL 0/0 (proto_version '1', publication_names '{publications}')", b"W")

    def prove(self, password, change=lambda step, body: body):
        """The exchange, with each of its messages changed; answers all that was heard up to the end or the first ReadyForQuery."""
        self.socket.sendall(change(0, self.startup))
        heard = [self.hear()]
        first = "n=,r=" + base64.b64encode(os.urandom(18)).decode()
        initial = b"n,," + first.encode()
        self.say(change(1, b"SCRAM-SHA-256\0" + struct.pack("!I", len(initial)) + initial))
        heard.append(self.hear())
        if heard[-1] is None or heard[-1][0] != b"R":
            return heard
        challenge = heard[-1][1][4:].decode()
        told = dict(part.split("=", 1) for part in challenge.split(",") if "=" in part)
        if "s" not in told:
            return heard
        salted = hashlib.pbkdf2_hmac("sha256", password, base64.b64decode(told["s"]), int(told["i"]))
        key = hmac.digest(salted, b"Client Key", "sha256")
        bare = f"c=biws,r={told['r']}"
        message = f"{first},{challenge},{bare}".encode()
        signature = hmac.digest(hashlib.sha256(key).digest(), message, "sha256")
        proof = bytes(a ^ b for a, b in zip(key, signature))
        self.say(change(2, f"{bare},p={base64.b64encode(proof).decode()}".encode()))
        begun = time.monotonic()
        heard.append(self.hear())
        self.waited = time.monotonic() - begun
        while heard[-1] is not None and heard[-1][0] != b"Z":
            heard.append(self.hear())
        self.signed = base64.b64encode(hmac.digest(hmac.digest(salted, b"Server Key", "sha256"), message, "sha256"))
        return heard


def code_of(heard):
    """The code of the error that was heard, or what was heard in the place of one."""
    for frame in heard:
        if frame is not None and frame[0] == b"E":
            return dict((part[:1], part[1:].decode()) for part in frame[1].split(b"\0") if part)[b"C"]
    return heard


def is_let_in(heard):
    return any(frame == (b"R", struct.pack("!I", 0)) for frame in heard if frame)


def lines_of(*users):
    return [f"{name}:{verifier_of(password, name.encode().ljust(16, b'.')[:16])}{more}" for name, password, more in users]


def psql(port, user, password, words="replication=database"):
    given = dict(os.environ, PGPASSWORD=password, PGPASSFILE=os.devnull)
    place = f"host=127.0.0.1 port={port} user={user} dbname=d sslmode=prefer {words}"
    return subprocess.run(["psql", "-w", "-X", "-A", "-t", "-c", "IDENTIFY_SYSTEM", place], env=given, capture_output=True, text=True, timeout=60)


def a_right_password_lets_its_user_in(pubd, subcat):
    wrong = []
    with Guarded(pubd, lines_of(("me", b"pencil", ""), ("you", b"ink", ":p"))) as server:
        for user, password in (("me", b"pencil"), ("you", b"ink")):
            client = Client(server.port, user)
            heard = client.prove(password)
            kinds = [frame and (frame[0], frame[1][:4]) for frame in heard[:4]]
            due = [(b"R", struct.pack("!I", number)) for number in (10, 11, 12, 0)]
            wrong += [f"{user} hears {heard}"] * (kinds != due or heard[-1] != (b"Z", b"I") or heard[2][1][4:] != b"v=" + client.signed)
        for user, password in (("me", b"ink"), ("you", b"pencil"), ("nobody", b"pencil"), ("me", b"")):
            heard = Client(server.port, user).prove(password)
            wrong += [f"{user} with {password} hears {heard}"] * (code_of(heard) != "28P01" or is_let_in(heard) or f'{FATAL} "{user}"'.encode() not in heard[-2][1])
    return wrong


def psql_asks_for_a_password_and_gives_it(pubd, subcat):
    if shutil.which("psql") is None:
        return []
    wrong = []
    with Guarded(pubd, lines_of(("me", b"pencil", ""))) as server:
        ran = psql(server.port, "me", "pencil")
        wrong += [f"{ran}"] * (ran.returncode != 0 or "|1|" not in ran.stdout)
        for password, due in (("ink", f'{FATAL} "me"'), ("", "no password supplied")):
            ran = psql(server.port, "me", password)
            wrong += [f"{password!r}: {ran}"] * (ran.returncode == 0 or due not in ran.stderr)
    return wrong


def passwords_are_read_again(pubd, subcat):
    wrong = []
    with Guarded(pubd, lines_of(("me", b"pencil", ""))) as server:
        before = Client(server.port)
        server.file.write_text("\n" + lines_of(("me", b"ink", ""))[0] + "\n")
        wrong += ["it isn't read again"] * (server.say("reload") != "ok")
        wrong += ["an old password lets in"] * is_let_in(Client(server.port).prove(b"pencil"))
        wrong += ["the new one doesn't"] * (not is_let_in(before.prove(b"ink")))
        server.file.write_text(lines_of(("me", b"ink", ""))[0] + "\nyou:SCRAM-SHA-256$4096:\n")
        answer = server.say("reload")
        wrong += [f"a wrong line is answered by {answer}"] * (not answer.startswith("A2 line 2 "))
        wrong += ["a wrong file takes a user away"] * (not is_let_in(Client(server.port).prove(b"ink")))
    for lines, number in ((["me"], 1), (["", "me:md5abc"], 2), (lines_of(("me", b"a", ""), ("me", b"b", "")), 2), (lines_of(("me", b"a", ":p,")), 1)):
        with tempfile.NamedTemporaryFile("w") as file:
            file.write("".join(f"{line}\n" for line in lines))
            file.flush()
            ran = subprocess.run([pubd, "--passwords", file.name, CONFIGURATION, "127.0.0.1:0", "0"], capture_output=True, text=True, timeout=60)
            wrong += [f"{lines}: {ran}"] * (ran.returncode != 2 or f"line {number} " not in ran.stderr)
    return wrong


def a_user_has_the_rights_of_its_line(pubd, subcat):
    """It follows the publications that its line names, and uses the slots that it made."""
    wrong = []
    users = ("me", b"pencil", ""), ("you", b"ink", ":q,p"), ("none", b"pen", ":nothing")
    with Guarded(pubd, lines_of(*users), ("--answer-postgresql",)) as server:
        me, you, none = (Client(server.port, name) for name, _, _ in users)
        for client, (_, password, _) in zip((me, you, none), users):
            client.prove(password)
        table = "SELECT DISTINCT t.schemaname, t.tablename \nFROM pg_catalog.pg_publication_tables t\n WHERE t.pubname IN ('p')"
        publication = "SELECT t.pubname FROM\n pg_catalog.pg_publication t WHERE\n t.pubname IN ('p')"
        for client, slot in ((me, "mine"), (you, "yours"), (none, "nothing")):
            wrong += [f"{slot} isn't made: {code}" for code in [client.ask(f"CREATE_REPLICATION_SLOT {slot} LOGICAL pgoutput")] if code]
        due = [
            (you.ask("DROP_REPLICATION_SLOT mine"), "42501"),
            (me.ask("DROP_REPLICATION_SLOT yours"), "42501"),
            (me.ask('DROP_REPLICATION_SLOT "yours" WAIT'), "42501"),
            (you.start("mine"), "42501"),
            (you.start("nowhere"), "42704"),
            (you.start("yours", "p,other"), "42501"),
            (none.start("nothing"), "42501"),
            (none.ask(table), "42501"),
            (none.ask(publication), "42501"),
            (you.ask(table), None),
            (you.ask(publication), None),
            (me.ask(table), None),
            (me.start("mine"), None),
            (you.start("yours"), None),
        ]
        wrong += [f"step {at}: {code}, and not {should}" for at, (code, should) in enumerate(due) if code != should]
        server.file.write_text("\n".join(lines_of(("me", b"pencil", ":q"), ("none", b"pen", ":p"))) + "\n")
        server.say("reload")
        wrong += ["what is granted anew is refused"] * (none.start("nothing") is not None)
        again = Client(server.port)
        again.prove(b"pencil")
        code = again.start("mine")
        wrong += [f"what was taken away is answered by {code}"] * (code != "42501")
    return wrong


def strangers_shut_nobody_out(pubd, subcat):
    """A third of the connections may be theirs; one more hears 53300, and users that are in stay."""
    wrong = []
    with Guarded(pubd, lines_of(("me", b"pencil", "")), ("--max-connections", "6")) as server:
        inside = []
        for _ in range(3):
            inside.append(Client(server.port))
            wrong += ["a user isn't let in"] * (not is_let_in(inside[-1].prove(b"pencil")))
        strangers = [Client(server.port) for _ in range(2)]
        for stranger in strangers:
            stranger.socket.sendall(stranger.startup)
            stranger.hear()
        heard = Client(server.port).prove(b"pencil")
        wrong += [f"one more hears {heard}"] * (code_of(heard) != "53300")
        for stranger in strangers:
            stranger.socket.close()
        for _ in range(100):
            heard = Client(server.port).prove(b"pencil")
            if is_let_in(heard):
                break
        wrong += ["a user isn't let in after them"] * (not is_let_in(heard))
    return wrong


def medians_of_waits(port, salts, count):
    """How long the two users waited, each asked so often, in turn."""
    waits = {user: [] for user in salts}
    for number in range(count):
        for user in sorted(waits, reverse=number % 2):
            client = Client(port, user)
            salts[user].add(client.prove(b"ink")[1][1].partition(b",s=")[2])
            waits[user].append(client.waited)
            client.socket.close()
    return [statistics.median(waits[user]) for user in ("me", "nobody")]


def nobody_learns_of_users_by_time(pubd, subcat, count=300, rounds=6):
    """A user with a wrong password and one that isn't there wait as long, and are asked with a salt that stays the same.

    What else the machine does may part the two in one round; what the server does parts them in each.
    """
    salts = {"me": set(), "nobody": set()}
    told = []
    with Guarded(pubd, lines_of(("me", b"pencil", ""))) as server:
        for _ in range(rounds):
            known, unknown = medians_of_waits(server.port, salts, count)
            told.append(f"the medians are {known:.6f} and {unknown:.6f} seconds")
            if 2 / 3 < known / unknown < 3 / 2:
                told = []
                break
    return told + [f"{user} is asked in {len(each)} ways" for user, each in salts.items() if len(each) != 1]


def hostile(seed):
    """How one message of an exchange is changed, by the seed, and whether that may leave it right."""
    dice = random.Random(seed)
    step, kind = dice.choice((1, 2)), dice.randrange(7)

    def change(at, body):
        if at != step:
            return body
        if kind == 0:
            return body[: dice.randrange(len(body))]
        if kind == 1:
            place = dice.randrange(len(body))
            return body[:place] + bytes([body[place] ^ (1 + dice.randrange(255))]) + body[place + 1 :]
        if kind == 2:
            return body + bytes([dice.randrange(256)])
        if kind == 3:
            return body.replace(b"SCRAM-SHA-256\0", b"SCRAM-SHA-256-PLUS\0").replace(b"biws", b"eSws")
        if kind == 4:
            return bytes(dice.randrange(256) for _ in range(dice.randrange(1, 1500)))
        if kind == 5:
            return body * 20
        return body.replace(b"=", b"@")

    return change


def hostile_exchanges_let_nobody_in(pubd, subcat, count=2000):
    """The username in a message and its last bits of base64 count for nothing, so a changed byte may leave it right; nothing else may."""
    wrong = []
    with Guarded(pubd, lines_of(("me", b"pencil", ""))) as server:
        for seed in range(count):
            change = hostile(seed)
            try:
                heard = Client(server.port).prove(b"ink", change)
            except (BrokenPipeError, ConnectionResetError):
                continue
            wrong += [f"seed {seed}: {heard}"] * (is_let_in(heard) or heard[-1] is not None and heard[-1][0] != b"E")
        wrong += ["a user isn't let in after that"] * (not is_let_in(Client(server.port).prove(b"pencil")))
    return wrong[:5]
