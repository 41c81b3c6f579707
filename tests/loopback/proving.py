"""What subcat does where a server asks for a password. Each case answers what is wrong, a line each."""
import base64
import hashlib
import hmac
import os
import pathlib
import shutil
import socket
import struct
import subprocess
import sys
import tempfile
import threading
import time

from authentication import FATAL, Guarded, lines_of
from passwords import PREPARED

sys.path.append(str(pathlib.Path(__file__).resolve().parent.parent.parent / "examples" / "clients"))
from cluster import PROGRAMS, Cluster, is_installed

REFUSED = f'server: 28P01 {FATAL} "subcat"\n'
# What one hears who is let in, and asks for a slot that isn't there.
LET_IN = 'server: 42704 replication slot "s" does not exist\n'
NONE_GIVEN = "subcat: K9: the server asks for a password, and none was given\n"
OPEN = "subcat: the password file has group or world access: permissions should be u=rw (0600) or less\n"
UNPROVED = "subcat: K9: the server doesn't prove that it knows the password\n"
FOREIGN = "subcat: K9: the server's nonce doesn't begin with the one that was sent\n"
ROUNDS = "subcat: K9: the server's iteration count is not from 1 to 1000000\n"
EXTENDED = "subcat: K9: the server wants an extension of SCRAM-SHA-256 that isn't known\n"
CLEAR = "subcat: K9: the server wants the password in clear text, which isn't sent\n"
MD5 = "subcat: K9: the server wants the password by MD5, which isn't sent\n"
WITHOUT = "subcat: K9: the server offers no SCRAM-SHA-256\n"
# What a stranger to SCRAM hears of a server that is right, and then is gone.
ENDED = "subcat: K6: the server ended the connection early\n"


def environment(password=None, **more):
    given = {name: value for name, value in os.environ.items() if not name.startswith("PG")}
    # The files of who runs this are none of a test's.
    given["HOME"] = "/nonexistent"
    return given | ({} if password is None else {"PGPASSWORD": password}) | more


def follow(subcat, port, password=None, *more, host="127.0.0.1"):
    words = [subcat, *more, f"{host}:{port}", "s", "0/0", "p", "0"]
    return subprocess.run(words, env=environment(password), stdin=subprocess.DEVNULL, capture_output=True, text=True, timeout=60)


def unlike(what, ran, status, said):
    """What is wrong where a run had to end so; the password is in no output."""
    is_told = "pencil" in ran.stdout + ran.stderr
    return [f"{what}: {ran.returncode} {ran.stdout!r} {ran.stderr!r}"] * ((ran.returncode, ran.stderr) != (status, said) or is_told)


def subcat_proves_its_password(pubd, subcat):
    wrong = []
    with Guarded(pubd, lines_of(("subcat", b"pencil", ""))) as server:
        wrong += unlike("the right one", follow(subcat, server.port, "pencil"), 1, LET_IN)
        for password, said in (("ink", REFUSED), (None, NONE_GIVEN), ("", NONE_GIVEN), ("p\u00e4ncil", REFUSED)):
            wrong += unlike(password, follow(subcat, server.port, password), 1, said)
            wrong += unlike(password, follow(subcat, server.port, password, "--follow"), 1, said)
        wrong += unlike("the right one again", follow(subcat, server.port, "pencil", "--follow"), 1, LET_IN)
    return wrong


# A password file, where PORT stands for the port, and whether the password of it that fits is right, wrong or none.
FILES = [
    ("127.0.0.1:PORT:subcat:subcat:pencil\n", "right"),
    ("127.0.0.1:PORT:subcat:subcat:pencil", "right"),
    ("*:*:*:*:pencil\r\n", "right"),
    ("# *:*:*:*:ink\n\nlocalhost:*:*:*:ink\n*:PORT:*:subcat:pencil\n*:*:*:*:ink\n", "right"),
    ("\\127.0.0.1:*:sub\\cat:*:p\\encil\n", "right"),
    ("*:*:*:*:pencil:more\n", "right"),
    ("*:*:*:*:ink\n127.0.0.1:PORT:subcat:subcat:pencil\n", "wrong"),
    ("*:*:*:*:pencil\\\n", "wrong"),
    (" *:*:*:*:pencil\n", "none"),
    ("127.0.0.1:PORT:subcat:subcat\n", "none"),
    ("127.0.0.1:PORT:subcat:subcat:\n", "none"),
    ("127.0.0:PORT:subcat:subcat:pencil\n", "none"),
    ("127.0.0.10:PORT:subcat:subcat:pencil\n", "none"),
    ("**:*:*:*:pencil\n", "none"),
    ("*:*:replication:*:pencil\n", "none"),
    ("*:*:*:me:pencil\n", "none"),
    ("\\", "none"),
    ("", "none"),
]


def written(folder, text, port, mode=0o600):
    path = pathlib.Path(folder) / "passwords"
    path.write_text(text.replace("PORT", str(port)))
    path.chmod(mode)
    return path


def psql_with(port, path):
    """What psql makes of the file."""
    place = f"host=127.0.0.1 port={port} user=subcat dbname=subcat replication=database"
    given = environment(PGPASSFILE=str(path))
    ran = subprocess.run(["psql", "-w", "-X", "-A", "-t", "-c", "IDENTIFY_SYSTEM", place], env=given, capture_output=True, text=True, timeout=60)
    return "right" if ran.returncode == 0 else "wrong" if FATAL in ran.stderr else "none" if "no password supplied" in ran.stderr else ran.stderr


def a_password_stands_in_a_file(pubd, subcat):
    """Each file is one for psql too, where it is installed."""
    wrong = []
    says = {"right": LET_IN, "wrong": REFUSED, "none": NONE_GIVEN}
    with Guarded(pubd, lines_of(("subcat", b"pencil", ""))) as server, tempfile.TemporaryDirectory() as folder:
        for text, due in FILES:
            path = written(folder, text, server.port)
            wrong += unlike(repr(text), follow(subcat, server.port, None, "--password-file", path), 1, says[due])
            if shutil.which("psql") is not None:
                found = psql_with(server.port, path)
                wrong += [f"{text!r} is {found} to psql"] * (found != due)
        path = written(folder, "localhost:*:*:*:pencil\n", server.port)
        wrong += unlike("localhost", follow(subcat, server.port, None, "--password-file", path, host="localhost"), 1, LET_IN)
        path = written(folder, "*:*:*:*:ink\n", server.port)
        wrong += unlike("beside PGPASSWORD", follow(subcat, server.port, "pencil", "--password-file", path), 1, LET_IN)
        for mode in (0o640, 0o604, 0o620, 0o601):
            path = written(folder, "*:*:*:*:pencil\n", server.port, mode)
            wrong += unlike(f"mode {mode:o}", follow(subcat, server.port, None, "--password-file", path), 2, OPEN)
        wrong += unlike("a folder", follow(subcat, server.port, None, "--password-file", folder), 2, "subcat: the password file is no plain file\n")
        ran = follow(subcat, server.port, None, "--password-file", f"{folder}/none")
        wrong += [f"no file: {ran}"] * (ran.returncode != 1 or not ran.stderr.startswith("subcat: the password file cannot be read: "))
    with Guarded(pubd, lines_of(("subcat", b"a:b\\c d", ""))) as server, tempfile.TemporaryDirectory() as folder:
        path = written(folder, "*:*:*:*:a\\:b\\\\c d\n", server.port)
        wrong += unlike("an escaped password", follow(subcat, server.port, None, "--password-file", path), 1, LET_IN)
    return wrong


def a_user_has_files_of_its_own(pubd, subcat):
    """The user is --user, or PGUSER, or subcat; the password that of --password-file, PGPASSFILE or ~/.pgpass, in this order."""
    wrong = []
    lines = lines_of(("subcat", b"pencil", ""), ("me", b"mine", ""), ("you", b"yours", ""))
    with Guarded(pubd, lines) as server, tempfile.TemporaryDirectory() as folder:
        home = pathlib.Path(folder)
        usual, other = home / ".pgpass", home / "other"

        def unlike_as(what, due, *more, **given):
            words = [subcat, *more, f"127.0.0.1:{server.port}", "s", "0/0", "p", "0"]
            ran = subprocess.run(words, env=environment(HOME=folder, **given), stdin=subprocess.DEVNULL, capture_output=True, text=True, timeout=60)
            return unlike(what, ran, 1, due)

        wrong += unlike_as("no file", NONE_GIVEN)
        usual.write_text("*:*:me:me:mine\n*:*:subcat:subcat:pencil\n*:*:*:you:ink\n")
        usual.chmod(0o600)
        other.write_text("*:*:*:you:yours\n")
        other.chmod(0o600)
        wrong += unlike_as("the usual user", LET_IN) + unlike_as("--user", LET_IN, "--user", "me")
        wrong += unlike_as("PGUSER", LET_IN, PGUSER="me") + unlike_as("--user before PGUSER", LET_IN, "--user", "me", PGUSER="you")
        wrong += unlike_as("no PGUSER", LET_IN, PGUSER="") + unlike_as("a wrong one", f'server: 28P01 {FATAL} "you"\n', PGUSER="you")
        wrong += unlike_as("PGPASSFILE", LET_IN, PGUSER="you", PGPASSFILE=str(other)) + unlike_as("no PGPASSFILE", LET_IN, PGPASSFILE="")
        wrong += unlike_as("--password-file first", LET_IN, "--user", "you", "--password-file", other, PGPASSFILE=str(usual))
        wrong += unlike_as("PGPASSWORD first", LET_IN, "--user", "you", PGPASSWORD="yours")
        wrong += unlike_as("a PGPASSFILE that isn't there", NONE_GIVEN, PGPASSFILE=f"{folder}/none")
        for mode in (0o640, 0o604):
            usual.chmod(mode)
            wrong += unlike_as(f"mode {mode:o}", f"{OPEN.rstrip()}; {usual} is not used\n{NONE_GIVEN}")
        wrong += unlike_as("a folder", f"subcat: the password file is no plain file; {folder} is not used\n{NONE_GIVEN}", PGPASSFILE=folder)
        usual.chmod(0o600)
        for name in ("", 9001 * "n"):
            wrong += unlike_as("no name", "subcat: K9: the user's name is empty, too long, or has a zero byte\n", "--user", name)
    return wrong


def a_password_is_proved_on_each_connection(pubd, subcat):
    """A connection is cut, and the next one proves it again; once it is another password, the next one is the last."""
    wrong = []
    with Guarded(pubd, lines_of(("subcat", b"pencil", ""))) as server:
        words = [subcat, "--create", "--follow", f"127.0.0.1:{server.port}", "s", "0/0", "p", "3"]
        follower = subprocess.Popen(words, env=environment("pencil"), stdout=subprocess.PIPE, stderr=subprocess.PIPE, text=True)
        for k in (1, 2):
            wrong += [f"{k}: no stream"] * (not server.say("await s stream 20").startswith("ok"))
            said = [server.say(line) for line in ("begin T", f"insert T public.item ({k},'ab',7)", f"commit T {k}")]
            wrong += [f"{k} is not acknowledged"] * (not server.say(f"await s {said[-1].split()[-1]} 20").startswith("ok"))
            if k == 2:
                server.file.write_text(lines_of(("subcat", b"ink", ""))[0] + "\n")
                wrong += ["it isn't read again"] * (server.say("reload") != "ok")
            server.say("cut s 0")
            # A connection is cut at its next byte.
            [server.say(line) for line in ("begin T", f"insert T public.item ({10 + k},'ab',7)", "abort T", f"note 'q' '{k}'")]
        printed, told = follower.communicate(timeout=60)
    wrong += [f"it ends with {follower.returncode}, and tells {told!r}"] * (follower.returncode != 1 or not told.endswith(REFUSED) or told.count("server: ") != 1)
    wrong += [f"it prints {printed!r}"] * ([line for line in printed.splitlines() if line.startswith("INSERT")] != [f"INSERT 16384 N('{k}','ab','7')" for k in (1, 2)])
    return wrong + ["a connection that was cut isn't told"] * (told.count("tries again") < 2)


class Impostor:
    """A server that asks one client for a proof, and says itself what `change` makes of what is right. It keeps what it heard."""

    def __init__(self, change, password=b"pencil", methods=b"SCRAM-SHA-256\0\0"):
        self.change, self.password, self.methods, self.heard = change, password, methods, b""
        self.listener = socket.create_server(("127.0.0.1", 0))
        self.port = self.listener.getsockname()[1]
        self.thread = threading.Thread(target=self.serve)
        self.thread.start()

    def __enter__(self):
        return self

    def __exit__(self, *raised):
        self.listener.close()
        self.thread.join(60)

    def serve(self):
        client = self.listener.accept()[0]
        client.settimeout(60)
        try:
            self.ask(client)
        except (ConnectionError, ValueError, IndexError):
            pass
        finally:
            client.close()

    def take(self, client, count):
        got = b""
        while len(got) < count:
            more = client.recv(count - len(got))
            if not more:
                raise ConnectionError
            got += more
        self.heard += got
        return got

    def message(self, client):
        kind, size = struct.unpack("!cI", self.take(client, 5))
        return self.take(client, size - 4)

    def say(self, client, step, number, more=b""):
        number, more = self.change(step, number, more)
        client.sendall(b"R" + struct.pack("!II", 8 + len(more), number) + more)

    def ask(self, client):
        self.take(client, struct.unpack("!I", self.take(client, 4))[0] - 4)
        self.say(client, "ask", 10, self.methods)
        first = self.message(client).split(b"\0", 1)[1][4:].removeprefix(b"n,,")
        self.nonce = first.split(b"r=")[1]
        salt = b"0123456789abcdef"
        challenge = b"r=" + self.nonce + b"0000,s=" + base64.b64encode(salt) + b",i=4096"
        self.say(client, "continue", 11, challenge)
        last = self.message(client)
        bare = last.rsplit(b",p=", 1)[0]
        key = hmac.digest(hashlib.pbkdf2_hmac("sha256", self.password, salt, 4096), b"Server Key", "sha256")
        signature = hmac.digest(key, b",".join((first, challenge, bare)), "sha256")
        self.say(client, "final", 12, b"v=" + base64.b64encode(signature))
        self.say(client, "end", 0)
        client.sendall(b"Z\0\0\0\5I")
        self.message(client)


def replaced(at, by, number=None):
    """What is said at a step is this text, or what this makes of the right one."""

    def change(step, due, more):
        if step != at:
            return due, more
        return due if number is None else number, by(more) if callable(by) else by

    return change


IMPOSTORS = [
    ("one that is right", replaced("none", b""), ENDED),
    ("more mechanisms", replaced("ask", b"SCRAM-SHA-256-PLUS\0SCRAM-SHA-256\0\0"), ENDED),
    ("no signature", replaced("final", b"v="), UNPROVED),
    ("nothing", replaced("final", b""), UNPROVED),
    ("a signature of nothing", replaced("final", b"v=" + base64.b64encode(bytes(32))), UNPROVED),
    ("a signature and more", replaced("final", lambda text: text + b",x=1"), UNPROVED),
    ("an error", replaced("final", b"e=other-error"), "subcat: K9: the server refuses the exchange\n"),
    ("no final message", replaced("final", b"", 0), "subcat: K2"),
    ("no challenge", replaced("continue", b"", 0), "subcat: K2"),
    ("a final message at once", replaced("continue", lambda text: text, 12), "subcat: K2"),
    ("another nonce", replaced("continue", lambda text: b"r=x" + text[2:]), FOREIGN),
    ("half a nonce", replaced("continue", lambda text: b"r=" + text[2:10] + text[30:]), FOREIGN),
    ("no nonce", replaced("continue", lambda text: b"r=" + text[30:]), FOREIGN),
    ("no rounds", replaced("continue", lambda text: text.replace(b"i=4096", b"i=0")), ROUNDS),
    ("rounds below none", replaced("continue", lambda text: text.replace(b"i=4096", b"i=-1")), ROUNDS),
    ("rounds without end", replaced("continue", lambda text: text.replace(b"i=4096", b"i=1000001")), ROUNDS),
    ("rounds beyond numbers", replaced("continue", lambda text: text.replace(b"i=4096", b"i=99999999999999999999")), ROUNDS),
    ("rounds that are none", replaced("continue", lambda text: text.replace(b"i=4096", b"i=4096x")), ROUNDS),
    ("no number of rounds", replaced("continue", lambda text: text.replace(b"i=4096", b"i=")), ROUNDS),
    ("other rounds than it signs", replaced("continue", lambda text: text.replace(b"i=4096", b"i=4097")), UNPROVED),
    ("a salt that is none", replaced("continue", lambda text: text.replace(b",s=", b",s=%")), "subcat: K9: the server's salt is not in base64\n"),
    ("an extension first", replaced("continue", lambda text: b"m=x," + text), EXTENDED),
    ("an extension last", replaced("continue", lambda text: text + b",x=1"), EXTENDED),
    ("an empty challenge", replaced("continue", b""), "subcat: K9: the server's message is none of SCRAM-SHA-256\n"),
    ("no salt", replaced("continue", lambda text: text.replace(b",s=", b",t=")), "subcat: K9: the server's message is none of SCRAM-SHA-256\n"),
    ("no mechanism that is known", replaced("ask", b"SCRAM-SHA-256-PLUS\0\0"), WITHOUT),
    ("no mechanism", replaced("ask", b"\0"), WITHOUT),
    ("clear text", replaced("ask", b"", 3), CLEAR),
    ("MD5", replaced("ask", b"salt", 5), MD5),
    ("Kerberos", replaced("ask", b"", 7), "subcat: K9: the server wants something else than a password\n"),
    ("a challenge at once", replaced("ask", b"", 11), "subcat: K2"),
    ("more than is read", replaced("ask", b"x" * 2000), "subcat: K"),
]


def subcat_goes_on_only_with_a_server_that_knows_its_password(pubd, subcat):
    """Nothing that is wrong is tried again, and the password itself is never sent."""
    wrong = []
    for what, change, said in [*IMPOSTORS, ("another password", replaced("none", b""), UNPROVED)]:
        with Impostor(change, b"ink" if what == "another password" else b"pencil") as server:
            ran = follow(subcat, server.port, "pencil", *["--follow"] * (said != ENDED))
            is_as_said = ran.stderr.startswith(said) and ran.stderr.count("\n") == 1
            wrong += [f"{what}: {ran.returncode} {ran.stderr!r}"] * (ran.returncode != 1 or not is_as_said or "pencil" in ran.stderr)
        wrong += [f"{what}: it sends the password"] * (b"pencil" in server.heard or base64.b64encode(b"pencil")[:7] in server.heard)
    return wrong


def nonces_are_new(pubd, subcat):
    wrong, nonces = [], set()
    for _ in range(20):
        with Impostor(replaced("none", b"")) as server:
            follow(subcat, server.port, "pencil")
        nonces.add(server.nonce)
        wrong += [f"a nonce is {server.nonce}"] * (len(base64.b64decode(server.nonce)) != 18)
    return wrong + ["a nonce comes twice"] * (len(nonces) != 20)


def asked(cluster, text, database):
    words = [PROGRAMS[-1] / "psql", "-X", "-A", "-t", "-h", "127.0.0.1", "-p", str(cluster.port), "-U", "me", "-d", database, "-v", "ON_ERROR_STOP=1", "-c", text]
    return subprocess.run(words, check=True, capture_output=True, text=True, timeout=60, env=environment()).stdout


def allow(cluster, method):
    pathlib.Path(f"{cluster.folder}/data/pg_hba.conf").write_text(f"host all me all trust\nhost all all all {method}\n")
    cluster.control("reload")
    for _ in range(100):
        if asked(cluster, f"SELECT count(*) FROM pg_hba_file_rules WHERE auth_method = '{method}'", "postgres").strip() == "1":
            # The file is read again by then, and by the server a moment later.
            time.sleep(0.2)
            return


def subcat_proves_its_password_to_postgresql(pubd, subcat):
    """As each of its methods asks for it."""
    if not is_installed():
        return []
    wrong = []
    with Cluster() as cluster:
        with open(f"{cluster.folder}/data/postgresql.conf", "a") as settings:
            settings.write("wal_level = logical\n")
        cluster.restart()
        asked(cluster, "CREATE ROLE subcat LOGIN REPLICATION PASSWORD 'pencil'", "postgres")
        asked(cluster, "CREATE DATABASE subcat OWNER subcat", "postgres")
        asked(cluster, "CREATE TABLE t (id int4 PRIMARY KEY); CREATE PUBLICATION p FOR TABLE t", "subcat")
        allow(cluster, "scram-sha-256")
        for value in (7, 8):
            ran = subprocess.Popen([subcat, "--create", "--follow", f"127.0.0.1:{cluster.port}", "t", "0/0", "p", "1"], env=environment("pencil"), stdout=subprocess.PIPE, stderr=subprocess.PIPE, text=True)
            for _ in range(600):
                if asked(cluster, "SELECT active FROM pg_replication_slots", "postgres").strip() == "t":
                    break
                time.sleep(0.05)
            asked(cluster, f"INSERT INTO t VALUES ({value})", "subcat")
            printed, told = ran.communicate(timeout=60)
            wrong += [f"a transaction: {ran.returncode} {printed!r} {told!r}"] * (ran.returncode != 0 or f" N('{value}')\n" not in printed)
        wrong += unlike("the right one", follow(subcat, cluster.port, "pencil"), 1, LET_IN)
        for password, said in (("ink", REFUSED), (None, NONE_GIVEN)):
            wrong += unlike(password, follow(subcat, cluster.port, password, "--follow"), 1, said)
        for password in PREPARED:
            asked(cluster, f"ALTER ROLE subcat PASSWORD '{password}'", "postgres")
            wrong += unlike(ascii(password), follow(subcat, cluster.port, password), 1, LET_IN)
        asked(cluster, "ALTER ROLE subcat PASSWORD 'pencil'", "postgres")
        allow(cluster, "md5")
        wrong += unlike("a verifier of SCRAM under md5", follow(subcat, cluster.port, "pencil"), 1, LET_IN)
        asked(cluster, "SET password_encryption = 'md5'; ALTER ROLE subcat PASSWORD 'pencil'", "postgres")
        wrong += unlike("md5", follow(subcat, cluster.port, "pencil"), 1, MD5)
        allow(cluster, "password")
        wrong += unlike("password", follow(subcat, cluster.port, "pencil"), 1, CLEAR)
    return wrong
