"""The servers, each with the table public.item, the publication p of it, and slots from which all is taken."""
import os
import pathlib
import shutil
import socket
import struct
import subprocess
import time

TICKS = os.sysconf("SC_CLK_TCK")
STARTUP = b"\0\0\0\x32\0\x03\0\0user\0u\0database\0app\0replication\0database\0\0"


class Failed(Exception):
    pass


def children(pid):
    for status in pathlib.Path("/proc").glob("[0-9]*/stat"):
        try:
            if int(status.read_text().rpartition(")")[2].split()[1]) == pid:
                yield int(status.parent.name)
        except (FileNotFoundError, ProcessLookupError):
            continue


def command_of(pid):
    """None where the process has ended."""
    try:
        return pathlib.Path(f"/proc/{pid}/cmdline").read_bytes()
    except (FileNotFoundError, ProcessLookupError):
        return None


def processor_seconds(pid):
    """Of a process, its children, and those that have ended."""
    times = pathlib.Path(f"/proc/{pid}/stat").read_text().rpartition(")")[2].split()[11:15]
    own = sum(map(int, times)) / TICKS
    for child in children(pid):
        try:
            own += processor_seconds(child)
        except (FileNotFoundError, ProcessLookupError):
            continue
    return own


def wait_until_ready(answers):
    while head := answers.read(5):
        body = answers.read(struct.unpack(">I", head[1:])[0] - 4)
        if head[:1] == b"E":
            raise Failed(body.decode(errors="replace"))
        if head[:1] == b"Z":
            return
    raise Failed("the server ended the connection")


def create_slots(port, names):
    with socket.create_connection(("127.0.0.1", port)) as connection, connection.makefile("rb") as answers:
        connection.sendall(STARTUP)
        wait_until_ready(answers)
        for name in names:
            text = f"CREATE_REPLICATION_SLOT {name} LOGICAL pgoutput".encode() + b"\0"
            connection.sendall(b"Q" + struct.pack(">I", len(text) + 4) + text)
            wait_until_ready(answers)


class Stream:
    """A connection, and its stream once it has asked for it."""

    def __init__(self, port):
        self.connection = socket.create_connection(("127.0.0.1", port))
        self.connection.sendall(STARTUP)
        self.answers = self.connection.makefile("rb")
        wait_until_ready(self.answers)

    def start(self, slot):
        start = f"START_REPLICATION SLOT {slot} LOGICAL 0/0 (proto_version '1', publication_names 'p')\0".encode()
        self.connection.sendall(b"Q" + struct.pack(">I", len(start) + 4) + start)

    def messages(self):
        """The frames that carry a message, each with that message's kind."""
        while head := self.answers.read(5):
            body = self.answers.read(struct.unpack(">I", head[1:])[0] - 4)
            if head[:1] == b"E":
                raise Failed(body.decode(errors="replace"))
            if head[:1] == b"d" and body[:1] == b"w":
                yield head + body, body[25:26]
        raise Failed("the server ended the stream")

    def until(self, kind):
        """Reads up to the first message of this kind."""
        next(True for _, each in self.messages() if each == kind)

    def close(self):
        self.answers.close()
        self.connection.close()


def stream_of(port, slot, transactions):
    """The frames of a slot's stream that carry a message, up to so many Commits."""
    frames, commits = [], 0
    stream = Stream(port)
    stream.start(slot)
    for frame, kind in stream.messages():
        frames.append(frame)
        commits += kind == b"C"
        if commits == transactions:
            break
    stream.close()
    return b"".join(frames)


class Listening:
    """A server of one process, which says where it listens."""

    def listen(self, process, why):
        self.process = process
        listening = process.stdout.readline()
        if not listening.startswith("listening "):
            raise Failed(why())
        self.port = int(listening.rpartition(":")[2])

    def processor_seconds(self):
        return processor_seconds(self.process.pid)

    def settle(self):
        pass

    def stop(self):
        self.process.kill()
        self.process.wait()


class Floor(Listening):
    """A server that has the bytes of a stream ready, which the program floor.c is."""

    SOURCE = pathlib.Path(__file__).resolve().parent / "floor.c"

    def __init__(self, folder, stream):
        program, file = pathlib.Path(folder) / "floor", pathlib.Path(folder) / "stream"
        built = subprocess.run(["cc", "-O2", "-pthread", self.SOURCE, "-o", program], capture_output=True, text=True)
        if built.returncode:
            raise Failed(f"floor.c: {built.stderr[:300]}")
        file.write_bytes(stream)
        self.listen(subprocess.Popen([program, file], stdout=subprocess.PIPE, text=True), lambda: "the floor does not listen")


class Pubd(Listening):
    """A pubd whose script begins with the streams that it awaits."""

    CONFIGURATION = """
[server]
systemid = '42'
records = 300000
chunks = 4096
[[table]]
oid = 16384
schema = 'public'
name = 'item'
key = ['id']
columns = [['id', 'int4'], ['name', 'text'], ['qty', 'int8']]
[[publication]]
name = 'p'
tables = [{ name = 'public.item' }]
"""

    def __init__(self, program, folder, connections, awaited, lines):
        folder = pathlib.Path(folder)
        (folder / "pubd.toml").write_text(self.CONFIGURATION)
        (folder / "script").write_text("\n".join(lines) + "\n")
        limits = ["--wal-sender-timeout", "0", "--max-connections", "1000", "--log-min-messages", "error"]
        words = [program, *limits, "--await-streams", str(awaited), "pubd.toml", "127.0.0.1:0", str(connections), "script"]
        with open(folder / "said", "wb") as said:
            process = subprocess.Popen(words, cwd=folder, stdout=subprocess.PIPE, stderr=said, text=True)
        self.listen(process, lambda: f"pubd does not listen: {(folder / 'said').read_text()!r}")


class Postgres:
    """A PostgreSQL that waits for no disk, and keeps what it decodes in memory."""

    CONFIGURATION = """
listen_addresses = '127.0.0.1'
unix_socket_directories = ''
wal_level = logical
max_wal_senders = 20
max_replication_slots = 20
wal_sender_timeout = 0
logical_decoding_work_mem = '1GB'
shared_buffers = '512MB'
max_wal_size = '10GB'
checkpoint_timeout = '1h'
autovacuum = off
fsync = off
full_page_writes = off
"""

    ALWAYS = (b"checkpointer", b"background writer", b"walwriter", b"logical replication launcher")

    def __init__(self, programs, folder):
        self.programs = pathlib.Path(programs)
        self.data = pathlib.Path(folder) / "postgresql"
        # PostgreSQL is not run by root.
        self.as_user = ["runuser", "-u", "postgres", "--"] if os.geteuid() == 0 else []
        if self.as_user:
            os.chmod(folder, 0o755)
            self.data.mkdir()
            shutil.chown(self.data, "postgres")
        self.call("initdb", "-D", self.data, "-A", "trust", "-E", "UTF8", "--locale=C", "-U", "u")
        with socket.socket() as free:
            free.bind(("127.0.0.1", 0))
            self.port = free.getsockname()[1]
        with open(self.data / "postgresql.conf", "a", encoding="utf8") as configuration:
            configuration.write(f"{self.CONFIGURATION}port = {self.port}\n")
        self.call("pg_ctl", "-D", self.data, "-l", self.data / "log", "-w", "start")
        self.pid = int((self.data / "postmaster.pid").read_text().split()[0])
        self.ask("postgres", "CREATE DATABASE app")
        self.ask("app", "CREATE TABLE public.item (id int4 PRIMARY KEY, name text, qty int8)")
        self.ask("app", "CREATE PUBLICATION p FOR TABLE public.item")

    def call(self, program, *words):
        done = subprocess.run(
            [*self.as_user, self.programs / program, *words], stdout=subprocess.DEVNULL, stderr=subprocess.PIPE, cwd="/"
        )
        if done.returncode:
            raise Failed(f"{program}: {done.stderr[:300]!r}")

    def ask(self, database, query):
        self.call("psql", "-Xq", "-h", "127.0.0.1", "-p", str(self.port), "-U", "u", "-d", database, "-c", query)

    def processor_seconds(self):
        return processor_seconds(self.pid)

    def settle(self):
        """Waits until the processes of ended connections are gone, and their times counted among those that have ended."""
        for _ in range(1000):
            commands = map(command_of, children(self.pid))
            if all(any(word in command for word in self.ALWAYS) for command in commands if command is not None):
                return
            time.sleep(0.01)
        raise Failed("a connection of PostgreSQL goes on")

    def stop(self):
        self.call("pg_ctl", "-D", self.data, "-m", "immediate", "stop")
