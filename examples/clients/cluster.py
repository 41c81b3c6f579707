"""A PostgreSQL server of its own, in a folder that goes with it."""
import os
import pathlib
import pwd
import shutil
import socket
import subprocess
import tempfile

PROGRAMS = sorted(pathlib.Path("/usr/lib/postgresql").glob("*/bin"))
# PostgreSQL's server doesn't run as root.
USERS = "postgres", "nobody"
SETTINGS = """
listen_addresses = '127.0.0.1'
fsync = off
wal_retrieve_retry_interval = 100ms
max_logical_replication_workers = 8
log_min_messages = warning
"""
SECONDS = 300


def is_installed():
    return bool(PROGRAMS) and (PROGRAMS[-1] / "initdb").exists()


def user_of_a_server():
    """Who runs it: somebody else, where this is root."""
    if os.getuid():
        return None
    known = {each.pw_name for each in pwd.getpwall()}
    return next(user for user in USERS if user in known)


def free_port():
    with socket.socket() as one:
        one.bind(("127.0.0.1", 0))
        return one.getsockname()[1]


class Cluster:
    def __init__(self):
        self.user = user_of_a_server()
        self.folder = tempfile.mkdtemp()
        self.port = free_port()
        self.log = pathlib.Path(self.folder) / "log"
        if self.user:
            shutil.chown(self.folder, self.user)
        try:
            self.begin()
        except BaseException:
            self.__exit__()
            raise

    def begin(self):
        self.run("initdb", "-A", "trust", "-U", "me", "-N", "-D", f"{self.folder}/data")
        with open(f"{self.folder}/data/postgresql.conf", "a") as settings:
            settings.write(f"{SETTINGS}port = {self.port}\nunix_socket_directories = '{self.folder}'\n")
        self.control("start")

    def __enter__(self):
        return self

    def __exit__(self, *raised):
        # It may not run, where it was ended before it had begun.
        try:
            self.control("stop", "-m", "immediate")
        except subprocess.CalledProcessError:
            pass
        shutil.rmtree(self.folder, ignore_errors=True)

    def run(self, program, *words):
        # What it starts goes on, and would keep a pipe open.
        with open(f"{self.folder}/said", "w") as said:
            subprocess.run([PROGRAMS[-1] / program, *words], check=True, stdout=said, stderr=said, user=self.user, timeout=SECONDS, cwd="/")

    def control(self, what, *words):
        self.run("pg_ctl", "-D", f"{self.folder}/data", "-l", self.log, "-w", *words, what)

    def restart(self):
        self.control("restart", "-m", "fast")

    def ask(self, *statements):
        """The lines that psql prints of these, each in a transaction of its own, and what it says of faults."""
        words = [word for statement in statements for word in ("-c", statement)]
        told = subprocess.run(
            ["psql", "-XAtq", "-v", "ON_ERROR_STOP=1", "-h", "127.0.0.1", "-p", str(self.port), "-U", "me", "-d", "postgres", *words],
            capture_output=True,
            text=True,
            timeout=SECONDS,
        )
        if told.returncode:
            raise Failed(told.stderr.strip())
        return told.stdout.splitlines()


class Failed(Exception):
    """What psql said of a statement that failed."""
