"""The server under test, and what it was told to commit."""
import pathlib
import re
import subprocess

from driven import Driven

HERE = pathlib.Path(__file__).resolve().parent
CONFIGURATION = HERE.parent.parent / "examples" / "clients" / "server.toml"
USER, PASSWORD = "u", "soaked"
# The slot that nobody reads, and how many records a slot may keep.
IDLE, KEEP = "idle", 40_000
SECONDS = 60


class Serving(Driven):
    """A pubd that asks for passwords, and gives a slot up that holds too much."""

    def __init__(self, pubd, room):
        self.passwords, self.password = room / "passwords", room / "password"
        self.password.write_text(f"*:*:*:{USER}:{PASSWORD}\n")
        self.password.chmod(0o600)
        told = subprocess.run([pubd, "--password-of", USER], input=PASSWORD + "\n", capture_output=True, text=True, check=True)
        self.passwords.write_text(told.stdout)
        self.told = open(room / "told", "w")
        words = ["--answer-postgresql", "--passwords", self.passwords, "--max-slot-keep", str(KEEP), "--status", "127.0.0.1:0"]
        command = [pubd, *words, "--max-connections", "60", CONFIGURATION, "127.0.0.1:0", "forever", "-"]
        self.process = subprocess.Popen(command, stdin=subprocess.PIPE, stdout=subprocess.PIPE, stderr=self.told, text=True)
        self.port = self.port_of(self.process.stdout.readline())
        self.page = self.port_of(self.process.stdout.readline())
        # Each transaction that was committed: its lines, and where its record ends.
        self.committed = []

    @staticmethod
    def port_of(line):
        return int(re.search(r":(\d+)$", line.strip())[1])

    def __exit__(self, *raised):
        self.process.kill()
        self.process.wait()
        self.told.close()

    def conninfo(self, more=""):
        return f"host=127.0.0.1 port={self.port} user={USER} password={PASSWORD} dbname=app{more}"

    def commit(self, lines):
        end = self.do(*lines)
        if lines[-1].startswith("commit"):
            self.committed.append((lines, end))

    def steer(self, line):
        """It may be refused, where the slot isn't there."""
        return self.tell(line)

    def remake_idle(self):
        """Once it was given up, its name is free again after a drop."""
        command = f"DROP_REPLICATION_SLOT {IDLE}", f"CREATE_REPLICATION_SLOT {IDLE} LOGICAL pgoutput"
        for each in command:
            words = ["psql", "-XAtq", self.conninfo(" replication=database"), "-c", each]
            subprocess.run(words, capture_output=True, timeout=SECONDS, check=False)
