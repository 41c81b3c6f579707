"""Who takes the shop's stream in ./demo: subcat, or a PostgreSQL server with its tables."""
import json
import pathlib
import queue
import subprocess
import sys
import threading
import time

HERE = pathlib.Path(__file__).resolve().parent
sys.path.append(str(HERE.parent / "clients"))
import cluster
import groups
from orders import TABLES

# The slot, and more transactions than any run has.
SLOT, MANY = "demo", "1000000000"
# For how long an arrival is waited for.
SECONDS = 30
LATEST_ORDERS = "SELECT id, article, quantity FROM orders ORDER BY id DESC LIMIT 3"
STOCK = "SELECT string_agg(article || ' ' || pieces, ', ' ORDER BY article COLLATE \"C\") FROM stock"
VERBS = {"I": "insert", "U": "update", "D": "delete"}


class Subcat:
    """Follows the slot over lost connections, and prints JSON."""

    title, arrived = "what subcat prints (from its lines of JSON)", "arrived"

    def __init__(self, program, publisher):
        words = ["--follow", "--create", "--json", f"127.0.0.1:{publisher.port}", SLOT, "0/0", "shop", MANY]
        self.process = groups.begin([program, *words], stdout=subprocess.PIPE, stderr=subprocess.DEVNULL, text=True, bufsize=1)
        self.came = queue.Queue()
        threading.Thread(target=self.read, daemon=True).start()
        publisher.say(f"await {SLOT} stream {SECONDS}")

    def read(self):
        lines = []
        for line in self.process.stdout:
            change = json.loads(line)
            lines.append(told(change))
            if change.get("action") == "C":
                self.came.put((change["nextlsn"], time.monotonic(), lines))
                lines = []

    def arrival(self, end):
        """When the transaction came that ends there, and its lines; None where none comes, or another."""
        until = time.monotonic() + SECONDS
        while time.monotonic() < until and self.process.poll() is None:
            try:
                position, at, lines = self.came.get(timeout=0.1)
            except queue.Empty:
                continue
            return (at, lines) if position == end else None
        return None

    def end(self):
        groups.end(self.process)
        return f"subcat ended by its signal ({self.process.returncode})"


def told(change):
    """A line of JSON as the line of a script that says the same."""
    action = change.get("action")
    if action == "B":
        return f"begin {change['xid']}"
    if action == "C":
        return f"commit {change['nextlsn']}"
    values = ",".join(repr(column["value"]) for column in change.get("columns", []))
    return f"{VERBS.get(action, action)} {change.get('schema')}.{change.get('table')} ({values})"


class Postgres:
    """A PostgreSQL server of its own, which is gone with it."""

    title, arrived = "what PostgreSQL's tables hold: orders, stock", "acknowledged"

    def __init__(self, publisher):
        self.server, self.publisher = cluster.Cluster(), publisher
        connection = f"host=127.0.0.1 port={publisher.port} user=me dbname=app"
        self.server.ask(*TABLES, f"CREATE SUBSCRIPTION {SLOT} CONNECTION '{connection}' PUBLICATION shop WITH (copy_data = false)")
        publisher.say(f"await {SLOT} stream {SECONDS}")

    @staticmethod
    def is_installed():
        return cluster.is_installed() and cluster.PROGRAMS[-1].parent.name == "15"

    def arrival(self, end):
        """When it had acknowledged a transaction, and what its tables hold."""
        self.publisher.say(f"await {SLOT} {end} {SECONDS}")
        at = time.monotonic()
        rows = [row.replace("|", " | ") for row in self.server.ask(LATEST_ORDERS)]
        return at, [*reversed(rows), *self.server.ask(STOCK)]

    def end(self):
        self.server.__exit__()
        return "PostgreSQL stopped"
