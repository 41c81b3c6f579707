"""Fills tables of a PostgreSQL server from a running pubd, by CREATE SUBSCRIPTION: with_subscription.py PUBD [SEED]

A thousand transactions by the seed: inserts, updates, also of keys, deletes, truncates, savepoints that are rolled back, transactions
that are aborted, long texts. Meanwhile the connection is cut at random places, and the subscriber restarted. Behind that the tables
have to hold the rows of the script, and the other commands of subscriptions to do what they say.
"""
import random
import sys
import time

from cluster import Cluster, is_installed
from driven import Driven
from groups import end_by_signals

TRANSACTIONS = 1000
# For how long something is waited for, on a machine that does much else.
SECONDS = 300
TABLES = [
    "CREATE TABLE item (id integer PRIMARY KEY, name text, qty bigint)",
    "CREATE TABLE tag (k text PRIMARY KEY, v integer)",
    "ALTER TABLE tag REPLICA IDENTITY FULL",
]
LENGTHS = 0, 1, 5, 200, 1999, 2001, 3900
SLOT = "s"


class Rows:
    """What the tables hold, and the lines that come to it."""

    def __init__(self, seed):
        self.by = random.Random(seed)
        self.items, self.tags = {}, {}

    def transaction(self):
        """The lines of one; some are aborted."""
        before = dict(self.items), dict(self.tags)
        lines = ["begin T"]
        for _ in range(self.by.randint(1, 6)):
            lines += self.savepoint() if self.by.random() < 0.15 else self.change()
        if self.by.random() < 0.1:
            self.items, self.tags = before
            return [*lines, "abort T"]
        return [*lines, f"commit T {self.by.randint(1, 10**12)}"]

    def savepoint(self):
        """Changes that are undone, or kept."""
        before = dict(self.items), dict(self.tags)
        lines = ["savepoint T", *self.change(), *self.change()]
        if self.by.random() < 0.5:
            self.items, self.tags = before
            return [*lines, "rollback T 1"]
        return [*lines, "release T 1"]

    def change(self):
        return self.by.choices([self.insert, self.update, self.move, self.delete, self.tag, self.truncate], [8, 4, 2, 3, 4, 0.2])[0]()

    def text(self):
        return "".join(self.by.choices("abcdé€x ", k=self.by.choice(LENGTHS)))

    def insert(self):
        key = self.by.randint(1, 300)
        if key in self.items:
            return self.delete()
        self.items[key] = self.text(), self.by.randint(-(2**63), 2**63 - 1)
        return [f"insert T public.item {literal(key, *self.items[key])}"]

    def update(self):
        """Of a row whose key stays; half the time its text does too."""
        if not self.items:
            return self.insert()
        key = self.by.choice(sorted(self.items))
        text = self.items[key][0] if self.by.random() < 0.5 else self.text()
        self.items[key] = text, self.by.randint(0, 9)
        return [f"update T public.item ({key}) {literal(key, *self.items[key])}"]

    def move(self):
        """Of a key."""
        other = self.by.randint(301, 600)
        if not self.items or other in self.items:
            return self.update()
        key = self.by.choice(sorted(self.items))
        self.items[other] = self.items.pop(key)
        return [f"update T public.item ({key}) {literal(other, *self.items[other])}"]

    def delete(self):
        if not self.items:
            return self.insert()
        key = self.by.choice(sorted(self.items))
        del self.items[key]
        return [f"delete T public.item ({key})"]

    def tag(self):
        """A row of the table whose identity is all of it."""
        key = self.by.choice("abcdefgh")
        old = self.tags.get(key)
        self.tags[key] = self.by.randint(0, 99)
        if old is None:
            return [f"insert T public.tag {literal(key, self.tags[key])}"]
        return [f"update T public.tag ('{key}') {literal(key, self.tags[key])}"]

    def truncate(self):
        self.items, self.tags = {}, {}
        return ["truncate T public.item public.tag"]

    def told(self):
        items = sorted((key, *row) for key, row in self.items.items())
        return [f"{key}|{name}|{qty}" for key, name, qty in items] + [f"{k}|{v}" for k, v in sorted(self.tags.items())]


def literal(*values):
    return "(" + ",".join(str(value) if isinstance(value, int) else f"'{value}'" for value in values) + ")"


def rows_in(postgres):
    return postgres.ask("SELECT id, name, qty FROM item ORDER BY id", "SELECT k, v FROM tag ORDER BY k COLLATE \"C\"")


def comes(what, seconds=SECONDS):
    """Whether it becomes true in time."""
    until = time.monotonic() + seconds
    while time.monotonic() < until:
        if what():
            return True
        time.sleep(0.05)
    return False


def filled(postgres, server, rows):
    """Runs the transactions, with cuts; what is wrong with the rows after them."""
    cuts = 0
    for at in range(TRANSACTIONS):
        if rows.by.random() < 0.03:
            cuts += 1
            server.do(f"cut {SLOT}" if rows.by.random() < 0.5 else f"cut {SLOT} {rows.by.randint(1, 400)}")
        if at == TRANSACTIONS // 2:
            postgres.restart()
        server.do(*rows.transaction())
    print(f"{TRANSACTIONS} transactions, {cuts} cuts, {len(rows.told())} rows", flush=True)
    due = rows.told()
    return [] if comes(lambda: rows_in(postgres) == due) else ["the tables don't hold the rows of the script"]


def clocks(postgres):
    """What is wrong with the times that PostgreSQL shows of the subscription: those of the server's clock, which is its own one."""
    near = "now() - last_msg_send_time BETWEEN '-1 s' AND '1 min' AND last_msg_receipt_time - last_msg_send_time BETWEEN '-1 s' AND '1 min'"
    asked = f"SELECT {near} AND now() - latest_end_time BETWEEN '-1 s' AND '1 min' FROM pg_stat_subscription WHERE subname = '{SLOT}' AND pid IS NOT NULL"
    return [] if comes(lambda: postgres.ask(asked) == ["t"]) else ["pg_stat_subscription doesn't show the times of the server"]


def commands(postgres, server, rows):
    """What is wrong with the other commands of a subscription."""
    postgres.ask("ALTER SUBSCRIPTION s REFRESH PUBLICATION WITH (copy_data = false)", "ALTER SUBSCRIPTION s DISABLE")
    server.do(*rows.transaction(), "begin T", "truncate T public.item public.tag", "insert T public.item (1,'ab',7)", "commit T 5")
    postgres.ask("ALTER SUBSCRIPTION s ENABLE")
    wrong = ["what came while it was disabled doesn't come"] * (not comes(lambda: rows_in(postgres) == ["1|ab|7"]))
    postgres.ask("DROP SUBSCRIPTION s")
    [dropped] = server.tell("await s 0/0")
    return wrong + ["the slot is there still"] * dropped.startswith("ok")


def run(pubd, seed):
    rows = Rows(seed)
    with Cluster() as postgres, Driven(pubd) as server:
        connection = f"host=127.0.0.1 port={server.port} user=u dbname=app"
        postgres.ask(*TABLES, f"CREATE SUBSCRIPTION {SLOT} CONNECTION '{connection}' PUBLICATION p, t WITH (copy_data = false)")
        wrong = filled(postgres, server, rows) or clocks(postgres) or commands(postgres, server, rows)
        return wrong + server.end()


def main_of(run, *usual):
    """Runs it with the numbers of the command line, or the usual ones, and tells what is wrong."""
    end_by_signals()
    if not is_installed():
        print("left out, for want of PostgreSQL's server")
        return
    given = [int(word) for word in sys.argv[2:]]
    wrong = run(sys.argv[1], *given, *usual[len(given) :])
    print(*wrong or ["got what is due"], sep="\n")
    sys.exit(bool(wrong))


if __name__ == "__main__":
    main_of(run, 1)
