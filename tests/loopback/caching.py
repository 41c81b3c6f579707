"""What cache_service holds over lost connections. Each case answers what is wrong, a line each."""
import pathlib
import random
import subprocess
import tempfile

from cutting import Cutting
from resuming import ASKING
from server import Server, inserts
from systems import another_system

CONNECTIONS = 1000
TRANSACTIONS, CUTS = 400, 40
# How many bytes of a stream pass before a cut, at most.
STREAMING = 5000
# One byte more than an update sends again where the text is unchanged.
LONG = "a" * 2001
ITEM, TAG = 16384, 16385
TABLES = f"""
[server]
systemid = "42"
records = 65536
chunks = 64

[[table]]
oid = {ITEM}
schema = "public"
name = "item"
key = ["id"]
columns = [["id", "int4"], ["name", "text"], ["qty", "int8"]]

[[table]]
oid = {TAG}
schema = "public"
name = "tag"
identity = "full"
key = ["k"]
columns = [["k", "text"], ["v", "int4"]]

[[publication]]
name = "p"
all_tables = true

[[publication]]
name = "tags"
tables = [{{ name = "public.tag" }}]
"""
NAMES = {ITEM: "public.item", TAG: "public.tag"}


class Tables:
    """What is in two tables, and the lines that put it there."""

    def __init__(self, draw):
        self.draw, self.rows, self.lines = draw, {ITEM: {}, TAG: {}}, []

    def transaction(self):
        """One that is committed, or one that is aborted, before it; some changes of both are rolled back."""
        if self.draw.random() < 0.1:
            self.within(lambda: self.lines.append("abort T"), is_kept=False)
        self.within(lambda: self.lines.append("commit T 5"), is_kept=True)

    def within(self, end, is_kept):
        before = self.copy()
        self.lines.append("begin T")
        self.change()
        if self.draw.random() < 0.2:
            kept = self.copy()
            self.lines.append("savepoint T")
            self.changes()
            self.lines.append("rollback T 1")
            self.rows = kept
        self.changes()
        end()
        if not is_kept:
            self.rows = before

    def copy(self):
        return {table: dict(rows) for table, rows in self.rows.items()}

    def changes(self):
        for _ in range(self.draw.randrange(3)):
            self.change()

    def change(self):
        table = self.draw.choice([ITEM, TAG])
        rows = self.rows[table]
        does = self.draw.random()
        if does < 0.01:
            self.lines.append(f"truncate T {NAMES[table]}")
            rows.clear()
        elif not rows or does < 0.5:
            key = self.unused(rows)
            rows[key] = self.row(table, key)
            self.lines.append(f"insert T {NAMES[table]} ({told(rows[key])})")
        elif does < 0.85:
            self.update(table, rows, self.draw.choice(sorted(rows)))
        else:
            key = self.draw.choice(sorted(rows))
            row = rows.pop(key)
            self.lines.append(f"delete T {NAMES[table]} ({told(row[:1])})")

    def update(self, table, rows, key):
        """Half of them give the row another key; its text is often left as it is."""
        old = rows.pop(key)
        key = self.unused(rows) if self.draw.random() < 0.5 else key
        new = self.row(table, key)
        if table == ITEM and self.draw.random() < 0.5:
            new[1] = old[1]
        rows[key] = new
        self.lines.append(f"update T {NAMES[table]} ({told(old[:1])}) ({told(new)})")

    def unused(self, rows):
        return self.draw.choice([key for key in range(1, 400) if key not in rows])

    def row(self, table, key):
        number = self.draw.choice([None, self.draw.randrange(-9, 9)])
        if table == ITEM:
            return [key, self.draw.choice([None, "", "ab", LONG]), number]
        return [f"k{key}", number]


def told(values):
    """As a script writes them."""
    return ",".join("null" if value is None else f"'{value}'" if isinstance(value, str) else str(value) for value in values)


def printed(tables):
    """What a cache prints of them, in the order of the lines."""
    values = [(table, row) for table, rows in tables.rows.items() for row in rows.values()]
    return sorted(f"{table} [{', '.join(map(shown, row))}]" for table, row in values)


def shown(value):
    return "None" if value is None else f'Some("{value}")'


def a_cache_holds_what_was_committed(pubd, cache):
    """400 transactions over 40 cuts: inserts, updates with and without another key, deletes, truncates, texts that aren't sent again."""
    draw = random.Random(17)
    tables = Tables(draw)
    for _ in range(TRANSACTIONS):
        tables.transaction()
    with tempfile.TemporaryDirectory() as folder:
        configuration = pathlib.Path(folder) / "configuration"
        configuration.write_text(TABLES)
        with (
            Server(pubd, CONNECTIONS, tables.lines, awaited=1, configuration=configuration) as server,
            Cutting(server.port, CUTS, some_bytes, draw) as proxy,
        ):
            words = [cache, f"127.0.0.1:{proxy.port}", "cache", "p", str(TRANSACTIONS)]
            ran = subprocess.run(words, capture_output=True, text=True, timeout=120)
            server.process.kill()
    lines, due = sorted(ran.stdout.splitlines()), printed(tables)
    wrong = [f"it ends with {ran.returncode}, and says {ran.stderr!r}"] * bool(ran.returncode)
    wrong += [f"it lacks {line}" for line in due if line not in lines] + [f"it has {line}" for line in lines if line not in due]
    wrong += ["it holds too few rows to tell"] * (len(due) < 20) + ["a row stands twice"] * (len(lines) != len(set(lines)))
    return wrong + [f"{proxy.left} cuts didn't come"] * bool(proxy.left)


def some_bytes(draw):
    """Before how many bytes a connection is cut: some while it asks for its stream."""
    return draw.randrange(ASKING) if draw.random() < 0.1 else ASKING + draw.randrange(STREAMING)


def another_system_is_refused_by_a_cache(pubd, cache):
    """A server that takes the place of the one before, once the cache has acknowledged a transaction of that, and is another system."""
    lines = [*inserts(1), "await s 0/1000050", "end"]
    with tempfile.TemporaryDirectory() as folder:
        with Server(pubd, "forever", lines, awaited=1) as server:
            port = server.port
            words = [cache, f"127.0.0.1:{port}", "s", "p", "9"]
            follower = subprocess.Popen(words, stdout=subprocess.PIPE, stderr=subprocess.PIPE, text=True)
            wrong = server.end([f"{server.script} 4 ok"])
        with Server(pubd, 9, port=port, configuration=another_system(folder, "43")) as server:
            said = follower.communicate(timeout=60)[1]
            server.process.kill()
    refused = follower.returncode == 1 and "K7: the server is system 43" in said
    return wrong + [f"it ends with {follower.returncode}, and says {said!r}"] * (not refused)


def a_cache_holds_up_nothing_that_it_is_not_sent(pubd, cache):
    """Its slot is confirmed past a transaction of which nothing is published, once it is asked after that was read."""
    lines = ["begin T", "insert T public.item (1,'ab',7)", "commit T 1", "ask s", "await s 0/1000050 1", "ask s", "await s 0/1000050 30"]
    lines += ["begin T", "insert T public.tag ('k',1)", "commit T 2"]
    with tempfile.TemporaryDirectory() as folder:
        configuration = pathlib.Path(folder) / "configuration"
        configuration.write_text(TABLES)
        with Server(pubd, 1, lines, awaited=1, configuration=configuration) as server:
            words = [cache, f"127.0.0.1:{server.port}", "s", "tags", "1"]
            ran = subprocess.run(words, capture_output=True, text=True, timeout=60)
            server.process.wait()
            told = server.process.stderr.read()
    wrong = [f"it ends with {ran.returncode}, and prints {ran.stdout!r}"] * (ran.returncode != 0 or ran.stdout != f'{TAG} [Some("k"), Some("1")]\n')
    return wrong + [f"its slot stays back: {told}"] * (f"{server.script} 7 ok" not in told)
