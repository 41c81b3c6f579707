"""Many streams at once, of a commit a millisecond: what each takes of its server."""
import pathlib
import re
import subprocess
import threading
import time

from .servers import Failed, Postgres, children, create_slots, processor_seconds
from .told import Told

# For how long there is a commit a millisecond.
SECONDS = 3
COMMITS = 1000 * SECONDS


def memory_of(pid):
    """The bytes of memory that a process and its children have for themselves, what they share of it divided among them."""
    try:
        own = int(re.search(r"(?m)^Pss_Anon:\s+(\d+)", pathlib.Path(f"/proc/{pid}/smaps_rollup").read_text())[1]) * 1024
    except (FileNotFoundError, ProcessLookupError):
        return 0
    return own + sum(map(memory_of, children(pid)))


class ToldCrowd(Told):
    """A pubd that serves so many streams."""

    def __init__(self, program, folder, streams):
        more = "--max-wal-senders", "--max-replication-slots"
        super().__init__(program, folder, "forever", limits=[word for each in more for word in (each, str(streams))], connections_at_once=streams + 10)
        self.pid = self.process.pid

    def await_streams(self, slots):
        self.tell(*(f"await {slot} stream 60" for slot in slots))

    def commit_each_millisecond(self):
        answers = threading.Thread(target=lambda: [self.process.stdout.readline() for _ in range(3 * COMMITS)])
        answers.start()
        pace(self.process.stdin, lambda n: f"begin T\ninsert T public.item ({n},'n{n:06}',{10 * n})\ncommit T\n")
        answers.join()


class CrowdedPostgres(Postgres):
    """A PostgreSQL that serves so many streams, each by a process of its own."""

    def __init__(self, programs, folder, streams):
        self.CONFIGURATION += f"max_connections = {streams + 100}\nmax_wal_senders = {streams + 10}\nmax_replication_slots = {streams + 10}\n"
        super().__init__(programs, folder)

    def psql(self, *words, **pipes):
        return subprocess.Popen([self.programs / "psql", "-Xqt", "-h", "127.0.0.1", "-p", str(self.port), "-U", "u", "-d", "app", *words], text=True, **pipes)

    def await_streams(self, slots):
        for _ in range(600):
            told, _ = self.psql("-c", "SELECT count(*) FROM pg_stat_replication WHERE state = 'streaming'", stdout=subprocess.PIPE).communicate()
            if int(told) == len(slots):
                return
            time.sleep(0.1)
        raise Failed("not all streams of PostgreSQL have begun")

    def commit_each_millisecond(self):
        session = self.psql(stdin=subprocess.PIPE, stdout=subprocess.DEVNULL)
        pace(session.stdin, lambda n: f"INSERT INTO item VALUES ({n}, 'n{n:06}', {10 * n});\n")
        session.stdin.close()
        session.wait()


def pace(lines, text_of):
    """Says a text each millisecond."""
    begun = time.monotonic()
    for n in range(1, COMMITS + 1):
        left = begun + n / 1000 - time.monotonic()
        if left > 0:
            time.sleep(left)
        lines.write(text_of(n))
        lines.flush()


def measured(server, readers, streams):
    """A line of what the streams took."""
    slots = [f"s{at}" for at in range(streams)]
    create_slots(server.port, slots)
    before = memory_of(server.pid)
    taking = subprocess.Popen([readers.program, "streams", str(server.port), "0", str(COMMITS), *slots], stdout=subprocess.DEVNULL)
    server.await_streams(slots)
    used, begun = processor_seconds(server.pid), time.monotonic()
    server.commit_each_millisecond()
    made, memory = time.monotonic(), memory_of(server.pid)
    if taking.wait():
        raise Failed("a stream was not taken to its end")
    ended = time.monotonic()
    used = processor_seconds(server.pid) - used
    return (
        f"{COMMITS:,} commits in {made - begun:.1f} s, the last with all subscribers {ended - made:.1f} s later; "
        f"{1e6 * used / COMMITS / streams:.1f} microseconds of a processor for each commit of a stream, {(memory - before) / streams / 1024:,.0f} KiB a stream"
    )
