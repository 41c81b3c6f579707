"""A pubd that is told its lines one by one."""
import os
import pathlib
import re
import subprocess

from .servers import Failed, Pubd


class Told:
    """A pubd whose script is its standard input. With `heaps` the C library's threads share so many heaps."""

    def __init__(self, program, folder, connections, configuration=Pubd.CONFIGURATION, heaps=None, limits=(), connections_at_once=1000):
        (pathlib.Path(folder) / "pubd.toml").write_text(configuration)
        always = ["--wal-sender-timeout", "0", "--max-connections", str(connections_at_once), "--log-min-messages", "error"]
        words = [program, *always, *limits, "pubd.toml", "127.0.0.1:0", str(connections), "-"]
        shared = {"MALLOC_ARENA_MAX": str(heaps)} if heaps else {}
        pipes = {"stdin": subprocess.PIPE, "stdout": subprocess.PIPE, "text": True}
        self.process = subprocess.Popen(words, cwd=folder, env=os.environ | shared, **pipes)
        self.port = int(self.process.stdout.readline().rpartition(":")[2])

    def tell(self, *lines):
        self.process.stdin.write("".join(line + "\n" for line in lines))
        self.process.stdin.flush()
        for line in lines:
            answer = self.process.stdout.readline()
            if not answer.startswith("ok"):
                raise Failed(f"{line}: {answer.strip()}")

    def insert(self, transaction, numbers):
        """Inserts a row of each number, without a commit."""
        numbers = list(numbers)
        for first in range(0, len(numbers), 500):
            some = numbers[first : first + 500]
            self.tell(*(f"insert {transaction} public.item ({n},'n{n:06}',{10 * n})" for n in some))

    def time_commits(self, readers, count, slot):
        """Microseconds from a commit's line to its subscriber, of each of so many commits."""
        pipes = self.process.stdin.fileno(), self.process.stdout.fileno()
        return readers.time_commits(self.port, count, slot, pipes)

    def own_memory(self):
        """The bytes of memory that it has for itself: the pages of its code and of the C library's aren't counted."""
        return 1024 * int(re.search(r"RssAnon:\s+(\d+)", pathlib.Path(f"/proc/{self.process.pid}/status").read_text())[1])

    def stop(self):
        self.process.kill()
        self.process.wait()
