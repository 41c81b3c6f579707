"""The subscribers, which the program readers.c is."""
import dataclasses
import pathlib
import subprocess

from .servers import Failed

SOURCE = pathlib.Path(__file__).resolve().parent / "readers.c"


@dataclasses.dataclass
class Turn:
    seconds: float
    rows: int
    sizes: set  # of the streams, in bytes

    def __init__(self, lines):
        streams = [line.split() for line in lines]
        self.seconds = max(float(end) for _, end, _, _ in streams) - min(float(begin) for begin, _, _, _ in streams)
        self.rows = sum(int(rows) for _, _, rows, _ in streams)
        self.sizes = {int(size) for _, _, _, size in streams}


class Readers:
    def __init__(self, folder):
        self.program = pathlib.Path(folder) / "readers"
        built = subprocess.run(["cc", "-O2", "-pthread", SOURCE, "-o", self.program], capture_output=True, text=True)
        if built.returncode:
            raise Failed(f"readers.c: {built.stderr[:300]}")

    def run(self, words, **options):
        done = subprocess.run([self.program, *map(str, words)], capture_output=True, text=True, timeout=300, **options)
        if done.returncode:
            raise Failed(done.stderr.strip())
        return done.stdout.splitlines()

    def take(self, port, nap, transactions, slots):
        """The streams of these slots, side by side."""
        return Turn(self.run(["streams", port, nap, transactions, *slots]))

    def time_commits(self, port, count, slot, pipes=()):
        """Microseconds from commit to subscriber, of each commit; through these pipes a pubd is told its lines and answers."""
        words = ["commits", port, count, slot, *(pipes or ["-"])]
        return sorted(map(float, self.run(words, pass_fds=pipes)))
