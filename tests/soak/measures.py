"""What the server takes, minute by minute."""
import pathlib
import re
import time
import urllib.request

# By how much each may grow after the first part of the time.
PART, FACTOR = 0.2, 1.5


class Measures:
    def __init__(self, server, minutes):
        self.server, self.begun, self.next = server, time.monotonic(), 60
        self.early, self.seconds = None, 60 * minutes
        print(f"{'min':>4} {'commits':>9} {'lag, s':>7} {'MiB':>6} {'files':>6} {'threads':>8}", flush=True)

    def look(self, committed):
        """A line a minute."""
        passed = time.monotonic() - self.begun
        if self.early is None and passed >= PART * self.seconds:
            self.early = self.taken()
        if passed < self.next:
            return
        self.next += 60
        memory, files, threads = self.taken()
        lag = self.lag()
        print(f"{passed / 60:4.0f} {len(committed):9} {lag:7.1f} {memory / 1024:6.1f} {files:6} {threads:8}", flush=True)

    def taken(self):
        """KiB of memory, open files and threads."""
        process = pathlib.Path(f"/proc/{self.server.process.pid}")
        memory = int(re.search(r"VmRSS:\s+(\d+)", (process / "status").read_text())[1])
        return memory, len(list((process / "fd").iterdir())), len(list((process / "task").iterdir()))

    def lag(self):
        """The worst of a slot that isn't lost."""
        with urllib.request.urlopen(f"http://127.0.0.1:{self.server.page}/metrics", timeout=10) as page:
            text = page.read().decode()
        behind = dict(re.findall(r'pubd_slot_behind_seconds\{slot="(\w+)"\} ([\d.]+)', text))
        lost = set(re.findall(r'pubd_slot_lost\{slot="(\w+)"\} 1', text))
        return max([float(seconds) for slot, seconds in behind.items() if slot not in lost and slot != "idle"], default=0)

    def grown(self):
        """What has grown without end."""
        names = "memory in KiB", "open files", "threads"
        early, late = self.early or self.taken(), self.taken()
        return [f"{name}: {first} at first, {last} at last" for name, first, last in zip(names, early, late) if last > FACTOR * first]
