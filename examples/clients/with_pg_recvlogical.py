"""Follows transactions of a running pubd by pg_recvlogical: with_pg_recvlogical.py PUBD

It makes a slot, writes what comes to a file, is ended by a signal, goes on after what it had, and drops the slot.
"""
import pathlib
import shutil
import signal
import subprocess
import sys
import tempfile
import time

from driven import Driven
from groups import end_by_signals

SECONDS = 300
RELATION = (
    "52 00004000 7075626c696300 6974656d00 64 0003 01 696400 00000017 ffffffff"
    "00 6e616d6500 00000019 ffffffff 00 71747900 00000014 ffffffff"
)


def due_of(begin, end, number, key):
    """The messages of a transaction of one insert, each with the line end that pg_recvlogical puts after it."""
    messages = [
        f"42 {begin} 0000000000000005 {number:08x}",
        RELATION,
        f"49 00004000 4e 0003 74 00000001 {key.encode().hex()} 74 00000002 6162 74 00000001 37",
        f"43 00 {begin} {end} 0000000000000005",
    ]
    return b"".join(bytes.fromhex(each.replace(" ", "")) + b"\n" for each in messages)


class Follower:
    def __init__(self, port, folder):
        self.file = folder / "told"
        self.words = ["pg_recvlogical", "-d", f"host=127.0.0.1 port={port} user=u dbname=app", "--slot", "s"]

    def run(self, *words):
        """What it says of a fault."""
        ended = subprocess.run([*self.words, *words], capture_output=True, text=True, timeout=SECONDS)
        return [f"pg_recvlogical {words[0]}: {ended.stderr.strip()}"] * bool(ended.returncode)

    def follow(self, server, key):
        """Begins to follow, has a transaction done, and ends once all of it has come; where it ended, and what came."""
        before = self.file.stat().st_size if self.file.exists() else 0
        options = ["-o", "proto_version=1", "-o", "publication_names=p", "--status-interval", "1", "--fsync-interval", "1"]
        running = subprocess.Popen([*self.words, "--start", *options, "-f", self.file], stderr=subprocess.PIPE)
        end = server.do("begin T", f"insert T public.item ({key},'ab',7)", "commit T 5")
        confirmed = server.do(f"await s {end}") == ""
        running.send_signal(signal.SIGINT)
        running.communicate(timeout=SECONDS)
        return end, self.file.read_bytes()[before:], confirmed


def spelled(position):
    high, low = position.split("/")
    return int(high, 16) << 32 | int(low, 16)


def followed(server, folder):
    """What is wrong, a line each."""
    follower = Follower(server.port, folder)
    wrong = follower.run("--create-slot", "-P", "pgoutput")
    wrong += ["a slot is made twice"] * (not follower.run("--create-slot", "-P", "pgoutput"))
    for number, key in ((700, "1"), (701, "2")):
        end, got, confirmed = follower.follow(server, key)
        at = spelled(end)
        due = due_of(f"{at - 32:016x}", f"{at:016x}", number, key)
        wrong += [f"got {got.hex()}, and not {due.hex()}"] * (got != due)
        wrong += ["what came isn't acknowledged"] * (not confirmed)
    # Nothing comes any more, and it ends all the same, since it is told where the stream is.
    last = ["--start", "-o", "proto_version=1", "-o", "publication_names=p", "-f", folder / "rest", "--endpos", end]
    wrong += follower.run(*last)
    time.sleep(0.5)
    wrong += follower.run("--drop-slot")
    return wrong + ["a slot is dropped twice"] * (not follower.run("--drop-slot"))


def main():
    end_by_signals()
    if not shutil.which("pg_recvlogical"):
        print("left out, for want of pg_recvlogical")
        return
    with tempfile.TemporaryDirectory() as name, Driven(sys.argv[1]) as server:
        wrong = followed(server, pathlib.Path(name)) + server.end()
    print(*wrong or ["got what is due"], sep="\n")
    sys.exit(bool(wrong))


if __name__ == "__main__":
    main()
