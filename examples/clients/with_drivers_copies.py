"""Copies of drivers, psycopg2 and pgx: with_drivers_copies.py PUBD

Each copies a table while transactions commit, and then follows it, by `copy_with_psycopg2.py` and `copy_with_pgx.go`. Each row has to
come once, in the copy or in the stream."""
import os
import pathlib
import shutil
import struct
import subprocess
import sys
import tempfile
import threading
import time

from driven import Driven

HERE = pathlib.Path(__file__).resolve().parent
GO_SOURCES = pathlib.Path("/usr/share/gocode")
ROWS, SECONDS = 2000, 120
# How long a session waits after each commit, while a driver copies.
PAUSE = 0.001


def psycopg2(folder):
    try:
        import psycopg2 as _
    except ImportError:
        return None
    return [sys.executable, "-B", HERE / "copy_with_psycopg2.py"]


def pgx(folder):
    if not shutil.which("go") or not (GO_SOURCES / "src/github.com/jackc/pgx/v4").exists():
        return None
    program = folder / "copy_with_pgx"
    env = os.environ | {"GO111MODULE": "off", "GOPATH": str(GO_SOURCES), "GOCACHE": str(folder)}
    subprocess.run(["go", "build", "-o", program, HERE / "copy_with_pgx.go"], check=True, env=env)
    return [program]


def key_of(line):
    """The key of the row that a line tells."""
    word, rest = line.split(" ", 1)
    if word == "row":
        return int(rest.split("\t")[0])
    body = bytes.fromhex(rest)
    (length,) = struct.unpack(">I", body[9:13])
    return int(body[13 : 13 + length])


def wrong_of(pubd, command):
    """What is wrong with what a driver told."""
    with Driven(pubd) as server:
        begun = threading.Event()

        def commit():
            for key in range(1, ROWS + 1):
                server.do("begin T", f"insert T public.item ({key},'ab',7)", "commit T")
                if key >= ROWS // 4:
                    begun.set()
                    time.sleep(PAUSE)

        worker = threading.Thread(target=commit)
        worker.start()
        begun.wait()
        ran = subprocess.run([*command, "127.0.0.1", str(server.port), str(ROWS)], capture_output=True, text=True, timeout=SECONDS)
        worker.join()
    if ran.returncode:
        return [f"it ends with {ran.returncode}: {ran.stderr.strip()}"]
    lines = ran.stdout.splitlines()
    copied = sum(line.startswith("row ") for line in lines)
    print(f"{copied} rows are copied, and {len(lines) - copied} come after them")
    keys = [key_of(line) for line in lines]
    return ["rows are missing, or come twice"] * (sorted(keys) != list(range(1, ROWS + 1))) + ["no row is copied"] * (not copied)


def main():
    wrong, count = [], 0
    with tempfile.TemporaryDirectory() as folder:
        for driver in (psycopg2, pgx):
            command = driver(pathlib.Path(folder))
            if command:
                count += 1
                wrong += [f"{driver.__name__}: {each}" for each in wrong_of(sys.argv[1], command)]
    if not count:
        print("left out, for want of drivers")
        return
    print(*wrong or ["got what is due"], sep="\n")
    sys.exit(bool(wrong))


if __name__ == "__main__":
    main()
