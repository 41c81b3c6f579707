"""A running pubd, with a script."""
import os
import pathlib
import re
import shutil
import subprocess
import tempfile
import threading
import time

CONFIGURATION = pathlib.Path(__file__).resolve().parent.parent.parent / "crates" / "pubd" / "data" / "sample.toml"
SECONDS = 300
# Where the log begins.
FIRST = 0x1000000
OF_CONNECTIONS = "pubd: a connection ", "pubd: connection "
# What is told at info of a connection that begins: from where it comes.
BEGUN = re.compile(r"pubd: connection \d+ from 127\.0\.0\.1:\d+$")
# What is told of streams that wait, and how often hangs on the moment.
WAITED = ": L2: ", "further refusals", "chunks are free"
# Who has no other threads, and whose number of them can be limited.
NOBODY = 65534


def inserts(rows, each=1, name="ab"):
    """The lines of transactions of so many rows each, the k-th row being (k, name, 7)."""
    for first in range(1, rows + 1, each):
        yield "begin T"
        for k in range(first, first + each):
            yield f"insert T public.item ({k},'{name}',7)"
        yield f"commit T {first}"


def printed_of_inserts(count):
    """What subcat prints of so many transactions, each of one insert, which takes 48 bytes of the log, and its Commit 32."""
    lines = []
    for k in range(1, count + 1):
        start = FIRST + 80 * k - 32
        commit, end = (f"{at >> 32:X}/{at & 0xFFFFFFFF:X}" for at in (start, start + 32))
        lines.append(f"BEGIN {699 + k} {commit} {k}")
        lines += ["RELATION 16384 public.item d id:23* name:25 qty:20"] * (k == 1)
        lines += [f"INSERT 16384 N('{k}','ab','7')", f"COMMIT {commit} {end} {k}"]
    return "".join(f"{line}\n" for line in lines)


def messages(count):
    """The lines of so many transactions of one insert and one message, each with a note after it."""
    for k in range(1, count + 1):
        yield from ("begin T", f"insert T public.item ({k},'ab',7)", f"message T 'p' '{k:03}'", f"commit T {k}", f"note 'q' '{k:03}'")


def printed_of_messages(count):
    """What subcat prints of them, which asks for messages: the insert takes 48 bytes of the log, and each of the others 32."""
    lines = []
    for k in range(1, count + 1):
        first = FIRST + 144 * (k - 1)
        message, commit, end = (f"{at >> 32:X}/{at & 0xFFFFFFFF:X}" for at in (first + 48, first + 80, first + 112))
        content = f"{k:03}".encode().hex()
        lines.append(f"BEGIN {699 + k} {commit} {k}")
        lines += ["RELATION 16384 public.item d id:23* name:25 qty:20"] * (k == 1)
        lines += [f"INSERT 16384 N('{k}','ab','7')", f"MESSAGE 1 {message} 'p' {content}", f"COMMIT {commit} {end} {k}"]
        lines.append(f"MESSAGE 0 {end} 'q' {content}")
    return "".join(f"{line}\n" for line in lines)


class Server:
    """pubd, which serves so many connections, and runs the script once so many streams have begun, or several beside one another.
    What it says of connections, how they ended and which it couldn't take, is said apart."""

    def __init__(self, pubd, connections, lines=(), awaited=0, more=(), user=None, host="127.0.0.1", scripts=(), port=0, configuration=CONFIGURATION):
        self.folder = tempfile.TemporaryDirectory()
        self.script = pathlib.Path(self.folder.name) / "script"
        files = [self.script, *(self.script.with_name(f"script{at}") for at in range(1, len(scripts)))]
        for file, each in zip(files, scripts or [lines]):
            file.write_text("".join(line + "\n" for line in each))
        words = [*more, "--await-streams", str(awaited), configuration, f"{host}:{port}", str(connections), *files]
        if user is not None:
            pubd, words = self.opened_to(user, pubd, words)
        self.process = subprocess.Popen([pubd, *words], stdout=subprocess.PIPE, stderr=subprocess.PIPE, text=True, user=user)
        self.user = user
        self.watch = threading.Timer(SECONDS, self.process.kill)
        self.watch.start()
        self.port = int(self.process.stdout.readline().rpartition(":")[2])

    def __enter__(self):
        return self

    def __exit__(self, *raised):
        if raised[0]:
            self.process.kill()
        self.watch.cancel()
        self.process.stderr.close()
        self.folder.cleanup()

    def opened_to(self, user, pubd, words):
        """The same program and its files, where this user can read them."""
        folder = pathlib.Path(self.folder.name)
        shutil.copy(pubd, folder / "pubd")
        shutil.copy(CONFIGURATION, folder / "configuration")
        os.chmod(folder, 0o755)
        return folder / "pubd", [folder / "configuration" if word == CONFIGURATION else word for word in words]

    def limit(self, what, most):
        """From now on it has at most so many of what a limit counts: `nofile` or `nproc`. Its own user sets that."""
        words = ["prlimit", "--pid", str(self.process.pid), f"--{what}={most}:"]
        subprocess.run(words, user=self.user, check=True)

    def peak(self):
        """The most memory that it has taken so far, in KiB."""
        status = pathlib.Path(f"/proc/{self.process.pid}/status").read_text()
        return int(next(line.split()[1] for line in status.splitlines() if line.startswith("VmHWM")))

    def threads(self):
        return len(list(pathlib.Path(f"/proc/{self.process.pid}/task").iterdir()))

    def comes_to(self, threads):
        """Whether it soon has so many threads: those of a connection that was broken off take a moment to end."""
        for _ in range(1000):
            if self.threads() == threads:
                return True
            time.sleep(0.01)
        return False

    def end(self, refused=(), ended=None, waited=False):
        """Waits until it ends, and answers what is wrong with that; these lines of its script are due to be refused, and these of its
        connections are due, in any order, if it is told which. Where streams have waited for a slot or for chunks, lines that tell so are passed over."""
        status = self.process.wait()
        lines = self.process.stderr.read().splitlines()
        said = [line for line in lines if not line.startswith(OF_CONNECTIONS)]
        self.begun = [line for line in lines if BEGUN.match(line)]
        told = [line for line in lines if line.startswith(OF_CONNECTIONS) and line not in self.begun]
        told = sorted(line for line in told if not (waited and any(word in line for word in WAITED)))
        due = told if ended is None else sorted(ended)
        wrong = [f"pubd ended with status {status}"] * bool(status)
        wrong += [f"pubd said {said}, and not {list(refused)}"] * (said != list(refused))
        return wrong + [f"pubd said {told}, and not {due}"] * (told != due)
