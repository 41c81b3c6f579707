"""What a server keeps in a folder, over kills of it and losses of what its disk didn't have. Each case answers what is wrong, a line
each."""
import os
import pathlib
import random
import subprocess
import sys
import tempfile
import threading
import time

from connection import Connection, Refused, position, status
from json_lines import shown
from lasting_files import entries_of, inspected
from server import CONFIGURATION, OF_CONNECTIONS

sys.path.insert(0, str(pathlib.Path(__file__).resolve().parent.parent.parent / "examples" / "driven"))
from driven import Publisher

# How often a server is killed: so often, unless it is told.
KILLS = int(os.environ.get("KILLS", "12"))
# Sessions, the transactions of each in a run, and the rows of each of these.
SESSIONS, EACH, ROWS = 4, 150, 3
# How many lines of a script there are of a transaction.
LINES = ROWS + 3
# As many records as all runs write.
RECORDS = SESSIONS * EACH * (ROWS + 1) * (KILLS + 3)
# For how many seconds answers are awaited, and at most between the last of them and a kill, and until a kill of a server that starts.
PATIENCE, MOMENT, START = 30, 0.03, 0.04


def is_committed(number):
    """Each fifth transaction is aborted."""
    return number % 5 != 4


def keys_of(number):
    return [ROWS * number + at for at in range(ROWS)]


def lines_of(number):
    """The lines of a transaction, which commits at the time that is its number."""
    rows = [f"insert T public.item ({key},'ab',7)" for key in keys_of(number)]
    return ["begin T", *rows, f"commit T {number}" if is_committed(number) else "abort T"]


class Run:
    """A server that goes on by a folder, and four sessions: one on its standard input, and three scripts. In those a line that steers is
    told after each transaction, so it is known that it was answered."""

    def __init__(self, pubd, place, first, options):
        """Its transactions have the numbers from this one on."""
        self.numbers = [range(at, at + EACH) for at in range(first, first + SESSIONS * EACH, EACH)]
        self.scripts = {}
        for at, numbers in enumerate(self.numbers[1:], 1):
            script = place / f"script{at}"
            script.write_text("".join(f"{line}\n" for number in numbers for line in [*lines_of(number), "resume a"]))
            self.scripts[str(script)] = numbers
        words = [pubd, "--data", place / "data", *options, place / "configuration", "127.0.0.1:0", "forever", "-", *self.scripts]
        pipes = {"stdin": subprocess.PIPE, "stdout": subprocess.PIPE, "stderr": subprocess.PIPE}
        self.process = subprocess.Popen(words, **pipes, text=True)
        # What was answered, and where it ends where that was told.
        self.answered, self.ends, self.wrong = set(), {}, []

    def begin(self):
        listening = self.process.stdout.readline()
        if not listening:
            raise AssertionError(f"it doesn't start: {self.process.communicate()}")
        self.port = int(listening.rpartition(":")[2])
        self.hearers = [threading.Thread(target=hear) for hear in (self.hear_input, self.hear_scripts)]
        for hearer in self.hearers:
            hearer.start()
        self.process.stdin.write("".join(f"{line}\n" for number in self.numbers[0] for line in lines_of(number)))
        self.process.stdin.flush()

    def hear_input(self):
        """What the standard input's lines are answered, in their order."""
        for number in self.numbers[0]:
            for line in lines_of(number):
                answer = self.process.stdout.readline()
                if not answer.endswith("\n"):
                    return
                word, _, end = answer.rstrip("\n").partition(" ")
                self.wrong += [f"{line!r} of {number} is answered by {answer!r}"] * (word != "ok")
                if word == "ok" and end:
                    self.ends[number] = position(end)
                    self.answered.add(number)

    def hear_scripts(self):
        for told in self.process.stderr:
            script, _, rest = told.rstrip("\n").partition(" ")
            line, _, answer = rest.partition(" ")
            if script in self.scripts and answer == "ok":
                number = self.scripts[script][int(line) // LINES - 1]
                self.answered |= {number} if is_committed(number) else set()
            elif not told.startswith(OF_CONNECTIONS):
                self.wrong.append(f"it says {told!r}")

    def kill(self, count, pause):
        """Once so many commits were answered, or all are, and a moment later."""
        due = min(count, sum(is_committed(number) for numbers in self.numbers for number in numbers))
        late = time.monotonic() + PATIENCE
        while len(self.answered) < due and time.monotonic() < late:
            time.sleep(0.001)
        self.wrong += [f"of {due} commits {len(self.answered)} are answered"] * (len(self.answered) < due)
        time.sleep(pause)
        self.process.kill()
        self.process.wait()
        for hearer in self.hearers:
            hearer.join()
        self.close()

    def close(self):
        for pipe in (self.process.stdin, self.process.stdout, self.process.stderr):
            pipe.close()


class Follower:
    """A client that keeps, over its connections, what came and where that ends. It acknowledges each transaction, or one of so many."""

    def __init__(self, slot, each=1):
        self.slot, self.each = slot, each
        # The number of each transaction, its keys, and where it ends.
        self.log, self.position, self.wrong = [], 0, []

    def begin(self, port):
        self.thread = threading.Thread(target=self.follow, args=(port,))
        self.thread.start()

    def follow(self, port, last=None):
        """Until the transaction of this number has come, or the server is killed."""
        try:
            client = Connection(port)
            options = "proto_version '1', publication_names 'p'"
            client.ask(f"START_REPLICATION SLOT {self.slot} LOGICAL {shown(self.position)} ({options})", b"W")
            self.take(client, last)
            client.close()
        except (OSError, EOFError) as ended:
            self.wrong += [f"{self.slot} ends by {ended!r} before {last} came"] * (last is not None)
        except Refused as refused:
            self.wrong.append(f"the stream of {self.slot} from {shown(self.position)} is refused by {refused}")

    def take(self, client, last):
        keys = []
        for message in whole_messages(client):
            if message[:1] == b"B":
                keys = []
            elif message[:1] == b"I":
                keys.append(int(message[13 : 13 + int.from_bytes(message[9:13], "big")]))
            elif message[:1] == b"C":
                number, end = (int.from_bytes(message[at : at + 8], "big") for at in (18, 10))
                self.log.append((number, keys, end))
                self.position = end
                if len(self.log) % self.each == 0:
                    client.socket.sendall(status(end))
                if number == last:
                    return

    def numbers(self):
        return [number for number, _, _ in self.log]


def whole_messages(client):
    """The messages of a stream, but for one that its end cuts."""
    while True:
        head = client.bytes.read(5)
        length = int.from_bytes(head[1:], "big") - 4
        body = client.bytes.read(length) if len(head) == 5 else b""
        if len(head) < 5 or len(body) < length:
            raise EOFError
        if head[:1] + body[:1] == b"dw":
            yield body[25:]


class Kills:
    """A folder whose server is killed again and again: what sessions were answered, and what came to clients. The witness reads all that
    there is right after each start."""

    def __init__(self, pubd, place, draw, options, is_synchronous):
        self.pubd, self.place, self.draw, self.options, self.is_synchronous = pubd, place, draw, options, is_synchronous
        text = CONFIGURATION.read_text()
        assert "records = 65536" in text
        (place / "configuration").write_text(text.replace("records = 65536", f"records = {RECORDS}"))
        self.followers, self.witness = [Follower("a"), Follower("b", each=7)], Follower("w")
        # The first number of the next run.
        self.first = 0
        self.answered, self.ends, self.wrong = set(), {}, []

    def make_slots(self):
        """What there is then is there for good."""
        with Publisher(self.pubd, self.place / "configuration", options=["--data", self.place / "data"]) as publisher:
            client = Connection(publisher.port)
            for each in (*self.followers, self.witness):
                client.create(each.slot)
            client.close()
        self.least = (self.place / "data" / "log").stat().st_size

    def start(self):
        """A server whose log was judged; its sessions are about their work."""
        run = Run(self.pubd, self.place, self.first, self.options)
        run.begin()
        self.witness.follow(run.port, last=self.first)
        self.judge()
        return run

    def kill(self):
        run = self.start()
        for follower in self.followers:
            follower.begin(run.port)
        run.kill(self.draw.randrange(SESSIONS * EACH), self.draw.random() * MOMENT)
        for follower in self.followers:
            follower.thread.join()
        self.take(run)
        if self.draw.randrange(2):
            self.lose()

    def kill_as_it_starts(self):
        run = Run(self.pubd, self.place, self.first, self.options)
        time.sleep(self.draw.random() * START)
        run.process.kill()
        run.process.wait()
        run.close()
        self.take(run)

    def take(self, run):
        self.answered |= run.answered
        self.ends |= run.ends
        self.wrong += run.wrong
        self.first += SESSIONS * EACH

    def lose(self):
        """What a machine that fails may take away: of what was written after the last sync anything, which no one was told of."""
        told = {number for each in (*self.followers, self.witness) for number in each.numbers()}
        told |= self.answered if self.is_synchronous else set()
        log = self.place / "data" / "log"
        content = log.read_bytes()
        entries = entries_of(content)
        ends = [entry.end for entry in entries if entry.commits_at in told]
        least = max([self.least, *ends, *(entry.synced for entry in entries)])
        at = self.draw.randint(least, len(content))
        count = self.draw.randint(0, len(content) - at)
        log.write_bytes(self.draw.choice([content[:at], content[:at] + bytes(count) + content[at + count :]]))

    def judge(self):
        """What is wrong with the log as the witness has it, and with what came to the followers."""
        log, numbers = self.witness.log, self.witness.numbers()
        self.wrong += [f"{number} has the rows {keys}" for number, keys, _ in log if keys != keys_of(number)]
        runs = [number // (SESSIONS * EACH) for number in numbers]
        self.wrong += ["a run's transactions stand after those of a later one"] * (runs != sorted(runs))
        sessions = {}
        for number in numbers:
            sessions.setdefault(number // EACH, []).append(number)
        for session, have in sessions.items():
            due = [number for number in range(session * EACH, (session + 1) * EACH) if is_committed(number)]
            self.wrong += [f"of session {session} there is {have}"] * (have != due[: len(have)])
        lost = sorted(self.answered - set(numbers)) if self.is_synchronous else []
        self.wrong += [f"answered, and not there: {lost}"] * bool(lost)
        self.wrong += [f"{number} ends elsewhere" for number, _, end in log if self.ends.get(number, end) != end]
        for follower in self.followers:
            self.wrong += [f"to {follower.slot} came something else"] * (follower.log != log[: len(follower.log)])

    def end(self):
        """All that there is comes to each follower, and stands in the file in its order."""
        run = self.start()
        for follower in self.followers:
            follower.follow(run.port, last=self.first)
        run.kill(0, 0)
        self.wrong += run.wrong
        for each in (*self.followers, self.witness):
            self.wrong += [f"to {each.slot} came something else"] * (each.log != self.witness.log) + each.wrong
        told = inspected(self.pubd, self.place / "data")
        in_file = [time for time, _ in told.transactions][: len(self.witness.log)]
        self.wrong += [f"the file is told as {told.status} {told.error!r}, or in another order"] * (in_file != self.witness.numbers())


def over_kills(pubd, seed, options, is_synchronous):
    with tempfile.TemporaryDirectory() as folder:
        kills = Kills(pubd, pathlib.Path(folder), random.Random(seed), options, is_synchronous)
        kills.make_slots()
        for number in range(1, KILLS + 1):
            if number % 4 == 0:
                kills.kill_as_it_starts()
            else:
                kills.kill()
            if kills.wrong:
                return [f"by seed {seed}, at kill {number}, {each}" for each in kills.wrong[:10]]
        kills.end()
        return [f"by seed {seed}, {each}" for each in kills.wrong[:10]]


def kills_lose_nothing_that_was_answered(pubd, subcat):
    """Four sessions and two followers: what was answered is there, nothing is half, and each follower has each transaction once."""
    return over_kills(pubd, 31, [], is_synchronous=True)


def kills_leave_a_beginning_of_what_was_answered_from_memory(pubd, subcat):
    """The same where commits don't wait: of each session a beginning is there, and a follower has nothing that isn't."""
    return over_kills(pubd, 32, ["--synchronous-commit", "off"], is_synchronous=False)
