"""Copies of subcat that print JSON into files, and whether these have what was committed."""
import json
import signal
import subprocess
import time

PUBLICATIONS = "p,t", "p", "t"
TABLES = {"p": "item", "t": "tag"}
# How long one is stopped, at most.
STOPPED = 4


class Follower:
    def __init__(self, subcat, server, room, number):
        self.slot, self.publications = f"s{number}", PUBLICATIONS[number % len(PUBLICATIONS)]
        self.file, self.said = room / f"{self.slot}.json", open(room / f"{self.slot}.said", "w")
        words = ["--create", "--follow", "--json", "--user", "u", "--password-file", server.password, "--output", self.file]
        self.command = [subcat, *words, f"127.0.0.1:{server.port}", self.slot, "0/0", self.publications, str(2**32 - 1)]
        self.until, self.taken, self.at = 0, 0, 0
        self.first = len(server.committed)
        self.begin()

    def begin(self):
        self.process = subprocess.Popen(self.command, stdout=subprocess.DEVNULL, stderr=self.said)

    def kill(self):
        self.process.kill()
        self.process.wait()

    def stop(self, by):
        self.process.send_signal(signal.SIGSTOP)
        self.until = time.monotonic() + by.uniform(0, STOPPED)

    def tend(self):
        """Goes on, or is begun again."""
        if self.until and self.until < time.monotonic():
            self.process.send_signal(signal.SIGCONT)
            self.until = 0
        if self.process.poll() is not None:
            self.begin()

    def read(self):
        """The ends of the transactions that its file has more of, each with its changes."""
        with open(self.file, "rb") as file:
            file.seek(self.at)
            text = file.read()
        whole = text.rfind(b'{"action":"C"')
        whole = text.find(b"\n", whole) + 1 if whole >= 0 else 0
        self.at += whole
        found, changes = [], []
        for line in text[:whole].splitlines():
            each = json.loads(line)
            if each["action"] == "C":
                found.append(changes)
                changes = []
            elif each["action"] != "B":
                changes.append(each)
        return found


class Followers:
    def __init__(self, subcat, server, room, count):
        self.server, self.held = server, []
        self.each = [Follower(subcat, server, room, at) for at in range(count)]
        until = time.monotonic() + 60
        while not all(self.is_there(one) for one in self.each) and time.monotonic() < until:
            time.sleep(0.1)

    def is_there(self, one):
        [answer] = self.server.tell(f"await {one.slot} stream 1")
        return answer.startswith("ok")

    def slots(self):
        return [one.slot for one in self.each]

    def kill(self, by):
        by.choice(self.each).kill()

    def stop(self, by):
        by.choice(self.each).stop(by)

    def tend(self):
        """What is wrong with what came meanwhile."""
        wrong = []
        for one in self.each:
            one.tend()
            wrong += self.compared(one)
        return wrong

    def compared(self, one):
        """Each transaction of which something is published comes once, in order, with as many changes."""
        if not one.file.exists():
            return []
        for changes in one.read():
            due = []
            while not due:
                if one.first == len(self.server.committed):
                    return [f"{one.slot} has {len(changes)} changes that nobody committed"]
                due = published(self.server.committed[one.first][0], one.publications)
                one.first += 1
            if due != [told(each) for each in changes]:
                return [f"{one.slot} has {changes}, and {due} was committed"]
            one.taken += 1
        return []

    def finish(self, patience):
        """What is wrong once all of them should have all."""
        until, wrong = time.monotonic() + patience, []
        while time.monotonic() < until and not wrong and any(self.left(one) for one in self.each):
            wrong = self.tend()
            time.sleep(0.2)
        wrong += [f"{one.slot} lacks the last transactions" for one in self.each if self.left(one)]
        for one in self.each:
            one.process.send_signal(signal.SIGCONT)
            one.kill()
            one.said.close()
        return wrong

    def taken(self):
        return sum(one.taken for one in self.each)

    def left(self, one):
        return any(published(lines, one.publications) for lines, _ in self.server.committed[one.first :])


def standing(lines):
    """The lines of a transaction that were not rolled back."""
    kept, marks = [], []
    for line in lines:
        word = line.split(" ", 1)[0]
        if word == "savepoint":
            marks.append(len(kept))
        elif word == "rollback":
            del kept[marks.pop() :]
        elif word == "release":
            marks.pop()
        elif word in ("insert", "update", "delete", "truncate"):
            kept.append(line)
    return kept


def published(lines, publications):
    """What a follower gets of it: the word and the table of each change."""
    tables = [TABLES[name] for name in publications.split(",")]
    made = []
    for line in standing(lines):
        word, _, rest = line.split(" ", 2)
        named = rest.split(" ") if word == "truncate" else rest.split(" ", 1)[:1]
        made += [(word, each) for each in (name.partition(".")[2] for name in named) if each in tables]
    return made


def told(change):
    words = {"I": "insert", "U": "update", "D": "delete", "T": "truncate"}
    return words[change["action"]], change["table"]
