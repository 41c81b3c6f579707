"""A pubd that a test drives line by line, in one file to copy.

    with Publisher("pubd", "pubd.toml") as publisher:
        connect(publisher.port)
        publisher.say("begin T")
        publisher.say("insert T public.item (1,'ab',7)")
        end = publisher.say("commit T")            # '0/1000050', where the transaction ends
        publisher.say("await s stream 5")          # until a client streams from the slot s, for five seconds at most
        publisher.say(f"await s {end} 5")          # until s is confirmed there
        publisher.say("cut s 100")                 # its connection, after 100 more bytes

Each line is done before `say` returns, so a test decides what commits, and when, beside what its consumer does. The publisher ends
with its input, so nothing of it stays where the test ends. Another one at the same port is `Publisher(.., port=publisher.port)`.
"""
import subprocess


class Refused(Exception):
    """A line that pubd refuses: its code, and why."""

    def __init__(self, code, words, line):
        super().__init__(f"{code} {words}: {line}")
        self.code = code


class Publisher:
    def __init__(self, pubd, configuration, connections="forever", options=(), port=0, errors=None, apart=False):
        """Set apart, it doesn't hear the ctrl-C of the terminal."""
        words = [pubd, *options, configuration, f"127.0.0.1:{port}", str(connections), "-"]
        pipes = {"stdin": subprocess.PIPE, "stdout": subprocess.PIPE, "stderr": errors}
        self.process = subprocess.Popen(words, **pipes, text=True, bufsize=1, start_new_session=apart)
        self.port = self.port_told()
        self.status_port = self.port_told() if "--status" in options else None

    def port_told(self):
        return int(self.process.stdout.readline().rpartition(":")[2])

    def say(self, line):
        """Has pubd do a line, and answers where a commit ends. An empty line and a comment have no answer."""
        print(line, file=self.process.stdin)
        if not line or line.startswith("#"):
            return None
        return self.answer(line)

    def answer(self, line):
        """What pubd says to a line that it was told."""
        word, _, rest = self.process.stdout.readline().rstrip("\n").partition(" ")
        if word != "ok":
            raise Refused(word, rest, line)
        return rest or None

    def commit(self, *lines, time=None):
        """A transaction with these lines, which leave out its name: `insert public.item (1,'ab',7)`, `savepoint`. Without a time it is
        the clock's."""
        self.say("begin T")
        for line in lines:
            word, blank, rest = line.partition(" ")
            self.say(f"{word} T{blank}{rest}")
        return self.say("commit T" if time is None else f"commit T {time}")

    def end(self):
        """Ends it in order: its streams get what is left and CopyDone, and it waits until their clients have ended their sides, for ten
        seconds at most. Answers its exit status."""
        self.say("end")
        return self.process.wait()

    def __enter__(self):
        return self

    def __exit__(self, *raised):
        self.process.kill()
        self.process.communicate()
