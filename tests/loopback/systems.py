"""What subcat --follow does where another server stands in the place of its own, where its output is taken away, and where it is
stopped for a while. Each case answers what is wrong, a line each."""
import os
import pathlib
import signal
import socket
import subprocess
import tempfile
import time

from connection import Connection, framed, read_status, status
from followers import asked_of, server_frames
from server import CONFIGURATION, FIRST, Server, inserts, printed_of_inserts

# What the last frame of the transaction in server_frames confirms.
END = FIRST + 0x50
STREAM_BEGINS = framed("57000000")


def words_of(subcat, port, *more, count):
    return [subcat, "--create", "--follow", *more, f"127.0.0.1:{port}", "s", "0/0", "p", str(count)]


def another_system(folder, name):
    """The configuration of a server that says it is another system."""
    file = pathlib.Path(folder) / f"{name}.toml"
    file.write_text(CONFIGURATION.read_text().replace('systemid = "42"', f'systemid = "{name}"'))
    return file


def refused(words, due):
    """What is wrong unless it ends with the status 1 and this one line."""
    ran = subprocess.run(words, capture_output=True, text=True, timeout=60)
    return [f"it ends with {ran.returncode}, and says {ran.stderr!r}"] * (ran.returncode != 1 or ran.stderr != due)


def another_system_is_refused_by_an_output(pubd, subcat):
    """A file keeps which system it is of; one from before takes the first, and so does one that holds no transaction."""
    wrong = []
    with tempfile.TemporaryDirectory() as folder:
        output, beside = pathlib.Path(folder) / "output", pathlib.Path(folder) / "output.system"
        other = another_system(folder, "43")
        with Server(pubd, 2, inserts(3), awaited=1) as server:
            subprocess.run(words_of(subcat, server.port, "--output", output, count=3), check=True, timeout=60)
            server.process.kill()
        wrong += [f"of its system it keeps {beside.read_text()!r}"] * (beside.read_text() != "42\n")
        told = "subcat: K7: the server is system 43, and what was printed before is of system 42\n"
        with Server(pubd, 2, inserts(9), awaited=1, configuration=other) as server:
            wrong += refused(words_of(subcat, server.port, "--output", output, count=9), told)
            wrong += ["the file isn't as it was"] * ((output.read_text(), beside.read_text()) != (printed_of_inserts(3), "42\n"))
            server.process.kill()
        for name, left in ("from before", printed_of_inserts(3)), ("without a transaction", printed_of_inserts(1)[:9]):
            output.write_text(left)
            beside.unlink() if name == "from before" else beside.write_text("42\n")
            with Server(pubd, 2, inserts(5), awaited=1, configuration=other, more=["--allow-start-ahead"]) as server:
                ended = subprocess.run(words_of(subcat, server.port, "--output", output, count=5), timeout=60).returncode
                server.process.kill()
            wrong += [f"a file {name} ends it with {ended}"] * bool(ended)
            lines = [line for line in output.read_text().splitlines() if not line.startswith("RELATION ")]
            due = [line for line in printed_of_inserts(5).splitlines() if not line.startswith("RELATION ")]
            wrong += [f"a file {name} then holds {lines}"] * (lines != due)
            wrong += [f"a file {name} keeps {beside.read_text()!r}"] * (beside.read_text() != "43\n")
    return wrong


def another_system_is_refused_within_a_run(pubd, subcat):
    """A server that is begun anew, as another system, while it is followed."""
    with tempfile.TemporaryDirectory() as folder:
        with Server(pubd, 2, inserts(2), awaited=1) as server:
            port = server.port
            follower = subprocess.Popen(words_of(subcat, port, count=9), stdout=subprocess.PIPE, stderr=subprocess.PIPE, text=True)
            printed = "".join(follower.stdout.readline() for _ in printed_of_inserts(2).splitlines())
            server.process.kill()
            server.process.wait()
        with Server(pubd, 2, inserts(9), awaited=1, port=port, configuration=another_system(folder, "43")) as server:
            more, said = follower.communicate(timeout=60)
            server.process.kill()
    told = said.splitlines()[-1:]
    wrong = ["it prints something else"] * (printed + more != printed_of_inserts(2))
    wrong += [f"it ends with {follower.returncode}"] * (follower.returncode != 1)
    return wrong + [f"it says {told}"] * (told != ["subcat: K7: the server is system 43, and what was printed before is of system 42"])


def a_system_is_chosen_at_each_start(pubd, subcat):
    """Where it is `random`: a number of 63 bits, and never the same."""
    with tempfile.TemporaryDirectory() as folder:
        said = []
        for _ in range(3):
            with Server(pubd, 1, configuration=another_system(folder, "random")) as server:
                client = Connection(server.port)
                frames = client.ask("IDENTIFY_SYSTEM")
                row = next(body for kind, body in frames if kind == b"D")
                said.append(row[6 : 6 + int.from_bytes(row[2:6], "big")].decode())
                client.close()
                wrong = server.end()
    wrong += [f"the systems are {said}"] * (len(set(said)) < 3)
    return wrong + [f"a system is {each}" for each in said if not each.isdigit() or int(each) >= 2**63]


def a_start_that_lies_ahead_ends_it(pubd, subcat):
    """A server that says it is the same system, and has less than what was printed."""
    with socket.create_server(("127.0.0.1", 0)) as listener:
        words = [word for word in words_of(subcat, listener.getsockname()[1], count=9) if word != "--create"]
        follower = subprocess.Popen(words, stdout=subprocess.DEVNULL, stderr=subprocess.PIPE, text=True)
        client = listener.accept()[0]
        asked_of(client, client.makefile("rb"), server_frames())
        body = b"SERROR\0C55000\0Mthe start lies ahead\0\0"
        client.sendall(framed("45" + body.hex()) + framed("5a49"))
        said = follower.communicate(timeout=60)[1]
        client.close()
    return [f"it ends with {follower.returncode}, and says {said!r}"] * ((follower.returncode, said) != (1, "server: 55000 the start lies ahead\n"))


class Following:
    """A follower of a server that sends a transaction when it is told to."""

    def __init__(self, subcat, *more):
        self.listener = socket.create_server(("127.0.0.1", 0))
        words = words_of(subcat, self.listener.getsockname()[1], *more, count=9)
        words.remove("--create")
        self.process = subprocess.Popen(words, stdout=subprocess.PIPE, stderr=subprocess.PIPE, text=True)
        self.client = self.listener.accept()[0]
        self.heard = self.client.makefile("rb")
        said = server_frames()
        asked_of(self.client, self.heard, said)
        self.transaction = [framed(digits) for digits in said if digits.startswith("6477")]
        self.client.sendall(STREAM_BEGINS)

    def __enter__(self):
        return self

    def __exit__(self, *raised):
        self.process.kill()
        self.process.communicate()
        self.client.close()
        self.listener.close()

    def send(self, end, clock=0):
        """Sends a transaction that ends there, and 32 bytes before it the commit record begins, under this clock."""
        start, due = (end - 32).to_bytes(8, "big"), end.to_bytes(8, "big")
        first, last = (FIRST + 0x30).to_bytes(8, "big"), END.to_bytes(8, "big")
        frames = (frame.replace(last, due).replace(first, start) for frame in self.transaction)
        self.client.sendall(b"".join(frame[:22] + clock.to_bytes(8, "big", signed=True) + frame[30:] for frame in frames))

    def is_acknowledged(self, end):
        return read_status(self.heard) == status(end)


def an_output_that_is_taken_away_ends_it(pubd, subcat):
    """Its file is removed, replaced or renamed: what comes then isn't acknowledged."""
    wrong = []
    for name, take, told in (
        ("removed", lambda output: output.unlink(), "its file was removed"),
        ("replaced", lambda output: output.with_name("new").replace(output), "another file stands in the place of its own"),
        ("renamed", lambda output: output.rename(output.with_name("old")), "its file was removed"),
    ):
        with tempfile.TemporaryDirectory() as folder:
            output = pathlib.Path(folder) / "output"
            output.with_name("new").write_text("")
            with Following(subcat, "--output", output) as following:
                following.send(END)
                wrong += [f"{name}: the first is not acknowledged"] * (not following.is_acknowledged(END))
                take(output)
                following.send(END + 0x50)
                said = following.process.communicate(timeout=60)[1]
                wrong += [f"{name}: what comes then is acknowledged"] * (following.heard.read(39) != b"")
                due = f"subcat: K6: the output cannot be written: {told}\n"
                wrong += [f"{name}: it ends with {following.process.returncode}, and says {said!r}"] * ((following.process.returncode, said) != (1, due))
    return wrong


def a_follower_that_is_stopped_goes_on(pubd, subcat):
    """By SIGSTOP and SIGCONT, while it waits: its connection stays, and nothing is told."""
    wrong = []
    with Following(subcat) as following:
        for turn in range(3):
            following.send(END + 0x50 * turn)
            wrong += ["its connection is lost"] * (not following.is_acknowledged(END + 0x50 * turn))
            time.sleep(0.05)
            following.process.send_signal(signal.SIGSTOP)
            time.sleep(0.05)
            following.process.send_signal(signal.SIGCONT)
        following.process.kill()
        said = following.process.communicate()[1]
    return wrong + [f"it says {said!r}"] * (said != "")


def an_output_that_takes_nothing_for_now_is_written_again(pubd, subcat):
    """A pipe whose writes don't wait, and that is read late."""
    count, wrong = 1500, []
    for more in [], ["--follow"]:
        with Server(pubd, 2, inserts(count), awaited=1) as server:
            reading, writing = os.pipe()
            os.set_blocking(writing, False)
            words = [subcat, "--create", *more, f"127.0.0.1:{server.port}", "s", "0/0", "p", str(count)]
            follower = subprocess.Popen(words, stdout=writing, stderr=subprocess.PIPE, text=True)
            os.close(writing)
            time.sleep(0.3)
            with os.fdopen(reading) as pipe:
                printed = pipe.read()
            said = follower.communicate(timeout=60)[1]
            server.process.kill()
        wrong += [f"{more} ends with {follower.returncode}, and says {said!r}"] * bool(follower.returncode or said)
        wrong += [f"{more} prints something else"] * (printed != printed_of_inserts(count))
    return wrong
