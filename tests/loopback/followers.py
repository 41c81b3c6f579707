"""What subcat does, beside pubd and beside servers that pubd is not. Each case answers what is wrong, a line each."""
import os
import pathlib
import random
import select
import socket
import struct
import subprocess

from connection import framed, position, read_status, status
from server import FIRST, Server, inserts

HERE = pathlib.Path(__file__).resolve().parent
CONVERSATION = HERE / "conversation.frames"
CONNECTIONS = 1000


def restarts_lose_and_repeat_nothing(pubd, subcat):
    """subcat follows 1,000 transactions; it is ended or killed at random points, and begins again where it was or at 0/0."""
    count, draw = 1000, random.Random(5)
    with Server(pubd, CONNECTIONS, inserts(count), awaited=1) as server:
        rows, at, runs = [], 0, 0
        while len(rows) < count:
            runs += 1
            take = min(draw.randrange(1, 60), count - len(rows))
            kills = len(rows) + take < count and draw.random() < 0.5
            start = draw.choice(["0/0", f"{at >> 32:X}/{at & 0xFFFFFFFF:X}"])
            words = [subcat] + ["--create"] * (runs == 1) + [f"127.0.0.1:{server.port}", "s", start, "p", str(take + 60 * kills)]
            at = follow(words, rows, at, take if kills else None)
        wrong = ["rows are lost, or come twice"] * (rows != [f"INSERT 16384 N('{k}','ab','7')" for k in range(1, count + 1)])
        server.process.kill()
        return wrong


def a_refusal_without_a_reason_is_one_all_the_same(pubd, subcat):
    """A server whose ErrorResponse has neither a code nor a text."""
    with socket.create_server(("127.0.0.1", 0)) as listener:
        words = [subcat, f"127.0.0.1:{listener.getsockname()[1]}", "s", "0/0", "p", "1"]
        follower = subprocess.Popen(words, stdout=subprocess.DEVNULL, stderr=subprocess.PIPE, text=True)
        client = listener.accept()[0]
        client.sendall(b"E" + struct.pack(">I", 12) + b"SERROR\0\0")
        said = follower.communicate(timeout=60)[1]
        client.close()
        return wrong_of(follower.returncode, said, "subcat: K4: ")


def what_a_server_says_is_one_line(pubd, subcat):
    """However long it is, and whatever a terminal would make of it."""
    wrong = []
    for text, shown in (("x" * 10_000, "x" * 160), ("one\ntwo", "one"), ("\x1b[2J", ""), ("ä" * 200, "ä" * 80)):
        with socket.create_server(("127.0.0.1", 0)) as listener:
            words = [subcat, f"127.0.0.1:{listener.getsockname()[1]}", "s", "0/0", "p", "1"]
            follower = subprocess.Popen(words, stdout=subprocess.DEVNULL, stderr=subprocess.PIPE, text=True)
            client = listener.accept()[0]
            body = b"SERROR\0C08P01\0M" + text.encode() + b"\0\0"
            client.sendall(b"E" + struct.pack(">I", len(body) + 4) + body)
            said = follower.communicate(timeout=60)[1]
            client.close()
            wrong += [f"it says {said!r}"] * (said != f"server: 08P01 {shown}\n")
    return wrong


def quotes_stand_in_names_and_end_none(pubd, subcat):
    """A name with a quote is one that no slot may have, and not two words that are no command."""
    with Server(pubd, 1) as server:
        words = [subcat, "--create", f"127.0.0.1:{server.port}", 'a"b', "0/0", "p", "1"]
        follower = subprocess.run(words, stdout=subprocess.DEVNULL, stderr=subprocess.PIPE, text=True, timeout=60)
        return wrong_of(follower.returncode, follower.stderr, "server: 42602 ") + server.end()


def messages_are_asked_for_by_an_option(pubd, subcat):
    """The command that begins the stream has it with --messages alone."""
    wrong = []
    for words, option in ([], ""), (["--messages"], ", messages 'true'"):
        with socket.create_server(("127.0.0.1", 0)) as listener:
            words = [subcat, *words, f"127.0.0.1:{listener.getsockname()[1]}", "s", "0/0", "p", "1"]
            follower = subprocess.Popen(words, stdout=subprocess.DEVNULL, stderr=subprocess.DEVNULL)
            client = listener.accept()[0]
            asked = asked_of(client, client.makefile("rb"), server_frames())
            client.close()
            follower.wait(60)
            due = f"START_REPLICATION SLOT \"s\" LOGICAL 0/0 (proto_version '1', publication_names 'p'{option})"
            wrong += [f"it asks {asked!r}"] * (asked != due.encode() + b"\0")
    return wrong


def acknowledgements_follow_what_was_printed(pubd, subcat):
    """A server that waits within a transaction: nothing is acknowledged until its Commit has come, and then it is printed already."""
    said = server_frames()
    *changes, commit = [framed(digits) for digits in said if digits.startswith("6477")]
    printed, wrong = b"", []
    with socket.create_server(("127.0.0.1", 0)) as listener:
        words = [subcat, f"127.0.0.1:{listener.getsockname()[1]}", "s", "0/0", "p", "2"]
        follower = subprocess.Popen(words, stdout=subprocess.PIPE, stderr=subprocess.DEVNULL)
        client = listener.accept()[0]
        heard = client.makefile("rb")
        asked_of(client, heard, said)
        client.sendall(framed("57000000"))
        for turn in range(1, 3):
            client.sendall(b"".join(changes))
            wrong += ["a transaction is acknowledged before its Commit"] * bool(select.select([client], [], [], 0.3)[0])
            client.sendall(commit)
            wrong += ["its end isn't acknowledged"] * (read_status(heard) != status(FIRST + 0x50))
            printed += os.read(follower.stdout.fileno(), 65536)
            wrong += ["it is acknowledged before it is printed"] * (printed.count(b"COMMIT ") != turn)
        wrong += ["the stream isn't ended"] * (heard.read(5) != framed("63"))
        client.close()
        return wrong + [f"it ended with {follower.wait(60)}"] * (follower.wait(60) != 0)


def server_frames():
    """What the server says in the conversation, in hexadecimal."""
    return [line[2:] for line in CONVERSATION.read_text().splitlines() if line.startswith("< ")]


def asked_of(client, heard, said, system="42"):
    """The text of the first query of a follower that has been greeted by these frames, but for one that asks for the system."""
    client.settimeout(60)
    heard.read(struct.unpack(">I", heard.read(4))[0] - 4)
    client.sendall(b"".join(framed(digits) for digits in said[:5]))
    asked = query_of(heard)
    if asked == b"IDENTIFY_SYSTEM\0":
        client.sendall(identity(system))
        asked = query_of(heard)
    return asked


def query_of(heard):
    """The text of the next query."""
    return heard.read(struct.unpack(">I", heard.read(5)[1:])[0] - 4)


def identity(system):
    """The answer of a server that says it is this system."""
    values = [system, "1", "0/1000000", "app"]
    row = struct.pack(">H", len(values)) + b"".join(struct.pack(">I", len(value)) + value.encode() for value in values)
    return framed("44" + row.hex()) + framed("43" + b"IDENTIFY_SYSTEM\0".hex()) + framed("5a49")


def wrong_of(status, said, due):
    return [f"it ended with {status}, and said {said!r}"] * (status != 1 or not said.startswith(due))


def follow(words, rows, at, kill_after):
    """Keeps the rows of each transaction that comes whole and was not there; answers where the last one ends."""
    follower = subprocess.Popen(words, stdout=subprocess.PIPE, stderr=subprocess.DEVNULL, text=True)
    of_this, commits = [], 0
    for line in follower.stdout:
        word, *rest = line.split()
        if word == "BEGIN":
            of_this = []
        elif word == "INSERT":
            of_this.append(line.rstrip("\n"))
        elif word == "COMMIT" and len(rest) == 3:
            commits += 1
            if position(rest[1]) > at:
                rows += of_this
                at = position(rest[1])
            if commits == kill_after:
                follower.kill()
    follower.wait()
    return at
