"""A round: fifteen streams of one server that are read, hostile clients beside them, and what is left behind."""
import pathlib
import random
import threading

from answers import refusals_in, what_is_wrong
from connection import Connection, refusal_of_one_more
from conversations import ENDS, SLOT, Peer, changed, good, pieces
from server import Server, inserts

STREAMS = 16
# Hostile clients at once, and how many of each are left idle up to the end of a round.
CLIENTS, IDLE = 8, 4
TRANSACTIONS = 2000
# The most connections that a server takes, and how many of them are hostile.
CONNECTIONS, HOSTILE = 1000, 900
# Of each connection; pubd's own thread besides.
THREADS = 2


class Round:
    """What hostile clients met, and what is wrong."""

    def __init__(self, pubd, seed, conversations):
        self.pubd, self.seed, self.conversations = pubd, seed, conversations
        self.wrong, self.refusals, self.lock = [], 0, threading.Lock()

    def run(self):
        lines = inserts(TRANSACTIONS)
        with Server(self.pubd, CONNECTIONS, lines, awaited=STREAMS - 1) as server:
            drained = threading.Thread(target=self.drain, args=(server.process.stderr,))
            drained.start()
            self.serve(server)
            server.process.kill()
            drained.join()
        return self.wrong

    def drain(self, said):
        """What pubd says of it: no line is long."""
        for line in said:
            self.wrong += [f"pubd says {line[:80]}, and more"] * (len(line) > 201)

    def serve(self, server):
        first = Connection(server.port)
        names = [*(f"s{at}" for at in range(STREAMS - 1)), SLOT]
        for name in names:
            first.create(name)
        first.close()
        # Only then, since a slot that nobody holds may be dropped.
        streams = [Connection(server.port) for _ in names[:-1]]
        for name, stream in zip(names, streams):
            stream.start(name)
        told = [[] for _ in streams]
        readers = [threading.Thread(target=self.follow, args=each) for each in zip(streams, told)]
        hostile = [threading.Thread(target=self.attack, args=(server.port, number)) for number in range(CLIENTS)]
        for each in hostile + readers:
            each.start()
        for each in hostile + readers:
            each.join()
        self.compare(told)
        self.look(server, streams, names)

    def attack(self, port, number):
        try:
            self.converse(port, number)
        except OSError as fault:
            self.wrong.append(f"a client isn't let in: {fault!r}")

    def converse(self, port, number):
        draw, idle = random.Random(f"{self.seed} {number}"), []
        for _ in range(self.conversations // CLIENTS):
            peer, how = Peer(port), draw.choice(ENDS)
            peer.send(pieces(draw, changed(draw, good(draw))))
            if not peer.end(how if len(idle) < IDLE or how != "idle" else "close"):
                idle.append(peer)
            self.judge(peer)
        for peer in idle:
            peer.end("reset")

    def judge(self, peer):
        wrong = what_is_wrong(peer.got)
        with self.lock:
            self.refusals += 0 if wrong else refusals_in(peer.got)
            self.wrong += [wrong] * bool(wrong)

    def follow(self, stream, told):
        try:
            told += stream.messages(TRANSACTIONS)
        except (EOFError, OSError) as fault:
            self.wrong.append(f"a stream ends: {fault!r}")

    def compare(self, told):
        """Each stream has told each transaction once, whole and in order."""
        kinds = b"".join(each[:1] for each in told[0])
        rows = [int(each[13 : 13 + int.from_bytes(each[9:13], "big")]) for each in told[0] if each[:1] == b"I"]
        self.wrong += ["a transaction isn't whole"] * (kinds.replace(b"R", b"") != b"BIC" * TRANSACTIONS)
        self.wrong += ["a row is lost, or out of its order"] * (rows != list(range(1, TRANSACTIONS + 1)))
        self.wrong += [f"stream {at} tells something else" for at, each in enumerate(told) if each != told[0]]

    def look(self, server, streams, names):
        """Nothing of the hostile clients is left: threads, descriptors, slots and readers. One thread is the program's own, one tells."""
        threads = 2 + THREADS * len(streams)
        self.wrong += [f"{server.threads()} threads are left, and not {threads}"] * (not server.comes_to(threads))
        sockets = sum(1 for _ in pathlib.Path(f"/proc/{server.process.pid}/fd").iterdir())
        self.wrong += [f"{sockets} descriptors are left of {len(streams)} streams"] * (sockets > 2 * len(streams) + 8)
        for stream in streams:
            stream.break_off()
        again = [Connection(server.port) for _ in names]
        for name, stream in zip(names, again):
            stream.start_when_free(name)
        self.wrong += refusal_of_one_more(server.port)
        for stream in again:
            stream.break_off()
