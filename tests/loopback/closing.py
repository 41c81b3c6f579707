"""How a connection may end after an acknowledgement. Each case answers what is wrong, a line each."""
import time

from connection import TERMINATE, Connection, status
from server import Server, inserts

# How often each way to close is tried.
TIMES = 100


def an_acknowledgement_holds_over_a_close(pubd, subcat):
    """However its connection ends after it: the next stream of the slot begins with the next transaction."""
    ways = [in_one_write, in_two_writes, without_terminate, by_a_reset, with_unread_bytes]
    return lost_over_closes(pubd, ways, TIMES * len(ways) + 1, "ab")


def an_acknowledgement_holds_over_a_blocked_write(pubd, subcat):
    """The same of a client that reads nothing more of a stream of 12 MB, so that the server's write waits."""
    return lost_over_closes(pubd, [after_a_blocked_write], 6000, "n" * 2000)


def lost_over_closes(pubd, ways, rows, name):
    """Each stream's first transaction is acknowledged, and then its connection is closed in one of the ways, in turn."""
    lost = dict.fromkeys(ways, 0)
    with Server(pubd, TIMES * len(ways) + 2, inserts(rows, name=name), awaited=1) as server:
        client = Connection(server.port)
        client.create("s")
        client.start("s")
        ends = client.commits(rows)
        client.close()
        at = 0
        for way in TIMES * ways:
            client = Connection(server.port)
            client.start_when_free("s")
            if ends[at] != client.commits(1)[0]:
                lost[last] += 1
                at -= 1
            way(client, ends[at], rows - at - 1)
            at, last = at + 1, way
        server.process.kill()
    return [f"{count} of {TIMES} are lost {way.__name__.replace('_', ' ')}" for way, count in lost.items() if count]


def in_one_write(client, end, rest):
    client.commits(rest)
    client.socket.sendall(status(end) + TERMINATE)
    client.close()


def in_two_writes(client, end, rest):
    client.commits(rest)
    client.socket.sendall(status(end))
    client.socket.sendall(TERMINATE)
    client.close()


def without_terminate(client, end, rest):
    client.commits(rest)
    client.socket.sendall(status(end))
    client.close()


def by_a_reset(client, end, rest):
    client.commits(rest)
    client.socket.sendall(status(end))
    client.break_off()


def with_unread_bytes(client, end, rest):
    client.socket.sendall(status(end))
    client.close()


def after_a_blocked_write(client, end, rest):
    time.sleep(0.05)
    client.socket.sendall(status(end))
    client.close()
