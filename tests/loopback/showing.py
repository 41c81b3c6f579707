"""What a server tells of itself over HTTP. Each case answers what is wrong, a line each."""
import pathlib
import sys
import urllib.error
import urllib.request

from connection import Connection, position, status
from server import CONFIGURATION, FIRST

sys.path.insert(0, str(pathlib.Path(__file__).resolve().parent.parent.parent / "examples" / "driven"))
from driven import Publisher

# What the sample configuration has: records of the log, and chunks of a stream.
CAPACITY = 65536
CHUNKS = 64


def page(port, path="/metrics"):
    with urllib.request.urlopen(f"http://127.0.0.1:{port}{path}", timeout=10) as answer:
        return answer.headers["Content-Type"], answer.read().decode()


def values(text):
    """The values by their names and labels."""
    lines = [line for line in text.splitlines() if not line.startswith("#")]
    return {name: float(value) for name, value in (line.rsplit(" ", 1) for line in lines)}


def what_runs_is_told(pubd, subcat):
    """Before there is a slot, while a stream runs that has confirmed one transaction of two, and after its end."""
    with Publisher(pubd, CONFIGURATION, options=("--status", "127.0.0.1:0")) as publisher:
        kind, text = page(publisher.status_port)
        wrong = [f"the page is {kind}"] * (kind != "text/plain; version=0.0.4")
        wrong += differences(values(text), {"pubd_connections": 0, "pubd_log_end_position": FIRST, "pubd_log_records": 0, "pubd_log_records_free": CAPACITY})
        client = Connection(publisher.port)
        client.create("s")
        client.start("s")
        ends = [position(publisher.commit(f"insert public.item ({key},'ab',7)")) for key in (1, 2)]
        client.commits(2)
        client.socket.sendall(status(ends[0]))
        publisher.say(f"await s 0/{ends[0]:X}")
        running = values(page(publisher.status_port, "/")[1])
        wrong += differences(running, told_of(ends, active=1, connections=1))
        wrong += ["no bytes are told of"] * (not running.get('pubd_slot_sent_bytes_total{slot="s"}'))
        wrong += ["a status has no age"] * ('pubd_slot_status_age_seconds{slot="s"}' not in running)
        client.close()
        wrong += after_its_end(publisher, ends)
        return wrong + refusals(publisher.status_port) + [f"it ends with {ended}" for ended in [publisher.end()] if ended]


def told_of(ends, active, connections):
    slot = {"active": active, "held": 0, "confirmed_position": ends[0], "behind_bytes": ends[1] - ends[0], "read_position": ends[1]}
    slot |= {"sent_transactions_total": 2, "chunks_free": CHUNKS}
    due = {f'pubd_slot_{name}{{slot="s"}}': value for name, value in slot.items()}
    return due | {"pubd_connections": connections, "pubd_streams_begun_total": 1, "pubd_log_end_position": ends[1], "pubd_log_records": 4, "pubd_log_records_free": CAPACITY - 4}


def after_its_end(publisher, ends):
    """A server takes a moment to see that a connection was closed."""
    for _ in range(1000):
        told = values(page(publisher.status_port)[1])
        if told["pubd_connections"] == 0:
            return differences(told, told_of(ends, active=0, connections=0))
    return ["a connection that was closed is told of"]


def refusals(port):
    wrong = []
    for path, method, due in (("/other", "GET", 404), ("/metrics", "POST", 405)):
        try:
            urllib.request.urlopen(urllib.request.Request(f"http://127.0.0.1:{port}{path}", method=method), timeout=10)
            wrong.append(f"{method} {path} is answered")
        except urllib.error.HTTPError as refused:
            wrong += [f"{method} {path} is refused by {refused.code}"] * (refused.code != due)
    return wrong


def differences(told, due):
    return [f"{name} is {told.get(name)}, and not {value}" for name, value in due.items() if told.get(name) != value]
