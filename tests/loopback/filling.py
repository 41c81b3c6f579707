"""What becomes of a log that is full, and of slots that hold it. Each case answers what is wrong, a line each."""
import contextlib
import pathlib
import sys
import tempfile
import urllib.request

from connection import Connection, Refused as RefusedCommand, position, status
from server import CONFIGURATION

sys.path.insert(0, str(pathlib.Path(__file__).resolve().parent.parent.parent / "examples" / "driven"))
from driven import Publisher, Refused

RECORDS = "records = 65536"
# How many records the small log has, how many transactions go through it, and how many are written before they are acknowledged.
SMALL, MANY, AT_ONCE = 2000, 50_000, 400
# How many records a slot may hold, and how many transactions of two are written until it has held too many.
MOST_KEPT, TOO_MANY = 100, 80


@contextlib.contextmanager
def small_log(pubd, records, options=()):
    """A publisher whose log has room for so many records."""
    with tempfile.TemporaryDirectory() as folder:
        configuration = pathlib.Path(folder) / "small.toml"
        text = CONFIGURATION.read_text()
        assert RECORDS in text
        configuration.write_text(text.replace(RECORDS, f"records = {records}"))
        with Publisher(pubd, configuration, options=options) as publisher:
            yield publisher


def commit_many(publisher, first, count):
    """So many transactions of a row each, all said at once. Answers where the last ends."""
    lines = []
    for key in range(first, first + count):
        lines += ["begin T", f"insert T public.item ({key},'ab',7)", "commit T"]
    publisher.process.stdin.write("".join(f"{line}\n" for line in lines))
    publisher.process.stdin.flush()
    return [publisher.answer(line) for line in lines][-1]


def acknowledge(client, count):
    """Reads so many transactions, and acknowledges the last. Answers where it ends."""
    end = client.commits(count)[-1]
    client.socket.sendall(status(end))
    return end


def a_small_log_never_fills(pubd, subcat):
    """Many more transactions go through it than it has room for, since they are acknowledged."""
    with small_log(pubd, SMALL) as publisher:
        client = Connection(publisher.port)
        client.create("s")
        client.start("s")
        for first in range(0, MANY, AT_ONCE):
            end = commit_many(publisher, first, AT_ONCE)
            came = acknowledge(client, AT_ONCE)
            if came != position(end):
                return [f"the stream is at {came:X} where the log ends at {end}"]
            publisher.say(f"await s {end} 60")
        client.close()
        return []


def a_slot_that_lags_holds_the_log(pubd, subcat):
    """Changes are refused while it does, and taken again once it has moved on."""
    with small_log(pubd, SMALL) as publisher:
        client = Connection(publisher.port)
        client.create("s")
        commit_many(publisher, 0, SMALL // 2)
        wrong = is_full(publisher)
        client.start("s")
        acknowledge(client, SMALL // 2)
        publisher.say(f"await s {log_end(publisher)} 60")
        for key in range(SMALL, SMALL + 3):
            publisher.commit(f"insert public.item ({key},'ab',7)")
        client.close()
        return wrong


def log_end(publisher):
    client = Connection(publisher.port)
    row = next(body for kind, body in client.ask("IDENTIFY_SYSTEM") if kind == b"D")
    client.close()
    return next(field[4:].decode() for field in row.replace(b"\0\0\0", b"|\0\0\0").split(b"|") if b"/" in field)


def is_full(publisher):
    """What is wrong where a full log takes a transaction, now and again."""
    wrong = []
    for _ in range(2):
        try:
            publisher.say("begin U")
            wrong.append("a full log takes a transaction")
            publisher.say("abort U")
        except Refused as refused:
            wrong += [f"a full log is refused by {refused.code}"] * (refused.code != "S7")
    return wrong


def a_slot_that_holds_too_much_is_given_up(pubd, subcat):
    """Its stream ends, and none begins, until it was dropped and made again. Another slot goes on."""
    options = ("--max-slot-keep", str(MOST_KEPT), "--status", "127.0.0.1:0")
    with small_log(pubd, SMALL, options) as publisher:
        lagging, brisk = (Connection(publisher.port) for _ in range(2))
        for client, slot in ((lagging, "lagging"), (brisk, "brisk")):
            client.create(slot)
            client.start(slot)
        wrong = wrong_lost(publisher, "lagging", 0)
        for key in range(TOO_MANY):
            end = publisher.commit(f"insert public.item ({key},'ab',7)")
            acknowledge(brisk, 1)
            publisher.say(f"await brisk {end} 60")
        code = lagging.refusal()
        wrong += [f"its stream ends by {code}"] * (code != "57P01")
        wrong += wrong_lost(publisher, "lagging", 1) + wrong_lost(publisher, "brisk", 0)
        again = Connection(publisher.port)
        wrong += wrong_start(again, "55000")
        again.ask("DROP_REPLICATION_SLOT lagging")
        again.create("lagging")
        again.start("lagging")
        publisher.commit(f"insert public.item ({TOO_MANY},'ab',7)")
        wrong += [f"{each} gets nothing" for each, client in (("lagging", again), ("brisk", brisk)) if len(client.commits(1)) != 1]
        return wrong


def wrong_start(client, code):
    try:
        client.start_when_free("lagging")
    except RefusedCommand as refused:
        return [f"its START is refused by {refused}"] * (refused.args[0] != code)
    return ["a stream of a slot that was given up begins"]


def wrong_lost(publisher, slot, due):
    """What is wrong where the status page doesn't tell whether the slot is lost."""
    with urllib.request.urlopen(f"http://127.0.0.1:{publisher.status_port}/metrics") as page:
        lines = page.read().decode().splitlines()
    line = f'pubd_slot_lost{{slot="{slot}"}} {due}'
    return [f"the page lacks {line}"] * (line not in lines)
