"""Transactions that are larger than a stream's chunks. Each case answers what is wrong, a line each."""
import pathlib
import re
import sys
import tempfile

from connection import Connection, position
from server import CONFIGURATION

sys.path.insert(0, str(pathlib.Path(__file__).resolve().parent.parent.parent / "examples" / "driven"))
from driven import Publisher, Refused

# More rows than the chunks of a stream have room for, each of which holds two.
ROWS = 140
LONG = "n" * 7900


def fill(publisher, name, rows=ROWS):
    for key in range(rows):
        publisher.say(f"insert {name} public.item ({key},'{LONG}',7)")


def a_transaction_that_is_too_large_is_passed_once_it_is_undone(pubd, subcat):
    """Aborted, or rolled back to a savepoint: its stream ends while it is in progress, and so does the next; then it is passed."""
    wrong = []
    for undo, left in ((["abort B"], 0), (["rollback B 1", "insert B public.item (1000,'left',7)", "commit B 5"], 1)):
        with Publisher(pubd, CONFIGURATION) as publisher:
            client = Connection(publisher.port)
            client.create("s")
            client.start("s")
            # Another transaction that began before it has the next stream read it from its beginning on.
            publisher.say("begin A")
            publisher.say("insert A public.item (2000,'a',7)")
            publisher.say("begin B")
            publisher.say("savepoint B")
            fill(publisher, "B")
            publisher.commit("insert public.item (3000,'b',7)", time=6)
            for attempt in ("a stream", "the next one"):
                code = code_of_end(client)
                wrong += [f"{attempt} ends by {code} while it is in progress"] * (code != "53400")
                client.close()
                client = Connection(publisher.port)
                if attempt == "a stream":
                    client.start_when_free("s")
            for line in undo:
                publisher.say(line)
            last = position(publisher.say("commit A 7"))
            client.start_when_free("s")
            ends = client.commits(2 + left)
            wrong += [f"{undo[0]}: transactions end at {ends}, the last one not at {last}"] * (ends[-1] != last)
            client.close()
    return wrong


def code_of_end(client):
    """The code of the ErrorResponse that ends a stream, whatever comes before it."""
    while True:
        kind, body = client.frame()
        if kind == b"E":
            return next(field[1:].decode() for field in body.split(b"\0") if field[:1] == b"C")


def a_stream_whose_chunks_run_short_is_told_of(pubd, subcat):
    """Once, as long as they do: of 64 chunks, of which each holds two rows, a transaction in progress takes 60. Then it is sent whole."""
    with tempfile.TemporaryFile("w+") as errors, Publisher(pubd, CONFIGURATION, errors=errors) as publisher:
        client = Connection(publisher.port)
        client.create("s")
        client.start("s")
        publisher.say("begin B")
        fill(publisher, "B", 120)
        for key in (3000, 3001):
            publisher.commit(f"insert public.item ({key},'b',7)", time=6)
        # Once these came, a turn has seen how few chunks are free.
        client.commits(2)
        end = position(publisher.say("commit B 7"))
        wrong = [f"transactions end at {ends}" for ends in [client.commits(1)] if ends != [end]]
        client.close()
        publisher.end()
        errors.seek(0)
        told = [line for line in errors.read().splitlines() if "chunks" in line]
    # A chunk of the small transaction may not have come back yet.
    due = r"pubd: connection 1: [34] of its stream's 64 chunks are free: transactions in progress fill the others"
    return wrong + [f"it tells {told}"] * (len(told) != 1 or not re.fullmatch(due, told[0]))


def a_log_that_is_nearly_full_is_told_of(pubd, subcat):
    """Once, by the commit whose record is the first after nine tenths of the places; then it is full, and a change is refused."""
    wrong = []
    for places, first in ((20, 9), (21, 10), (2, 1)):
        with tempfile.TemporaryDirectory() as folder, tempfile.TemporaryFile("w+") as errors:
            configuration = pathlib.Path(folder) / "small.toml"
            configuration.write_text(CONFIGURATION.read_text().replace("records = 65536", f"records = {places}"))
            with Publisher(pubd, configuration, errors=errors) as publisher:
                client = Connection(publisher.port)
                client.create("s")
                for key in range(places // 2):
                    publisher.commit(f"insert public.item ({key},'b',7)", time=6)
                try:
                    publisher.commit("insert public.item (1000,'b',7)", time=6)
                    wrong.append(f"{places} records have room for more")
                except Refused as refused:
                    wrong += [f"more is refused by {refused.code}"] * (refused.code != "S7")
                publisher.end()
            errors.seek(0)
            told = [line for line in errors.read().splitlines() if "nearly full" in line]
        due = f"pubd: the log is nearly full: {2 * first} of its {places} records are there; once all are, changes are refused by S7"
        wrong += [f"of {places} records it tells {told}"] * (told != [due])
    return wrong
