"""How streams begin, and what they say where there is nothing to send. Each case answers what is wrong, a line each."""
import pathlib
import sys

from connection import Connection, Refused, keepalive, position, status
from server import CONFIGURATION, FIRST

sys.path.insert(0, str(pathlib.Path(__file__).resolve().parent.parent.parent / "examples" / "driven"))
from driven import Publisher


def wrong_keepalive(client, at):
    """Whether the next frame isn't a keepalive of this position, after those of lower ones: on a busy machine a turn may come between two
    records."""
    came, due = b"", keepalive(at)
    while came == b"" or (came[:6] == due[:6] and came < due):
        came = keepalive_bytes(*client.frame())
    return [f"in place of a keepalive of {at:X} comes {came.hex()}"] * (came != due)


def keepalive_bytes(kind, body):
    return kind + (len(body) + 4).to_bytes(4, "big") + body


def log_end(publisher):
    """Where the log ends, as IDENTIFY_SYSTEM tells it."""
    client = Connection(publisher.port)
    row = next(body for kind, body in client.ask("IDENTIFY_SYSTEM") if kind == b"D")
    client.close()
    return next(position(field) for field in fields_of(row) if "/" in field)


def fields_of(row):
    """The texts of a DataRow."""
    fields, at = [], 2
    for _ in range(int.from_bytes(row[:2], "big")):
        length = int.from_bytes(row[at : at + 4], "big", signed=True)
        at += 4
        if length >= 0:
            fields.append(row[at : at + length].decode())
            at += length
    return fields


def a_stream_tells_where_it_is(pubd, subcat):
    """A keepalive goes out as a stream begins with nothing to send, and after each record of which nothing is sent: an abort, a note that
    it didn't ask for, a transaction without a change."""
    with Publisher(pubd, CONFIGURATION) as publisher:
        client = Connection(publisher.port)
        client.create("s")
        client.start("s")
        wrong = wrong_keepalive(client, FIRST)
        for lines in (["begin A", "insert A public.item (1,'ab',7)", "abort A"], ["note 'a' 'b'"], ["begin B", "commit B 5"]):
            for line in lines:
                publisher.say(line)
            wrong += wrong_keepalive(client, log_end(publisher))
        client.close()
        again = Connection(publisher.port)
        again.start_when_free("s")
        wrong += wrong_keepalive(again, log_end(publisher))
        again.close()
        return wrong


def a_start_ahead_of_its_slot_is_refused(pubd, subcat):
    """Of a position that its slot has neither confirmed nor sent; what it has sent may be asked for, confirmed or not. A slot that was made
    again has sent nothing. An option lets streams start anywhere."""
    wrong = []
    with Publisher(pubd, CONFIGURATION) as publisher:
        client = Connection(publisher.port)
        client.create("s")
        ends = [position(publisher.commit(f"insert public.item ({key},'ab',7)", time=key)) for key in (1, 2)]
        wrong += wrong_start(client, "s", ends[0], "55000")
        client.start("s")
        wrong += [f"transactions end at {came}" for came in [client.commits(2)] if came != ends]
        client.break_off()
        for at, due in ((ends[1], None), (ends[1] + 1, "55000"), (ends[0], None)):
            wrong += wrong_start(Connection(publisher.port), "s", at, due)
        client = Connection(publisher.port)
        drop_when_free(client, "s")
        client.create("s")
        end = position(publisher.commit("insert public.item (3,'ab',7)", time=3))
        wrong += wrong_start(client, "s", end, "55000")
        client.close()
    with Publisher(pubd, CONFIGURATION, options=["--allow-start-ahead"]) as publisher:
        client = Connection(publisher.port)
        client.create("s")
        wrong += wrong_start(client, "s", FIRST + 0x1000, None)
    return wrong


def wrong_start(client, slot, at, due):
    """Whether a START at this position isn't refused by this code, or, where that is none, granted; then it ends."""
    text = f"START_REPLICATION SLOT {slot} LOGICAL {at >> 32:X}/{at & 0xFFFFFFFF:X} (proto_version '1', publication_names 'p')"
    refused = None
    for _ in range(1000):
        try:
            client.ask(text, b"W")
            client.break_off()
            refused = None
            break
        except Refused as fault:
            refused = fault.args[0]
            if refused != "55006":
                break
    return [f"a start at {at:X} is answered by {refused}, and not by {due}"] * (refused != due)


def drop_when_free(client, slot):
    for _ in range(1000):
        try:
            return client.ask(f"DROP_REPLICATION_SLOT {slot}")
        except Refused as fault:
            if fault.args[0] != "55006":
                raise
    raise TimeoutError(f"{slot} is never free")
