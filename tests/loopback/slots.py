"""Slots and streams as many as there may be, and places that come back. Each case answers what is wrong, a line each."""
from connection import TERMINATE, Connection, Refused
from server import Server

SLOTS, STREAMS = 16, 16
# More than there may be at once, and how many are made and dropped one after the other.
TOLD_SLOTS, TOLD_STREAMS, MANY = 40, 20, 500
ROWS = [line for k in range(1, 4) for line in ("begin T", f"insert T public.item ({k},'a',1)", f"commit T {k}")]


def refused(call, *given):
    """The code by which it is refused; None where it isn't."""
    try:
        call(*given)
    except Refused as refused:
        return refused.args[0]


def places_of_dropped_slots_come_back(pubd, subcat):
    """As many slots as may be at once, and any number one after the other; a slot that was dropped is none any more."""
    with Server(pubd, 1) as server:
        client = Connection(server.port)
        for number in range(SLOTS):
            client.create(f"s{number}")
        due = [("a slot too many", refused(client.create, "another"), "53400")]
        client.ask("DROP_REPLICATION_SLOT s0")
        due += [("what was dropped", refused(client.start, "s0"), "42704")]
        for number in range(MANY):
            client.create(f"t{number}")
            client.ask(f"DROP_REPLICATION_SLOT t{number}")
        client.create("another")
        due += [("a slot too many again", refused(client.create, "more"), "53400"), ("the last one", refused(client.start, "another"), None)]
        client.close()
        return [f"{what} is answered by {code}" for what, code, should in due if code != should] + server.end()


def as_many_slots_and_streams_as_are_told(pubd, subcat):
    words = ["--max-replication-slots", str(TOLD_SLOTS), "--max-wal-senders", str(TOLD_STREAMS)]
    with Server(pubd, TOLD_STREAMS + 2, ROWS, awaited=TOLD_STREAMS, more=words) as server:
        first = Connection(server.port)
        for number in range(TOLD_SLOTS):
            first.create(f"s{number}")
        due = [("a slot too many", refused(first.create, "another"), "53400")]
        streams = [Connection(server.port) for _ in range(TOLD_STREAMS)]
        for number, stream in enumerate(streams):
            stream.start(f"s{number}")
        due += [("a stream too many", refused(first.start, f"s{TOLD_SLOTS - 1}"), "53400")]
        for number, stream in enumerate(streams):
            due += [(f"stream {number}", len(stream.commits(len(ROWS) // 3)), len(ROWS) // 3)]
        streams[0].close()
        last = Connection(server.port)
        last.start_when_free(f"s{TOLD_SLOTS - 1}")
        for each in (first, last, *streams[1:]):
            each.close()
        return [f"{what} is answered by {got}" for what, got, should in due if got != should] + server.end()


def a_namesake_begins_where_it_is_made(pubd, subcat):
    """A slot that was dropped and made again has nothing of the one before, and its stream nothing of that one's."""
    with Server(pubd, 3, ROWS, awaited=1) as server:
        holder, other = Connection(server.port), Connection(server.port)
        holder.create("s")
        holder.start("s")
        holder.commits(1)
        wrong = ["a slot in use is dropped"] * (refused(other.ask, "DROP_REPLICATION_SLOT s") != "55006")
        holder.socket.sendall(TERMINATE)
        drop(other)
        other.create("s")
        other.start("s")
        late = Connection(server.port)
        wrong += ["two have a slot"] * (refused(late.start, "s") != "55006")
        for each in (other, late):
            each.close()
        return wrong + server.end()


def drop(client):
    """Drops the slot once its holder has gone."""
    for _ in range(10_000):
        code = refused(client.ask, "DROP_REPLICATION_SLOT s")
        if code is None:
            return
        if code != "55006":
            raise AssertionError(code)
