"""Many sessions beside many streams, and many clients at the same slots, by seeds. Each case answers what is wrong, a line each."""
import random
import threading

from connection import TERMINATE, Connection, Refused, status
from server import Server

SEEDS = range(1, 6)
SCRIPTS = 8
STREAMS = 16
# Places for slots, which are never used again.
PLACES = 16
CONNECTIONS = 1000
# More transactions than all clients together confirm of one slot.
ROWS = 600


def sixteen_streams_tell_the_same_of_eight_scripts(pubd, subcat):
    """Of what eight scripts do beside one another each stream tells the same: the committed transactions of each, in its order."""
    return [f"by seed {seed}, {each}" for seed in SEEDS for each in of_scripts(pubd, seed)]


def of_scripts(pubd, seed):
    sessions = [session(number, random.Random(1000 * seed + number)) for number in range(SCRIPTS)]
    due = [transaction for _, committed in sessions for transaction in committed]
    with Server(pubd, STREAMS, awaited=STREAMS, scripts=[lines for lines, _ in sessions]) as server:
        streams = [Connection(server.port) for _ in range(STREAMS)]
        for at, stream in enumerate(streams):
            stream.create(f"s{at}")
            stream.start(f"s{at}")
        got = [list(stream.messages(len(due))) for stream in streams]
        for stream in streams:
            stream.close()
        wrong = [f"stream {at} tells something else than the first" for at, each in enumerate(got) if each != got[0]]
        # A stable sort by session: what one session committed stays in the order in which it came.
        told = sorted(transactions(got[0]), key=lambda transaction: transaction[0] // 1000)
        return wrong + ["a transaction is lost, half, or out of its order"] * (told != due) + server.end()


def session(number, draw):
    """The lines of a script, and of each transaction that it commits its time and the ids of its rows."""
    lines, committed, ids = [], [], iter(range(1000 * number, 1000 * number + 1000))

    def inserts():
        some = [next(ids) for _ in range(draw.randint(1, 4))]
        lines.extend(f"insert T public.item ({k},'a',1)" for k in some)
        return some

    for time in range(1000 * number, 1000 * number + 40):
        lines.append("begin T")
        kept = inserts()
        if draw.randrange(3) == 0:
            lines.append("savepoint T")
            inner = inserts()
            if draw.randrange(4) == 0:
                lines.append("release T 1")
                kept += inner
            else:
                lines.append("rollback T 1")
        if draw.randrange(4):
            lines.append(f"commit T {time}")
            committed.append((time, kept))
        else:
            lines.append("abort T")
    return lines, committed


def transactions(messages):
    """The time of each transaction of a stream, and the ids of its rows."""
    told = []
    for message in messages:
        if message[:1] == b"B":
            told.append((int.from_bytes(message[9:17], "big"), []))
        elif message[:1] == b"I":
            length = int.from_bytes(message[9:13], "big")
            told[-1][1].append(int(message[13 : 13 + length]))
    return told


def sixteen_clients_at_sixteen_slots(pubd, subcat):
    """Slots that sixteen clients make, claim, confirm and drop beside one another: sixteen can be made, one client holds each, and
    its next holder begins right after what was confirmed. What was dropped is gone."""
    rows = [line for k in range(1, ROWS + 1) for line in ("begin T", f"insert T public.item ({k},'a',1)", f"commit T {k}")]
    with Server(pubd, CONNECTIONS, rows, awaited=1) as server:
        slots = Slots(server.port)
        beside(slots.make)
        first = Connection(server.port)
        first.start(slots.names[0])
        slots.ends = first.commits(ROWS)
        first.close()
        beside(slots.use)
        slots.look()
        server.process.kill()
        return slots.wrong


def beside(work):
    threads = [threading.Thread(target=work, args=(number,)) for number in range(STREAMS)]
    for thread in threads:
        thread.start()
    for thread in threads:
        thread.join()


class Slots:
    """What clients know of slots: who holds each, how far it is confirmed, which somebody drops, and which are gone."""

    def __init__(self, port):
        self.port, self.names, self.ends, self.wrong = port, [], [], []
        self.holder, self.confirmed, self.going, self.gone = {}, {}, set(), set()

    def make(self, number):
        """Three of each client: as many are made as there are places."""
        client = Connection(self.port)
        for turn in range(3):
            name = f"s{number}_{turn}"
            try:
                client.create(name)
                self.names.append(name)
            except Refused as refused:
                self.wrong += [f"a create is refused by {refused}"] * (refused.args[0] != "53400")
        client.close()

    def use(self, number):
        draw = random.Random(number)
        for _ in range(40):
            client, name = Connection(self.port), draw.choice(self.names)
            try:
                if draw.randrange(100) == 0:
                    self.drop(client, name)
                else:
                    self.stream(client, number, name, draw)
            except Refused as refused:
                self.wrong += [f"{name} is refused by {refused}"] * (refused.args[0] not in ("55006", "53400", "42704"))
                self.wrong += [f"{name} isn't there any more"] * (refused.args[0] == "42704" and name not in self.going)
            client.close()

    def drop(self, client, name):
        self.going.add(name)
        client.ask(f"DROP_REPLICATION_SLOT {name}")
        self.gone.add(name)

    def stream(self, client, number, name, draw):
        """Holds the slot, confirms one of the next transactions, and lets it go."""
        client.start(name)
        before = self.holder.setdefault(name, number)
        self.wrong += [f"{name} has two holders"] * (before != number) + [f"{name} came back"] * (name in self.gone)
        self.see(client, name)
        end = draw.choice([0, *client.commits(draw.randint(1, 3))])
        self.confirmed[name] = max(end, self.confirmed.get(name, 0))
        self.wrong += [f"{name} has another holder"] * (self.holder.pop(name, None) != number)
        client.socket.sendall(status(end) + TERMINATE)

    def see(self, client, name):
        """A stream begins right after what was confirmed."""
        due = next(end for end in self.ends if end > self.confirmed.get(name, 0))
        self.wrong += [f"{name} begins elsewhere"] * (client.commits(1) != [due])

    def look(self):
        """Each slot once more, when nobody uses it."""
        self.wrong += [f"{len(self.names)} slots are made"] * (len(self.names) != PLACES)
        for name in self.names:
            client = Connection(self.port)
            try:
                client.start_when_free(name)
                self.see(client, name)
                self.wrong += [f"{name} came back"] * (name in self.gone)
            except Refused as refused:
                self.wrong += [f"{name} is lost by {refused}"] * (name not in self.gone or refused.args[0] != "42704")
            client.close()
