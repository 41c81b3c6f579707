"""A schedule run over all of it: what `pubsim` is due to print, by docs/SCHEDULES.md."""
from publisher import Publisher, Refused
from stream import Selection, Sender, keepalive
from subscriber import Subscriber

MOST_SLOTS, MOST_SENDERS = 16, 16
SESSIONS = "insert", "update", "delete", "truncate", "message", "savepoint", "rollback", "release", "commit", "abort"


class Impossible(Exception):
    """A line that can't happen where it stands."""


class Connection:
    def __init__(self, sender, slot):
        self.sender, self.slot = sender, slot
        self.produced = self.pipe = b""
        # The flushed positions of the statuses that wait.
        self.back = []


class World:
    def __init__(self, configuration):
        self.configuration = configuration
        self.publisher = Publisher(configuration)
        # The confirmed position of each slot; what runs on each connection; what each start produced; the subscribers.
        self.slots, self.running, self.starts, self.subscribers = {}, {}, [], {}
        # What the lines that were refused, or asked for the front, are answered.
        self.told = []

    def run(self, events):
        """Each event is a word and what it is given. Answers what is printed."""
        for number, (word, *given) in events:
            try:
                if word == "front":
                    self.told.append((number, f"front {self.publisher.given}"))
                else:
                    self.event(word, *given)
            except Refused as refused:
                self.told.append((number, refused.args[0]))
        return self.printed()

    def event(self, word, *given):
        if word == "begin":
            if given[0] in self.publisher.live:
                raise Impossible
            self.publisher.begin(*given)
        elif word in SESSIONS:
            if given[0] not in self.publisher.live:
                raise Impossible
            getattr(self.publisher, word)(*given)
        elif word == "note":
            self.publisher.note(*given)
        elif word == "slot":
            self.slot(*given)
        elif word == "start":
            self.start(*given)
        elif word == "forget":
            self.publisher.give_back(min([self.publisher.end, *self.slots.values(), *(each.sender.position for each in self.running.values())]))
        else:
            if given[0] not in self.running:
                raise Impossible
            getattr(self, word)(*given)

    def slot(self, name):
        if name in self.slots:
            raise Refused("L3")
        if len(self.slots) == MOST_SLOTS:
            raise Refused("L4")
        self.slots[name] = self.publisher.end

    def start(self, name, slot, position, names, messages):
        if name in self.running:
            raise Impossible
        if slot is not None and slot not in self.slots:
            raise Refused("L1")
        selection = Selection(self.configuration, names, messages)
        if len(self.running) == MOST_SENDERS:
            raise Refused("L6")
        if slot is not None and any(each.slot == slot for each in self.running.values()):
            raise Refused("L2")
        begins = max(position, self.slots.get(slot, 0))
        if self.publisher.lacks(begins):
            raise Refused("L9")
        self.running[name] = Connection(Sender(selection, begins, self.publisher), slot)
        self.starts.append((name, self.running[name]))
        self.subscribers.setdefault(name, Subscriber())

    def read(self, name, most, clock):
        self.running[name].sender.read(self.publisher.log, most, clock)

    def keepalive(self, name, clock):
        sender = self.running[name].sender
        sender.held += keepalive(sender.position, clock)

    def drain(self, name, count):
        connection = self.running[name]
        out, connection.sender.held = connection.sender.held[:count], connection.sender.held[count:]
        connection.produced += out
        connection.pipe += out

    def deliver(self, name, count):
        connection = self.running[name]
        data, connection.pipe = connection.pipe[:count], connection.pipe[count:]
        self.subscribers[name].take(data)

    def status(self, name, clock):
        self.running[name].back.append(self.subscribers[name].position)

    def flushed(self, name, position):
        self.running[name].back.append(position)

    def ack(self, name):
        connection = self.running[name]
        if not connection.back:
            raise Impossible
        flushed = min(connection.back.pop(0), connection.sender.position)
        if connection.slot is not None:
            self.slots[connection.slot] = max(self.slots[connection.slot], flushed)

    def cut(self, name):
        del self.running[name]
        self.subscribers[name].reconnect()

    def printed(self):
        lines = [f"{number} {said}" for number, said in self.told]
        lines += [f"{name}:{connection.produced.hex()}" for name, connection in self.starts]
        lines += [f"slot {name} {position_text(position)}" for name, position in self.slots.items()]
        lines += [f"sub {name} {position_text(each.position)} {each.applied}" for name, each in self.subscribers.items() if each.has_taken]
        return "".join(f"{line}\n" for line in lines)


def position_text(position):
    return f"{position >> 32:X}/{position & 0xFFFFFFFF:X}"
