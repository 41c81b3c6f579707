"""What two streams are compared by: each message byte for byte, but for positions, xids and clocks."""
import struct

from sides import GAP


class Plain:
    """A stream with its positions and xids in the order in which they came. Each Begin, Commit and message has to have those that it
    should beside the others of its stream."""

    def __init__(self, messages):
        self.wrong, self.plain, self.relations = [], [], {}
        # Where each transaction ends, and which xids there are.
        self.ends, self.xids, self.last, self.open = [], {}, 0, None
        for each in messages:
            getattr(self, f"take_{each[:1].decode()}", self.take)(each)
        if self.open is not None:
            self.wrong.append("the last transaction is half")

    def take(self, each):
        self.plain.append(each)

    def take_B(self, each):
        commit, _, xid = struct.unpack(">QqI", each[1:])
        if commit < self.last or self.open is not None:
            self.wrong.append(f"a Begin of {commit:X} after {self.last:X}")
        if xid in self.xids:
            self.wrong.append(f"two transactions of xid {xid}")
        self.xids[xid] = len(self.xids)
        self.open = commit
        self.plain.append(("Begin",))

    def take_C(self, each):
        flags, commit, end, _ = struct.unpack(">BQQq", each[1:])
        if commit != self.open or end <= commit:
            self.wrong.append(f"a Commit of {commit:X} to {end:X} after the Begin of {self.open}")
        self.last, self.open = end, None
        self.ends.append(end)
        self.plain.append(("Commit", flags))

    def take_R(self, each):
        """PostgreSQL tells a table again once its cache of it is gone, as a truncate has it; pubd tells it once in a stream."""
        oid = each[1:5]
        if self.relations.get(oid) != each:
            self.relations[oid] = each
            self.plain.append(each)

    def take_M(self, each):
        flags, _ = struct.unpack(">BQ", each[1:10])
        if not each.startswith(GAP.encode() + b"\0", 10):
            self.plain.append(("Message", flags, each[10:]))


def difference(theirs, ours):
    """The first thing in which two streams differ, or None."""
    theirs, ours = Plain(theirs), Plain(ours)
    for name, stream in (("PostgreSQL", theirs), ("pubd", ours)):
        if stream.wrong:
            return f"{name}: {stream.wrong[0]}"
    for at, (one, other) in enumerate(zip(theirs.plain, ours.plain)):
        if one != other:
            return f"message {at}: {shown(one)} by PostgreSQL, {shown(other)} by pubd"
    if len(theirs.plain) != len(ours.plain):
        longer = max(theirs.plain, ours.plain, key=len)
        return f"{len(theirs.plain)} messages by PostgreSQL, {len(ours.plain)} by pubd; the first more: {shown(longer[min(len(theirs.plain), len(ours.plain))])}"
    return None


def shown(message):
    return str(message)[:300]
