"""Files of streams, each with what a subscriber makes of it."""
import functools
import itertools

from case import Case, Wrong, values
from meanings import position

NAMED, ENDS, RECONNECT = "== ", "-- ", "reconnect"
# What a subscriber has before anything came to it whole.
EMPTY = "0/0"
# How the frames of a keepalive and of a Begin begin.
KEEPALIVE, BEGIN = bytes.fromhex("64000000166b"), bytes.fromhex("640000003277")
# A keepalive of a position that no sample reaches. Behind a fault it is answered by the fault, and changes nothing.
LATE_KEEPALIVE = bytes.fromhex("64000000166bff00000000000000000000000000000900")


def applied(pieces):
    """The line that gives a subscriber pieces of a stream; a dot among them begins another connection."""
    return "applied " + "".join(f"{piece if piece == '.' else piece.hex()}," for piece in pieces)


def twice(pieces):
    """The same, and with a late keepalive after it."""
    pieces = list(pieces)
    return [applied(pieces), applied([*pieces, LATE_KEEPALIVE])]


def outcome(answer):
    """The position, the fault that the last connection came to, and what was applied, a line each."""
    found = values(answer)
    fault, at = "", 0
    while not isinstance(found[at], int):
        came = found[at] if isinstance(found[at], str) else found[at].word
        if came == RECONNECT:
            fault = ""
        elif fault and came != fault:
            raise Wrong("answers another fault")
        elif came != "taken":
            fault = came
        at += 1
    lines = [position(found[at]) + f" ! {fault.partition(':')[0]}" * bool(fault)]
    for transaction in found[at + 1 :]:
        begin, *changes, commit = transaction.inside
        lines += [begin, *(f"{position(place)} {line}" for place, line in zip(changes[::2], changes[1::2], strict=True)), commit]
    return "\n".join(lines)


def settled(plain, probed):
    """What came of a stream. Behind a fault a late keepalive changes nothing of it."""
    plain = outcome(plain)
    if " ! " not in plain.partition("\n")[0]:
        return plain
    if outcome(probed) != plain:
        raise Wrong(f"changes after its fault:\n{outcome(probed)}")
    return plain


def alike(*answers, beginnings=0):
    """What came of the stream at once, byte by byte, and of connections that were lost, where it is the same. The last answers are
    those of so many beginnings that have nothing whole."""
    whole, pieces = settled(*answers[:2]), settled(*answers[2:4])
    end = len(answers) - beginnings
    if whole != pieces:
        raise Wrong(f"comes to something else in pieces:\n{pieces}\nand at once\n{whole}")
    for length, answer in enumerate(answers[4:end]):
        if outcome(answer) != whole:
            raise Wrong(f"comes to something else where the connection is lost after {length} bytes:\n{outcome(answer)}")
    for length, answer in enumerate(answers[end:]):
        if outcome(answer) != EMPTY:
            raise Wrong(f"comes to something by its first {length} bytes:\n{outcome(answer)}")
    return whole


def asked_of(connections, told):
    """Of one connection without a fault also that it is lost after any byte, and the stream is sent again; of one block that
    nothing comes of any beginning of it, byte by byte."""
    ones = ([stream[at : at + 1] for at in range(len(stream))] for stream in connections)
    asked = twice(itertools.chain(*([".", stream] for stream in connections)))
    asked += twice(itertools.chain(*([".", *stream] for stream in ones)))
    if len(connections) == 1 and " ! " not in told[0]:
        stream = connections[0]
        asked += [applied([stream[:length], ".", stream]) for length in range(len(stream))]
        if is_one_block(stream, told):
            asked += [applied([".", *(stream[at : at + 1] for at in range(length))]) for length in range(len(stream))]
    return asked


def is_one_block(stream, told):
    """Whether it tells one transaction, once, and no keepalive."""
    told_once = told[-1].startswith("COMMIT ") and told[0] == told[-1].split()[2]
    return told_once and stream.count(BEGIN) == 1 and KEEPALIVE not in stream


def cases(lines):
    """Of each stream the line where it begins, the bytes of each connection, and what is told of it."""
    found = []
    for number, line in enumerate(lines, 1):
        if line.startswith(NAMED):
            found.append((number, [b""], []))
        elif line and not line.startswith("#") and found:
            add_line(*found[-1][1:], line)
    return found


def add_line(connections, told, line):
    """A line before the position is the server's, one after it tells a transaction."""
    if line.startswith(ENDS):
        told.append(line.removeprefix(ENDS))
    elif told:
        told.append(line)
    elif line == RECONNECT:
        connections.append(b"")
    else:
        connections[-1] += bytes.fromhex(line.replace(" ", ""))


def read(file):
    for number, connections, told in cases(file.read_text().split("\n")):
        due = "\n".join(told)
        asked = asked_of(connections, told)
        beginnings = len(connections[0]) if len(connections) == 1 and is_one_block(connections[0], told) else 0
        yield Case(number, asked, functools.partial(alike, beginnings=beginnings), lambda came, due=due: came == due)
