"""Files of conversations, each with what the server asks and says."""
import re

from case import Case, Wrong, values
from meanings import position

ENDS, ASKED = "-- ", "asked "
# The file whose connections answer questions too.
QUESTIONS = "questions"
STOPPED = "stopped"
READY = "5a 00000005 49"
# AuthenticationOk, the version 15.0, the encoding UTF8, and the key of the first connection.
GREETING = """52 00000008 00000000
    53 00000018 7365727665725f76657273696f6e00 31352e3000
    53 00000019 636c69656e745f656e636f64696e6700 5554463800
    4b 0000000c 00000001 00000000"""

# Who answers questions tells how it keeps times, too.
ANSWERING = """52 00000008 00000000
    53 00000018 7365727665725f76657273696f6e00 31352e3000
    53 00000019 636c69656e745f656e636f64696e6700 5554463800
    53 00000019 696e74656765725f6461746574696d657300 6f6e00
    4b 0000000c 00000001 00000000"""
READY_IN_BLOCK, READY_IN_FAILED_BLOCK = "5a 00000005 54", "5a 00000005 45"


def framed(kind, body):
    return kind + (len(body) + 4).to_bytes(4, "big") + body


def string(text):
    return text.encode() + b"\0"


def described(rest):
    """RowDescription of `NAME OID SIZE`, a comma and a blank between."""
    columns = [column.split(" ") for column in rest.split(", ")]
    told = (string(name) + bytes(6) + int(oid).to_bytes(4, "big") + int(size).to_bytes(2, "big", signed=True) + b"\xff" * 4 + bytes(2) for name, oid, size in columns)
    return framed(b"T", len(columns).to_bytes(2, "big") + b"".join(told))


def data_row(rest):
    """DataRow of values between quotes, or `null`, a comma and a blank between."""
    values_told = rest.split(", ")
    told = (b"\xff" * 4 if value == "null" else len(value[1:-1].encode()).to_bytes(4, "big") + value[1:-1].encode() for value in values_told)
    return framed(b"D", len(values_told).to_bytes(2, "big") + b"".join(told))


def copy_out(rest):
    """CopyOutResponse of so many columns."""
    return framed(b"H", b"\0" + int(rest).to_bytes(2, "big") + bytes(2 * int(rest)))


def copied(rest):
    """CopyData of a row of COPY, with `<TAB>` for a tab, or of many alike: `N times ROW`."""
    found = re.fullmatch(r"(\d+) times (.*)", rest)
    times, row = (int(found[1]), found[2]) if found else (1, rest)
    return framed(b"d", row.replace("<TAB>", "\t").encode() + b"\n") * times


TABLES = {"columns": described, "values": data_row, "copying": copy_out, "row": copied}


def heard(line):
    """The bytes of a line of the client: `startup NAME VALUE ..`, each between quotes, `query TEXT`, or digits."""
    if line.startswith("startup"):
        return framed(b"", b"\0\3\0\0" + b"".join(map(string, line.split("'")[1::2])) + b"\0")
    if line.startswith("query "):
        return framed(b"Q", string(line.removeprefix("query ")))
    return bytes.fromhex(line.replace(" ", ""))


def said(line):
    """The bytes of a line of the server: `greeting`, `answering`, `error CODE TEXT`, `complete TAG`, `ready`, `ready T`, `ready E`, one of
    `TABLES`, or digits."""
    if line.startswith("complete "):
        return framed(b"C", string(line.removeprefix("complete ")))
    kind, _, rest = line.partition(" ")
    if kind in TABLES:
        return TABLES[kind](rest)
    if line.startswith("error "):
        _, code, text = line.split(" ", 2)
        fields = b"".join(kind + string(value) for kind, value in ((b"S", "ERROR"), (b"V", "ERROR"), (b"C", code), (b"M", text)))
        return framed(b"E", fields + b"\0")
    digits = {
        "greeting": GREETING + READY,
        "answering": ANSWERING + READY,
        "ready": READY,
        "ready T": READY_IN_BLOCK,
        "ready E": READY_IN_FAILED_BLOCK,
    }.get(line, line)
    return bytes.fromhex("".join(digits.split()))


def expanded(line):
    """`a{N}` stands for N letters a, and `\\0` for a zero byte."""
    return re.sub(r"a\{(\d+)\}", lambda found: "a" * int(found[1]), line.replace("\\0", "\0"), count=1)


def talk(events, call="talk"):
    """The line that gives a server what a client sends, and has its streams end where they stop."""
    return f"{call} " + "".join(f"{event if event == '.' else event.hex()}," for event in events)


def asked_of(call):
    """A call of the backend as its file tells it."""
    kind, *given = call
    if kind.word == "start":
        slot, place, options = given
        names = (f"[{name}]" for name in options.publications)
        return " ".join(["start", slot, position(place), *names, *["messages"] * options.messages])
    if kind.word == "flushed":
        return f"flushed {position(given[0])}{' and asks' * given[1]}"
    if kind.word == "release_snapshot":
        return kind.word
    if kind.word in ("table", "attributes", "column_lists", "row_filters", "open_copy"):
        return " ".join([kind.word, *map(told, given)])
    return f"{kind.word} {given[0]}"


def told(given):
    """What is given to a call: a text, a number, an option, or a list of texts."""
    if isinstance(given, list):
        return f"[{', '.join(map(told, given))}]"
    if hasattr(given, "word"):
        return f"{given.word}({told(given.inside[0])})" if given.inside else given.word
    return str(given)


def outcome(answer):
    """What came of a conversation: its phase, what the backend was asked, and what was said."""
    *answers, phase, asked, bytes_said = values(answer)
    before = "Startup"
    for came, after in zip(answers[::2], answers[1::2], strict=True):
        if came.word == "Ok" and came.inside[0] != after:
            raise Wrong("answers another phase")
        if came.word == "Err" and (came.inside[0].word != "Closed" or before != "Closed"):
            raise Wrong(f"answers {came.inside[0].word}")
        before = after.word
    return "\n".join([phase.word, *map(asked_of, asked), bytes(bytes_said).hex()])


def come_by_one(events):
    for event in events:
        yield from ["."] if event == "." else (event[at : at + 1] for at in range(len(event)))


def cases(lines):
    """Of each conversation the line where it begins, what is heard, and what is told of it."""
    found = []
    for number, line in enumerate(lines, 1):
        if line.startswith("== "):
            found.append((number, [], [], bytearray()))
        elif line and not line.startswith("#") and found:
            add_line(*found[-1][1:], line)
    return found


def add_line(events, told, bytes_said, line):
    """A line before the phase is the client's, one after it is the server's. Bytes that follow one another come at once."""
    if line.startswith((ENDS, ASKED)):
        told.append(line.removeprefix(ENDS).removeprefix(ASKED))
    elif told:
        bytes_said += said(expanded(line))
    elif line == STOPPED:
        events.append(".")
    elif events and events[-1] != ".":
        events[-1] += heard(expanded(line))
    else:
        events.append(heard(expanded(line)))


def alike(whole, pieces):
    whole, pieces = outcome(whole), outcome(pieces)
    if whole != pieces:
        raise Wrong(f"comes to something else in pieces:\n{pieces}\nand at once\n{whole}")
    return whole


def read(file):
    for number, events, told, bytes_said in cases(file.read_text().split("\n")):
        due = "\n".join([*told, bytes_said.hex()])
        call = file.stem if file.stem == QUESTIONS else "talk"
        asked = [talk(events, call), talk(come_by_one(events), call)]
        yield Case(number, asked, alike, lambda came, due=due: came == due)
