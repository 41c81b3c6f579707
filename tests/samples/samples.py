"""Files of samples, one on each line: `CALL GIVEN = MEANING`, or `CALL GIVEN ! FAULT`."""
import pathlib
import re

import meanings
import published
from case import Case, Wrong, is_as_said, line_of, meant, text_of, values
from chance import conversations_alike, streams_alike

# The same comes of each proper beginning of the bytes on the line above.
BEGINNINGS = "beginnings"


def bytes_of(digits):
    return bytes.fromhex(digits.replace(" ", ""))


def repeated(text):
    """`{N*TEXT}` stands for TEXT N times, with the number of each in place of `#`."""

    def written(found):
        return "".join(found[2].replace("#", str(number)) for number in range(1, int(found[1]) + 1))

    return re.sub(r"\{(\d+)\*([^}]*)\}", written, text)


def toml_of(text):
    """`;` ends a line."""
    return repeated(text.replace(";", "\n"))


def unquoted(text):
    if not re.fullmatch(r'".*"', text):
        raise ValueError(f"is not quoted: {text}")
    return text[1:-1]


# Each call that takes bytes: the lines for the sample's own and those after them, and what comes of the answers.


def framed(call, meaning):
    """A frame, and how many bytes it has."""

    def asked(own, after):
        def meaning_of(found):
            if found is None:
                return "waits"
            if found[1] != len(own):
                raise Wrong(f"takes {found[1]} bytes")
            return meaning(found[0])

        return [line_of(call, (own + after).hex())], lambda answer: meant(answer, meaning_of)

    return asked


def whole(call, meaning):
    """What is read of all bytes."""
    return lambda own, after: ([line_of(call, (own + after).hex())], lambda answer: meant(answer, meaning))


def copy_body(call, meaning, asking):
    """A body of these kinds that asks by neither 0 nor 1 is written again as one that doesn't ask."""

    def asked(own, after):
        note = ""
        if own[:1] in asking and own[-1] > 1:
            note = f"written {[*own[:-1], 0]}"
        return [line_of(call, own.hex())], lambda answer: meant(answer, meaning, note)

    return asked


def field(call, meaning):
    """A field, and what is left after it: of one that isn't there whole, everything."""

    def asked(own, after):
        def meaning_of(found, rest):
            if bytes(rest) != (own + after if found is None else after):
                raise Wrong(f"leaves {bytes(rest).hex()}")
            return "none" if found is None else meaning(found)

        return [line_of(call, (own + after).hex())], lambda answer: meant(answer, meaning_of)

    return asked


def word(own, after):
    """A frame with a body, which may hold a message."""

    def came(frame, body, message):
        found = values(frame)[0]
        if found is None:
            return "= waits"
        if found[0].word != "CopyData" or found[1] != len(own) or bytes(found[0].inside[0].bytes) != own[5:]:
            raise Wrong(frame)

        def payload(data):
            if data != own[30:]:
                raise Wrong(body)
            return meanings.message(*values(message))

        return f"= {meanings.server_body(values(body)[0], payload, 'silent')}"

    return [line_of("read_back", own.hex()), line_of("read_server", own[5:].hex()), line_of("read_logical", own[30:].hex())], came


def rendered(own, after):
    return [line_of("render", own.hex())], text_of


BYTES = {
    "read_startup": framed("read_startup", meanings.startup),
    "read_front": framed("read_front", meanings.frame),
    "read_back": framed("read_back", meanings.frame),
    "read_logical": whole("read_logical", meanings.message),
    "read_body": whole("read_body", meanings.change),
    "read_server": copy_body("read_server", meanings.server_body, (b"k",)),
    "read_client": copy_body("read_client", meanings.status, (b"r",)),
    "word": word,
    "render": rendered,
    "take2": field("take2", lambda found: bytes(found).hex()),
    "cstr": field("cstr", lambda found: meanings.quoted(found) if isinstance(found, str) else bytes(found).hex()),
    **{call: field(call, str) for call in ("u8", "u16", "u32", "u64")},
}


# Each call that takes a text, as above.


def text(call, meaning, given_of):
    return lambda given: ([line_of(call, given_of(given))], lambda answer: meant(answer, meaning))


def position_text(given):
    return [line_of("position", unquoted(given))], text_of


def told(call):
    """What the program says itself; a blank stands between what the call is given."""
    return lambda given: ([line_of(call, *given.split(" "))], text_of)


def status_frame(given):
    """The subscriber comes to the position by a keepalive."""
    place, clock, asks = given.split(" ")
    upper, lower = (int(half, 16) for half in place.split("/"))
    keepalive = b"d" + (22).to_bytes(4, "big") + b"k" + (upper << 32 | lower).to_bytes(8, "big") + bytes(9)
    return [f"status {keepalive.hex()} {clock} {asks}"], lambda answer: meant(answer, lambda found: bytes(found).hex())


def fault_text(given):
    kind, name = given.split(" ")

    def came(answer):
        told = dict(it.split(" ", 1) for it in answer.removeprefix("=|").split("|"))
        return f"! {told[name]}"

    return [line_of("texts", kind)], came


def code(given):
    def came(answer):
        found = values(answer)
        told = {f"{it.word}({it.inside[0].word})" if it.inside else it.word: code for it, code in zip(found[::2], found[1::2])}
        return f"= {told[given] or 'none'}"

    return [line_of("codes")], came


TEXTS = {
    "command": text("command", meanings.command, unquoted),
    "lenient": text("lenient", meanings.lenient_command, unquoted),
    "position": position_text,
    "event": text("event", meanings.event, lambda given: unquoted(given).replace("\\r", "\r")),
    "catalog": text("catalog", meanings.catalog, toml_of),
    "config": text("config", meanings.config, toml_of),
    "change": lambda given: published.change(*given.split(" ", 1)),
    "tables": published.tables,
    "publications": lambda given: published.publications(given.split(" ", 1)[0], toml_of(given.split(" ", 1)[1])),
    "explained": lambda given: published.explained(toml_of(given)),
    "status": status_frame,
    "hmac": told("hmac"),
    "hi": told("hi"),
    "verifier_of": told("verifier_of"),
    "verifier": told("verifier"),
    "proved": told("proved"),
    "proves": told("proves"),
    "login": told("login"),
    "text": fault_text,
    "code": code,
    "random": lambda given: conversations_alike(*map(int, given.split(" "))),
    "noise": lambda given: streams_alike(*map(int, given.split(" "))),
}


def read_line(line):
    """The call, what it is given, and what the sample says, with its mark."""
    for mark in ("=", "!"):
        left, found, said = line.partition(f" {mark} ")
        if found:
            call, _, given = left.partition(" ")
            return call, given, f"{mark} {said}"
    raise ValueError(f"is no sample: {line}")


def read(file: pathlib.Path):
    above = None
    for number, line in enumerate(file.read_text().split("\n"), 1):
        if not line or line.startswith("#"):
            continue
        call, given, said = read_line(line)
        if call in BYTES or call in ("command", "lenient"):
            given, said = repeated(given), repeated(said)
        if call in TEXTS:
            asked = [TEXTS[call](given)]
        elif call == BEGINNINGS:
            own = bytes_of(above[1].partition("|")[0])
            asked = [BYTES[above[0]](own[:length], b"") for length in range(len(own))]
        else:
            own, _, after = given.partition("|")
            asked = [BYTES[call](bytes_of(own), bytes_of(after))]
            above = call, given
        yield from one_case(number, asked, said)


def one_case(number, asked, said):
    """All that is asked of a line has to come to what it says."""

    def came(*answers):
        answers, found = list(answers), set()
        for lines, came_of in asked:
            found.add(came_of(*answers[: len(lines)]))
            del answers[: len(lines)]
        return "\n".join(sorted(found))

    yield Case(number, [line for lines, _ in asked for line in lines], came, lambda found: is_as_said(found, said))
