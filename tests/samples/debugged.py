"""Values as Rust's derived Debug writes them."""
import dataclasses
import re

# Types of one field that hold a list or a text, and stand for it.
WRAPPERS = {"Items", "Text", "Name", "Names", "Row"}
ESCAPES = {"n": "\n", "r": "\r", "t": "\t", "0": "\0"}
TOKEN = re.compile(r'\s*("(?:[^"\\]|\\.)*"|-?\d+|\w+|[\[\](){},:?])', re.S)


@dataclasses.dataclass
class Node:
    """A variant or a struct: its values in their order, or by the names of its fields."""

    word: str
    inside: tuple = ()
    named: dict = dataclasses.field(default_factory=dict)

    def __getattr__(self, name):
        try:
            return self.__dict__["named"][name]
        except KeyError:
            raise AttributeError(name) from None


def unescaped(text):
    def one(found):
        return chr(int(found[1], 16)) if found[1] else ESCAPES.get(found[2], found[2])

    return re.sub(r"\\(?:u\{([0-9a-f]+)\}|(.))", one, text, flags=re.S)


class Reader:
    def __init__(self, text):
        self.text, self.at = text, 0

    def peek(self):
        found = TOKEN.match(self.text, self.at)
        return found[1] if found else ""

    def take(self):
        found = TOKEN.match(self.text, self.at)
        if not found:
            raise ValueError(f"no value: {self.text[self.at:][:80]!r}")
        self.at = found.end()
        return found[1]

    def until(self, end):
        """What stands between commas up to this bracket: a list of pairs, with the name of a field or None."""
        found = []
        while self.peek() != end:
            value = self.value()
            if self.peek() == ":":
                self.take()
                found.append((value.word, self.value()))
            else:
                found.append((None, value))
            if self.peek() == ",":
                self.take()
        self.take()
        return found

    def value(self):
        token = self.take()
        if token[0] == '"':
            return unescaped(token[1:-1])
        if token[0] in "-0123456789":
            return int(token)
        if token == "[":
            return [value for _, value in self.until("]")]
        if token == "(":
            return tuple(value for _, value in self.until(")"))
        if not re.fullmatch(r"\w+", token):
            raise ValueError(f"no value begins with {token!r}")
        return self.named(token)

    def named(self, name):
        if name in ("true", "false"):
            return name == "true"
        if name == "None":
            return None
        if self.peek() == "(":
            self.take()
            values = tuple(value for _, value in self.until(")"))
            return values[0] if name == "Some" else Node(name, values)
        if self.peek() == "{":
            self.take()
            fields = dict(self.until("}"))
            return next(iter(fields.values())) if name in WRAPPERS else Node(name, (), fields)
        return Node(name)


def read(text):
    """The values of a text, one after the other, and what stands after a question mark."""
    reader, values = Reader(text), []
    while reader.peek() not in ("", "?"):
        values.append(reader.value())
    rest = text[reader.at:].strip()
    if rest and not rest.startswith("? "):
        raise ValueError(f"no value: {rest[:80]!r}")
    return values, rest[2:]
