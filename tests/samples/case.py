"""What a sample asks of the program, and how its answers are judged."""
import dataclasses
import typing

import debugged


class Wrong(Exception):
    """An answer that no sample says."""


@dataclasses.dataclass
class Case:
    line: int
    # The lines that the program is given, each of which it answers by one.
    asked: list
    # What came of them, in the words of the sample.
    came: typing.Callable
    # Whether the sample says that.
    is_said: typing.Callable


def line_of(call, *given):
    """A line of the program's input."""
    return f"{call} {'|'.join(given)}".replace("\n", "␤")


def refused(answer):
    return answer.startswith("! ")


def values(answer, note=""):
    """The values that were answered, with nothing but this note after them."""
    if not answer.startswith("="):
        raise Wrong(answer.strip())
    found, noted = debugged.read(answer[1:])
    if noted != note:
        raise Wrong(noted or f"without the note {note!r}")
    return found


def text_of(answer):
    """The text that was answered, as the samples write it: `= MEANING` or `! FAULT`."""
    if answer[:2] not in ("= ", "! "):
        raise Wrong(answer.strip())
    return answer


def meant(answer, meaning, note=""):
    """The same of values, by what they mean."""
    return answer if refused(answer) else f"= {meaning(*values(answer, note))}"


def is_as_said(came, said):
    """A fault may be said by what stands before a colon."""
    return came == said or said.startswith("! ") and came.startswith(said + ":")
