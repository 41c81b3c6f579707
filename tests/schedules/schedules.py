"""Files of schedules with what each prints, whose heads tell their form; and the configuration that they are for."""
import dataclasses
import pathlib
import re

HERE = pathlib.Path(__file__).resolve().parent
RECORDS, CHUNKS = 65536, 64


@dataclasses.dataclass
class Case:
    name: str
    line: int
    schedule: str = ""
    printed: str = ""
    # The fault that is told, or its code; empty where the schedule runs.
    fault: str = ""


def config_of(head):
    records, chunks, tables = RECORDS, CHUNKS, ""
    for line in head:
        if line.startswith("records "):
            records = int(line[len("records "):])
        elif line.startswith("chunks "):
            chunks = int(line[len("chunks "):])
        elif line.startswith("| "):
            tables += line[2:] + "\n"
    server = f"[server]\nsystemid = '1'\nrecords = {records}\nchunks = {chunks}\n"
    return server + (tables or (HERE / "tables.toml").read_text())


def expanded(line):
    """The lines that a line of a schedule stands for."""
    count, rest = 1, line
    if line.startswith("repeat "):
        count, rest = line[len("repeat "):].split(" ", 1)
    for number in range(1, int(count) + 1):
        one = rest if count == 1 else rest.replace("#", str(number))
        yield re.sub(r"a\{(\d+)\}", lambda found: "a" * int(found[1]), one.replace("\\0", "\0"))


def bytes_printed(line):
    """What a line of the printed bytes stands for."""
    return re.sub(r"61\{(\d+)\}", lambda found: "61" * int(found[1]), line)


def read(file):
    """The configuration of a file, and its schedules."""
    lines = file.read_text().split("\n")
    first = next(at for at, line in enumerate(lines) if line.startswith("== "))
    cases, is_printed = [], False
    for number, line in enumerate(lines[first:], first + 1):
        if line.startswith("== "):
            cases.append(Case(line[3:], number))
            is_printed = False
        elif line.startswith("--"):
            is_printed, cases[-1].fault = True, line[2:].removeprefix(" ! ")
        elif not is_printed:
            cases[-1].schedule += "".join(f"{one}\n" for one in expanded(line))
        elif line.startswith(" "):
            cases[-1].printed = cases[-1].printed[:-1] + bytes_printed(line.replace(" ", "")) + "\n"
        elif line:
            cases[-1].printed += line + "\n"
    return config_of(lines[:first]), cases
