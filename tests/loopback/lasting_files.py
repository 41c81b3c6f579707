"""What a log's file may be: cut or damaged anywhere, of another log, or none. Each case answers what is wrong, a line each."""
import dataclasses
import pathlib
import random
import re
import struct
import subprocess
import sys
import tempfile

from connection import Connection
from server import CONFIGURATION

sys.path.insert(0, str(pathlib.Path(__file__).resolve().parent.parent.parent / "examples" / "driven"))
from driven import Publisher

# How many bytes stand before the first entry, and before the body of one: of its length, its digest and what was synced.
HEADER, LENGTH, FRONT = 28, 12, 8
# The first byte of the body of a commit.
COMMIT = 5
CHANGE = re.compile(r'\d+ change (\d+) insert 16384 \((\d+),"(\w+)",(\d+)\)')
COMMITTED = re.compile(r"\d+ commit (\d+) at (\d+)")


@dataclasses.dataclass
class Entry:
    """An entry of a file, from where to where it stands, and how much of the file was synced before it."""

    start: int
    end: int
    synced: int
    body: bytes

    @property
    def commits_at(self):
        """The time of its commit; None where it is none."""
        return struct.unpack(">q", self.body[5:13])[0] if self.body[:1] == bytes([COMMIT]) else None


def entries_of(content):
    """The entries of a file, up to one that isn't there as a whole. Their digests aren't looked at."""
    entries, at = [], HEADER
    while at + LENGTH + FRONT < len(content):
        length = int.from_bytes(content[at : at + 4], "big")
        end = at + LENGTH + length
        if length <= FRONT or len(content) < end:
            break
        payload = content[at + LENGTH : end]
        entries.append(Entry(at, end, int.from_bytes(payload[:FRONT], "big"), payload[FRONT:]))
        at = end
    return entries


@dataclasses.dataclass
class Told:
    """What --inspect tells of a folder."""

    status: int
    error: str
    # The committed transactions, each with its time and its rows, and the last line.
    transactions: list
    last: str


def inspected(pubd, folder):
    ran = subprocess.run([pubd, "--inspect", folder], capture_output=True, text=True, timeout=60)
    lines, rows, transactions = ran.stdout.splitlines(), {}, []
    for line in lines:
        if change := CHANGE.fullmatch(line):
            rows.setdefault(change[1], []).append((int(change[2]), change[3], int(change[4])))
        elif commit := COMMITTED.fullmatch(line):
            transactions.append((int(commit[2]), rows.pop(commit[1], [])))
    return Told(ran.returncode, ran.stderr, transactions, lines[-1] if lines else "")


# The transactions of the small file, each with the time at which it commits and its rows.
DUE = [(at, [(10 * at + row, f"name{10 * at + row}", 7 * at) for row in range(count)]) for at, count in ((1, 1), (2, 2), (3, 1))]
OF_INSPECTED, OF_DATA = (f"pubd: the log's file in the folder of --{option}: the file is " for option in ("inspect", "data"))


def lines_of(at, rows):
    return ["begin T", *(f"insert T public.item ({key},'{name}',{count})" for key, name, count in rows), f"commit T {at}"]


def small_file(pubd, folder):
    """The bytes of a log with these transactions, one that was aborted, and a slot."""
    with Publisher(pubd, CONFIGURATION, options=["--data", folder]) as publisher:
        client = Connection(publisher.port)
        client.create("s")
        client.close()
        for at, rows in DUE:
            for line in ["begin U", f"insert U public.item ({90 + at},'no',7)", *lines_of(at, rows), "abort U"]:
                publisher.say(line)
        publisher.end()
    return (folder / "log").read_bytes()


def served(pubd, folder, lines=(), configuration=CONFIGURATION):
    """A server of no connections that goes on by the folder and does these lines: its status, its error, and its last answer."""
    words = [pubd, "--data", folder, configuration, "127.0.0.1:0", "0", "-"]
    ran = subprocess.run(words, input="".join(f"{line}\n" for line in lines), capture_output=True, text=True, timeout=60)
    return ran.returncode, ran.stderr, ran.stdout.splitlines()[-1] if ran.stdout else ""


def a_file_that_is_cut_anywhere_has_a_beginning(pubd, subcat):
    """At each length --inspect tells the transactions that are whole in it. A server goes on by them, also where not even the header is
    whole, and what it commits is there after them."""
    wrong = []
    with tempfile.TemporaryDirectory() as place:
        folder = pathlib.Path(place) / "data"
        content = small_file(pubd, folder)
        entries = entries_of(content)
        wrong += wrong_told(inspected(pubd, folder), DUE, f"end {len(content)} of {len(content)}", "of the whole file")
        served_at = {0, 1, HEADER - 1, HEADER, HEADER + 1, *(entry.end + more for entry in entries for more in (-1, 0, 1))}
        for length in range(len(content) + 1):
            (folder / "log").write_bytes(content[:length])
            kept = [entry for entry in entries if entry.end <= length]
            due = DUE[: sum(entry.commits_at is not None for entry in kept)]
            told = inspected(pubd, folder)
            if length < HEADER:
                wrong += [f"of {length} bytes is told {told}"] * ((told.status, told.error) != (2, f"{OF_INSPECTED}no segment\n"))
            else:
                wrong += wrong_told(told, due, f"end {kept[-1].end if kept else HEADER} of {length}", f"of {length} bytes")
            if length in served_at:
                wrong += wrong_going_on(pubd, folder, due, f"of {length} bytes")
    return wrong


def wrong_told(told, due, last, where):
    right = (told.status, told.error, told.transactions, told.last) == (0, "", due, last)
    return [] if right else [f"{where} is told {told}, and not {due} and {last!r}"]


def wrong_going_on(pubd, folder, due, where):
    """What is wrong where a server goes on by the folder, which has these transactions."""
    rows = [(77, "more", 7)]
    status, error, answer = served(pubd, folder, lines_of(9, rows))
    told = inspected(pubd, folder)
    wrong = [f"a server {where} ends with {status}, and says {error!r}"] * bool(status or error)
    wrong += [f"a server {where} answers {answer!r}"] * (not answer.startswith("ok "))
    return wrong + [f"a server {where} leaves {told}"] * (told.transactions != [*due, (9, rows)])


def a_damaged_byte_is_told_or_ends_the_log(pubd, subcat):
    """Each byte of a file is changed in turn. Before the last sync that is told, with the entry in which it stands; in what that sync
    put there the log ends before that entry."""
    draw, wrong = random.Random(7), []
    with tempfile.TemporaryDirectory() as place:
        folder = pathlib.Path(place) / "data"
        content = small_file(pubd, folder)
        entries = entries_of(content)
        for at in range(len(content)):
            changed = bytearray(content)
            changed[at] ^= draw.randint(1, 255)
            (folder / "log").write_bytes(changed)
            fault, due, end = due_of_damage(entries, at)
            told = inspected(pubd, folder)
            if fault is None:
                wrong += wrong_told(told, due, f"end {end} of {len(content)}", f"where byte {at} is changed")
                continue
            wrong += [f"where byte {at} is changed is told {told}"] * ((told.status, told.error) != (2, f"{OF_INSPECTED}{fault}\n"))
            if at in (0, 9, HEADER - 1) or at in (entry.end - 1 for entry in entries):
                said = served(pubd, folder)
                wrong += [f"where byte {at} is changed a server says {said}"] * (said != (2, f"{OF_DATA}{fault}\n", ""))
                wrong += [f"a server changes a file whose byte {at} is changed"] * ((folder / "log").read_bytes() != changed)
    return wrong


def due_of_damage(entries, at):
    """What is due where this byte is changed: a fault, or the transactions before its entry, and where that stands."""
    if at < HEADER:
        return "of another version of the format" if 8 <= at < 12 else "no segment", [], 0
    hit = next(entry for entry in entries if entry.start <= at < entry.end)
    before = [entry for entry in entries if entry.start < hit.start]
    if any(entry.synced > hit.start for entry in entries if entry.start > hit.start):
        return f"damaged at byte {hit.start}", [], hit.start
    return None, DUE[: sum(entry.commits_at is not None for entry in before)], hit.start


MORE = '[[table]]\noid = 3\nschema = "s"\nname = "t"\nidentity = "default"\nkey = ["k"]\ncolumns = [["k", "int4"]]\n\n'
# What a configuration has in the place of what the sample has, and the lines that then differ: the folder's, and the configuration's.
OTHERS = [
    ('systemid = "42"', 'systemid = "43"', "system 42", "system 43"),
    ("oid = 16384", "oid = 16385", "table 16384 public.item", "table 16385 public.item"),
    ("item", "part", "table 16384 public.item", "table 16384 public.part"),
    ('"public', '"other', "table 16384 public.item", "table 16384 other.item"),
    ('["qty", "int8"]', '["qty", "int4"]', "column item.qty Int8", "column item.qty Int4"),
    ('["qty", "int8"]', '["size", "int8"]', "column item.qty Int8", "column item.size Int8"),
    (', ["qty", "int8"]', "", "column item.qty Int8", ""),
    ('["qty", "int8"]', '["qty", "int8"], ["more", "int2"]', "", "column item.more Int2"),
    ('key = ["id"]', 'key = ["qty"]', "column item.id Int4 key", "column item.id Int4"),
    ("[[publication]]", f"{MORE}[[publication]]", "", "table 3 s.t"),
]
# What may change.
SAME = [
    ("records = 65536", "records = 1000"),
    ("chunks = 64", "chunks = 100"),
    ('name = "p"', 'name = "q"'),
    ('identity = "default"', 'identity = "full"'),
]
REFUSED = "pubd: the folder of --data is "


def changed_configuration(place, text, other):
    sample = CONFIGURATION.read_text()
    assert text in sample
    (place / "configuration").write_text(sample.replace(text, other))
    return place / "configuration"


def a_folder_of_another_log_is_refused(pubd, subcat):
    """One of another system, or of other tables or columns, which stays as it is; but not where only other things differ."""
    wrong = []
    with tempfile.TemporaryDirectory() as name:
        place = pathlib.Path(name)
        folder = place / "data"
        content = small_file(pubd, folder)
        for text, other, theirs, ours in OTHERS:
            said = served(pubd, folder, lines_of(*DUE[0]), changed_configuration(place, text, other))
            due = f"{REFUSED}of another log: it has `{theirs}` where the configuration has `{ours}`\n"
            wrong += [f"with {other!r} in the place of {text!r} it says {said}"] * (said != (2, due, ""))
        wrong += ["a refused folder is changed"] * ((folder / "log").read_bytes() != content)
        rows = [(100 + at, "more", at) for at in range(len(SAME))]
        for (text, other), row in zip(SAME, rows):
            status, error, answer = served(pubd, folder, lines_of(row[0], [row]), changed_configuration(place, text, other))
            wrong += [f"with {other!r} it says {error!r} and {answer!r}"] * (status != 0 or error != "" or not answer.startswith("ok "))
        told = inspected(pubd, folder)
        return wrong + [f"after these starts is told {told}"] * (told.transactions != DUE + [(row[0], [row]) for row in rows])


def a_folder_is_made_and_has_one_server(pubd, subcat):
    """One that is missing is made, with those above it. Who holds it is left alone by others that ask for it; a kill lets it go."""
    with tempfile.TemporaryDirectory() as place:
        folder = pathlib.Path(place) / "some" / "where"
        with Publisher(pubd, CONFIGURATION, options=["--data", folder]) as publisher:
            for at, rows in DUE:
                for line in lines_of(at, rows):
                    publisher.say(line)
                said = served(pubd, folder)
                wrong = [f"where it is held it says {said}"] * (said != (2, f"{REFUSED}held by another process\n", ""))
        told = inspected(pubd, folder)
        wrong += [f"of a killed holder is told {told}"] * (told.transactions != DUE or told.status != 0)
        files = sorted((file.name, file.stat().st_size > 0) for file in folder.iterdir())
        wrong += [f"the folder has {files}"] * (files != [("log", True), ("log-wal", False)])
        return wrong + wrong_going_on(pubd, folder, DUE, "after a kill")


def a_file_that_is_no_log_is_refused(pubd, subcat):
    """A file of others, one of another version, and something else in the place of a file or a folder: each stays as it is."""
    wrong = []
    with tempfile.TemporaryDirectory() as place:
        folder = pathlib.Path(place) / "data"
        content = small_file(pubd, folder)
        for bytes_of_file, fault in (
            (b"a letter, longer than what a log begins with\n", "no segment"),
            (bytes(4096), "no segment"),
            (content[:8] + b"\0\0\0\2" + content[12:], "of another version of the format"),
        ):
            (folder / "log").write_bytes(bytes_of_file)
            said, told = served(pubd, folder), inspected(pubd, folder)
            wrong += [f"where the file is {fault} it says {said}"] * (said != (2, f"{OF_DATA}{fault}\n", ""))
            wrong += [f"where the file is {fault} is told {told}"] * ((told.status, told.error) != (2, f"{OF_INSPECTED}{fault}\n"))
            wrong += ["a refused file is changed"] * ((folder / "log").read_bytes() != bytes_of_file)
        (folder / "log").unlink()
        (folder / "log").mkdir()
        for path in (folder, folder / "log-wal", folder / "log-wal" / "more"):
            status, error, _ = served(pubd, path)
            wrong += [f"of {path} it ends with {status}, and says {error!r}"] * (status != 1 or not error.startswith("pubd: the "))
        told = inspected(pubd, folder.with_name("none"))
        return wrong + [f"of no folder is told {told}"] * (told.status != 1 or not told.error.startswith("pubd: the log's file "))
