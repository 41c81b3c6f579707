"""What subcat --copy prints: the rows that are there, and then the stream. Each case answers what is wrong, a line each."""
import json
import pathlib
import random
import re
import subprocess
import sys
import tempfile
import threading
import time

from asking import ON
from connection import Connection
from cutting import Cutting
from resuming import refused_of
from server import CONFIGURATION, Server, inserts

sys.path.insert(0, str(pathlib.Path(__file__).resolve().parent.parent.parent / "examples" / "driven"))
from driven import Publisher

ROWS, CUTS, KILLS = 400, 60, 25
# How many bytes pass before a cut, at most; of a copy, and between two kills.
WITHIN, STRIDE = 9000, 30000
# Rows with each byte that COPY escapes, and their lines of text: subcat prints a control character as \\xNN.
VALUES = [("'ab'", "'ab'"), ("null", "null"), ("''", "''"), (r"E'\\N'", None), (r"E'a\tb\nc\\d\re\x0b\x0c\x08'", None), ("'ü€😀'", None)]


def words_of(subcat, port, *more, slot="s", position="0/0", publication="p", count=1):
    return [subcat, "--follow", "--copy", *more, f"127.0.0.1:{port}", slot, position, publication, str(count)]


def ran(words):
    return subprocess.run(words, capture_output=True, text=True, timeout=120)


def columns_of(lines):
    """Of the inserts of JSON lines, each row's values."""
    told = [json.loads(line) for line in lines]
    return [[column["value"] for column in one["columns"]] for one in told if one.get("action") == "I"]


def a_copy_is_printed_as_one_transaction(pubd, subcat):
    """Its rows have the values that a stream's inserts have, in text and JSON, and the stream goes on after it."""
    with Publisher(pubd, CONFIGURATION, options=ON) as publisher:
        streamed = Connection(publisher.port)
        streamed.create("before")
        streamed.create("before_json")
        for key, (value, _) in enumerate(VALUES, 1):
            publisher.commit(f"insert public.item ({key},{value},7)", time=key)
        publisher.commit("insert public.item (99,'gone',1)", "delete public.item (99)", time=98)
        publisher.say("begin U")
        publisher.say("insert U public.item (50,'open',1)")
        copied = [ran(words_of(subcat, publisher.port, *more, slot=slot)) for more, slot in (((), "text"), (("--json",), "json"))]
        plain = [[subcat, "--follow", *more, f"127.0.0.1:{publisher.port}", slot, "0/0", "p", str(len(VALUES))] for more, slot in (((), "before"), (("--json",), "before_json"))]
        due = [ran(words) for words in plain]
        wrong = [f"{one.args} ends with {one.returncode}, and says {one.stderr!r}" for one in (*copied, *due) if one.returncode or one.stderr]
        text = copied[0].stdout.splitlines()
        inserted = [line for line in due[0].stdout.splitlines() if line.startswith("INSERT ")]
        begin, end = re.fullmatch(r"BEGIN 0 (\S+) 0", text[0]), re.fullmatch(r"COMMIT (\S+) (\S+) 0", text[-1])
        wrong += [f"it begins with {text[0]!r} and ends with {text[-1]!r}"] * (not begin or not end or begin[1] != end[1])
        wrong += [f"the table is told as {text[1]!r}"] * (text[1] != "RELATION 16384 public.item d id:23* name:25 qty:20")
        wrong += [f"it has the rows {text[2:-1]}, and a stream {inserted}"] * (sorted(text[2:-1]) != sorted(inserted))
        rows = [columns_of(one.stdout.splitlines()) for one in (copied[1], due[1])]
        wrong += [f"in JSON it has the rows {rows[0]}, and a stream {rows[1]}"] * (sorted(rows[0]) != sorted(rows[1]))
        publisher.say("commit U 99")
        went_on = ran([subcat, "--follow", f"127.0.0.1:{publisher.port}", "text", "0/0", "p", "1"]).stdout.splitlines()
        wrong += [f"its stream goes on with {went_on}"] * (went_on[2:3] != ["INSERT 16384 N('50','open','1')"])
        streamed.close()
        return wrong


def what_is_printed(lines):
    """The keys of the copy, and those of each transaction after it; and what is wrong with it."""
    copy, later, wrong = None, [], []
    for line in lines:
        word, _, rest = line.partition(" ")
        if word == "BEGIN":
            keys, is_copy = [], rest.startswith("0 ")
        elif word == "INSERT":
            keys.append(int(rest.split("'")[1]))
        elif word == "COMMIT" and is_copy:
            wrong += ["a second copy is printed"] * (copy is not None) + ["a copy comes late"] * bool(later)
            copy = keys
        elif word == "COMMIT":
            later += keys
    return copy or [], later, wrong


def commit_slowly(publisher, rows, output, ended):
    """Transactions of one row each, one after the other: the second half once a copy is printed."""
    for key in range(1, rows + 1):
        if key == rows // 2:
            await_copy(output)
        publisher.commit(f"insert public.item ({key},'ab',7)", time=key)
        time.sleep(0.01)
    ended.set()


def await_copy(output):
    for _ in range(1200):
        if output.exists() and "COMMIT" in output.read_text():
            break
        time.sleep(0.1)


def cuts_and_kills_copy_each_row_once(pubd, subcat):
    """Rows are committed before, while and after they are copied, over at most 60 cuts, some of them within the copy, and 25 kills."""
    draw, wrong, ended = random.Random(17), [], threading.Event()
    with (
        tempfile.TemporaryDirectory() as folder,
        Publisher(pubd, CONFIGURATION, options=ON, errors=subprocess.DEVNULL) as publisher,
        Cutting(publisher.port, CUTS, lambda one: one.randrange(WITHIN), draw) as proxy,
    ):
        for key in range(1000, 1000 + ROWS):
            publisher.commit(f"insert public.item ({key},'ab',7)", time=key)
        output = pathlib.Path(folder) / "output"
        threading.Thread(target=commit_slowly, args=(publisher, ROWS, output, ended), daemon=True).start()
        words = words_of(subcat, proxy.port, "--output", output, count=1_000_000)
        for kill in range(KILLS):
            follower = subprocess.Popen(words, stderr=subprocess.PIPE, text=True)
            proxy.strike(follower, draw.randrange(STRIDE))
            try:
                told = follower.communicate(timeout=25)[1].splitlines()[-1:]
            except subprocess.TimeoutExpired:
                # All is there, and no more bytes come.
                follower.kill()
                follower.communicate()
                break
            wrong += [f"kill {kill} finds it ended with {follower.returncode}, and it says {told}"] * (follower.returncode != -9)
        ended.wait(60)
        follower = subprocess.Popen(words, stderr=subprocess.DEVNULL)
        due = sorted([*range(1, ROWS + 1), *range(1000, 1000 + ROWS)])
        for _ in range(1800):
            copy, later, more = what_is_printed(output.read_text().splitlines() if output.exists() else [])
            if len(copy) + len(later) >= len(due):
                break
            time.sleep(0.1)
        follower.kill()
        follower.wait()
        wrong += more + ["rows are lost, or come twice"] * (sorted(copy + later) != due)
        wrong += ["the stream has another order"] * (later != sorted(later)) + ["the copy has no row"] * (not copy)
        wrong += ["nothing follows the copy"] * (not later)
        return wrong + ["what is left of a copy is told of"] * output.with_name("output.copy").exists()


def what_a_copy_asks_for_has_to_be_there(pubd, subcat):
    """A slot that is there, a publication that isn't, a position, a server that answers no questions; and what a run left."""
    wrong = []
    with tempfile.TemporaryDirectory() as folder, Server(pubd, 40, inserts(3), more=ON) as server:
        client, output = Connection(server.port), pathlib.Path(folder) / "output"
        client.create("s")
        wrong += refused_of(words_of(subcat, server.port), "server: 42710 ")
        wrong += refused_of(words_of(subcat, server.port, "--output", output), "server: 42710 ")
        output.with_name("output.copy").write_text("other\n")
        wrong += refused_of(words_of(subcat, server.port, "--output", output), "server: 42710 ")
        output.with_name("output.copy").write_text("s\n")
        again = ran(words_of(subcat, server.port, "--output", output))
        wrong += [f"after what a run left it ends with {again.returncode}, and says {again.stderr!r}"] * bool(again.returncode or again.stderr)
        wrong += [f"it prints {output.read_text()!r}"] * (len(what_is_printed(output.read_text().splitlines())[0]) != 3)
        wrong += refused_of(words_of(subcat, server.port, slot="t", publication="p,none"), "subcat: K10: there is no publication none")
        wrong += refused_of(words_of(subcat, server.port, slot="t", position="0/1"), "subcat: with --copy, POSITION is 0/0", ends_with=2)
        wrong += refused_of([subcat, "--copy", f"127.0.0.1:{server.port}", "t", "0/0", "p", "1"], "error: ", ends_with=2)
        client.close()
        server.process.kill()
    with Server(pubd, 2) as server:
        wrong += refused_of(words_of(subcat, server.port), "server: 42601 ")
        server.process.kill()
    return wrong
