"""A server that is driven through a pipe, line by line. Each case answers what is wrong, a line each."""
import pathlib
import subprocess
import sys
import time

from connection import Connection, position
from server import CONFIGURATION, Server

sys.path.insert(0, str(pathlib.Path(__file__).resolve().parent.parent.parent / "examples" / "driven"))
from driven import Publisher, Refused


def each_line_is_answered_as_it_comes(pubd, subcat):
    """Transactions in progress side by side, refusals of each kind, and a stream that has each commit when it is answered."""
    with Publisher(pubd, CONFIGURATION) as publisher:
        client = Connection(publisher.port)
        client.create("s")
        client.start("s")
        said = [
            ("begin A", None),
            ("begin B", None),
            ("insert A public.item (1,'a',1)", None),
            ("insert B public.item (1,'b',1)", "S5"),
            ("insert B public.item (2,'b',1)", None),
            ("commit C 1", "V1"),
            ("start c s 0/0 p", "V1"),
            ("no line at all", "V1"),
            ("# a comment", None),
            ("", None),
            ("savepoint B", None),
            ("rollback B 2", "S8"),
            ("commit B 1", "ends"),
            ("commit A 2", "ends"),
        ]
        wrong, ends = [], []
        for line, due in said:
            try:
                told = publisher.say(line)
                ends += [position(told)] if due == "ends" and told else []
                wrong += [f"{line!r} is answered ok {told}"] * ((told is None) == (due == "ends") or due not in (None, "ends"))
            except Refused as refused:
                wrong += [f"{line!r} is refused by {refused}"] * (refused.code != due or len(str(refused).split()) < 4)
        came = client.commits(2)
        client.close()
        return wrong + [f"the stream has commits that end at {came}, and not at {ends}"] * (came != ends)


def a_driven_server_ends_with_its_input_and_its_connections(pubd, subcat):
    """With a number of connections it ends once they have, and its input has; what was in progress never commits."""
    words = [pubd, CONFIGURATION, "127.0.0.1:0", "0", "-"]
    lines = "begin A\ninsert A public.item (1,'a',1)\nbegin B\ninsert B public.item (2,'b',1)\ncommit B 1\n"
    ran = subprocess.run(words, input=lines, capture_output=True, text=True, timeout=60)
    told = ran.stdout.splitlines()[1:]
    due = ["ok", "ok", "ok", "ok", "ok 0/1000080"]
    return [f"it ends with {ran.returncode}, and says {ran.stderr!r}"] * bool(ran.returncode or ran.stderr) + [f"it answers {told}"] * (told != due)


def a_driven_server_ends_with_its_input(pubd, subcat):
    """With `forever` the end of the input is that of the server, also where a line waits; an option keeps it."""
    wrong = []
    for lines, due in (("", []), ("await s stream\n", ["A1 the server ends"])):
        ran = subprocess.run([pubd, CONFIGURATION, "127.0.0.1:0", "forever", "-"], input=lines, capture_output=True, text=True, timeout=60)
        told = ran.stdout.splitlines()[1:]
        wrong += [f"after {lines!r} it ends with {ran.returncode}, and says {told}"] * (ran.returncode != 0 or told != due)
    with Publisher(pubd, CONFIGURATION, options=["--keep-serving"]) as publisher:
        publisher.process.stdin.close()
        publisher.process.stdin = None
        time.sleep(0.3)
        Connection(publisher.port).close()
    return wrong


def a_bad_line_is_answered_like_any_other(pubd, subcat):
    """A line that isn't UTF-8; line ends of two characters; lines that have no answer; a script with such line ends."""
    said = [
        (b"begin T\n", b"ok"),
        (b"insert T public.item (1,'\xff',1)\n", b"V1 it is not UTF-8"),
        (b"\n# nothing\n\r\ninsert T public.item (1,'a',1)\r\n", b"ok"),
        (b"insert T  public.item (1,'a',1)\n", b"V1 a field is empty: two blanks in a row, or one at an end"),
        (b"insert T public.item (1,'a',1)\n", b"S3 a row with this key exists"),
        (b"commit T 1\n", b"ok 0/1000050"),
        (b"end", b"ok"),
    ]
    words = [pubd, CONFIGURATION, "127.0.0.1:0", "forever", "-"]
    ran = subprocess.run(words, input=b"".join(line for line, _ in said), capture_output=True, timeout=60)
    told, due = ran.stdout.splitlines()[1:], [answer for _, answer in said]
    wrong = [f"it ends with {ran.returncode}, and answers {told}"] * (ran.returncode != 0 or told != due)
    with Server(pubd, "forever", ["begin T\r", "\r", "insert T public.item (1,'a',1)\r", "commit T 1\r", "end\r"]) as server:
        return wrong + server.end()


def texts_have_escapes_and_commits_the_time(pubd, subcat):
    """What PostgreSQL writes after E comes to a client as it is meant, and a commit without a time has the clock's."""
    with Publisher(pubd, CONFIGURATION) as publisher:
        client = Connection(publisher.port)
        client.create("s")
        client.start("s")
        before = time.time()
        publisher.commit(r"insert public.item (1,E'a\n\t\\\'''b\x41\xc3\xa4\u00e4\U0001F600',7)")
        begin, _, insert, _ = client.messages(1)
        client.close()
        text = "a\n\t\\''bA\u00e4\u00e4\U0001F600".encode()
        wrong = [f"the row is {insert}"] * (b"t" + len(text).to_bytes(4, "big") + text not in insert)
        at = int.from_bytes(begin[9:17], "big") / 1e6 + 946684800
        wrong += [f"the time of the commit is {at}, and not {before}"] * (not before - 1 <= at <= time.time() + 1)
        for text in (r"E'\q'", r"E'\xff'", r"E'\ud800'", r"E'\u12'", "E'a", r"e'\n'"):
            wrong += wrong_refusal(publisher, f"note 'p' {text}", "V1")
        return wrong


def wrong_refusal(publisher, line, due):
    try:
        publisher.say(line)
        return [f"{line!r} is done"]
    except Refused as refused:
        return [f"{line!r} is refused by {refused}"] * (refused.code != due)


def a_wait_has_its_time(pubd, subcat):
    """Where it is over a line is refused; so it is once no more connections come; a stream is awaited, and its slot too."""
    with Publisher(pubd, CONFIGURATION) as publisher:
        begun = time.monotonic()
        wrong = wrong_refusal(publisher, "await s stream 1", "A1")
        took = time.monotonic() - begun
        wrong += [f"a second takes {took:.1f} s"] * (not 1 <= took < 10)
        print("await s stream 60", file=publisher.process.stdin)
        client = Connection(publisher.port)
        client.create("s")
        client.start("s")
        publisher.answer("await s stream 60")
        wrong += wrong_refusal(publisher, "await s FFFFFFFF/0 0", "A1")
        for line in ("await s 0/0 +1", "await s 0/0 1 1", "await s streams", "await s stream x"):
            wrong += wrong_refusal(publisher, line, "V1")
        client.close()
    with Server(pubd, 1, ["await s FFFFFFFF/0", "await s stream"]) as server:
        client = Connection(server.port)
        client.create("s")
        client.close()
        return wrong + wrong_end_of_waits(server)


def wrong_end_of_waits(server):
    """The first of its lines is refused before the slot is there, or as the second."""
    status, said = server.process.wait(), server.process.stderr.read().splitlines()
    due = f"{server.script} 2 A1 no more connections come"
    return [f"it ends with {status}, and says {said}"] * (status != 0 or due not in said)


def lines_that_steer_pass_one_that_waits(pubd, subcat):
    """While one waits, a cut after it is done; `end` ends the wait, and then the server; answers stand in the order of the lines."""
    with Publisher(pubd, CONFIGURATION) as publisher:
        client = Connection(publisher.port)
        client.create("s")
        client.start("s")
        for line in ("await s FFFFFFFF/0", "begin T", "cut s", "end t"):
            print(line, file=publisher.process.stdin)
        wrong = ["a cut after a line that waits isn't done"] * (client.bytes.read()[:1] not in (b"", b"d"))
        client.close()
        print("end", file=publisher.process.stdin)
        told = [publisher.process.stdout.readline().rstrip("\n") for _ in range(5)]
        due = ["A1 the server ends", "ok", "ok", "V1 there is a field too many", "ok"]
        ended = publisher.process.wait()
        return wrong + [f"it ends with {ended}, and says {told}"] * (ended != 0 or told != due)


def words_of_the_command_line_are_read(pubd, subcat):
    """An address by the name of this machine; which version it is; the kinds of columns."""
    words = [pubd, CONFIGURATION, "localhost:0", "0", "-"]
    ran = subprocess.run(words, input="", capture_output=True, text=True, timeout=60)
    wrong = [f"at localhost it says {ran.stdout!r} {ran.stderr!r}"] * (ran.returncode != 0 or not ran.stdout.startswith("listening 127.0.0.1:"))
    for program in (pubd, subcat):
        ran = subprocess.run([program, "--version"], capture_output=True, text=True, timeout=60)
        wrong += [f"its version is {ran.stdout!r}"] * (ran.returncode != 0 or ran.stdout != f"{program.name} (Vondahe) 0.1\n")
    told = subprocess.run([pubd, "--help"], capture_output=True, text=True, timeout=60).stdout
    return wrong + [f"the help has no kind {kind}" for kind in ("bool", "int2", "uuid", "numeric(p,s)", "timestamptz") if kind not in told]
