"""A log that is kept in a folder, where its disk is full, or the log is longer than its records. Each case answers what is wrong, a line
each."""
import contextlib
import os
import pathlib
import subprocess
import sys
import tempfile

from connection import Connection, position, status
from filling import commit_many
from json_lines import shown
from lasting_slots import await_told, going_on, inserted, refused, stream_of, told_of
from server import CONFIGURATION, FIRST

sys.path.insert(0, str(pathlib.Path(__file__).resolve().parent.parent.parent / "examples" / "driven"))
from driven import Refused

# How many bytes there are on a small disk.
SMALL = 16384
# How long a stream is watched that is to send nothing but keepalives.
SILENCE = 0.4


def small_configuration(place, records):
    configuration = place / "small.toml"
    configuration.write_text(CONFIGURATION.read_text().replace("records = 65536", f"records = {records}"))
    return configuration


def a_log_longer_than_its_records_goes_on(pubd, subcat):
    """Twice as many records as it has room for, which a follower acknowledges; then the server is killed. Its rows are there, and so is
    what the follower hasn't acknowledged."""
    records, count, times = 1000, 200, 5
    with tempfile.TemporaryDirectory() as place:
        configuration, folder = small_configuration(pathlib.Path(place), records), pathlib.Path(place) / "data"
        with going_on(pubd, folder, configuration=configuration) as publisher:
            client = stream_of(publisher, "s", creates=True)
            for first in range(0, count * times, count):
                commit_many(publisher, first, count)
                end = client.commits(count)[-1]
                client.socket.sendall(status(end))
                await_told(pubd, folder, f"slot s confirmed {shown(end)} ")
            keys = range(count * times, count * times + 5)
            due = inserted(publisher, *keys)
        with going_on(pubd, folder, configuration=configuration) as publisher:
            came = stream_of(publisher, "s").commits(len(due))
            publisher.say("begin T")
            codes = {key: refused(publisher.say, f"insert T public.item ({key},'ab',7)") for key in (0, *keys)}
            wrong = [f"its stream has {came}, and not {due}"] * (came != due)
            return wrong + [f"rows that are there are answered by {codes}"] * (set(codes.values()) != {"S3"})


def a_small_log_in_a_folder_never_fills(pubd, subcat):
    """It has room for nine transactions of a hundred rows; however quickly they come, each is acknowledged before the next."""
    records, rows, times = 1000, 100, 40
    with tempfile.TemporaryDirectory() as place:
        configuration = small_configuration(pathlib.Path(place), records)
        with going_on(pubd, pathlib.Path(place) / "data", configuration=configuration) as publisher:
            client = stream_of(publisher, "s", creates=True)
            for first in range(0, rows * times, rows):
                lines = [f"insert public.item ({key},'ab',7)" for key in range(first, first + rows)]
                try:
                    end = publisher.commit(*lines)
                except Refused as fault:
                    return [f"after {first} rows, all of which are acknowledged, a line is refused: {fault}"]
                client.commits(1)
                client.socket.sendall(status(position(end)))
                publisher.say(f"await s {end} 10")
    return []


@contextlib.contextmanager
def small_disk():
    """A folder on a disk of its own; None where none can be mounted. Only root can."""
    with tempfile.TemporaryDirectory() as place:
        words = ["mount", "-t", "tmpfs", "-o", f"size={SMALL}", "none", place]
        is_mounted = os.getuid() == 0 and subprocess.run(words, capture_output=True).returncode == 0
        try:
            yield place if is_mounted else None
        finally:
            if is_mounted:
                subprocess.run(["umount", place], check=True)


def a_full_disk_refuses_commits_and_loses_none(pubd, subcat):
    """A disk that has room for a hundred transactions or two, where one can be mounted."""
    with small_disk() as place:
        if place is None:
            print("a full disk: none can be mounted, so a limit alone is looked at")
            return []
        wrong, answered = over_a_full_disk(pubd, place)
        wrong += wrong_where_it_is_full(pubd, place, answered)
        subprocess.run(["mount", "-o", f"remount,size={64 * SMALL}", place], check=True)
        return wrong + wrong_with_room(pubd, place, answered)


def a_file_at_its_limit_refuses_commits_and_loses_none(pubd, subcat):
    """The same where the file of the log may be no longer."""
    with tempfile.TemporaryDirectory() as place:
        wrong, answered = over_a_full_disk(pubd, place, "prlimit", f"--fsize={SMALL}")
        return wrong + wrong_with_room(pubd, place, answered)


def over_a_full_disk(pubd, place, *before):
    """Commits until one is refused, and what is wrong then; and where those end that were answered."""
    with going_on(pubd, pathlib.Path(place) / "data", before=before, errors=subprocess.PIPE) as publisher:
        client, other = stream_of(publisher, "s", creates=True), Connection(publisher.port)
        other.create("t")
        ends, code = [], None
        while code is None:
            try:
                ends += inserted(publisher, len(ends) + 1)
            except Refused as fault:
                code = fault.code
        wrong = [f"the first that is refused is so by {code}"] * (code != "D2")
        wrong += wrong_refusals(publisher, other) + wrong_disk(publisher, ends[-1])
        came = client.commits(len(ends))
        wrong += ["the stream has something else"] * (came != ends)
        wrong += wrong_silence(client)
        again = stream_of(publisher, "t")
        wrong += ["a stream that begins then has something else"] * (again.commits(len(ends)) != ends)
        wrong += wrong_silence(again)
        for each in (client, other, again):
            each.close()
        ended = publisher.end()
        told = [line for line in publisher.process.stderr if "the log's disk has failed" in line]
        due = "pubd: commits are refused from now on, since the log's disk has failed: "
        wrong += [f"it says {told}"] * (len(told) != 1 or not told[0].startswith(due))
        return wrong + [f"it ends with {ended}"] * bool(ended), ends


def wrong_refusals(publisher, client):
    """What is wrong with what is refused from now on."""
    publisher.say("begin A")
    publisher.say("insert A public.item (1000000,'ab',7)")
    due = [("a commit", refused(publisher.say, "commit A"), "D1"), ("a note", refused(publisher.say, "note 'p' 'q'"), "D1")]
    due += [("a commit again", refused(publisher.say, "commit A"), "D1"), ("a transaction", refused(publisher.say, "begin A"), None)]
    due += [("an abort", refused(publisher.say, "abort A"), None)]
    due += [("a slot", refused(client.create, "u"), "58030"), ("a drop", refused(client.ask, "DROP_REPLICATION_SLOT t"), "58030")]
    return [f"{what} is answered by {code}" for what, code, should in due if code != should]


def wrong_disk(publisher, end):
    told = told_of(publisher)
    got = told.get("pubd_disk_failed"), told.get("pubd_disk_end_position")
    return [f"the page tells {got}, and not that it failed at {end}"] * (got != (1, end))


def wrong_silence(client):
    """A stream that has all that is on the disk answers who asks it, and sends nothing more."""
    client.socket.sendall(status(FIRST, asks=True))
    client.socket.settimeout(SILENCE)
    kinds = set()
    with contextlib.suppress(TimeoutError):
        while True:
            kind, body = client.frame()
            kinds.add(kind + body[:1])
    return [f"after all transactions come {kinds}"] * (kinds != {b"dk"})


def wrong_where_it_is_full(pubd, place, ends):
    """What is wrong where a server goes on while there is no room yet: what was answered is sent, and a commit is refused."""
    with going_on(pubd, pathlib.Path(place) / "data") as publisher:
        came = stream_of(publisher, "t").commits(len(ends))
        code = refused(publisher.commit, "insert public.item (2000000,'ab',7)")
        wrong = [f"a full disk has {len(came)} of {len(ends)} transactions"] * (came != ends)
        return wrong + [f"a commit on a full disk is answered by {code}"] * (code not in ("D1", "D2"))


def wrong_with_room(pubd, place, ends):
    """What is wrong where a server goes on once there is room: what was answered is there, perhaps those too of which nobody knew."""
    with going_on(pubd, pathlib.Path(place) / "data") as publisher:
        client = stream_of(publisher, "t")
        last, = inserted(publisher, 3000000)
        came = []
        while not came or came[-1] < last:
            came += client.commits(1)
        wrong = [f"with room again there are {len(came)} of {len(ends)} transactions"] * (came[: len(ends)] != ends)
        return wrong + ["more is there than was committed"] * (len(came) > len(ends) + 3)
