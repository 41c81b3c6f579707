"""What a folder has of slots, rows and commits after ends and kills. Each case answers what is wrong, a line each."""
import itertools
import pathlib
import random
import signal
import subprocess
import sys
import tempfile
import time

from asking import ON
from authentication import Client, Guarded, lines_of
from connection import Connection, Refused as RefusedCommand, position, status
from copying import BEGIN, CREATE, rows_copied
from filling import commit_many
from json_lines import shown
from lasting_files import inspected
from server import CONFIGURATION, FIRST
from showing import page, values

sys.path.insert(0, str(pathlib.Path(__file__).resolve().parent.parent.parent / "examples" / "driven"))
from driven import Publisher, Refused

# Within how many seconds it is on the disk how a slot stands: half of one, and more where the machine is busy.
PATIENCE = 5
KILLS = 12


def going_on(pubd, folder, *options, before=(), configuration=CONFIGURATION, errors=subprocess.DEVNULL):
    """A server that goes on by the folder, as words before it start it. SIGTERM ends it in order."""
    words = [*before, pubd, "--data", folder, "--end-on-sigterm", "--status", "127.0.0.1:0", *options]
    return Publisher("env", configuration, options=["--block-signal=TERM", "--ignore-signal=XFSZ", *words], errors=errors)


def inserted(publisher, *keys):
    """Where transactions of these rows end, a row each."""
    return [position(publisher.commit(f"insert public.item ({key},'ab',7)", time=key)) for key in keys]


def told_of(publisher):
    return values(page(publisher.status_port)[1])


def refused(call, *given):
    """The code by which it is refused; None where it isn't."""
    try:
        call(*given)
    except RefusedCommand as fault:
        return fault.args[0]
    except Refused as fault:
        return fault.code


def confirmed_of(publisher, slots):
    """Where slots are confirmed; None of one that isn't there."""
    told = told_of(publisher)
    return {slot: told.get(f'pubd_slot_confirmed_position{{slot="{slot}"}}') for slot in slots}


def await_told(pubd, folder, text):
    """Until --inspect tells this of the folder."""
    late = time.monotonic() + PATIENCE
    while text not in subprocess.run([pubd, "--inspect", folder], capture_output=True, text=True, timeout=60).stdout:
        assert time.monotonic() < late, f"{text!r} isn't told of the folder"
        time.sleep(0.02)


def stream_of(publisher, slot, creates=False):
    client = Connection(publisher.port)
    if creates:
        client.create(slot)
    client.start(slot)
    return client


def slots_stand_over_each_end(pubd, subcat):
    """One that is confirmed, one that isn't, and one that is dropped: after an end in order, a signal, and a kill. Right after what was
    acknowledged a kill may leave less, and never more."""
    wrong = []
    for ending in ("end", "signal", "kill", "kill at once"):
        with tempfile.TemporaryDirectory() as folder:
            wrong += [f"after {ending}, {each}" for each in over_an_end(pubd, folder, ending)]
    return wrong


def over_an_end(pubd, folder, ending):
    with going_on(pubd, folder) as publisher:
        client = stream_of(publisher, "a", creates=True)
        other = Connection(publisher.port)
        for slot in "bc":
            other.create(slot)
        ends = inserted(publisher, 1, 2, 3)
        client.commits(3)
        other.ask("DROP_REPLICATION_SLOT c")
        if ending.startswith("kill"):
            client.socket.sendall(status(ends[1]))
            publisher.say(f"await a {shown(ends[1])} 10")
            if ending == "kill":
                await_told(pubd, folder, f"slot a confirmed {shown(ends[1])} ")
            wrong = []
        else:
            wrong = end_in_order(publisher, client, ends[1], ending)
    least = FIRST if ending == "kill at once" else ends[1]
    with going_on(pubd, folder) as publisher:
        confirmed = confirmed_of(publisher, "abc")
        a = confirmed.pop("a")
        wrong += [f"a is confirmed at {a}"] * (a is None or not least <= a <= ends[1])
        wrong += [f"the others are confirmed at {confirmed}"] * (confirmed != {"b": FIRST, "c": None})
        came = stream_of(publisher, "a").commits(sum(a < end for end in ends))
        wrong += [f"the stream of a has {came}"] * (came != [end for end in ends if a < end])
        came = stream_of(publisher, "b").commits(3)
        wrong += [f"the stream of b has {came}"] * (came != ends)
        again = Connection(publisher.port)
        code = refused(again.start, "c")
        wrong += [f"the stream of c is answered by {code}"] * (code != "42704")
        again.create("c")
        again.start("c")
        due = inserted(publisher, 4)
        came = again.commits(1)
        return wrong + [f"c, made again, has {came}, and not {due}"] * (came != due)


def end_in_order(publisher, client, end, ending):
    """Ends the server while a stream runs, which acknowledges this position once it has CopyDone."""
    if ending == "end":
        publisher.say("end")
    else:
        publisher.process.send_signal(signal.SIGTERM)
    kind, _ = client.frame()
    while kind == b"d":
        kind, _ = client.frame()
    client.socket.sendall(status(end))
    client.close()
    ended = publisher.process.wait(60)
    return [f"its stream ends by {kind}"] * (kind != b"c") + [f"it ends with {ended}"] * bool(ended)


def commits_from_memory_stand_over_an_end(pubd, subcat):
    """Where commits don't wait, all that were answered are on the disk after an end in order, a signal, and the end of the input."""
    wrong, count = [], 1000
    for ending in ("end", "signal", "input"):
        with tempfile.TemporaryDirectory() as folder:
            with going_on(pubd, folder, "--synchronous-commit", "off") as publisher:
                commit_many(publisher, 0, count)
                if ending == "end":
                    publisher.say("end")
                elif ending == "signal":
                    publisher.process.send_signal(signal.SIGTERM)
                else:
                    publisher.process.stdin.close()
                    publisher.process.stdin = None
                ended = publisher.process.wait(60)
            told = inspected(pubd, folder)
            keys = [key for _, rows in told.transactions for key, _, _ in rows]
            wrong += [f"by {ending} it ends with {ended}, and leaves {len(keys)} of {count}"] * (ended != 0 or keys != list(range(count)))
    return wrong


def slots_stand_over_kills(pubd, subcat):
    """Slots that are made and dropped, and transactions between; right after the last answer the server is killed, again and again."""
    draw, slots, end, keys = random.Random(17), {}, FIRST, itertools.count(1)
    names = "abcdef"
    with tempfile.TemporaryDirectory() as folder:
        for kill in range(KILLS + 1):
            with going_on(pubd, folder) as publisher:
                told = confirmed_of(publisher, names)
                if told != {name: slots.get(name) for name in names}:
                    return [f"after kill {kill} there is {told}, and not {slots}"]
                client = Connection(publisher.port)
                for _ in range(draw.randint(0, 4)):
                    name = draw.choice(names)
                    if slots.pop(name, None) is not None:
                        client.ask(f"DROP_REPLICATION_SLOT {name}")
                    else:
                        client.create(name)
                        slots[name] = end
                    if draw.randrange(2):
                        end, = inserted(publisher, next(keys))
    return []


def slots_stay_their_owners(pubd, subcat):
    """Over an end and over a kill a slot that a user made is refused to another one, and is its own to use and to drop."""
    wrong, users = [], lines_of(("me", b"pencil", ""), ("you", b"ink", ""))
    with tempfile.TemporaryDirectory() as folder:
        for turn in range(3):
            with Guarded(pubd, users, ("--data", folder)) as server:
                me, you = Client(server.port, "me"), Client(server.port, "you")
                me.prove(b"pencil")
                you.prove(b"ink")
                if turn == 0:
                    due = [(me.ask("CREATE_REPLICATION_SLOT mine LOGICAL pgoutput"), None)]
                else:
                    due = [(you.ask("DROP_REPLICATION_SLOT mine"), "42501"), (you.start("mine"), "42501")]
                    due += [(me.ask("DROP_REPLICATION_SLOT mine") if turn == 2 else me.start("mine"), None)]
                wrong += [f"in turn {turn} it is answered by {[code for code, _ in due]}"] * any(code != should for code, should in due)
                if turn == 1:
                    server.process.kill()
    return wrong


def a_slot_that_was_given_up_stays_so(pubd, subcat):
    """After a kill none of its streams begins, until it is dropped and made again."""
    with tempfile.TemporaryDirectory() as folder:
        options = ("--max-slot-keep", "20")
        with going_on(pubd, folder, *options) as publisher:
            Connection(publisher.port).create("lagging")
            inserted(publisher, *range(40))
            lost = told_of(publisher)['pubd_slot_lost{slot="lagging"}']
            await_told(pubd, folder, "slot lagging confirmed 0/1000000 owner \"\" lost")
        with going_on(pubd, folder, *options) as publisher:
            lost = lost, told_of(publisher)['pubd_slot_lost{slot="lagging"}']
            client = Connection(publisher.port)
            code = refused(client.start, "lagging")
            client.ask("DROP_REPLICATION_SLOT lagging")
            client.create("lagging")
            client.start("lagging")
            due = inserted(publisher, 100)
            came = client.commits(1)
            wrong = [f"it is lost {lost}, and its START is answered by {code}"] * ((lost, code) != ((1, 1), "55000"))
            return wrong + [f"made again, it has {came}, and not {due}"] * (came != due)


def rows_stand_over_kills(pubd, subcat):
    """A copy of the table has the rows of what has committed: not of what was aborted or rolled back, nor was in progress at a kill."""
    draw, rows = random.Random(23), {}
    with tempfile.TemporaryDirectory() as folder:
        for kill in range(KILLS // 2 + 1):
            with going_on(pubd, folder, *ON) as publisher:
                copied, wrong = copy_of(publisher)
                wrong += [f"after kill {kill} there are {copied}, and not {rows}"] * (copied != rows)
                if wrong:
                    return wrong
                for _ in range(10):
                    rows = after_a_transaction(publisher, draw, rows)
                for line in ("begin P", "insert P public.item (1000,'ab',7)"):
                    publisher.say(line)
    return []


def after_a_transaction(publisher, draw, rows):
    """The rows after a transaction of some changes, some of which may be rolled back, or all."""
    publisher.say("begin T")
    changed = changed_rows(publisher, draw, rows)
    publisher.say("savepoint T")
    inner = changed_rows(publisher, draw, changed)
    if draw.randrange(3) == 0:
        publisher.say("rollback T 1")
    else:
        changed = inner
    ends = draw.choice(["commit T 5", "commit T 5", "abort T"])
    publisher.say(ends)
    return rows if ends == "abort T" else changed


def changed_rows(publisher, draw, rows):
    """The rows after some changes of the transaction."""
    rows = dict(rows)
    for _ in range(draw.randint(0, 3)):
        key, count = draw.randrange(12), draw.randrange(1000)
        if key not in rows:
            publisher.say(f"insert T public.item ({key},'ab',{count})")
            rows[key] = count
        elif draw.randrange(2):
            del rows[key]
            moved = key if key + 100 in rows else key + 100
            publisher.say(f"update T public.item ({key}) ({moved},'ab',{count})")
            rows[moved] = count
        else:
            publisher.say(f"delete T public.item ({key})")
            del rows[key]
    return rows


def copy_of(publisher):
    """The numbers of the rows by their keys, and what is wrong with the frames of a copy."""
    client = Connection(publisher.port)
    for command in (BEGIN, CREATE):
        client.ask(command)
    lines, wrong = rows_copied(client)
    for command in ("ROLLBACK", "DROP_REPLICATION_SLOT c"):
        client.ask(command)
    client.close()
    fields = [line.split("\t") for line in lines]
    return {int(key): int(count) for key, _, count in fields}, wrong
