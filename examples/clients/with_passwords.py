"""PostgreSQL's own clients at a pubd that asks for passwords: a subscription, pg_recvlogical and pg_isready.

    with_passwords.py PUBD

The last line tells what came of it. The status is 1 where something else comes than is due.
"""
import os
import pathlib
import shutil
import subprocess
import sys
import tempfile
import time

sys.dont_write_bytecode = True
HERE = pathlib.Path(__file__).resolve().parent
sys.path.insert(0, str(HERE.parent / "driven"))
from cluster import PROGRAMS, Cluster, Failed, is_installed
from driven import Publisher

CONFIGURATION = HERE / "server.toml"
TABLE = "CREATE TABLE item (id integer PRIMARY KEY, name text, qty bigint)"
FAILED = 'password authentication failed for user "u"'
SECONDS = 60


def said_by(words, password=""):
    """The status and the words of a program that knows this password."""
    given = dict(os.environ, PGPASSWORD=password, PGPASSFILE=os.devnull)
    ran = subprocess.run(words, env=given, capture_output=True, text=True, timeout=SECONDS)
    return ran.returncode, ran.stdout + ran.stderr


def asks(subscriber, text):
    """What PostgreSQL says where it refuses a text."""
    try:
        subscriber.ask(text)
    except Failed as refused:
        return str(refused)
    return None


def subscribed(publisher):
    """What is wrong with a subscription that knows its password, and with those that don't."""
    wrong = []
    place = f"host=127.0.0.1 port={publisher.port} user=u dbname=app"
    with Cluster() as subscriber:
        subscriber.ask(TABLE)
        for password, due in ((" password=ink", FAILED), ("", "no password supplied")):
            refused = asks(subscriber, f"CREATE SUBSCRIPTION other CONNECTION '{place}{password}' PUBLICATION p WITH (copy_data = false)")
            wrong += [f"a subscription with{password or 'out a password'} hears {refused}"] * (refused is None or due not in refused)
        subscriber.ask(f"CREATE SUBSCRIPTION s CONNECTION '{place} password=pencil' PUBLICATION p WITH (copy_data = false)")
        publisher.say("await s stream 60")
        publisher.commit("insert public.item (1,'ab',7)")
        until = time.monotonic() + SECONDS
        while subscriber.ask("SELECT id, name, qty FROM item") != ["1|ab|7"]:
            if until < time.monotonic():
                return [*wrong, "its rows don't come"]
            time.sleep(0.05)
        subscriber.ask("DROP SUBSCRIPTION s")
    return wrong


def received(publisher):
    """What is wrong with pg_recvlogical."""
    program = shutil.which("pg_recvlogical") or PROGRAMS[-1] / "pg_recvlogical"
    words = [program, "-w", "-d", f"host=127.0.0.1 port={publisher.port} user=u dbname=app", "--slot", "t", "-P", "pgoutput", "--create-slot"]
    wrong = []
    for password, due in (("ink", FAILED), ("", "no password supplied")):
        status, said = said_by(words, password)
        wrong += [f"pg_recvlogical with {password!r} says {said}"] * (status == 0 or due not in said)
    status, said = said_by(words, "pencil")
    return wrong + [f"pg_recvlogical says {said}"] * (status != 0)


def run(pubd):
    with tempfile.TemporaryDirectory() as folder:
        file = pathlib.Path(folder) / "passwords"
        file.write_text(subprocess.run([pubd, "--password-of", "u"], input="pencil\n", capture_output=True, text=True, check=True).stdout)
        options = ["--answer-postgresql", "--passwords", file]
        with Publisher(pubd, CONFIGURATION, options=options, errors=subprocess.DEVNULL) as publisher:
            status, said = said_by(["pg_isready", "-h", "127.0.0.1", "-p", str(publisher.port)])
            wrong = [f"pg_isready says {said}"] * (status != 0)
            return wrong + received(publisher) + subscribed(publisher)


def main():
    if len(sys.argv) != 2:
        sys.exit(__doc__)
    if not is_installed():
        print("left out, for want of PostgreSQL")
        return
    wrong = run(pathlib.Path(sys.argv[1]).resolve())
    print(*wrong or ["got what is due"], sep="\n")
    sys.exit(bool(wrong))


if __name__ == "__main__":
    main()
