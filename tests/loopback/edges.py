"""The edge to the operating system: descriptors, the standard error, signals. Each case answers what is wrong, a line each."""
import os
import pathlib
import signal
import socket
import subprocess
import sys
import time

from connection import Connection, Refused
from server import CONFIGURATION

sys.path.insert(0, str(pathlib.Path(__file__).resolve().parent.parent.parent / "examples" / "driven"))
from driven import Publisher

# How many refusals of a connection are told.
TOLD = 20
# Of so many connections that is more than a pipe holds, 65,536 bytes: a line at `info` has some 250.
CROWD = 40
# For how many seconds a request for the page may take.
PATIENCE = 5


def refuse(client, count, text):
    for _ in range(count):
        try:
            client.ask(text)
        except Refused:
            pass


def closed_descriptors_are_nobody_s(pubd, subcat):
    """Without standard streams a line that is told goes into no client's stream."""
    wrong = []
    for closed in ((0, 2), (0, 1, 2), (2,)):
        with socket.socket() as free:
            free.bind(("127.0.0.1", 0))
            port = free.getsockname()[1]
        words = [pubd, CONFIGURATION, f"127.0.0.1:{port}", "2"]
        process = subprocess.Popen(words, stdout=subprocess.DEVNULL, preexec_fn=lambda: [os.close(each) for each in closed])
        client = at_port(port)
        other = at_port(port)
        client.create("s")
        client.start("s")
        refuse(other, 3, "NO SUCH COMMAND")
        other.close()
        client.socket.settimeout(0.3)
        try:
            came = client.bytes.read(1)
        except TimeoutError:
            came = None
        wrong += [f"without {closed} a client reads {came}"] * (came not in (None, b"d"))
        client.close()
        wrong += [f"without {closed} it ends with {ended}" for ended in [ended_of(process)] if ended]
    return wrong


def at_port(port):
    for _ in range(500):
        try:
            return Connection(port)
        except ConnectionRefusedError:
            time.sleep(0.01)
    raise TimeoutError("nobody listens")


def ended_of(process):
    try:
        return process.wait(timeout=20)
    except subprocess.TimeoutExpired:
        process.kill()
        return process.wait()


def nobody_waits_for_a_reader_of_what_is_told(pubd, subcat):
    """Of a connection twenty refusals are told, and that more aren't; where nobody reads, connections are served, and it ends."""
    words = [pubd, "--log-min-messages", "info", CONFIGURATION, "127.0.0.1:0", "forever", "-"]
    process = subprocess.Popen(words, stdin=subprocess.PIPE, stdout=subprocess.PIPE, stderr=subprocess.PIPE)
    port = int(process.stdout.readline().rpartition(b":")[2])
    for _ in range(CROWD):
        client = Connection(port)
        client.socket.settimeout(20)
        refuse(client, TOLD + 2, "NO SUCH COMMAND " + "x" * 200)
        client.close()
    begun = time.monotonic()
    process.stdin.write(b"end\n")
    process.stdin.flush()
    wrong = [f"it ends with {ended}" for ended in [ended_of(process)] if ended]
    took = time.monotonic() - begun
    wrong += [f"its end takes {took:.1f} s"] * (took > 10)
    told = process.stderr.read().splitlines()
    of_first = [line for line in told if b" connection 1: " in line or line.endswith(b"of connection 1 are not told")]
    for stream in (process.stdin, process.stdout, process.stderr):
        stream.close()
    return wrong + [f"of connection 1 is told {len(of_first)} times, at last {of_first[-1:]}"] * (len(of_first) != TOLD + 1 or b"further" not in of_first[-1])


def a_slow_reader_of_the_page_holds_up_nobody(pubd, subcat):
    """A request has its time, however its bytes come, and a signal doesn't end it; `end` doesn't wait for one."""
    with Publisher(pubd, CONFIGURATION, options=("--status", "127.0.0.1:0")) as publisher:
        address = "127.0.0.1", publisher.status_port
        with socket.create_connection(address, timeout=60) as stopped:
            stopped.sendall(b"GET / HTTP/1.1\r\nHost: pubd\r\n")
            time.sleep(0.2)
            for each in (signal.SIGSTOP, signal.SIGCONT):
                os.kill(publisher.process.pid, each)
                time.sleep(0.2)
            stopped.sendall(b"\r\n")
            wrong = ["a signal ends a request"] * (not stopped.recv(100).startswith(b"HTTP/1.1 200"))
        begun = time.monotonic()
        with socket.create_connection(address, timeout=60) as slow:
            wrong += ["a slow request goes on for ever"] * (not is_closed(slow))
        took = time.monotonic() - begun
        wrong += [f"a slow request is closed after {took:.1f} s"] * (not PATIENCE - 1 < took < 3 * PATIENCE)
        with socket.create_connection(address, timeout=60) as slow:
            slow.sendall(b"G")
            time.sleep(0.2)
            begun = time.monotonic()
            ended = publisher.end()
            took = time.monotonic() - begun
        return wrong + [f"it ends with {ended}, {took:.1f} s on"] * (ended != 0 or took > 3)


def is_closed(slow):
    """Whether it is closed while it sends a byte every half a second."""
    try:
        for _ in range(60):
            slow.sendall(b"G")
            time.sleep(0.5)
    except OSError:
        return True
    return False
