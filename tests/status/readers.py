"""Readers of the status page that hold nobody up: beside each a good one has its page within a second."""
import socket
import threading
import time
import urllib.request

# How long a good reader may take, and for how long a connection may ask, with time to be told of that.
SECOND, PATIENCE = 1, 7
SILENT = 100
LONG = b"GET /metrics HTTP/1.1\r\nHost: a\r\nX: " + 100_000 * b"a"
# What a reader sends, and what its answer begins with; None: nothing, or the connection's end.
ANSWERS = {
    "another method": (b"POST /metrics HTTP/1.1\r\nHost: a\r\n\r\n", b"HTTP/1.1 405 "),
    "an unknown method": (b"BREW /metrics HTTP/1.1\r\nHost: a\r\n\r\n", b"HTTP/1.1 405 "),
    "another page": (b"GET /other HTTP/1.1\r\nHost: a\r\n\r\n", b"HTTP/1.1 404 "),
    "HEAD": (b"HEAD / HTTP/1.1\r\nHost: a\r\n\r\n", b"HTTP/1.1 200 "),
    "HTTP/1.0": (b"GET / HTTP/1.0\r\n\r\n", b"HTTP/1.0 200 "),
    "two requests at once": (2 * b"GET / HTTP/1.1\r\nHost: a\r\n\r\n", b"HTTP/1.1 200 "),
    "no HTTP": (b"\0\0\0\x08\x04\xd2\x16\x2f\r\n\r\n", b"HTTP/1.1 400 "),
    "100,000 bytes of headers": (LONG, None),
    "a body that is too long": (b"GET / HTTP/1.1\r\nHost: a\r\nContent-Length: 99999999\r\n\r\n", b"HTTP/1.1 413 "),
}


def beside_others(port, commit):
    """What doesn't hold; `commit` commits, and waits until a stream had it."""
    wrong = []
    held = [opened(port) for _ in range(SILENT)]
    done = threading.Event()
    drips = [threading.Thread(target=drip, args=(port, done)) for _ in range(5)]
    for one in drips:
        one.start()
    held += [deaf(port) for _ in range(5)]
    for name, (sent, due) in ANSWERS.items():
        wrong += answered(port, name, sent, due) + in_time(name, lambda: good(port))
    wrong += in_time("a stream", commit) + ended(opened(port))
    done.set()
    for one in drips:
        one.join()
    for one in held:
        one.close()
    return wrong


def opened(port, sent=b""):
    client = socket.create_connection(("127.0.0.1", port), timeout=PATIENCE)
    client.sendall(sent)
    return client


def drip(port, done):
    """A byte a second, and another connection once this one is closed."""
    while not done.is_set():
        with opened(port) as client:
            for byte in ANSWERS["another page"][0]:
                if done.wait(1):
                    return
                try:
                    client.sendall(bytes([byte]))
                except OSError:
                    break


def deaf(port):
    """It asks, and reads nothing."""
    client = socket.socket()
    client.setsockopt(socket.SOL_SOCKET, socket.SO_RCVBUF, 1)
    client.connect(("127.0.0.1", port))
    client.sendall(b"GET /metrics HTTP/1.1\r\nHost: a\r\n\r\n")
    return client


def answered(port, name, sent, due):
    with opened(port) as client:
        try:
            client.sendall(sent)
            got = client.recv(100)
        except (ConnectionError, TimeoutError) as fault:
            return [f"{name}: {fault}"] * (due is not None)
    return [] if due is None or got.startswith(due) else [f"{name}: {got!r}"]


def good(port):
    with urllib.request.urlopen(f"http://127.0.0.1:{port}/metrics", timeout=PATIENCE) as page:
        return b"pubd_connections" in page.read()


def in_time(name, act):
    began = time.monotonic()
    is_done = act()
    took = time.monotonic() - began
    return [f"beside {name}: {took:.2f} s"] * (not is_done or SECOND < took)


def ended(silent):
    """A connection that says nothing is closed in time."""
    with silent:
        try:
            return [] if silent.recv(1) == b"" else ["a silent reader was answered"]
        except TimeoutError:
            return ["a silent reader is still there"]
        except ConnectionError:
            return []
