"""A client that streams until it is killed: HOST PORT SLOT. It prints a line once it streams, and answers each question."""
import sys

sys.dont_write_bytecode = True
from connection import Connection, status


def main():
    host, port, slot = sys.argv[1:]
    client = Connection(int(port), host=host)
    client.create(slot)
    client.start(slot)
    print("streams", flush=True)
    client.socket.settimeout(None)
    while True:
        _, body = client.frame()
        if body[:1] == b"k" and body[17:] == b"\1":
            client.socket.sendall(status(int.from_bytes(body[1:9], "big")))


main()
