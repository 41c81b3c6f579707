"""A proxy before a server: it cuts connections at random bytes, of either direction, and can have somebody killed at one."""
import select
import socket
import struct
import threading
import time

# How long an address goes on to hold a connection that its peer has lost.
LAGS = 0.15


class Cutting:
    """It cuts so many connections in all, each when so many bytes have passed as `limit` draws, and no other."""

    def __init__(self, port, cuts, limit, draw):
        self.served, self.left, self.limit, self.draw = port, cuts, limit, draw
        self.lock, self.victim, self.strike_in = threading.Lock(), None, 0
        self.listener = socket.create_server(("127.0.0.1", 0))
        self.port = self.listener.getsockname()[1]
        threading.Thread(target=self.listen, daemon=True).start()

    def __enter__(self):
        return self

    def __exit__(self, *raised):
        self.listener.shutdown(socket.SHUT_RDWR)
        self.listener.close()

    def strike(self, victim, after):
        """Kills the process when so many more bytes have passed."""
        with self.lock:
            self.victim, self.strike_in = victim, after

    def listen(self):
        while True:
            try:
                client = self.listener.accept()[0]
            except OSError:
                return
            threading.Thread(target=self.serve, args=(client,), daemon=True).start()

    def serve(self, client):
        server = socket.create_connection(("127.0.0.1", self.served))
        try:
            if self.relay(client, server):
                self.cut(client, server)
        except OSError:
            pass
        client.close()
        server.close()

    def relay(self, client, server):
        """Answers whether the connection is to be cut now, and not ended by one of both."""
        with self.lock:
            most = self.limit(self.draw) if self.left else None
        passed = 0
        while passed != most:
            for one in select.select([client, server], [], [])[0]:
                got = one.recv(4096)[: None if most is None else most - passed]
                if not got and passed != most:
                    return False
                (server if one is client else client).sendall(got)
                passed += len(got)
                self.count(len(got))
        with self.lock:
            self.left = max(self.left - 1, 0)
        return True

    def count(self, passed):
        with self.lock:
            victim, self.strike_in = self.victim, self.strike_in - passed
            if victim is None or self.strike_in > 0:
                return
            self.victim = None
        victim.kill()

    def cut(self, client, server):
        """By a reset, which also loses what wasn't read, or by an end; sometimes the server is told later."""
        way = self.draw.randrange(6)
        if way < 2:
            client.setsockopt(socket.SOL_SOCKET, socket.SO_LINGER, struct.pack("ii", 1, 0))
        client.close()
        if way in (1, 5):
            time.sleep(LAGS)
