"""Clients that send the messages of extended queries, which are refused as PostgreSQL 15, 55.2.3, has it: one ErrorResponse, then
nothing up to the Sync, and the session goes on. Each case answers what is wrong, a line each."""
import struct

from connection import Connection, Refused, code_of
from server import Server

# An unnamed statement, its portal, what it says of itself, and its rows.
PARSE = (b"P", b"\0SELECT 1\0\0\0")
BIND = (b"B", b"\0\0\0\0\0\0\0\0")
DESCRIBE = (b"D", b"P\0")
EXECUTE = (b"E", b"\0\0\0\0\0")
CLOSE = (b"C", b"S\0")
FLUSH = (b"H", b"")
SYNC = (b"S", b"")
FUNCTION_CALL = (b"F", bytes.fromhex("0000002a 0000 0000 0000"))
QUERY = (b"Q", b"IDENTIFY_SYSTEM\0")
IDENTIFIED = "TDCZ"
# The greatest length field of such a frame.
MOST = 1_048_576


def sent(*frames):
    return b"".join(kind + struct.pack(">I", len(body) + 4) + body for kind, body in frames)


def heard(client, count):
    """The type bytes of so many frames, and the codes of what was refused."""
    frames = [client.frame() for _ in range(count)]
    return "".join(kind.decode() for kind, _ in frames), [code_of(body) for kind, body in frames if kind == b"E"]


def an_extended_query_is_refused_and_its_session_goes_on(pubd, subcat):
    """By each message that may begin one; sent at once or byte by byte; whatever comes before the Sync."""
    wrong = []
    asked = {
        "a whole one": (sent(PARSE, BIND, DESCRIBE, EXECUTE, SYNC, QUERY), "EZ" + IDENTIFIED, 1),
        "a statement that is closed": (sent(CLOSE, SYNC, QUERY), "EZ" + IDENTIFIED, 1),
        "two, one after the other": (sent(PARSE, SYNC, EXECUTE, SYNC, QUERY), "EZEZ" + IDENTIFIED, 2),
        "a query before its Sync": (sent(PARSE, QUERY, (b"d", b"r"), FUNCTION_CALL, FLUSH, SYNC, QUERY), "EZ" + IDENTIFIED, 1),
        "a Flush and a Sync alone": (sent(FLUSH, SYNC, QUERY), "Z" + IDENTIFIED, 0),
        "a function call": (sent(FUNCTION_CALL, QUERY), "EZ" + IDENTIFIED, 1),
    }
    with Server(pubd, 2 * len(asked), []) as server:
        for name, (frames, kinds, refusals) in asked.items():
            for cuts in (len(frames), 1):
                client = Connection(server.port)
                for at in range(0, len(frames), cuts):
                    client.socket.sendall(frames[at : at + cuts])
                told = heard(client, len(kinds))
                wrong += [f"{name}, cut by {cuts}: {told}"] * (told != (kinds, ["08P01"] * refusals))
                client.close()
    return wrong


def a_frame_of_an_extended_query_has_its_bounds(pubd, subcat):
    """One that is too long, or shorter than its own length, ends the connection; the longest is refused like any other."""
    wrong = []
    bad = {"too long": b"P" + struct.pack(">I", MOST + 1), "too short": b"S" + struct.pack(">I", 3)}
    with Server(pubd, 2 * len(bad) + 2, []) as server:
        for before, answered in ((b"", 0), (sent(PARSE), 1)):
            for name, bytes_sent in bad.items():
                client = Connection(server.port)
                client.socket.sendall(before + bytes_sent)
                told = heard(client, answered + 1)
                ended = client.bytes.read(1)
                wrong += [f"{name}: {told}, then {ended}"] * (told != ("E" * (answered + 1), ["08P01"] * (answered + 1)) or ended != b"")
                client.close()
        client = Connection(server.port)
        client.socket.sendall(sent((b"P", bytes(MOST - 4)), SYNC, QUERY))
        told = heard(client, 2 + len(IDENTIFIED))
        wrong += [f"the longest: {told}"] * (told != ("EZ" + IDENTIFIED, ["08P01"]))
        client.close()
        client = Connection(server.port)
        client.socket.sendall(sent(PARSE, (b"X", b"")))
        told = heard(client, 1)
        ended = client.bytes.read(1)
        wrong += [f"a Terminate before its Sync: {told}, then {ended}"] * (told != ("E", ["08P01"]) or ended != b"")
        client.close()
    return wrong


def a_stream_takes_no_extended_query(pubd, subcat):
    with Server(pubd, 1, []) as server:
        client = Connection(server.port)
        client.create("s")
        client.start("s")
        client.socket.sendall(sent(PARSE, SYNC))
        kinds = []
        try:
            while not kinds or kinds[-1] != b"E":
                kinds.append(client.frame()[0])
        except (EOFError, Refused):
            pass
        ended = client.bytes.read(1)
        client.close()
    return [f"a stream answers {kinds}, then {ended}"] * (kinds[-1:] != [b"E"] or ended != b"")
