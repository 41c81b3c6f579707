"""Whether what a server said is one of its sentences: whole frames that it may send, and the beginning of one more."""

# What answers a request for encryption, before any frame.
NO_ENCRYPTION = b"N"
KINDS = b"RSKZTDCEWdc"
# All that `Refusal::code` of server has, and `StreamError::code` of hub.
CODES = {b"08P01", b"0A000", b"22023", b"42601", b"42602", b"42704", b"42710", b"53200", b"53300", b"53400", b"55006"}
LONGEST = 1_048_576


def what_is_wrong(said):
    """What is wrong with it; None where nothing is."""
    rest = said.lstrip(NO_ENCRYPTION)
    while len(rest) >= 5:
        kind, length = rest[:1], int.from_bytes(rest[1:5], "big")
        if kind not in KINDS or not 4 <= length <= LONGEST:
            return f"a frame begins with {rest[:16]}"
        if len(rest) < 1 + length:
            return None
        if kind == b"E" and not CODES & {field[1:] for field in rest[5 : 1 + length].split(b"\0") if field[:1] == b"C"}:
            return f"an error says {rest[5:1 + length]}"
        rest = rest[1 + length :]
    return f"it ends with {rest}" if rest and rest[:1] not in KINDS else None


def refusals_in(said):
    """How many ErrorResponses it has."""
    rest, count = said.lstrip(NO_ENCRYPTION), 0
    while len(rest) >= 5:
        count += rest[:1] == b"E"
        rest = rest[1 + int.from_bytes(rest[1:5], "big") :]
    return count
