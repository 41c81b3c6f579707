"""What pubd --password-of prints. Each case answers what is wrong, a line each."""
import base64
import hashlib
import hmac
import subprocess

ROUNDS = 4096
BEGINNING = "SCRAM-SHA-256$4096:"
# Passwords, and what SASLprep makes of them: composed, of other forms of a letter, without what counts as nothing, with plain spaces; and
# as they are: of what is prohibited, of no character of Unicode 3.2, mixed in direction, and where nothing is left.
PREPARED = {
    "p\u00e4ssword": "p\u00e4ssword",
    "pa\u0308ssword": "p\u00e4ssword",
    "\uff30\u2168\ufb01": "PIXfi",
    "I\u00adX": "IX",
    "a\u00a0b\u3000c": "a b c",
    "\u05d0\u05d1": "\u05d0\u05d1",
    "\u06271": "\u06271",
    "\u0627\u0031\u0628": "\u0627\u0031\u0628",
    "a\u05d0": "a\u05d0",
    "\u0627a\u0628": "\u0627a\u0628",
    "\ufb01\u0007": "\ufb01\u0007",
    "\ufb01\ue000": "\ufb01\ue000",
    "\ufb01\u0221": "\ufb01\u0221",
    "\ufb01\U0001f600": "\ufb01\U0001f600",
    "\u00ad": "\u00ad",
}
NO_NAME = "pubd: NAME of --password-of is not empty, and has no colon, line end or zero byte\n"


def run(pubd, name, password, *more):
    return subprocess.run([pubd, "--password-of", name, *more], input=password, capture_output=True, timeout=60)


def verifier_of(password, salt):
    """As PostgreSQL keeps it, by Python's own hashes."""
    salted = hashlib.pbkdf2_hmac("sha256", password, salt, ROUNDS)
    client, server = (hmac.digest(salted, text, "sha256") for text in (b"Client Key", b"Server Key"))
    salt, stored, server = (base64.b64encode(it).decode() for it in (salt, hashlib.sha256(client).digest(), server))
    return f"{BEGINNING}{salt}${stored}:{server}"


def wrong_line(pubd, name, given, password):
    """The line is of this user and password, with any salt; it may be the salt that differs from one run to the next."""
    ran = run(pubd, name, given)
    line = ran.stdout.decode()
    try:
        salt = base64.b64decode(line.removeprefix(f"{name}:{BEGINNING}").split("$")[0])
    except ValueError:
        salt = b""
    if (ran.returncode, ran.stderr, len(salt), line) != (0, b"", 16, f"{name}:{verifier_of(password, salt)}\n"):
        return salt, [f"{given!r} of {name} makes {ran.returncode} {ran.stdout!r} {ran.stderr!r}"]
    return salt, []


def a_password_becomes_the_line_of_its_user(pubd, subcat):
    """What is printed is PostgreSQL's verifier of the password, by a salt of its own each time; the password itself is in no output."""
    wrong, salts = [], set()
    long = b"p" * 100
    for name, given, password in (
        ("me", b"pencil\n", b"pencil"),
        ("me", b"pencil\n", b"pencil"),
        ("me", b"pencil", b"pencil"),
        ("a b", b" two words \nanother line\n", b" two words "),
        ("\u00fc", long + b"\n", long),
        *(("me", f"{given}\n".encode(), password.encode()) for given, password in PREPARED.items()),
    ):
        salt, found = wrong_line(pubd, name, given, password)
        salts.add(salt)
        wrong += found
    return wrong + ["a salt comes twice"] * (len(salts) != 5 + len(PREPARED))


def a_name_or_password_that_is_none_is_refused(pubd, subcat):
    """Nothing is printed on the standard output then, and it ends with 2."""
    wrong = []
    for name, password, due in (
        ("", b"pencil\n", NO_NAME),
        ("a:b", b"pencil\n", NO_NAME),
        ("a\nb", b"pencil\n", NO_NAME),
        ("me", b"", "pubd: the password is empty\n"),
        ("me", b"\n", "pubd: the password is empty\n"),
    ):
        ran = run(pubd, name, password)
        wrong += [f"{password!r} of {name!r}: {ran}"] * ((ran.returncode, ran.stdout, ran.stderr.decode()) != (2, b"", due))
    ran = run(pubd, "me", b"pencil\n", "pubd.toml", "127.0.0.1:0", "1")
    return wrong + [f"beside other words: {ran}"] * (ran.returncode != 2 or ran.stdout != b"" or b"--password-of" not in ran.stderr)
