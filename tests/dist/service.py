"""Whether the archive's systemd unit serves its configuration, does lines, is stopped in order, and goes on by its log."""
import pathlib
import re
import shutil
import subprocess
import tempfile

# Where the unit has the archive and its pipe.
FOLDER, RUNTIME = "/opt/vondahe", "/run/vondahe"
ADDRESS = re.compile(r"127\.0\.0\.1:\d+")
SECONDS = 30


def setting(unit, name):
    return re.search(rf"^{name}=(.*)$", unit, re.MULTILINE).group(1)


def shell_of(words):
    """What /bin/sh is given, with free ports."""
    return ADDRESS.sub("127.0.0.1:0", re.fullmatch(r"/bin/sh -c '(.*)'", words).group(1))


def served(unit, folder):
    """What is wrong where it is started, and again over what that has left in the folder of its state."""
    with tempfile.TemporaryDirectory() as state:
        log, kept = pathlib.Path(state) / "log", b""
        for start in "first", "second":
            yield from (f"at its {start} start {each}" for each in served_once(unit, folder, state))
            content = log.read_bytes() if log.exists() else b""
            if not content.startswith(kept) or len(content) <= len(kept):
                yield f"its {start} start leaves a log of {len(content)} bytes, which doesn't go on by the {len(kept)} before it"
            kept = content


def served_once(unit, folder, state):
    """What is wrong where its commands are run as systemd would, with this folder for its state."""
    with tempfile.TemporaryDirectory() as runtime:
        begins, starts = (setting(unit, f"Exec{name}").replace(RUNTIME, runtime) for name in ("StartPre", "Start"))
        starts = starts.replace(f"/var/lib/{setting(unit, 'StateDirectory')}", state)
        subprocess.run(begins.split(), check=True)
        command = shell_of(starts.replace(FOLDER, str(folder)))
        server = subprocess.Popen(["/bin/sh", "-c", command], stdout=subprocess.PIPE, stderr=subprocess.STDOUT, text=True)
        try:
            said = [server.stdout.readline() for _ in range(2)]
            # To be read too: so it waits for no reader, where the server has ended.
            with open(f"{runtime}/lines", "r+b", buffering=0) as lines:
                lines.write(b"note 'app' 'hello'\n")
            said.append(server.stdout.readline())
            # As systemd stops a unit.
            server.terminate()
            status = server.wait(SECONDS)
        finally:
            server.kill()
        if status or [line.split()[:1] for line in said] != [["listening"], ["status"], ["ok"]]:
            yield f"it ends with {status}, and says {said}"


def verified(file):
    """What systemd-analyze says of it, but for programs that aren't there and what this system's own units lack."""
    if not shutil.which("systemd-analyze"):
        return
    said = subprocess.run(["systemd-analyze", "verify", "--man=no", file], capture_output=True, text=True).stderr.splitlines()
    yield from (line for line in said if file.name in line and "is not executable" not in line)


def wrong(room):
    file = pathlib.Path(room.folder) / "service" / "pubd.service"
    yield from served(file.read_text(), room.folder)
    yield from verified(file)
