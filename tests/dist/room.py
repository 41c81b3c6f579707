"""A root of its own for programs: what an archive holds, and of the system only the libraries that they link."""
import os
import pathlib
import re
import shutil
import subprocess
import tarfile

SECONDS = 60


class Room:
    """The archive lies unpacked in a folder below the root. Where the system lets nobody have a root of its own, programs run in that
    folder as they would anywhere."""

    def __init__(self, root, archive):
        self.root = pathlib.Path(root)
        with tarfile.open(archive) as packed:
            packed.extractall(self.root)
        (self.inside,) = (each.name for each in self.root.iterdir())
        self.folder = self.root / self.inside
        self.libraries = {file for program in (self.folder / "bin").iterdir() for file in libraries_of(program)}
        for file in self.libraries:
            to = self.root / file.lstrip("/")
            to.parent.mkdir(parents=True, exist_ok=True)
            shutil.copy(file, to)
        tried = self.run(["bin/pubsim", "--help"], own=True)
        self.is_own = (tried.returncode, tried.stderr[:8]) != (1, "unshare:")

    def __str__(self):
        names = ", ".join(sorted(pathlib.Path(file).name for file in self.libraries))
        own = f"a root of its own, beside it only {names} of this system"
        return f"the archive in {own if self.is_own else 'this system, which gives nobody here a root of its own'}"

    def words(self, words, at, own):
        """What runs a program from a folder of the archive, and the folder that this stands in."""
        if not own:
            return words, self.folder / at
        return ["unshare", *["--map-root-user"] * (os.geteuid() != 0), f"--root={self.root}", f"--wd=/{self.inside}/{at}", "--", *words], None

    def begin(self, words, at=".", own=None):
        words, folder = self.words(words, at, self.is_own if own is None else own)
        streams = {"stdin": subprocess.DEVNULL, "stdout": subprocess.PIPE, "stderr": subprocess.PIPE, "text": True}
        return subprocess.Popen(words, cwd=folder, env={"PATH": os.environ["PATH"]}, **streams)

    def run(self, words, at=".", own=None):
        """The same to its end."""
        process = self.begin(words, at, own)
        try:
            output, errors = process.communicate(timeout=SECONDS)
        finally:
            process.kill()
        return subprocess.CompletedProcess(words, process.returncode, output, errors)


def libraries_of(program):
    """Where the libraries of a program lie, its loader among them."""
    told = subprocess.run(["ldd", program], check=True, capture_output=True, text=True).stdout
    return re.findall(r"(/\S+) \(0x", told)
