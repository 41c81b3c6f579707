"""Programs that are run with one of their allocations refused."""
import dataclasses
import os
import pathlib
import subprocess

HERE = pathlib.Path(__file__).resolve().parent


@dataclasses.dataclass(frozen=True)
class Ran:
    status: int
    printed: str
    told: str
    allocations: int

    def is_out_of_memory(self):
        """Whether it ended with 1 and told that memory ran out, or had none to tell it."""
        return self.status == 1 and (not self.told or "memory" in self.told.lower())


def shim_in(room):
    """The library that refuses memory, compiled into the folder."""
    shim = pathlib.Path(room, "refuse.so")
    subprocess.run(["cc", "-O2", "-shared", "-fPIC", "-o", shim, HERE / "refuse.c"], check=True)
    return shim


def run(words, shim, number):
    """Runs a program; its allocation of this number is refused, and of 0 none is."""
    return end(*begin(words, shim, number))


def run_without(words, shim, number):
    """Runs a program; its allocations from this number on are refused."""
    return end(*begin(words, shim, 0, refused_from=number))


def run_unsynced(words, shim, number):
    """Runs a program; it fails to have a file put on the disk the time of this number, and can before and after."""
    return end(*begin(words, shim, 0, refused_sync=number))


def begin(words, shim, number, given=subprocess.DEVNULL, refused_from=None, refused_sync=0):
    """A program that runs so, and where the count of its allocations comes in the end."""
    reads, writes = os.pipe()
    env = dict(os.environ, LD_PRELOAD=str(shim), REFUSE=str(number), REFUSE_SYNC=str(refused_sync), REFUSE_TELLS=str(writes))
    if refused_from is not None:
        env["REFUSE_FROM"] = str(refused_from)
    process = subprocess.Popen(words, stdin=given, stdout=subprocess.PIPE, stderr=subprocess.PIPE, text=True, env=env, pass_fds=[writes])
    os.close(writes)
    return process, reads


def end(process, reads, given=None):
    """How it ends, and what it prints until then, where this is its input."""
    with open(reads) as counted:
        try:
            printed, told = process.communicate(given, timeout=60)
        except subprocess.TimeoutExpired:
            process.kill()
            raise
        count = counted.read().strip()
    return Ran(process.returncode, printed, told, int(count or 0))
