"""Programs that a test runs, each in a process group of its own: nothing of it is left once the test has ended, by a signal too."""
import os
import signal
import subprocess
import sys

# For how many seconds one that is ended may clean up.
PATIENCE = 30


def end_by_signals():
    """A signal ends this program in order, so that what it runs is ended too."""
    for number in signal.SIGTERM, signal.SIGHUP, signal.SIGINT:
        signal.signal(number, lambda number, frame: sys.exit(128 + number))


def begin(command, **options):
    return subprocess.Popen(command, start_new_session=True, **options)


def end(process):
    """Ends the program and whatever it has begun."""
    if process.poll() is None:
        process.terminate()
        try:
            process.wait(PATIENCE)
        except subprocess.TimeoutExpired:
            pass
    try:
        os.killpg(process.pid, signal.SIGKILL)
    except ProcessLookupError:
        pass
    process.wait()


def run(command, seconds, given=None):
    """Its status and what it says on both outputs, in this environment. It is ended after so many seconds."""
    process = begin(command, stdout=subprocess.PIPE, stderr=subprocess.STDOUT, text=True, env=given)
    try:
        said, _ = process.communicate(timeout=seconds)
        return process.returncode, said
    except subprocess.TimeoutExpired:
        end(process)
        said, _ = process.communicate()
        return 1, f"{said}it isn't done in {seconds} seconds\n"
    finally:
        end(process)
