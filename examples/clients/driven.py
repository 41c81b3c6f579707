"""A pubd that does line by line what it is told."""
import pathlib
import subprocess

HERE = pathlib.Path(__file__).resolve().parent
# How long it may take to end.
SECONDS = 60


class Driven:
    """It serves any number of connections, and answers PostgreSQL's own clients."""

    def __init__(self, pubd, port=0, configuration=HERE / "server.toml"):
        words = [pubd, "--answer-postgresql", configuration, f"127.0.0.1:{port}", "forever", "-"]
        self.process = subprocess.Popen(words, stdin=subprocess.PIPE, stdout=subprocess.PIPE, stderr=subprocess.PIPE, text=True)
        self.port = int(self.process.stdout.readline().rpartition(":")[2])

    def __enter__(self):
        return self

    def __exit__(self, *raised):
        self.process.kill()
        self.process.wait()
        for stream in (self.process.stdin, self.process.stdout, self.process.stderr):
            stream.close()

    def tell(self, *lines):
        """The answers to these lines."""
        for line in lines:
            self.process.stdin.write(line + "\n")
        self.process.stdin.flush()
        return [self.process.stdout.readline().strip() for _ in lines]

    def do(self, *lines):
        """The same of lines that none may refuse; where the last commit ended, if there is one."""
        answers = self.tell(*lines)
        refused = [f"{line}: {answer}" for line, answer in zip(lines, answers) if answer.split()[:1] != ["ok"]]
        if refused:
            raise AssertionError("; ".join(refused))
        return answers[-1].removeprefix("ok").strip()

    def end(self):
        """What is wrong with its end."""
        self.process.stdin.write("end\n")
        self.process.stdin.close()
        try:
            status = self.process.wait(timeout=SECONDS)
        except subprocess.TimeoutExpired:
            return ["pubd does not end"]
        return [f"pubd ended with status {status}"] * bool(status)
