"""A host of its own for a client, whose link can be cut: a network namespace beside this one."""
import os
import shutil
import subprocess


class Link:
    """`here` is this end's address. Only root can make one, and only where `ip` is there."""

    def __init__(self):
        self.name = f"pubd{os.getpid()}"
        self.here, self.there = "10.203.7.1", "10.203.7.2"
        self.near, self.far = f"n{os.getpid()}", f"f{os.getpid()}"

    @staticmethod
    def can_be_had():
        return os.getuid() == 0 and shutil.which("ip") is not None

    def __enter__(self):
        self.ip("netns", "add", self.name)
        self.ip("link", "add", self.near, "type", "veth", "peer", "name", self.far, "netns", self.name)
        self.ip("addr", "add", f"{self.here}/30", "dev", self.near)
        self.ip("link", "set", self.near, "up")
        self.ip("-n", self.name, "addr", "add", f"{self.there}/30", "dev", self.far)
        self.ip("-n", self.name, "link", "set", self.far, "up")
        return self

    def __exit__(self, *raised):
        self.ip("netns", "delete", self.name)

    def ip(self, *words):
        subprocess.run(["ip", *words], check=True)

    def run(self, *words):
        """A program on the other host."""
        return subprocess.Popen(["ip", "netns", "exec", self.name, *words], stdout=subprocess.PIPE, text=True)

    def cut(self):
        """Nothing comes from the other host any more, and nothing reaches it: neither end is told."""
        self.ip("-n", self.name, "link", "set", self.far, "down")
