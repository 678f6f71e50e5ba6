"""Runs a proved program while one of its allocations is refused."""
import os
import subprocess
from dataclasses import dataclass

HERE = os.path.dirname(os.path.abspath(__file__))
CRATES = os.path.join(HERE, "..", "..", "crates")


class Wrong(Exception):
    """Something isn't as it has to be."""


@dataclass(frozen=True)
class Ran:
    """What a program came to: its exit status, the lines that it wrote, and how many allocations it asked for."""
    status: int
    lines: list
    asked: int


class Program:
    """A program of the repository, proved and built by `rt run`, or taken as it stands in a folder of crates."""

    def __init__(self, crate, room, built=None):
        folder = os.path.join(built or CRATES, crate)
        if not built:
            subprocess.run(["rt", "run"], cwd=folder, stdin=subprocess.DEVNULL, stdout=subprocess.DEVNULL,
                           stderr=subprocess.DEVNULL, check=True)
        self.path = os.path.join(folder, "out", crate)
        self.asked = os.path.join(room, "asked")
        self.shim = os.path.join(room, "refuse.so")
        subprocess.run(["gcc", "-O1", "-shared", "-fPIC", "-o", self.shim, os.path.join(HERE, "refuse.c")],
                       check=True)

    def run(self, text, refused=0):
        """Where the allocation of this number is refused; none where it is 0."""
        environment = {"LD_PRELOAD": self.shim, "REFUSE_AT": str(refused), "ASKED_INTO": self.asked}
        ran = subprocess.run([self.path], input=text, capture_output=True, env=environment, text=True)
        with open(self.asked) as asked:
            return Ran(ran.returncode, ran.stdout.splitlines(), int(asked.read()))

    def full(self, text):
        """The run that is refused nothing."""
        ran = self.run(text)
        if ran.status != 0:
            raise Wrong("the full run ends with status %d: %s" % (ran.status, ran.lines))
        return ran

    def refusals(self, text):
        """(number, what the program came to) of each allocation that the full run asks for, refused in turn."""
        for number in range(1, self.full(text).asked + 1):
            yield number, self.run(text, number)


def counts(found):
    """`A 3, B 4` of a counter."""
    return ", ".join("%s %d" % item for item in sorted(found.items()))
