"""Window files: what a replica's window shows of its executed blocks, and what several files show.

A file has the lines `faults F`, `clients C`, `keys-held N`, `window R`, `executed H`, `from L` with L from 1 to H (1 where
H is 0), then the digest of each height from L to H, 64 digits of hexadecimal in lower case. Genesis, at height 0, is shown
without being told.

Each file is held against the first of those that executed highest: they agree where it shows each one's last block; they
fork where it shows another one there; else one at whose height it shows none is unmet. Fewer than n - f, one replica's
twice, or unequal sizes are too few.
"""
from typing import NamedTuple

from .beginnings import BadLine, Lines, is_key
from .frames import GENESIS

TOP = 2 ** 64 - 1


class Window(NamedTuple):
    sizes: tuple        # faulty replicas, clients, keys held
    number: int
    height: int
    lowest: int
    digests: tuple

    def shown(self, height):
        """The digest at a height; None where there is none."""
        if height == 0:
            return GENESIS
        return self.digests[height - self.lowest] if self.lowest <= height <= self.height else None

    def last(self):
        return self.shown(self.height)


def text_of(window):
    faults, clients, kept = window.sizes
    lines = [f"faults {faults}", f"clients {clients}", f"keys-held {kept}", f"window {window.number}",
             f"executed {window.height}", f"from {window.lowest}", *(digest.hex() for digest in window.digests)]
    return "".join(line + "\n" for line in lines).encode()


def read(text):
    """The window of a file; or BadLine, with the line's number."""
    lines = Lines(text)
    sizes = lines.sizes()
    number = lines.number(b"window ", 0, 3 * sizes[0])
    height = lines.number(b"executed ", 0, TOP)
    lowest = lines.number(b"from ", 1, max(height, 1))
    digests = []
    while len(digests) < height - lowest + 1:
        digits = lines.behind(b"")
        if not is_key(digits):
            raise BadLine(lines.read)
        digests.append(bytes.fromhex(digits.decode()))
    lines.end()
    return Window(sizes, number, height, lowest, tuple(digests))


def are_enough(windows):
    numbers = {window.number for window in windows}
    return len({window.sizes for window in windows}) == 1 and len(numbers) == len(windows) \
        and len(windows) >= 2 * windows[0].sizes[0] + 1


def judge(windows):
    """("agree",); `fork` or `unmet` with the numbers of two replicas; None where they are too few."""
    if not are_enough(windows):
        return None
    leader = max(windows, key=lambda window: window.height)
    shown = [(window, leader.shown(window.height)) for window in windows]
    for window, digest in shown:
        if digest not in (None, window.last()):
            return "fork", window.number, leader.number
    for window, digest in shown:
        if digest is None:
            return "unmet", window.number, leader.number
    return ("agree",)
