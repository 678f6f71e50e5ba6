"""The crates of crates.txt, their floors, and what each of them stands on. For the scripts of this folder."""
import os

TOP = os.path.dirname(os.path.dirname(os.path.realpath(__file__)))
CRATES = os.path.join(TOP, "crates")


def lines_by_floor():
    """(the floor, a crate, what its line names), a crate each. A comment of one word begins a floor."""
    floor = None
    with open(os.path.join(TOP, "crates.txt"), encoding="utf-8") as lines:
        for line in lines:
            text, _, comment = line.partition("#")
            crate, colon, below = text.partition(":")
            if colon:
                yield floor, crate.split()[0], below.split()
            elif len(comment.split()) == 1:
                floor = comment.strip()


def stands_on():
    """Each crate with the crates of this repository that its line names."""
    named = {crate: below for _, crate, below in lines_by_floor()}
    return {crate: [name for name in below if name in named] for crate, below in named.items()}


def floors():
    """Each floor with its crates, lowest first."""
    told = {}
    for floor, crate, _ in lines_by_floor():
        told.setdefault(floor, []).append(crate)
    return told


def with_those_below(name, named=None):
    """The crates that this one stands on and itself, lowest first."""
    named, order = named or stands_on(), []

    def visit(crate):
        if crate not in order:
            for lower in named[crate]:
                visit(lower)
            order.append(crate)

    visit(name)
    return order


def with_those_above(names):
    """These crates and all that stand on one of them, lowest first."""
    named, order = stands_on(), []
    for crate in named:
        for lower in with_those_below(crate, named):
            if lower not in order:
                order.append(lower)
    return [crate for crate in order if not set(names).isdisjoint(with_those_below(crate, named))]
