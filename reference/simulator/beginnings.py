"""What a process reads when it begins: the key file of its holder, the deployment file, its mark.

Each pair of a replica P and a party from P on (replicas, then all clients) has a key, and a line `P Q KEY`. A holder's
file has the lines of pairs in which it acts for one of the two.

A deployment file has the lines `faults F`, `clients C`, `keys-held N`, then `replica I ADDRESS` for each replica, then
`front K COUNT` for each front: each has a client at least, and together they have all.

A mark is the party's number, a space, a number below 2^64 and LF. A replica begins where nothing is marked; a client
behind the mark.
"""
CLIENT = 256
LIMIT = 2 ** 64


def acts_for(holder, party):
    kind, rest = holder[0], holder[1:]
    if holder == "all":
        return True
    if kind == "r":
        return party == int(rest)
    first, count = (int(part) for part in rest.split("+"))
    return CLIENT + first <= party < CLIENT + first + count


def is_party(faults, clients, party):
    return party < 3 * faults + 1 or CLIENT <= party < CLIENT + clients


def pairs(faults, clients, holder):
    count = 3 * faults + 1
    every = [(p, q) for p in range(count) for q in [*range(p, count), *range(CLIENT, CLIENT + clients)]]
    return [pair for pair in every if acts_for(holder, pair[0]) or acts_for(holder, pair[1])]


def is_key(digits):
    return len(digits) == 64 and all(digit in b"0123456789abcdef" for digit in digits)


def keys(faults, clients, holder, text):
    """The pairs of the holder with their keys; None where the text isn't its file."""
    lines = text.split(b"\n")
    held = pairs(faults, clients, holder)
    if len(lines) != len(held) + 1 or lines[-1]:
        return None
    found = []
    for (p, q), line in zip(held, lines):
        front = b"%d %d " % (p, q)
        if not line.startswith(front) or not is_key(line[len(front):]):
            return None
        found.append((p, q, bytes.fromhex(line[len(front):].decode())))
    return found


def number(digits):
    """What digits without a needless 0 write, where it is below 2^64."""
    if not digits or any(digit not in b"0123456789" for digit in digits) or (digits[0] == 48 and len(digits) > 1):
        return None
    value = int(digits)
    return value if value < LIMIT else None


class BadLine(Exception):
    pass


class Lines:
    """The lines of a text, one after the other; BadLine names the first that isn't what has to stand there."""

    def __init__(self, text):
        *self.complete, self.rest = text.split(b"\n")
        self.read = 0

    def behind(self, word):
        """What stands behind a word in the next line."""
        self.read += 1
        if self.read > len(self.complete) or not self.complete[self.read - 1].startswith(word):
            raise BadLine(self.read)
        return self.complete[self.read - 1][len(word):]

    def number(self, word, least, most):
        value = number(self.behind(word))
        if value is None or not least <= value <= most:
            raise BadLine(self.read)
        return value

    def sizes(self):
        return self.number(b"faults ", 1, 10), self.number(b"clients ", 1, 64), self.number(b"keys-held ", 1, 65536)

    def end(self):
        if len(self.complete) > self.read or self.rest:
            raise BadLine(self.read + 1)


def deployment(text):
    """(faults, clients, keys, addresses, clients of each front); or BadLine, with the line's number."""
    lines = Lines(text)
    faults, clients, kept = lines.sizes()
    addresses = []
    for replica in range(3 * faults + 1):
        address = lines.behind(b"replica %d " % replica)
        if not address or not all(32 < byte < 127 for byte in address):
            raise BadLine(lines.read)
        addresses.append(address)
    fronts = []
    while sum(fronts) < clients:
        fronts.append(lines.number(b"front %d " % len(fronts), 1, clients - sum(fronts)))
    lines.end()
    return faults, clients, kept, addresses, fronts


def mark_text(party, mark):
    return b"%d %d\n" % (party, mark)


def mark(party, text):
    front = b"%d " % party
    if not text.startswith(front) or not text.endswith(b"\n"):
        return None
    return number(text[len(front):-1])
