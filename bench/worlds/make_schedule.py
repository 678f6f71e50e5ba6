"""Prints the schedule of a long honest run: 16 clients, of which each submits, is answered and submits again.

    make_schedule.py FAULTS EVENTS

A turn is: each client submits a `set`, its request comes to all replicas; the leader proposes four times, each proposal
comes to all, and all votes to the leader, so that the first of the four blocks is decided; each client takes the replies
of f + 1 replicas. Turns follow one another until there are so many events.
"""
import sys

CLIENTS = 16


class Record:
    """Counts the frames that the parties send, in the order in which the events make them."""

    def __init__(self):
        self.sent = 0

    def send(self, frames):
        first = self.sent
        self.sent += frames
        return range(first, self.sent)


def submissions(record, replicas, turn):
    """Each client's request, brought to all replicas."""
    for client in range(CLIENTS):
        payload = b"set k%d 0 0 8\r\n%08d\r\n" % (client, turn)
        yield f"submit c{client} {payload.hex()}"
        (request,) = record.send(1)
        yield from (f"relay {request} r{replica}" for replica in range(replicas))


def round_of(record, replicas, answered):
    """A proposal and the votes for it. Who takes the proposal also replies to so many commands: these replies' numbers."""
    yield "beat r0"
    (proposal,) = record.send(1)
    votes, replies = [], []
    for replica in range(replicas):
        yield f"relay {proposal} r{replica}"
        votes += record.send(1)
        replies.append(list(record.send(answered)))
    yield from (f"relay {vote} r0" for vote in votes)
    return replies


def turn_of(record, faults, turn):
    """One turn of all clients."""
    replicas = 3 * faults + 1
    yield from submissions(record, replicas, turn)
    for height in range(4):
        replies = yield from round_of(record, replicas, CLIENTS if height == 3 else 0)
    for client in range(CLIENTS):
        yield from (f"relay {replies[replica][client]} c{client}" for replica in range(faults + 1))


def main():
    faults, wanted = int(sys.argv[1]), int(sys.argv[2])
    record, events, turn = Record(), 0, 0
    print(f"world {faults} {CLIENTS}")
    while events < wanted:
        for line in turn_of(record, faults, turn):
            print(line)
            events += 1
        turn += 1


if __name__ == "__main__":
    main()
