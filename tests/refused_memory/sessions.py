"""A client submits, hears a first reply, which is counted, and a second one, which makes a receipt, twice over; between
them `replica_cases` tells the frame that is outstanding. An input that was refused memory has to leave the session
as it was: what comes behind it is answered as if it had never come. Each kind of input has to be refused somewhere."""
from collections import Counter
from dataclasses import replace

from refusing import Wrong, counts
from simulator.frames import Kind, ReplyFrame, write
from simulator.sizes import FIRST_CLIENT, Config
from simulator.tags import Keyring

CONFIG = Config(1, 1)
PAYLOADS = b"set a 0 0 30\r\n" + b"x" * 30 + b"\r\n", b"get a\r\n"
TEXTS = b"STORED\r\n", b"VALUE a 0 30\r\n" + b"x" * 30 + b"\r\nEND\r\n"
KINDS = ["submission", "counted reply", "receipt"]


def reply(replica, seq, text):
    frame = ReplyFrame(replica, 0, seq, seq, text)
    tag = Keyring(CONFIG, replica).tag(Kind.REPLY, FIRST_CLIENT, frame.content())
    return write(replace(frame, tag=tag)).hex()


def inputs():
    """(kind, input): each input comes twice, with a look at the outstanding frame before and behind it."""
    for seq, (payload, text) in enumerate(zip(PAYLOADS, TEXTS), 1):
        given = ["submit=" + payload.hex(), reply(0, seq, text), reply(1, seq, text)]
        for kind, item in zip(KINDS, given):
            yield from [("look", "again"), (kind, item), ("look", "again"), (kind, item)]
    yield "look", "again"


def text_of(items):
    return " ".join(["session 1 1 0 session"] + [item for _, item in items]) + "\n"


def answers_of(ran):
    return ran.lines[0].split(", ")


def check(program):
    given = list(inputs())
    kinds = Counter()
    for number, ran in program.refusals(text_of(given)):
        if ran.status != 0 or not ran.lines:
            kinds["the program itself"] += 1
            continue
        answers = answers_of(ran)
        if "19" not in answers:
            raise Wrong("allocation %d: nobody was refused" % number)
        at = answers.index("19")
        without = answers_of(program.full(text_of(given[:at] + given[at + 1:])))
        if answers[:at] + answers[at + 1:] != without:
            raise Wrong("allocation %d: input %d left its mark" % (number, at))
        kinds[given[at][0]] += 1
    if any(kinds[kind] == 0 for kind in KINDS):
        raise Wrong("refused were only: %s" % counts(kinds))
    return "refused inputs leave their session (refused: %s)" % counts(kinds)
