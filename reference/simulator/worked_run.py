"""The run with a liar of `worked_examples`: the tags and digests of its frames, as definitions."""
from .frames import GENESIS, TAG, Kind, kind_of, read
from .own_frames import OwnFrames
from .replica import Answer
from .stated_runs import C0, SET_A, Run
from .tags import Keyring, big_endian
from .world import Beat, Relay, Submit

LIAR = 3
HEAD = """-- The tags and digests of the run with a liar. The independent reference printed them: `reference/worked_run`.
use Rattle.std.specs.Int.{bytes_high_first}
use Rattle.std.specs.Prelude.{ℕ, ◌++◌}
use Rattle.definitions.specs.Bytes.{Bytes}

-- a tag or a digest
abbrev pub hash : ℕ → Bytes
hash n = bytes_high_first 32 n

-- a tag for each of four replicas
abbrev pub vector : ℕ → ℕ → ℕ → ℕ → Bytes
vector a b c d = hash a ++ hash b ++ hash c ++ hash d
"""


def plain_key(p, q):
    """The key of two parties of the worked examples: their numbers, the lower one first."""
    return big_endian(min(p, q), 2) + big_endian(max(p, q), 2)


def proposed(run):
    """The next proposal of replica 0, and what replicas 0 and 1 send for it."""
    [proposal] = run.do(Beat(0))
    return proposal, run.relay(proposal, [0, 1])


def voted(run, liar, proposal, sent):
    """The votes among these come to replica 0, and so does the liar's, which this returns."""
    for frame in sent:
        if kind_of(run.world.record[frame].data) == Kind.VOTE:
            run.relay(frame, [0])
    _, vote = liar.vote(0, read(run.config, run.world.record[proposal].data).core.digest())
    run.inject(vote, [0])
    return vote


def whole_run():
    """The run up to the receipt, and three more rounds; the liar's votes and reply. Replica 2 gets the first block."""
    run = Run(clients=1, faulty=[LIAR], key_of=plain_key)
    liar = OwnFrames(Keyring(run.config, LIAR))
    [request] = run.do(Submit(0, SET_A))
    run.relay(request, [0])
    votes = [voted(run, liar, *proposed(run)) for _ in range(3)]
    proposal, sent = proposed(run)
    _, lie = liar.reply(Answer(0, 1, 1, b"NOT_STORED\r\n"))
    run.inject(lie, [C0])
    replies = [frame for frame in sent if kind_of(run.world.record[frame].data) == Kind.REPLY]
    receipts = [run.world.happen(Relay(reply, C0))[2] for reply in replies]
    assert receipts[0] is None and receipts[1].text == b"STORED\r\n"
    for _ in range(3):
        votes.append(voted(run, liar, proposal, sent))
        proposal, sent = proposed(run)
    run.relay(request + 1, [2])
    return run, votes, lie


def named_bytes(heights, frame):
    """The names of a frame's digest and tags, and these; the heights of blocks by digest."""
    if frame.kind == Kind.REQUEST:
        yield "request", frame.command.vector
    elif frame.kind == Kind.PROPOSAL:
        yield "digest%d" % frame.core.height, frame.core.digest()
        yield "proposal%d" % frame.core.height, frame.vector
    elif frame.kind == Kind.VOTE:
        yield "vote%d_%d" % (heights[frame.digest], frame.vote.voter), frame.vote.vector
    elif frame.kind == Kind.REPLY:
        yield "reply_%d" % frame.replica, frame.tag


def all_named():
    run, votes, lie = whole_run()
    found, heights = {"digest0": GENESIS}, {}
    frames = [read(run.config, data) for data in [sent.data for sent in run.world.record] + votes]
    for frame in frames:
        if frame.kind == Kind.PROPOSAL:
            heights[frame.core.digest()] = frame.core.height
    for frame in frames:
        found.update(named_bytes(heights, frame))
    found.update(named_bytes(heights, read(run.config, lie)))
    return sorted(found.items())


def definition(name, data):
    words = ["0x" + data[at:at + TAG].hex().upper() for at in range(0, len(data), TAG)]
    told = "hash " + words[0] if len(words) == 1 else "vector" + "".join("\n    " + word for word in words)
    return "\nabbrev pub %s : Bytes\n%s = %s\n" % (name, name, told)


def all_text():
    return HEAD + "".join(definition(name, data) for name, data in all_named())
