"""Runs that are to be judged, in most of which something is wrong: frames are forged in the names of correct
parties, or an event is taken to be refused memory."""
from dataclasses import replace

from . import frames, stated_grounds, stated_runs
from .frames import GENESIS, Certificate, Core, Kind, ReplyFrame, RequestFrame, write
from .replica import MOST_PENDING
from .signing import block_of, certificate_of, command_of, proposal_of, request_of
from .sizes import FIRST_CLIENT
from .stated_runs import GET_A, REPLICAS, SET_A, Run
from .tags import Keyring
from .world import Gather, Relay, Submit, Timeout

STORED, EXISTS = b"STORED\r\n", b"EXISTS\r\n"


def forged_reply(run, replica, client, seq, place, text):
    reply = ReplyFrame(replica, client, seq, place, text)
    tag = Keyring(run.config, replica).tag(Kind.REPLY, FIRST_CLIENT + client, reply.content())
    return write(replace(reply, tag=tag))


def convince(run, client, seq, place, text):
    """Replies of two replicas that never sent them."""
    for replica in (0, 1):
        run.inject(forged_reply(run, replica, client, seq, place, text), [FIRST_CLIENT + client])


def ordered(run, leader=0):
    """Four rounds of a leader, which decide what is in the first block; the replies."""
    return [run.round(leader, REPLICAS) for _ in range(4)][-1]


def a_receipt_of_nothing():
    """A client accepts a reply to a request that nobody ordered."""
    run = Run()
    run.do(Submit(0, SET_A))
    convince(run, 0, 1, 1, STORED)
    return run


def a_receipt_with_another_text():
    run = stated_runs.up_to_the_fourth_beat()[0]
    convince(run, 0, 1, 1, EXISTS)
    [proposal] = [number for number, sent in enumerate(run.world.record) if sent.event == len(run.events) - 2]
    run.relay(proposal, REPLICAS)
    return run


def a_receipt_of_another_place():
    """Two commands are ordered; the second one's client accepts a reply that names the first one's place."""
    run = Run()
    for client, payload in ((0, SET_A), (1, GET_A)):
        [request] = run.do(Submit(client, payload))
        run.relay(request, REPLICAS)
    convince(run, 1, 1, 1, STORED)
    ordered(run)
    return run


def a_command_that_was_not_submitted():
    """A request in the name of a correct client that never asked."""
    run = Run()
    run.inject(write(RequestFrame(command_of(run.config, 0, 1, SET_A))), REPLICAS)
    ordered(run)
    return run


def another_command_than_was_submitted():
    """A client asks for one thing, and what is ordered under its number is another."""
    run = Run()
    run.do(Submit(0, GET_A))
    run.inject(write(RequestFrame(command_of(run.config, 0, 1, SET_A))), REPLICAS)
    ordered(run)
    return run


def a_command_that_was_answered_before():
    """What is ordered in a client's name is submitted only later."""
    run = Run()
    run.inject(write(RequestFrame(command_of(run.config, 0, 1, SET_A))), REPLICAS)
    ordered(run)
    run.do(Submit(0, SET_A))
    return run


def a_later_command_first():
    """The first client accepts a reply before anything is ordered, as it will be: the second one. What the other
    client submits then is ordered first."""
    run = Run()
    [first] = run.do(Submit(0, SET_A))
    convince(run, 0, 1, 2, STORED)
    [second] = run.do(Submit(1, GET_A))
    for request in (second, first):
        run.relay(request, REPLICAS)
    ordered(run)
    return run


def show_chain(run, replica, command):
    """Shows a replica a chain that begins with a command, up to its decision, with the votes of all."""
    below, justified = GENESIS, 0
    for height in range(1, 5):
        core = Core(below, height, justified, (command,) if height == 1 else ())
        run.inject(proposal_of(run.config, 0, core, certificate_of(run.config, below, REPLICAS)), [replica])
        below, justified = core.digest(), height


def two_commands():
    run = Run()
    requests = [run.do(Submit(client, payload))[0] for client, payload in ((0, SET_A), (1, GET_A))]
    return run, [frames.read(run.config, run.world.record[request].data).command for request in requests]


def two_histories():
    """Two replicas are shown two chains."""
    run, commands = two_commands()
    for replica, command in zip((1, 2), commands):
        show_chain(run, replica, command)
    return run


def gather_chain(run, replica, senders, command):
    """A replica gets copies of a chain that begins with a command, in the names of these."""
    below = GENESIS
    for height in range(1, 5):
        core = Core(below, height, height - 1, (command,) if height == 1 else ())
        copies = [block_of(run.config, sender, replica, core, Certificate(below)) for sender in senders]
        run.do(Gather(replica, tuple(copies)))
        below = core.digest()


def two_histories_by_copies():
    """Two replicas gather copies of two chains in the names of replicas that never sent them."""
    run, commands = two_commands()
    gather_chain(run, 1, (2, 3), commands[0])
    gather_chain(run, 2, (1, 3), commands[1])
    return run


def copies_of_what_was_not_submitted():
    run = Run()
    for replica, senders in ((1, (0, 3)), (2, (0, 3)), (3, (1, 2))):
        gather_chain(run, replica, senders, command_of(run.config, 0, 1, SET_A))
    return run


def a_conflict():
    """One replica is shown two chains, and stops."""
    run, commands = two_commands()
    for command in commands:
        show_chain(run, 1, command)
    run.do(Timeout(1))
    return run


def a_full_pool():
    """A faulty client fills the first leader's pool, which refuses what comes then. The next leader orders it, and all
    execute it."""
    run = Run(faulty=[FIRST_CLIENT])
    for number in range(1, MOST_PENDING + 1):
        run.inject(request_of(run.config, 0, number, GET_A), [0])
    [request] = run.do(Submit(1, SET_A))
    run.relay(request, REPLICAS)
    for replica in REPLICAS:
        run.do(Timeout(replica))
    for number in ordered(run, leader=1)[:2]:
        run.relay(number, [FIRST_CLIENT + 1])
    return run


# What is asked of a cache with room for two keys, of which each new one takes the place of another.
ASKED = [b"set a 0 0 1\r\nx\r\n", b"set b 0 0 1\r\nx\r\n", b"get a\r\n", b"set c 0 0 1\r\nx\r\n", b"get a b c\r\n",
         b"add d 0 0 1\r\nx\r\n", b"gets c d\r\n", b"add c 0 0 1\r\nx\r\n", b"set e 0 0 1\r\nx\r\n", b"get c\r\n"]


def asked_of_two_keys():
    """Clients each ask one thing, in turn."""
    run = Run(clients=len(ASKED), most_keys=2)
    for client, payload in enumerate(ASKED):
        [request] = run.do(Submit(client, payload))
        run.relay(request, REPLICAS)
    return run


def in_a_full_cache():
    """Each client accepts its reply."""
    run = asked_of_two_keys()
    told = {}
    for number in ordered(run):
        client = frames.read(run.config, run.world.record[number].data).client
        told[client] = told.get(client, 0) + 1
        if told[client] <= 2:
            run.relay(number, [FIRST_CLIENT + client])
    return run


def as_if_nothing_made_room():
    """The last client accepts a reply that it would get of a larger cache."""
    run = asked_of_two_keys()
    place = len(ASKED)
    convince(run, place - 1, 1, place, b"VALUE c 0 1\r\nx\r\nEND\r\n")
    ordered(run)
    return run


def a_frame_that_was_not_sent():
    run = Run()
    run.do(Submit(0, SET_A))
    return run.schedule()[0], run.events + [Relay(1, 0)]


def garbage_behind_a_refusal():
    """What brings a replica nothing is answered as ever: bytes that are no frame, a reply, a wrong tag."""
    run = Run()
    [request] = run.do(Submit(0, SET_A))
    run.relay(request, [1])
    run.inject(b"", [1])
    run.inject(forged_reply(run, 0, 0, 1, 1, STORED), [1])
    run.inject(run.world.record[request].data[:-64] + bytes(64), [2])
    run.inject(run.world.record[request].data[:-96] + bytes(96), [1])
    return run


def cases_on_grounds():
    """As `all_cases`."""
    runs = [(run.__name__.replace("_", " "), run()) for run in stated_grounds.EXAMPLES]
    runs += [("two histories by copies", two_histories_by_copies()),
             ("copies of a command that was not submitted", copies_of_what_was_not_submitted())]
    return [("", name, run.schedule()) for name, run in runs]


def all_cases():
    """(what stands before the name: the event that is taken to be refused, or the room of caches; name, schedule)"""
    view_change = stated_runs.view_change()
    last_input = max(number for number, event in enumerate(view_change.events, 1) if event.party == 3)
    last_reply = len(view_change.events)
    plain = [
        ("a view change", view_change),
        ("a liar among four", stated_runs.a_liar_among_four()),
        ("each frame comes three times", stated_runs.thrice_in_reverse()),
        ("a vector is spoilt", stated_runs.a_spoilt_vector()),
        ("a receipt of nothing", a_receipt_of_nothing()),
        ("a receipt with another text", a_receipt_with_another_text()),
        ("a receipt of another place", a_receipt_of_another_place()),
        ("a command that was not submitted", a_command_that_was_not_submitted()),
        ("another command than was submitted", another_command_than_was_submitted()),
        ("a command that was answered before it was submitted", a_command_that_was_answered_before()),
        ("a later command first", a_later_command_first()),
        ("two histories", two_histories()),
        ("a replica that stopped at a conflict", a_conflict()),
    ]
    cases = [("", name, run.schedule()) for name, run in plain]
    cases.append(("", "a frame that was not sent", a_frame_that_was_not_sent()))
    cases.append(("", "two faulty replicas of four", ((1, 1, [0, 1]), [])))
    cases.append(("2", "garbage behind a refusal", garbage_behind_a_refusal().schedule()))
    cases.append(("9", "a refused replica goes on", view_change.schedule()))
    cases.append((str(last_input), "a refused replica sends", view_change.schedule()))
    cases.append((str(last_reply), "a refused client does nothing wrong", view_change.schedule()))
    cases.append(("", "a full pool", a_full_pool().schedule()))
    cases.append(("keys=2", "in a full cache", in_a_full_cache().schedule()))
    cases.append(("keys=2", "as if nothing made room", as_if_nothing_made_room().schedule()))
    cases.append(("", "the same with more room", in_a_full_cache().schedule()))
    cases.append(("keys=0", "no room", ((1, 1, []), [])))
    cases.append(("keys=65536", "the most room", ((1, 1, []), [])))
    cases.append(("keys=65537", "more than the most room", ((1, 1, []), [])))
    return cases
