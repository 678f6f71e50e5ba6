"""The cases of crates/wire_cases: what is wanted of each line. The heads of the program's files have the format."""
from hashlib import sha256

from . import beginnings, believing, letters, window_files, wires
from .frame_lines import bytes_of as parts_of
from .sizes import Config
from .tags import big_endian
from .wires import NotNamed

MOST_TOLD = 64
LETTERS = {"not a greeting": "G", "for another party": "M", "no such party may dial": "P", "bad tag": "T",
           "other sizes": "S"}
TOO_LONG = "a length that no item has"
NO_ROOM = "more bytes than there is room for"


def bytes_of(field):
    return b"" if field == "-" else parts_of(field)


def told(data):
    if not data:
        return "-"
    if len(data) <= MOST_TOLD:
        return data.hex()
    return "%d:%s" % (len(data), sha256(data).hexdigest()[:32])


# ---- streams


def given(longest, stream):
    """What a feed gives, whatever the pieces."""
    frames, is_over = wires.items(longest, stream)
    return [told(frame) if frame else "ping" for frame in frames] + [TOO_LONG if is_over else "more"]


def tell_stream(subject, fields):
    config = Config(int(fields[0]), 1)
    longest = wires.longest_item(config)
    if subject == "longest":
        return f"{wires.longest_frame(config)} {longest}"
    if subject == "put":
        words, wire = [], b""
        for frame in map(bytes_of, fields[1:]):
            fits = len(frame) <= longest
            words.append("put" if fits else TOO_LONG)
            wire += wires.on_wire(frame) if fits else b""
        return " ".join([*words, told(wire)])
    if subject == "room":
        return "%d %s" % ((4 + longest + wires.PIECE) // int(fields[1]), NO_ROOM)
    stream = bytes_of(fields[1])
    alike = len(stream) + 1 if subject == "cuts" else len(fields) - 2
    return " ".join([*given(longest, stream), str(alike), "alike"])


# ---- letters


def said_words(field):
    if isinstance(field, bool):
        return "yes" if field else "no"
    return str(field) if isinstance(field, int) else told(field)


def tell_letter(field):
    """What a text says, and what is written of that."""
    try:
        name, said = letters.read(bytes_of(field))
    except letters.NotALetter:
        return "none"
    return " ".join([name, *map(said_words, said), told(letters.write(name, said))])


# ---- handshakes


def endpoint_of(field):
    faults, clients, kept, party, life, keys = field.split(":")
    triples = [key.split("-") for key in keys.split(",") if key]
    held = tuple((int(one), int(other), bytes.fromhex(key)) for one, other, key in triples)
    return wires.Endpoint(int(faults), int(clients), int(kept), int(party), bytes.fromhex(life), held)


def peer_words(peer):
    party, life, nonce = peer
    return f"{party} {life.hex()} {nonce.hex()}"


def dialled(fields):
    """(what dials, as a function of the greeting; the greeting)"""
    endpoint, acceptor, nonce = endpoint_of(fields[0]), int(fields[1]), bytes.fromhex(fields[2])
    return lambda words: wires.dial(endpoint, acceptor, nonce, words), bytes.fromhex(fields[3])


def asked(subject, fields):
    """(what is asked, as a function of the bytes that may be changed, and gives words; those bytes)"""
    if subject == "dial":
        dial, words = dialled(fields)
        return lambda data: dial(data).ask().hex(), words
    if subject == "admit":
        endpoint, greeted = endpoint_of(fields[0]), bytes.fromhex(fields[1])

        def admit(data):
            peer, answer = wires.admit(endpoint, greeted, data)
            return peer_words(peer) + " " + answer.hex()
        return admit, bytes.fromhex(fields[2])
    dial, words = dialled(fields)
    return lambda data: peer_words(dial(words).hear(data)), bytes.fromhex(fields[4])


def outcome(ask, data):
    try:
        return ask(data)
    except NotNamed as refusal:
        return str(refusal)


def tell_handshake(subject, fields):
    if subject == "greeting":
        return wires.greeting(bytes.fromhex(fields[0])).hex()
    name, _, row = subject.partition("-")
    ask, data = asked(name, fields)
    if not row:
        return outcome(ask, data)
    mask = int(fields[-1], 16)
    changed = (data[:at] + bytes([data[at] ^ mask]) + data[at + 1:] for at in range(len(data)))
    return "".join(LETTERS.get(outcome(ask, other), ".") for other in changed)


# ---- outboxes


def tell_outbox(fields):
    outbox, words = wires.Outbox(int(fields[0])), ["outbox"]
    for call in fields[1:]:
        name, _, value = call.partition("=")
        if name == "put":
            words.append(outbox.put(bytes_of(value)))
        elif name == "take":
            words += ["[", *map(told, outbox.take(int(value))), "]"]
        elif name == "lost":
            words.append(str(outbox.lost))
        elif name == "empty":
            words.append("false" if outbox.waiting else "true")
        else:
            {"close": outbox.close, "reopen": outbox.reopen}[name]()
            words.append(name)
    return " ".join(words)


# ---- beginnings


def tell_keys(fields):
    faults, clients, holder = int(fields[0]), int(fields[1]), fields[2]
    found = beginnings.keys(faults, clients, holder, bytes_of(fields[3]))
    if found is None:
        return "bad keys"
    words = [told(b"".join(big_endian(p, 2) + big_endian(q, 2) + key for p, q, key in found))]
    for party in map(int, fields[4:]):
        if not beginnings.is_party(faults, clients, party):
            words.append("no such party")
        else:
            words.append("a keyring" if beginnings.acts_for(holder, party) else "not for this party")
    return ", ".join(words)


def tell_deployment(fields):
    try:
        faults, clients, kept, addresses, fronts = beginnings.deployment(bytes_of(fields[0]))
    except beginnings.BadLine as bad:
        return "bad line %d" % bad.args
    places = [address.hex() for address in addresses]
    return " ".join([f"{faults} {clients} {kept} at", *places, "fronts", *map(str, fronts)])


def tell_mark(fields):
    found = beginnings.mark(int(fields[0]), bytes_of(fields[1]))
    return "none" if found is None else str(found)


def tell_begin(fields):
    party, mark = map(int, fields)
    has_spoken = party < beginnings.CLIENT and mark > 0
    return "%s %s" % (beginnings.mark_text(party, mark).hex(), "has run before" if has_spoken else mark)


def tell_window(fields):
    try:
        window = window_files.read(bytes_of(fields[0]))
    except beginnings.BadLine as bad:
        return "bad line %d" % bad.args
    sizes = " ".join(map(str, window.sizes))
    return f"{sizes} {window.number} {window.height} {window.lowest} {window.last().hex()} {told(window_files.text_of(window))}"


def tell_judge(fields):
    verdict = window_files.judge([window_files.read(bytes_of(field)) for field in fields])
    return "too few" if verdict is None else " ".join(map(str, verdict))


# ---- whom a replica believes


def client_event(clients, field):
    what, _, now = field.partition("@")
    name, _, whom = what.partition("=")
    client, _, number = whom.partition(":")
    client, number, now = int(client or 0), int(number or 0), int(now or 0)
    happen = {"begin": lambda: clients.begin(now), "lock": lambda: clients.lead_from_lock(now), "end": clients.end,
              "vouch": lambda: clients.vouch(client), "doubt": lambda: clients.doubt(client, now),
              "try": lambda: clients.begin_trial(client, number, now), "wait": clients.wait,
              "serve": lambda: clients.serve(client, number), "show": lambda: clients.show(now)}
    return happen[name]()


def tell_clients(fields):
    clients = believing.Clients()
    told_of = [client_event(clients, field) for field in fields]
    return ", ".join(["clients", *filter(None, told_of)])


def numbers(field):
    return set() if field == "-" else set(map(int, field.split(",")))


def tell_voters(fields):
    config = Config(int(fields[0]), 1)
    voters, words = believing.Voters(int(fields[0])), ["voters"]
    for field in fields[1:]:
        name, _, whom = field.partition("=")
        if name == "enough":
            words.append(" true" if len(numbers(whom)) + 1 >= config.quorum else " false")
            continue
        teller, _, some = whom.partition(":")
        if name == "spare":
            words.append(" true" if voters.spares(int(teller), numbers(some)) else " false")
            continue
        happen = {"find": lambda: voters.find(numbers(whom)), "hear": lambda: voters.hear(int(teller), numbers(some)),
                  "forget": voters.forget, "all": voters.hear_all}
        happen[name]()
        words.append("".join(f" {voter}" for voter in sorted(voters.passed)))
    return ",".join(words)


BEGINNINGS = {"keys": tell_keys, "deployment": tell_deployment, "mark": tell_mark, "begin": tell_begin,
              "window": tell_window, "judge": tell_judge, "clients": tell_clients, "voters": tell_voters}


def tell(line):
    subject, *fields = line.split(" ")
    if subject in BEGINNINGS:
        return BEGINNINGS[subject](fields)
    if subject == "outbox":
        return tell_outbox(fields)
    if subject == "letter":
        return tell_letter(fields[0])
    if subject in ("longest", "put", "cuts", "pieces", "room"):
        return tell_stream(subject, fields)
    return tell_handshake(subject, fields)
