"""Cases of crates/wire_cases that show one thing each."""
from . import beginnings, letters, wires
from .window_files import Window, text_of
from .sizes import Config
from .tags import big_endian, sha256

LONG = 60000


def field(frames):
    """A stream of frames as a line spells it: a run of one byte is told by its length."""
    return "+".join(part for frame in frames for part in (big_endian(len(frame), 4).hex(), run(frame)) if part)


def run(data):
    if len(data) > 32 and len(set(data)) == 1:
        return "%02x*%d" % (data[0], len(data))
    return data.hex()


# ---- streams


def streams():
    longest = {faults: wires.longest_item(Config(faults, 1)) for faults in range(1, 11)}
    yield from (f"longest {faults}" for faults in longest)
    most, frame = longest[1], wires.longest_frame(Config(1, 1))
    yield "put 1 - 01 0203 " + "00*300"
    yield f"put 1 07*{most} 07*{most + 1} 08"
    yield f"put 1 c4+00*8+07*{frame} 07*{frame}"
    yield f"put 10 07*{longest[10]} 07*{longest[10] + 1}"
    few = field([b"\x01", b"", b"\x02\x03", b"", b"", bytes(range(40))])
    ends = {
        "nothing": "-",
        "a ping": "00000000",
        "a few": few,
        "part of a length": few + "+000000",
        "part of a frame": few + "+0000000501020304",
        "the longest length": few + "+" + big_endian(most, 4).hex() + "+0102",
        "one above it": few + "+" + big_endian(most + 1, 4).hex() + "+0102",
        "one above it, and a frame": few + "+" + big_endian(most + 1, 4).hex() + "+00000001ff",
        "the greatest length, and a frame": "ffffffff+00000001ff",
        "the fourth byte of a length": few + "+00000100+01*256+00000001ff",
        "its first byte": few + "+01000000+01*256",
        "three refusals": "00ffffff00ffffff00ffffff",
    }
    yield from (f"cuts 1 {stream}" for stream in ends.values())
    yield from (f"pieces 1 {stream} 1 2 3 5 8 13" for stream in ends.values())
    long = field([b"\x09" * most, b"", b"\x01\x02", b"\x08" * LONG, b"\x07" * (most - 1)])
    yield f"pieces 1 {long} 65536 4096 16384 65535 9973"
    yield f"pieces 1 {long}+{big_endian(most + 1, 4).hex()}+{field([b'x' * 99])} 65536 16384 65535"
    yield f"pieces 10 {field([bytes([5]) * longest[10]] * 3)} 65536 30000"
    yield from (f"room {faults} {size}" for faults in (1, 10) for size in (1000, 65536))
    yield f"room 1 {4 + most + wires.PIECE}"
    yield f"room 1 {4 + most + wires.PIECE + 1}"


# ---- letters


def all_letters():
    """(name, what it says)"""
    top, request = 2 ** 64 - 1, bytes(range(1, 40))
    yield from (("passed", [brought]) for brought in (request, b"", b"\xc1", b"\x01" * 70))
    yield from (("doubted", [voters]) for voters in (0, 1, 0x01020304, 2 ** 32 - 1))
    yield from (("asked", [height, size]) for height, size in ((0, 0), (1, 2), (0x0102030405060708, 65536), (top, top)))
    for name in ("recorded", "announced"):
        yield from ((name, [height, frame]) for height, frame in ((7, request), (0, b""), (top, b"\xff" * 70)))
    yield from (("answered", [3, 4, is_last]) for is_last in (False, True))
    yield "answered", [0x1112131415161718, top, True]
    yield from (("told", [11, 9, 10, 12, goes_on, is_away]) for goes_on in (False, True) for is_away in (False, True))
    yield "told", [0x0102030405060708, 0x1112131415161718, 0x2122232425262728, top, True, False]


def letter_texts():
    spelled = [letters.write(name, said) for name, said in all_letters()]
    yield from spelled
    yield from (bytes([first]) + b"\x05" for first in (0, 1, 7, 8, 129, 130, 131, 191))
    yield from (b"\x82", b"\x82\x02" + bytes(70), b"")
    # nothing behind the mark, one byte less, and one more
    yield from (bytes([mark]) for mark in range(letters.FIRST_MARK, 256))
    for text in spelled:
        yield from (text[:-1], text + b"\x00")
    # neither yes nor no
    answer, progress = letters.write("answered", [3, 4, True]), letters.write("told", [11, 9, 10, 12, True, True])
    for text, at in ((answer, 17), (progress, 33), (progress, 34)):
        yield from (text[:at] + bytes([byte]) + text[at + 1:] for byte in (2, 128, 255))


def letter_lines():
    yield from (f"letter {run(text) or '-'}" for text in dict.fromkeys(letter_texts()))


# ---- handshakes


def key(one, other):
    return sha256(b"key %d %d" % (one, other))


def life(party):
    return sha256(b"life %d" % party)[:16]


def nonce(word):
    return sha256(b"nonce " + word)[:16]


def endpoint(party, pairs, faults=1, clients=2, kept=65536, of=key):
    keys = tuple((one, other, of(one, other)) for one, other in pairs)
    return wires.Endpoint(faults, clients, kept, party, life(party), keys)


def spelled(end):
    keys = ",".join(f"{one}-{other}-{key.hex()}" for one, other, key in end.keys)
    return f"{end.faults}:{end.clients}:{end.kept}:{end.party}:{end.life.hex()}:{keys}"


HELD = {
    0: [(0, 0), (0, 1), (0, 2), (0, 3), (0, 256), (0, 257)],
    2: [(0, 2), (1, 2), (2, 2), (2, 3), (2, 256), (2, 257)],
    257: [(0, 257), (1, 257), (2, 257), (3, 257)],
}
GREETED, ASKED = nonce(b"acceptor"), nonce(b"dialler")


def begun(end, acceptor, greeted=GREETED, mine=ASKED):
    return wires.dial(end, acceptor, mine, wires.greeting(greeted))


def dials():
    ends = {party: endpoint(party, held) for party, held in HELD.items()}
    hello = wires.greeting(GREETED).hex()
    yield f"greeting {GREETED.hex()}"
    pairs = [(2, 0), (2, 1), (257, 0), (257, 2), (2, 3), (2, 2), (2, 257), (257, 257), (257, 256), (0, 2)]
    for party, acceptor in pairs:
        yield f"dial {spelled(ends[party])} {acceptor} {ASKED.hex()} {hello}"
    for words in (b"mcbft link 2\n", b"mcbft link 1\r", b"mcbft link 1\n"[::-1]):
        yield f"dial {spelled(ends[2])} 0 {ASKED.hex()} {(words + GREETED).hex()}"
    yield f"dial {spelled(endpoint(2, []))} 0 {ASKED.hex()} {hello}"
    yield from (f"dial-row {spelled(ends[2])} 0 {ASKED.hex()} {hello} {mask}" for mask in ("01", "80"))


def asks():
    """(the dialler's ask, what is special)"""
    yield begun(endpoint(2, HELD[2]), 0).ask()
    yield begun(endpoint(257, HELD[257]), 0).ask()
    yield begun(endpoint(2, HELD[2]), 1).ask()                                 # for another party
    yield begun(endpoint(3, [(0, 3)], of=lambda one, other: key(other, one)), 0).ask()      # under another key
    yield begun(endpoint(2, HELD[2]), 0, greeted=nonce(b"another")).ask()      # of another greeting
    for other in ({"faults": 2}, {"clients": 3}, {"kept": 65535}):
        yield begun(endpoint(2, HELD[2], **other), 0).ask()
    yield begun(endpoint(258, [(0, 258)]), 0).ask()                            # a party without a key here
    own = wires.Dialling(0, 0, key(0, 0), GREETED, ASKED, endpoint(0, []).sizes_digest(), life(0))
    yield own.ask()                                                            # of itself
    right = begun(endpoint(2, HELD[2]), 0)
    head = right.ask()[:68]
    yield head + right.answer(life(2))[16:]                                    # an answer's tag
    yield head + wires.tag(right.key, 1, 2, 0, *right.said())                  # a frame's label
    yield head + wires.tag(right.key, wires.ASK, 0, 2, *right.said())          # the parties changed
    yield head + wires.tag(right.key, wires.ASK, 2, 0, right.nonce, right.greeted, right.sizes, right.life)
    yield head + wires.tag(right.key, wires.ASK, 2, 0, right.nonce, right.sizes, right.life)
    yield head + wires.tag(right.key, wires.ASK, 2, 0, right.greeted, right.sizes, right.life)
    yield head + wires.tag(right.key, wires.ASK, 2, 0, right.greeted, right.nonce, right.life)
    yield head + wires.tag(right.key, wires.ASK, 2, 0, right.greeted, right.nonce, right.sizes)


def admissions():
    zero = spelled(endpoint(0, HELD[0]))
    yield from (f"admit {zero} {GREETED.hex()} {ask.hex()}" for ask in asks())
    # one that is lower asks, in a world where both have the key
    low = wires.Dialling(0, 2, key(0, 2), GREETED, ASKED, endpoint(0, []).sizes_digest(), life(0))
    yield f"admit {spelled(endpoint(2, HELD[2]))} {GREETED.hex()} {low.ask().hex()}"
    small = endpoint(1, [(1, 3)], faults=3, clients=64, kept=1)
    yield f"admit {spelled(small)} {GREETED.hex()} " + begun(endpoint(3, [(1, 3)], 3, 64, 1), 1).ask().hex()
    for ask in (begun(endpoint(2, HELD[2]), 0).ask(), begun(endpoint(257, HELD[257]), 0).ask()):
        yield from (f"admit-row {zero} {GREETED.hex()} {ask.hex()} {mask}" for mask in ("01", "02", "80", "ff"))
    others = begun(endpoint(2, HELD[2], kept=65535), 0).ask()
    yield f"admit-row {zero} {GREETED.hex()} {others.hex()} 01"


def hearings():
    two, hello = endpoint(2, HELD[2]), wires.greeting(GREETED).hex()
    right = begun(two, 0)
    answers = [
        right.answer(life(0)),
        right.answer(life(1)),                                                 # another life
        begun(two, 0, greeted=nonce(b"another")).answer(life(0)),              # of another greeting
        begun(two, 0, mine=nonce(b"another")).answer(life(0)),                 # to another ask
        begun(endpoint(2, HELD[2], kept=65535), 0).answer(life(0)),            # at other sizes
        begun(two, 1).answer(life(0)),                                         # of another party
        life(0) + right.ask()[68:],                                            # an ask's tag
        right.life + right.ask()[68:],                                         # what was said, sent back
        life(0) + wires.tag(right.key, wires.ASK, 0, 2, *right.said(), life(0)),
        life(0) + wires.tag(right.key, wires.ANSWER, 2, 0, *right.said(), life(0)),
        life(0) + wires.tag(right.key, wires.ANSWER, 0, 2, *right.said()),
    ]
    case = f"{spelled(two)} 0 {ASKED.hex()} {hello}"
    yield from (f"hear {case} {answer.hex()}" for answer in answers)
    yield from (f"hear-row {case} {answers[0].hex()} {mask}" for mask in ("01", "80", "ff"))


# ---- outboxes


def outboxes():
    yield "outbox 1000 empty put=01 put=0203 put=040506 lost empty take=6 empty lost"
    yield "outbox 1000 put=01*10 put=02*10 put=03*10 take=20 take=20 take=20"
    yield "outbox 1000 put=01*10 put=02*10 put=03*10 take=19 take=0 take=1000 take=1000"
    yield "outbox 1000 put=01*300 put=02*10 take=5 take=10 take=0"
    yield "outbox 2000 put=01*300 put=- put=- put=02 take=299 take=0 take=0"
    # the bound: 128 and the bytes, for each
    yield "outbox 386 put=01 put=02 put=03 put=- lost take=9"
    yield "outbox 387 put=01 put=02 put=03 lost take=9 put=04 take=9"
    yield "outbox 387 put=01 put=02 put=- put=- lost take=9"
    yield "outbox 127 put=- lost take=9 empty"
    yield "outbox 128 put=01 put=- lost take=9 empty"
    yield "outbox 0 put=- lost take=9"
    # the new one is lost, and the others stay
    yield "outbox 300 put=01 put=02*43 put=02*42 put=03 take=100 put=04 lost take=100"
    # a closed one
    yield "outbox 1000 put=01 put=02 close lost empty put=03 take=9 lost reopen put=04 lost take=9"
    yield "outbox 1000 close close lost reopen put=01 reopen close lost empty take=1"
    yield "outbox 300 put=01 put=02 close reopen put=03 put=04 put=05 lost take=2"
    yield "outbox 18446744073709551615 put=01*5000 put=02*5000 put=03*5000 take=10000 take=18446744073709551615 empty"


# ---- beginnings


def text_field(text):
    """Bytes of a text, a run of one digit told by its length."""
    parts, at = [], 0
    while at < len(text):
        end = at
        while end < len(text) and text[end] == text[at]:
            end += 1
        if end - at > 8:
            parts.append("%02x*%d" % (text[at], end - at))
        elif parts and "*" not in parts[-1]:
            parts[-1] += text[at:end].hex()
        else:
            parts.append(text[at:end].hex())
        at = end
    return "+".join(parts) or "-"


def key_file(faults, clients, holder, digit=lambda p, q: "%x" % ((p + q) % 16)):
    held = beginnings.pairs(faults, clients, holder)
    return b"".join(b"%d %d %s\n" % (p, q, digit(p, q).encode() * 64) for p, q in held)


def key_files():
    parties = "0 1 3 4 255 256 257 258 259"
    holders = ["all", "r0", "r3", "r4", "c0+1", "c1+2", "c0+3", "c2+0", "c3+1"]
    for holder in holders:
        yield f"keys 1 3 {holder} {text_field(key_file(1, 3, holder))} {parties}"
    for holder, other in [("r1", "all"), ("all", "r1"), ("r1", "r2"), ("c0+1", "c1+1"), ("c0+2", "c0+1"), ("r0", "c0+3")]:
        yield f"keys 1 3 {holder} {text_field(key_file(1, 3, other))}"
    own = key_file(1, 1, "c0+1")
    yield from (f"keys 1 1 c0+1 {text_field(own[:end])}" for end in (0, 10, 69, 70, 71, 72, len(own) - 1))
    for bad in (own + b"\n", own + own[:71], b" " + own, own.replace(b"4", b"04", 1), own.replace(b"\n", b"\r\n"),
                own.replace(b"0 256 ", b"256 0 ", 1), own.replace(b"0 256 0", b"0 256 A", 1),
                own.replace(b"0 256 0", b"0 256 g", 1), b"\n".join(reversed(own.split(b"\n")))):
        yield f"keys 1 1 c0+1 {text_field(bad)}"
    yield f"keys 2 2 r6 {text_field(key_file(2, 2, 'r6'))} 6 0 256"


def deployment_file(faults, clients, kept, fronts):
    count = 3 * faults + 1
    lines = [f"faults {faults}", f"clients {clients}", f"keys-held {kept}"]
    lines += [f"replica {i} 10.0.0.{i}:7450" for i in range(count)]
    lines += [f"front {k} {some}" for k, some in enumerate(fronts)]
    return lines


def deployments():
    def case(lines):
        return "deployment " + text_field("".join(line + "\n" for line in lines).encode())
    good = deployment_file(1, 24, 65536, [8, 15, 1])
    yield case(good)
    yield case(deployment_file(1, 1, 1, [1]))
    yield case(deployment_file(10, 64, 65536, [1] * 64))
    yield case(deployment_file(2, 5, 100, [5]))
    for at in range(len(good)):
        yield case(good[:at] + good[at + 1:])
        yield case(good[:at] + [good[at] + " "] + good[at + 1:])
        yield case(good[:at] + [good[at].upper()] + good[at + 1:])
        yield case(good[:at] + [good[at]] + good[at:])
        yield case(good[:at] + [""] + good[at:])
    changes = {0: ["faults 0", "faults 11", "faults 01", "faults 257", "faults 18446744073709551617", "faults", "faults x"],
               1: ["clients 0", "clients 65", "clients 25", "clients 23", "clients 280"],
               2: ["keys-held 0", "keys-held 65537", "keys-held 4294967297"],
               4: ["replica 2 a:1", "replica 01 a:1", "replica 1 ", "replica 1", "replica 1 a b", "replica 1  a:1",
                   "replica 1 a\x7f", "replica 1 cache-c.example:7450", "replica 1 [::1]:7450"],
               7: ["front 0 0", "front 0 25", "front 0 24", "front 1 8", "front 0 8 8", "front 00 8"],
               9: ["front 2 2", "front 2 0", "front 2 257", "front 3 1"]}
    for at, lines in changes.items():
        yield from (case(good[:at] + [line] + good[at + 1:]) for line in lines)
    whole = "".join(line + "\n" for line in good).encode()
    yield from ("deployment " + text_field(whole[:end]) for end in (0, 1, 8, 9, 60, len(whole) - 1))
    yield from ("deployment " + text_field(bad) for bad in (whole + b"x", whole + b"\n", whole.replace(b"\n", b"\r\n"),
                                                           b"\xef\xbb\xbf" + whole))


def marks():
    for party in (0, 30, 256, 319):
        for mark in (0, 1, 2, 4096, 2 ** 64 - 1):
            yield f"begin {party} {mark}"
            yield f"mark {party} {beginnings.mark_text(party, mark).hex()}"
    texts = [b"256 7\n", b"256 7", b"256 07\n", b"256 \n", b"256\n", b"256  7\n", b" 256 7\n", b"256 7 \n", b"256 7\n\n",
             b"25 67\n", b"0256 7\n", b"256 18446744073709551616\n", b"256 -1\n", b"256 +1\n", b"256 7\r\n", b"", b"\0" * 8,
             b"2 256 7\n", b"256 18446744073709551615\n", b"257 7\n"]
    yield from (f"mark 256 {text.hex() or '-'}" for text in texts)


def window(number, height, lowest, sizes=(1, 8, 65536), branch="a", parting=0):
    """A window on a branch that parts from branch `a` at a height: all digits of a digest are one letter or figure."""
    digits = [branch if parting and at >= parting else "%x" % (at % 10) for at in range(lowest, height + 1)]
    return Window(sizes, number, height, lowest, tuple(bytes.fromhex(digit * 64) for digit in digits))


def window_texts():
    whole = text_of(window(2, 5, 3))
    yield whole
    yield from (text_of(one) for one in (window(0, 0, 1), window(3, 1, 1), window(30, 12, 1, sizes=(10, 64, 1))))
    yield text_of(window(1, 2 ** 64 - 1, 2 ** 64 - 2, sizes=(1, 1, 1)))
    yield from (whole[:end] for end in (0, 8, 60, len(whole) - 65, len(whole) - 1))
    yield from (whole + b"\n", whole + whole[-65:], whole + b"x", whole.replace(b"\n", b"\r\n"))
    changes = [(b"faults 1", b"faults 11"), (b"keys-held 65536", b"keys-held 65537"), (b"window 2", b"window 4"),
               (b"window 2", b"window 258"), (b"window 2", b"window 02"), (b"window 2", b"Window 2"),
               (b"executed 5", b"executed 6"), (b"executed 5", b"executed 4"), (b"executed 5", b"executed -5"),
               (b"executed 5", b"executed 18446744073709551616"), (b"from 3", b"from 0"), (b"from 3", b"from 6"),
               (b"from 3", b"from 2"), (b"from 3", b"from 4"), (b"from 3\n", b"from 3 \n"), (b"3333", b"33333"),
               (b"4444", b"444"), (b"5555", b"555g"), (b"\n4444", b"\n444A"), (b"\n4444", b"\n444a"), (b"\n4444", b"\n 444")]
    yield from (whole.replace(old, new, 1) for old, new in changes)
    yield from (text_of(window(0, 0, 1)).replace(b"from 1", b"from %d" % low) for low in (0, 2))


def judgements():
    """Three or four windows each; of four replicas three are enough."""
    apart = window(2, 9, 4, branch="b", parting=6)
    yield [window(0, 5, 3), window(1, 7, 4), window(2, 9, 4)]
    yield [window(2, 9, 4), window(0, 5, 3), window(1, 9, 1), window(3, 0, 1)]
    yield [window(0, 0, 1), window(1, 0, 1), window(2, 0, 1)]
    yield [window(0, 5, 3), window(1, 7, 4), apart]                 # apart above what 0 has
    yield [window(0, 5, 3), apart, window(3, 9, 4)]                 # the first of the highest leads
    yield [apart, window(0, 9, 4), window(3, 6, 1)]
    yield [window(0, 9, 4), window(3, 6, 1), window(1, 3, 3)]       # below what the first shows
    yield [window(1, 3, 3), apart, window(3, 7, 7), window(0, 2, 1)]    # a fork goes first
    yield [window(1, 3, 3), window(0, 2, 1), window(2, 9, 4)]
    yield [window(0, 5, 3), window(1, 7, 4)]
    yield [window(0, 5, 3), window(1, 7, 4), window(1, 9, 4)]
    yield [window(0, 5, 3), window(1, 7, 4), window(2, 9, 4), window(0, 5, 3)]
    yield from ([window(0, 5, 3), window(1, 7, 4), window(2, 9, 4, sizes)] for sizes in ((2, 8, 65536), (1, 9, 65536), (1, 8, 1)))
    yield [window(number, 5, 3, (2, 8, 1)) for number in range(4)]
    yield [window(number, 5 + number, 3, (2, 8, 1)) for number in range(6, 1, -1)]


def windows():
    yield from (f"window {text_field(text)}" for text in window_texts())
    yield from ("judge " + " ".join(text_field(text_of(one)) for one in some) for some in judgements())


# ---- whom a replica believes


def trials():
    """Each way that trouble goes, of clients 0 to 3."""
    suspected = "begin@100 show@101 vouch=1 vouch=2 show@102"
    again = suspected + " begin@200 show@200"
    tried = again + " try=2:7@210 show@211 wait serve=2:7 show@220 try=0:3@230 wait"
    yield "show@0 end vouch=1 wait serve=1:1 show@1"
    yield suspected + " end show@103"
    yield suspected + " doubt=0@110 doubt=3@110 end show@1109 show@1110 doubt=0@1200 show@3199 show@3200"
    yield again + " vouch=3 show@201 end show@202"
    yield tried + " show@231 begin@260 show@260 show@349 show@350 show@1259 show@1260"      # 0 spoils, as 2 passed
    yield tried + " begin@260 try=1:9@350 begin@400 show@400 try=1:9@410 serve=1:8 show@411 serve=1:9 show@412"
    yield tried + " begin@260 try=1:9@350 wait serve=1:9 try=0:3@1300 wait begin@1310 show@3309 show@3310"
    yield again + " try=2:7@210 serve=2:7 try=0:3@230 begin@260 show@260"                   # answered at once: clears none
    yield again + " try=2:7@210 lock@240 show@240 show@329 show@330 try=2:8@340 wait serve=2:8 show@350 end show@351"
    yield "lock@5 show@5 vouch=1 show@6"
    spoils = " ".join(f"try=0:{k}@{9000 * k} wait serve=0:{k} try=1:{k}@{9000 * k + 10} wait begin@{9000 * k + 20} "
                      f"show@{9000 * k + 1019} show@{9000 * k + 8999}" for k in range(1, 10))
    yield again + " " + spoils                                                              # twice as long, up to 64 s


def passing_over():
    yield "1 find=- find=2 find=2 find=3 find=0,1 all find=1"
    yield "2 find=2 find=3 find=5 find=4,5 find=1,2,3 forget find=0"
    yield "1 hear=3:1 hear=3:2 forget hear=3:1 hear=2:1 all hear=3:1"                       # two tell the same
    yield "1 hear=3:1 forget hear=0:2 forget hear=3:2 hear=0:1 hear=2:2"
    yield "2 hear=0:6 hear=1:5,6 forget hear=0:6 hear=1:6,5 hear=2:6 hear=3:5 all hear=0:4 hear=1:3"
    yield "10 " + " ".join(f"hear={k}:{k + 1}" for k in range(12)) + " forget hear=0:30 hear=30:0,30"
    yield "1 spare=3:0 spare=0:0 spare=3:- hear=3:- spare=3:3 spare=0:3 forget spare=0:-"
    yield "2 spare=6:0 spare=6:0,1 hear=6:0 spare=6:0 spare=5:0 spare=0:6 spare=6:1 find=2 spare=6:0 forget spare=5:4"
    yield "4 hear=12:0 spare=12:0 spare=11:0,1 hear=11:1 spare=10:12 spare=10:11,12 find=- all spare=9:8"
    yield "1 enough=- enough=0 enough=0,1 enough=0,1,2,3"
    yield "10 enough=" + ",".join(map(str, range(19))) + " enough=" + ",".join(map(str, range(20)))


def beliefs():
    yield from (f"clients {events}" for events in trials())
    yield from (f"voters {events}" for events in passing_over())


def all_cases():
    yield from streams()
    yield from letter_lines()
    yield from dials()
    yield from admissions()
    yield from hearings()
    yield from outboxes()
    yield from key_files()
    yield from deployments()
    yield from marks()
    yield from windows()
    yield from beliefs()
