"""A block of 16 `set` commands of one client is executed by `replica_cases`, which then tells its history and each
kept answer. Where the block was refused memory, the history has to be the first so many commands of the full run's,
and the kept answer that of the last of them. Each length from 0 to 15 has to come; all 16 are left where only
telling the answers was refused."""
from refusing import Wrong

REPLICAS, COMMANDS = 4, 16


def block():
    """A Block frame of replica 0 with 16 commands of client 0, as one and eight clients have it; no tag is looked at."""
    commands = b""
    for k in range(COMMANDS):
        payload = b"set k%02d 0 0 2\r\n%02d\r\n" % (k, k)
        head = (0).to_bytes(2, "big") + (k + 1).to_bytes(8, "big") + len(payload).to_bytes(2, "big")
        commands += head + payload + bytes(32 * REPLICAS)
    core = bytes(32) + (1).to_bytes(8, "big") + (0).to_bytes(8, "big") + bytes([COMMANDS]) + commands
    return bytes([130, 7]) + bytes(2) + core + bytes(33) + bytes(32)


def length_of(lines, answers):
    """How many commands a refused block left, of which the last one's answer alone is kept."""
    length = int(lines[1].split()[0])
    kept = [line for line in lines[2:] if line != "none"]
    if kept != ([answers[length - 1]] if length else []):
        raise Wrong("what is kept of %d commands is wrong: %s" % (length, lines[1:]))
    return length


def check(program):
    asked = ["block " + block().hex(), "history"] + [f"reply 0 {k + 1}" for k in range(COMMANDS)]
    text = "".join("execute %s\n" % line for line in asked)
    answers = program.full(text).lines[0].split("; ")[1:]
    lengths = set()
    for _, ran in program.refusals(text):
        if ran.status == 0 and ran.lines[0] == "refused 19":
            lengths.add(length_of(ran.lines, answers))
    if not lengths >= set(range(COMMANDS)):
        raise Wrong("lengths that came: %s" % sorted(lengths))
    return "a block that is executed leaves %d to %d commands" % (min(lengths), max(lengths - {COMMANDS}))
