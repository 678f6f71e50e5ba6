"""The run of one set and a view change, judged by `schedule_cases`, is refused each request for memory in turn. Each time
the world or the run has to be refused with 19; or a frame that wasn't sent moves the numbers of those behind it,
until one isn't there (40); or events are answered 19, later inputs of the replicas concerned 20, and the run is
linear, as the program finds it from the outcome. All three have to come. It is run as it stands, and with a timeout
of each replica behind it, so that a replica that stopped in its last step is asked once more."""
import os
from collections import Counter

from refusing import HERE, Wrong, counts

SCHEDULE = os.path.join(HERE, "..", "..", "examples", "one_set_and_a_view_change.schedule")
RUN, FRAME, EVENTS = "run refused (19)", "frame missing (40)", "events refused"
BEFORE, AFTER = "before the run", "after the run"
FOUND = {"no run: 19": RUN, "no run: 40": FRAME}


def kind_of(ran):
    """Which of the kinds it is; None where it is none."""
    if not ran.lines:
        return BEFORE if ran.status == 1 else None
    found = FOUND.get(ran.lines[-1])
    if any(line.startswith("wrong") for line in ran.lines):
        return None
    if ran.status != 0:
        return AFTER if ran.status == 1 and not found else None
    if found:
        return found
    refused = int(ran.lines[1].split("; ")[1].split()[0])
    return EVENTS if refused > 0 and ran.lines[-1] == "linear" else None


def check(program):
    with open(SCHEDULE) as schedule:
        text = "#judged\n: a view change\n" + schedule.read()
    behind = "".join("timeout r%d\n" % replica for replica in range(4))
    return "\n".join(["as it stands: " + judged(program, text),
                      "with a timeout of each replica behind it: " + judged(program, text + behind)])


def judged(program, text):
    asked, kinds, told = program.full(text).asked, Counter(), Counter()
    for number, ran in program.refusals(text):
        kind = kind_of(ran)
        if kind is None:
            raise Wrong("allocation %d: status %d, %s" % (number, ran.status, ran.lines))
        kinds[kind] += 1
        if kind == EVENTS:
            told[tuple(ran.lines[1:])] += 1
    if any(kinds[kind] == 0 for kind in (RUN, FRAME, EVENTS)):
        raise Wrong("kinds that came: %s" % counts(kinds))
    lines = ["a schedule asks for memory %d times (%s); its outcomes:" % (asked, counts(kinds))]
    lines += ["  %d times: %s" % (times, "; ".join(outcome)) for outcome, times in told.items()]
    return "\n".join(lines)
