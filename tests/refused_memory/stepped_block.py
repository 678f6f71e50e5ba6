"""A kept replica gets four proposals, of which the last decides a block of 16 `set` commands; `replica_cases` then tells
how many steps stand in its chronicle and what it executed. Where that step was refused memory after it began to
execute, it stands, no frame goes out, and the history is the first so many commands of the block: each number from
0 to 16 has to come. Where it was refused before any change, it doesn't stand, and nothing was executed."""
from collections import Counter

from refusing import Wrong, counts
from simulator import stated_steps, step_lines

STEPS = 4


def endings():
    """What is told of the replica at the end of a run in which so many commands were executed."""
    history = [(0, k + 1, stated_steps.block_payload(k)) for k in range(stated_steps.COMMANDS)]
    return {step_lines.executed(history[:count]): count for count in range(len(history) + 1)}


def judge(answers, steps, executed):
    """What was refused, and how many commands stand of the block."""
    at = answers.index("19")
    if any(answer != "20" for answer in answers[at + 1:]):
        raise Wrong("a refused replica goes on: %s" % answers)
    if at < STEPS - 1 or steps == at:
        if steps != at or executed:
            raise Wrong("step %d was refused, and %d stand" % (at + 1, steps))
        return "before any change", 0
    if steps != STEPS:
        raise Wrong("the last step was refused, and %d stand" % steps)
    return "while it executes", executed


def check(program):
    text = "step " + stated_steps.a_whole_block() + "\n"
    kinds, lengths, ends = Counter(), set(), endings()
    full = program.full(text).lines[0]
    for number, ran in program.refusals(text):
        if ran.status != 0 or not ran.lines:
            kinds["the program itself"] += 1
            continue
        told, past = ran.lines[0].split(", [")
        answers = told.split(", ")
        if "19" not in answers:
            raise Wrong("allocation %d: nobody was refused: %s" % (number, ran.lines[0] == full))
        steps, _, executed = past.split(" closed ")[1].partition(", executed ")
        executed = ends[", executed " + executed if executed else ""]
        kind, length = judge(answers, int(steps), executed)
        kinds[kind] += 1
        if kind == "while it executes":
            lengths.add(length)
    if lengths != set(range(stated_steps.COMMANDS + 1)):
        raise Wrong("lengths that came: %s" % sorted(lengths))
    return "a step that decides a block leaves %d to %d commands (refused: %s)" % (
        min(lengths), max(lengths), counts(kinds))
