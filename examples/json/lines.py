#!/usr/bin/env python3
"""Remakes the lines of `replay --steps --writes` from what `replay --json` prints.

    lines.py <OBJECTS >LINES

The lines are made of the objects alone, and of the numbers that docs/FORMAT.md gives to names.
"""
import json
import sys

CAUSES = ["Committing", "LogFull", "InodeHeld", "BufferHeld", "NoBuffer", "AnswersFull"]
REFUSALS = ["NoFile", "BadOffset", "TooBig", "TooLong", "BadType"]
WRITES = {"log": "log {place} of {home}", "header": "header n {count} group {group}",
          "home": "home {block} {area}", "clear": "clear"}
REPLIES = {"made": "made {inode}", "wrote": "wrote {count}", "stat": "stat {type} {size}"}


def numbered(names, name):
    """A name behind its number."""
    return "%d %s" % (names.index(name) + 1, name)


def came(made):
    """What a step came to."""
    return "sleeping " + numbered(CAUSES, made["why"]) if made["came"] == "sleeping" else made["came"]


def step_lines(step):
    """The line of a step, and that of what it wrote."""
    line = "step " + step["deed"]
    if step["deed"] in ("get", "use"):
        line += " %d" % step["block"]
    if step["came"] not in ("moved", "answered"):
        line += " " + came(step)
    yield line + (" by %d" % step["by"] if "by" in step else "")
    if "write" in step:
        yield ("write {write} block {block} " + WRITES[step["part"]]).format(**step)
    elif "sync" in step:
        yield "sync %d" % step["sync"]


def reply(answer):
    """The reply of an operation."""
    if answer["reply"] == "refused":
        return "refused " + numbered(REFUSALS, answer["why"])
    if answer["reply"] == "bytes":
        return "bytes " + (answer["bytes"] or "-")
    return REPLIES.get(answer["reply"], answer["reply"]).format(**answer)


def turn_line(turn):
    """The line of what a turn came to."""
    if turn["event"] == "stepped":
        return "%d %s" % (turn["process"], came(turn))
    if turn["event"] == "answered":
        return "{process} answered {operation} {group} ".format(**turn) + reply(turn)
    return {"shut": "shut", "stopped": "stopped before write {write}"}[turn["event"]].format(**turn)


def lines(objects):
    """All lines: those of a turn's steps stand below its own, and their objects before its own."""
    steps = []
    for each in objects:
        if "step" in each:
            steps.append(each)
            if each["step"] != len(steps):
                sys.exit("lines: a step of number %d is the %d. of its turn" % (each["step"], len(steps)))
        elif "event" in each:
            yield turn_line(each)
            for step in steps:
                yield from step_lines(step)
            steps = []
        else:
            yield "writes %d" % each["writes"]
            yield "committed %d" % each["committed"]


for text in lines(map(json.loads, sys.stdin)):
    print(text)
