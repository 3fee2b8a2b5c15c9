"""A sync that failed, and a power cut in a later run. As Linux does, the system takes what the failed sync had
to write for written: reads give it, and no later sync writes it, until it is written anew. A command's writes
and syncs are noted, one sync fails, and then a second command, which syncs, is cut at each moment: any choice
of what it wrote since its last good sync may be there. Recovered, each image must have the files that a stop
of these commands leaves."""
import itertools
import os
import random
import re
import struct
import tempfile

import image
from usual import ALL, EMPTY, LOGGED, ONE_FILE, ROOMS, short_of

BLOCK = 1024
SECONDS = ["recover a.img --sync", "put a.img few --sync", "replay a.img script schedule --sync"]
# Up to so many held writes each choice is tried, of more some.
FEW = 6


def blocks_of(data):
    return [data[at:at + BLOCK] for at in range(0, len(data), BLOCK)]


def told(blocks, known):
    """What an image has, once it is recovered."""
    count, *homes = struct.unpack_from("<31I", blocks[2])
    whole = list(blocks)
    if count > 30 or any(not 33 <= home < len(blocks) for home in homes[:count]):
        return "a log that is not lawful"
    for place in range(count):
        whole[homes[place]] = blocks[3 + place]
    key = tuple(whole[:2] + whole[33:])
    if key not in known:
        whole[2] = bytes(BLOCK)
        known[key] = image.told(b"".join(whole))
    return known[key]


def traced(room, line, strikes=""):
    """A command, and its events: a block and its bytes of a write, True or False of a sync."""
    path = tempfile.mktemp(dir=ROOMS.work)
    end, events = room.run(line, strikes, trace=path), []
    if not os.path.exists(path):
        return end, events
    with open(path, "rb") as file:
        while head := file.read(16):
            place, length = struct.unpack("<qq", head)
            data = file.read(length)
            if place < 0:
                events.append(place == -1)
            for at in range(0, length, BLOCK):
                events.append(((place + at) // BLOCK, data[at:at + BLOCK]))
    os.unlink(path)
    return end, events


def states_in_order(blocks, events, known):
    """What the stops of a run leave, where each write gets through at once: each once, in their order."""
    blocks, states = list(blocks), [told(blocks, known)]
    for event in events:
        if event not in (True, False):
            blocks[event[0]] = event[1]
            state = told(blocks, known)
            if state != states[-1]:
                states.append(state)
    return states


def left_on_device(blocks, events):
    """What is there behind a run one of whose syncs failed: what that had to write is not."""
    blocks, held = list(blocks), []
    for event in events:
        if event is True:
            for block, data in held:
                blocks[block] = data
        if event in (True, False):
            held = []
        else:
            held.append(event)
    return blocks


def choices(count, chance):
    """Choices of held writes with the newest among them: those without it were there a moment before."""
    older = range(count - 1)
    if count <= FEW:
        return [choice for size in range(count) for choice in itertools.combinations(older, size)]
    beginnings = [tuple(range(size)) for size in (0, 1, count // 2)]
    but_one = [tuple(n for n in older if n != out) for out in (0, count // 2, count - 2)]
    some = [tuple(n for n in older if chance.random() < 0.5) for _ in range(3)]
    return [*beginnings, *but_one, *some, tuple(older)]


def cuts(blocks, events, chance):
    """The images that cuts of a run leave, each with its moment."""
    blocks, held = list(blocks), []
    yield 0, blocks
    for moment, event in enumerate(events, 1):
        if event is True:
            for block, data in held:
                blocks[block] = data
            held = []
            yield moment, blocks
        elif event is not False:
            held.append(event)
            for choice in choices(len(held), chance):
                cut = list(blocks)
                for place in (*choice, len(held) - 1):
                    cut[held[place][0]] = held[place][1]
                yield moment, cut


def second_run(room, line, device, allowed, known, chance):
    """The second command, cut at each moment: how many cuts there were, and the first wrong one."""
    cache = room.bytes()
    again = ROOMS.room(a=cache)
    end, events = traced(again, line)
    if end.status != 0:
        return 0, f"{line}: {short_of(end)}"
    fine = set(allowed) | set(states_in_order(blocks_of(cache), events, known))
    count, last = 0, None
    for moment, cut in cuts(device, events, chance):
        count, last = count + 1, told(cut, known)
        if last not in fine:
            what = last if isinstance(last, str) else f"{[(number, len(data)) for number, _kind, data in last]}"
            return count, f"{line}, cut at its event {moment} of {len(events)}: files of no number of groups: {what}"
    if last != told(blocks_of(again.bytes()), known):
        return count, f"{line}, after its end: not what reads give"
    return count, None


def groups_in(line, before, known):
    """How many groups are in the files that a stop leaves: the most that was told of them, as one may change none."""
    most, stop = {}, 0
    while True:
        stop += 1
        room = ROOMS.room(a=before)
        end = room.run(f"{line} --stop {stop}")
        files, told_of = told(blocks_of(room.bytes()), known), end.out.decode("latin-1")
        most[files] = max(most.get(files, 0), int(re.findall(r"^committed (\d+)$", told_of, re.M)[-1]))
        if f"stopped before write {stop}\n" not in told_of:
            return most


def room_of(line, before):
    """A room with that image; what a put of many bytes is made in has two names, so that its log is written."""
    room = ROOMS.room(a=before)
    if line.startswith("put a.img long"):
        os.link(room.path("a.img"), room.path("a.img.name"))
    return room


def failed_sync(line, before):
    """One command with each of its syncs failing, then each second one."""
    known, chance, total = {}, random.Random(4), 0
    groups = groups_in(line, before, known) if line.startswith("replay") else None
    _end, events = traced(room_of(line, before), line)
    syncs = sum(1 for event in events if event is True)
    for at in range(1, syncs + 1, 1 if ALL else max(1, syncs // 40)):
        room = room_of(line, before)
        end, events = traced(room, line, f"sync@a.img:{at}:eio")
        if end.status != 1:
            yield f"sync {at}", short_of(end)
            continue
        states = states_in_order(blocks_of(before), events, known)
        committed = re.findall(r"^committed (\d+)$", end.out.decode("latin-1"), re.M)
        allowed = states[-2:]
        if groups and committed:
            allowed = [state for state in states if groups[state] >= int(committed[-1])]
        device = left_on_device(blocks_of(before), events)
        for second in SECONDS:
            count, wrong = second_run(room, second, device, allowed, known, chance)
            total += count
            yield f"sync {at} of {syncs} fails, then {second.split()[0]}", wrong
    yield f"its count: {total} cuts", None if total else "no cut was tried"


SERIES = [(failed_sync, "replay a.img script schedule --sync", EMPTY),
          (failed_sync, "put a.img long --sync", ONE_FILE), (failed_sync, "put a.img few 1 --sync", ONE_FILE),
          (failed_sync, "recover a.img --sync", LOGGED)]
