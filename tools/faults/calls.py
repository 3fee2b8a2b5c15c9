"""One call failing, at each place, in each command: those that open, name, look at and lock files in all of
them, those that move bytes also in the commands that series.py leaves out. A command is done, or it is refused
and there is what was there: no image is lost, no empty file is left, and nothing of the user's is gone."""
import os
import signal

import image
from rooms import REFUSAL, changed
from usual import ALL, CHANGES, DRAWN, FEW, LOGGED, LOOKS, MAKERS, ROOMS, SHORT, short_of, wrong_unless

NAMING = ("open", "stat", "rename", "unlink", "chmod", "chown", "lock", "path", "link", "syncdir")
MOVING = ("read", "write", "seek", "sync", "truncate")
# Those whose moving calls series.py doesn't strike.
MORE = [*LOOKS, *DRAWN, *[line for line in MAKERS if "--picture" in line], "rescue a.img b.img", "cat a.img 1"]
LINES = [*LOOKS, *CHANGES, *MAKERS, *DRAWN]
PLACES = 10**6 if ALL else 12


def room_of():
    room = ROOMS.room(a=LOGGED)
    os.symlink("a.img", room.path("link.img"))
    return room


def is_kept(line, old, new, usual):
    """Whether the image has its files, as they were or as the command leaves them."""
    if new == old or new == usual:
        return True
    if line.split()[0] not in ("recover", "cat", "put", "replay", "run"):
        return False
    files = image.files_of(new or b"")
    texts = [data for _kind, data in (files or {}).values()]
    if line == "put a.img few 1":
        return files is not None and (SHORT in texts or FEW in texts)
    return files is not None and files.get(1) == (2, SHORT)


def holds_alike(new, usual):
    """Whether two images have the same files."""
    return image.files_of(new or b"") == image.files_of(usual) is not None


def is_done(after, usual, call, free):
    """Whether all is there that a run leaves, but for what is judged by its files. Where OLD's permissions aren't
    told NEW may be its owner's alone, and what can't be removed stays."""
    if call == "unlink":
        after = {name: found for name, found in after.items() if not name.endswith(".xvfs-new")}
    narrow = "-rw-------"
    return sorted(after) == sorted(usual) and all(
        (found[2], found[0] == narrow or found[0] == usual[name][0]) == (usual[name][2], True)
        for name, found in after.items() if name not in free)


def judge(line, room, before, usual_end, usual, end, call):
    """A run one of whose calls failed."""
    after = room.listing()
    made = {**MAKERS, **DRAWN}.get(line)
    free = {"a.img"} if line in CHANGES or line in DRAWN else set()
    if call == "lock" and end.status != 1:
        return f"a lock that can't be had: {short_of(end)}"
    if not is_kept(line, LOGGED, room.bytes(), usual.bytes()):
        return f"a.img: {room.run('check a.img').err.strip() or 'other files'}"
    if line.startswith("cat ") and room.bytes() == LOGGED:
        # What may not be written is read alone.
        after = {**after, "a.img": usual.listing()["a.img"]}
    if end.status == 0:
        # A put that has no place for a new file goes through the log.
        logged = {"a.img"} if line == "put a.img long --sync" and holds_alike(room.bytes(), usual.bytes()) else set()
        done = line.startswith("run ") or (end.out == usual_end.out and is_done(after, usual.listing(), call, logged))
        return None if done else f"status 0, and not what was to be done: {changed(usual.listing(), after)}"
    if end.status != 1 or not REFUSAL.fullmatch(end.err):
        return short_of(end)
    # What is made may be there where it was whole when the call failed, or where it can't be removed.
    whole = {made} if made and room.bytes(made) == usual.bytes(made) and room.bytes(made) else set()
    if call == "unlink":
        whole |= {name for name in after if name.endswith(".xvfs-new") or name == made}
    touched = [name for name in changed(before, after) if name not in free | whole]
    if touched:
        return f"{', '.join(touched)}: left, changed or gone; {short_of(end)}"
    return None


def places_of(calls, kinds):
    """The places of each kind among the calls of a run; of many some."""
    found = {}
    for kind, name, *_more in calls:
        places = found.setdefault(kind, [])
        places.append((len(places) + 1, name))
    for kind in kinds:
        places = found.get(kind, [])
        step = max(1, -(-len(places) // PLACES)) if kind in MOVING else 1
        for at, name in places[::step]:
            yield kind, at, name


def struck(line):
    """Each call once; and killed at each, where series.py does not do that."""
    usual = room_of()
    usual_end, calls = usual.calls(line)
    if usual_end.status != 0:
        yield "undisturbed", short_of(usual_end)
    for kind, at, name in places_of(calls, NAMING + (MOVING if line in MORE else ())):
        for how in ("eio", "kill") if line in MORE else ("eio",):
            room = room_of()
            before = room.listing()
            end = room.run(line, f"{kind}:{at}:{how}")
            wrong = judge_killed(line, room, before, usual, end) if how == "kill" else \
                judge(line, room, before, usual_end, usual, end, kind)
            yield f"{kind} {at} of {name}, {how}", wrong


def judge_killed(line, room, before, usual, end):
    """A run that was killed: of what it makes there is nothing, the whole, or what `check` refuses."""
    made = {**MAKERS, **DRAWN}.get(line)
    free = {made, "a.img"} if line in CHANGES or line in DRAWN else {made}
    touched = [name for name in changed(before, room.listing()) if not name.endswith(".xvfs-new") and name not in free]
    data = room.bytes(made) if made else None
    fits = data is None or data == usual.bytes(made) or (made == "b.img" and room.run("check b.img").status == 1)
    return wrong_unless(
        (end.status == -signal.SIGKILL, short_of(end)), (not touched, f"{', '.join(touched)}: changed or gone"),
        (is_kept(line, LOGGED, room.bytes(), usual.bytes()), "a.img: other files"),
        (fits, f"{made}: {len(data or b'')} bytes that are none"))


SERIES = [(struck, line) for line in LINES]
