"""The names that the program takes for itself: an image is made in IMAGE.xvfs-new, a picture in
PICTURE.xvfs-new. No other file is touched, and what stands there is taken over only where it is a plain file
with one name; a refused or killed command leaves no empty file and removes none but what it made."""
import fcntl
import os
import signal

from rooms import changed
from usual import DRAWN, LOGGED, MAKERS, ONE_FILE, ROOMS, short_of, wrong_unless

EXISTS = "xvfs: file 5 Exists\n"
LOCKED = "xvfs: file 4 Locked\n"
# What is made, and where: the lines of the makers but for those whose NEW must not be there.
REPLACERS = {line: name for line, name in {**MAKERS, **DRAWN}.items() if line.split()[0] not in ("copy", "rescue")}


def room_of():
    room = ROOMS.room(a=LOGGED)
    os.symlink("a.img", room.path("link.img"))
    return room


def named_by_user(line):
    """The user's files with `.new` behind their names, as FILES has them, beside what is made: also where that
    is refused, for a lock or a full disk."""
    name = MAKERS.get(line) or DRAWN[line]
    for why in ("done", "full", "locked"):
        room = room_of()
        before, lock = room.listing(), None
        if why == "locked" and name == "a.img":
            lock = open(room.path(name), "rb")
            fcntl.flock(lock, fcntl.LOCK_EX)
        end = room.run(line, "write:1+:enospc" if why == "full" else "")
        refused = why == "full" or lock is not None
        touched = [one for one in changed(before, room.listing()) if one != name and one != "a.img"]
        gone = room.bytes("a.img") != LOGGED if refused and line not in DRAWN else False
        yield why, wrong_unless((end.status == (1 if refused else 0), short_of(end)),
                                (not touched, f"{', '.join(touched)}: not to be touched"),
                                (not gone, "a.img: changed by a refused command"))
        if lock is not None:
            lock.close()


def script_of_that_name():
    """`stops s.new t --picture s` leaves the script s.new."""
    room = ROOMS.room()
    room.put("s.new", room.bytes("brief"))
    before = room.listing()
    end = room.run("stops s.new turns --picture s")
    yield "s.new", wrong_unless((end.status == 0, short_of(end)),
                                (changed(before, room.listing()) == ["s"], "the script is not as it was"))


def take(room, kind, path):
    """Lets something of this kind stand at a path."""
    other = room.path("other")
    if kind in ("two names", "link"):
        room.put("other", b"not ours\n" * 200)
        (os.link if kind == "two names" else os.symlink)(other, path)
    elif kind == "the image's other name":
        os.link(room.path("a.img"), path)
    elif kind == "link to nothing":
        os.symlink("nothing", path)
    elif kind == "folder":
        os.mkdir(path)
    elif kind == "pipe":
        os.mkfifo(path)
    else:
        with open(path, "wb") as file:
            file.write(b"" if kind == "empty file" else b"what a killed run left\n" * 9000)


def stands_there(line):
    """What stands at the name that is ours."""
    name = REPLACERS[line]
    for kind in ("empty file", "plain file", "two names", "the image's other name", "link", "link to nothing",
                 "folder", "pipe"):
        if kind == "the image's other name" and line.startswith("replay"):
            continue  # a replay changes its image, and so this name's bytes
        for waits in ((False, True) if line.startswith("mkfs") else (False,)):
            room = room_of()
            take(room, kind, room.path(name) + ".xvfs-new")
            before = room.listing(but={name + ".xvfs-new"} if kind == "pipe" else ())
            running = room.begin(line + (" --wait" if waits else ""), shell='exec timeout 20 "$@"')
            out, err = running.communicate()
            if kind in ("empty file", "plain file"):
                left = os.path.lexists(room.path(name) + ".xvfs-new")
                wrong = wrong_unless((running.returncode == 0, f"status {running.returncode}: {err.decode()}"),
                                     (not left, "what was taken over is left"))
            else:
                after = room.listing(but={name + ".xvfs-new"} if kind == "pipe" else ())
                touched = [one for one in changed(before, after) if line not in DRAWN or one != "a.img"]
                wrong = wrong_unless((running.returncode == 1, f"status {running.returncode}"),
                                     (err.decode() == EXISTS, f"expected {EXISTS.strip()}: {err.decode().strip()}"),
                                     (not touched, f"{', '.join(touched)}: removed or changed"))
            yield kind + (" --wait" if waits else ""), wrong


def locked_home():
    """The image is another program's: nothing changes, also what an earlier run left."""
    for left in (False, True):
        for how in (fcntl.LOCK_EX, fcntl.LOCK_SH):
            room = room_of()
            if left:
                room.put("a.img.xvfs-new", b"what a killed run left\n" * 100)
            before = room.listing()
            with open(room.path("a.img"), "rb") as lock:
                fcntl.flock(lock, how)
                end = room.run("mkfs a.img 100 16")
            touched = changed(before, room.listing())
            yield f"left {left}", wrong_unless((end.status == 1 and end.err == LOCKED, short_of(end)),
                                               (not touched, f"{', '.join(touched)}: not to be touched"))


def long_names():
    """Names up to 255 bytes, also where a character of several bytes stands where the name is cut."""
    names = ["n" * count for count in (200, 245, 246, 247, 248, 251, 252, 254, 255)]
    names += [start + "\u00e9" * ((255 - len(start)) // 2) for start in ("", "n")]
    names += [start + "\u20ac" * ((255 - len(start)) // 3) for start in ("", "n", "nn")]
    names += [start + "\U0001f4be" * ((255 - len(start)) // 4) for start in ("", "n", "nn", "nnn")]
    for name in names:
        room = ROOMS.room(a=ONE_FILE)
        before, wrong = room.listing(), None
        for words in (["mkfs", name, "200", "32"], ["mkfs", name, "200", "32"], ["check", name],
                      ["copy", "a.img", name + "c"], ["show", "a.img", "--picture", name + "p"]):
            too_long = len(words[-1].encode()) > 255 or len(words[2 if words[0] == "copy" else 1].encode()) > 255
            end = room.run(words)
            wrong = wrong or (short_of(end) if (end.status == 0) == too_long else None)
        expected = [one for one in (name, name + "c", name + "p") if len(one.encode()) <= 255]
        touched = changed(before, room.listing())
        wrong = wrong or (None if touched == sorted(expected) else f"made: {[one[-20:] for one in touched]}")
        yield f"{len(name.encode())} bytes, {name[:2]!r}", wrong
    room = ROOMS.room()
    before = room.listing()
    end = room.run(["mkfs", "n" * 256, "200", "32"])
    yield "256 bytes", wrong_unless((end.status == 1 and end.err == "xvfs: file 1 Open\n", short_of(end)),
                                    (not changed(before, room.listing()), "a file was made"))


def killed(line):
    """Killed at each call but the many writes: an image of before, or a whole new one, and no empty file."""
    name = MAKERS[line]
    usual = room_of()
    _end, calls = usual.calls(line)
    whole = usual.bytes(name)
    at = 0
    for kind, struck, *_more in calls:
        at += 1
        if kind in ("write", "seek", "read") and 12 < at < len(calls) - 12 and at % 40:
            continue
        room = room_of()
        before, old = room.listing(), room.bytes(name)
        end = room.run(line, f"any:{at}:kill")
        data, after = room.bytes(name), room.listing()
        touched = [one for one in changed(before, after) if one != name and not one.endswith(".xvfs-new")]
        # Killed when the new image has both names: they are one file's.
        is_named_twice = after.get(name + ".xvfs-new", (0, 1))[1] == 2
        again = room.run(line)
        yield f"call {at}, {kind} {struck}", wrong_unless(
            (end.status == -signal.SIGKILL, short_of(end)), (not touched, f"{', '.join(touched)}: not to be touched"),
            (data in (old, whole), f"{name}: {'nothing' if data is None else str(len(data)) + ' bytes'}"),
            (is_named_twice or again.status == 0, "and then: " + short_of(again)),
            (not is_named_twice or again.err == EXISTS, "and then, of two names: " + short_of(again)),
            (room.bytes(name) == whole, "and then: not whole"),
            (is_named_twice or not os.path.exists(room.path(name) + ".xvfs-new"), "and then a file is left"))


def full_place():
    """A name of ours that can't be made, in a folder where nothing may be made: refused, all as it was."""
    room = ROOMS.room(a=ONE_FILE)
    before = room.listing()
    end = room.run("mkfs a.img 200 32", "open@a.img.xvfs-new:1+:enospc")
    yield "no room", wrong_unless((end.status == 1, short_of(end)),
                                  (not changed(before, room.listing()), "something changed"))


SERIES = [(named_by_user, line) for line in REPLACERS]
SERIES += [(stands_there, line) for line in REPLACERS]
SERIES += [(killed, line) for line in MAKERS if line in REPLACERS]
SERIES += [(script_of_that_name,), (locked_home,), (long_names,), (full_place,)]
