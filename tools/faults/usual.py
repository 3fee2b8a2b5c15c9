"""The files and the images that the series begin with, and the commands that they try."""
import os
import sys

from rooms import Rooms

PROGRAM, WORK = os.path.realpath(sys.argv[1]), os.path.realpath(sys.argv[2])
ALL = "--all" in sys.argv[3:]

SHORT = bytes(range(256)) * 9
FEW = bytes(range(255, -1, -1)) * 12
LONG = b"".join(b"%07d\n" % n for n in range(5000))
SCRIPT = "".join(f"{p} create 2\n{p} fill {p + 2} 0 2500 {65 + p}\n" for p in range(3)) + "0 trunc 3\n1 remove 4\n"
FILES = {
    "script": SCRIPT.encode(),
    "schedule": b"0! 1! 2! " * 12 + b"\n",
    "brief": b"0 create 2\n0 create 2\n",
    "turns": b"0! 0!\n",
    "short": SHORT,
    "few": FEW,
    "long": LONG,
    # What the program's new files were called once: files of the user's, as any other.
    "a.img.new": b"my own work\n",
    "b.img.new": b"my own copy\n",
    "new.img.new": b"my own image\n",
    "p.html.new": b"my own page\n",
}
ROOMS = Rooms(PROGRAM, WORK, FILES)


def made(*lines):
    """The image a.img behind these commands."""
    room = ROOMS.room()
    for line in lines:
        room.run(line)
    return room.bytes()


EMPTY = made("mkfs a.img 200 32")
ONE_FILE = made("mkfs a.img 200 32", "put a.img short")
# A file, and a creation in the log that recovery brings to its end.
LOGGED = made("mkfs a.img 200 32", "put a.img short", "replay a.img script schedule --stop 3")

# Commands that only look, those that change a.img, and those that make other files, with what they make.
LOOKS = ["check a.img", "check a.img --all", "ls a.img", "df a.img", "show a.img", "show a.img 1", "show a.img log"]
CHANGES = ["recover a.img", "recover a.img --sync", "cat a.img 1", "put a.img few", "put a.img few 1",
           "put a.img long --sync", "replay a.img script schedule", "replay a.img script schedule --sync",
           "run a.img script --workers 2"]
MAKERS = {
    "mkfs new.img 200 32": "new.img",
    "mkfs a.img 200 32": "a.img",
    "mkfs link.img 200 32": "a.img",
    "copy a.img b.img": "b.img",
    "rescue a.img b.img": "b.img",
    "show a.img --picture p.html": "p.html",
    "stops brief turns --picture p.html": "p.html",
}
DRAWN = {"replay a.img brief turns --picture p.html": "p.html"}
# What the program may name as its own, and leave where it is killed.
OURS = (".xvfs-new",)


def wrong_unless(*pairs):
    """The first text whose condition doesn't hold."""
    for holds, text in pairs:
        if not holds:
            return text
    return None


def short_of(end):
    text = end.err.strip() or end.out[:60].decode("latin-1").strip()
    return f"status {end.status}: " + text.replace("\n", " / ")
