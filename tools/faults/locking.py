"""Locks: what is read first, who is kept out and for how long, which file is locked, and what comes of a lock
that can't be had."""
import fcntl
import os
import subprocess
import time

from rooms import changed, end_of
from usual import (CHANGES, DRAWN, EMPTY, FEW, LOGGED, LONG, LOOKS, MAKERS, ONE_FILE, ROOMS, SHORT, short_of,
                   wrong_unless)

LOCKED = "xvfs: file 4 Locked\n"
BIG = b"".join(b"%015d\n" % n for n in range(12000))


def with_big():
    """An image with a file that no pipe takes at once."""
    room = ROOMS.room()
    room.put("big", BIG)
    room.run("mkfs a.img 900 32")
    room.run("put a.img big")
    return room.bytes()


class Held:
    """A lock that the trial itself holds."""

    def __init__(self, room, name, how):
        self.file = open(room.path(name), "rb")
        fcntl.flock(self.file, how)

    def __enter__(self):
        return self

    def __exit__(self, *_fault):
        self.file.close()


def read_first():
    """FILE, script and schedule are read before the image is locked."""
    for line, told in [("put a.img missing", "put 6 File"), ("replay a.img missing schedule", "script 4 File"),
                       ("replay a.img script missing", "schedule 4 File"), ("run a.img missing", "script 4 File"),
                       ("put a.img few", "file 4 Locked"), ("replay a.img script schedule", "file 4 Locked"),
                       ("run a.img script", "file 4 Locked")]:
        room = ROOMS.room(a=LOGGED)
        with Held(room, "a.img", fcntl.LOCK_EX):
            end = room.run(line)
        refused = end.status == 1 and end.err == f"xvfs: {told}\n"
        yield line, wrong_unless((refused, f"expected {told}: {short_of(end)}"),
                                 (room.bytes() == LOGGED, "the image was changed"))


def slow_input():
    """A command that waits for its input keeps nobody out."""
    for line, given in [("put a.img /dev/stdin", LONG), ("replay a.img /dev/stdin turns", b"0 create 2\n"),
                        ("replay a.img script /dev/stdin", b"0! 1! 2!\n"), ("run a.img /dev/stdin", b"0 create 2\n")]:
        room = ROOMS.room(a=ONE_FILE)
        waiting = room.begin(line, stdin=subprocess.PIPE)
        time.sleep(0.08)
        ends = [room.run("check a.img"), room.run("put a.img few")]
        end, files = end_of(waiting, given), room.files()
        yield line, wrong_unless(
            (all(one.status == 0 for one in ends), f"beside it: {[short_of(one) for one in ends]}"),
            (end.status == 0, short_of(end)), (files is not None, "the image is not sound"),
            (files is None or {(2, SHORT), (2, FEW)} <= set(files.values()), "files were lost"),
            (files is None or not line.startswith("put") or (2, LONG) in files.values(), "not put"))


def piped():
    """A file of an image, by a pipe into the same image: both commands end, whichever is first."""
    for bytes_of, before in ((SHORT, ONE_FILE), (BIG, BIG_FILE)):
        for pauses in (("0", "0"), ("0", "0.05"), ("0.05", "0")):
            room = ROOMS.room(a=before)
            shell = ('{ sleep %s; timeout 20 "$1" cat a.img 1 --wait; } | '
                     '{ sleep %s; timeout 20 "$1" put a.img /dev/stdin --wait; }' % pauses)
            end = room.run([], shell=shell)
            files = room.files()
            yield f"{len(bytes_of)} bytes, {pauses}", wrong_unless(
                (end.status == 0, short_of(end)),
                (files == {1: (2, bytes_of), 2: (2, bytes_of)}, "not the bytes of the file"))


def is_root():
    return os.geteuid() == 0


def read_only():
    """`cat` of an image that may only be read, or is only to be, whose log has blocks."""
    for how in ("words", "open", "permissions", "words and a looker", "words and a changer", "no such file"):
        room = ROOMS.room(a=LOGGED)
        line, strikes, more, locks = "cat a.img 1", "", {}, []
        if how == "open":
            strikes = "open@a.img:1+:readonly"
        elif how == "permissions":
            os.chmod(room.path("a.img"), 0o444)
            os.chmod(room.folder.name, 0o755)
            more = {"user": 65534, "group": 65534, "extra_groups": []} if is_root() else {}
        else:
            line = "cat a.img 9 --read-only" if how == "no such file" else "cat a.img 1 --read-only"
        if how.startswith("words and"):
            locks = [Held(room, "a.img", fcntl.LOCK_SH if how.endswith("looker") else fcntl.LOCK_EX)]
        end = room.run(line, strikes, **more)
        for lock in locks:
            lock.file.close()
        told = {"no such file": "xvfs: cat 1 NoFile\n", "words and a changer": LOCKED}.get(how)
        yield how, wrong_unless(
            (told is None or (end.status == 1 and end.err == told), short_of(end)),
            (told is not None or (end.status == 0 and end.out == SHORT), short_of(end)),
            (room.bytes() == LOGGED, "the image was written"))


def dawdling_reader():
    """`cat` lets go of the image before it prints."""
    for words in ("", " --read-only"):
        room = ROOMS.room(a=BIG_FILE)
        cat = room.begin("cat a.img 1" + words)
        begun = os.read(cat.stdout.fileno(), 1)
        ends = [room.run("check a.img"), room.run("put a.img few")]
        end, files = end_of(cat), room.files()
        yield "cat" + words, wrong_unless(
            (all(one.status == 0 for one in ends), f"beside it: {[short_of(one) for one in ends]}"),
            (end.status == 0 and begun + end.out == BIG, f"status {end.status}, {len(end.out)} bytes"),
            (files == {1: (2, BIG), 2: (2, FEW)}, "not the files that were put"))


def renamed():
    """Another image takes the name between a put's calls, and a second put begins: none loses its bytes."""
    usual = ROOMS.room(a=ONE_FILE)
    _end, calls = usual.calls("put a.img long")
    first_write = next((n for n, call in enumerate(calls, 1) if call[0] == "write"), 1)
    for at in range(1, first_write + 1):
        if calls[at - 1][1] != "a.img":
            continue
        room = ROOMS.room(a=ONE_FILE, n=EMPTY)
        os.link(room.path("a.img"), room.path("old.img"))
        first = room.begin("put a.img long", f"any:{at}:pause=go write@a.img:2:pause=further")
        room.await_file("go.reached", first)
        os.rename(room.path("n.img"), room.path("a.img"))
        room.put("go", b"")
        # Until it has begun to write the image that has the name, where it does.
        room_waits = 0
        while first.poll() is None and not os.path.exists(room.path("further.reached")) and room_waits < 60:
            time.sleep(0.001)
            room_waits += 1
        second = room.run("put a.img few")
        room.put("further", b"")
        ended = end_of(first)
        now, old = room.files(), room.files("old.img")
        kept = list((now or {}).values()) + list((old or {}).values())
        yield f"before {' '.join(calls[at - 1][:2])}, call {at}", wrong_unless(
            (now is not None and old is not None, "an image is not sound"),
            (ended.status in (0, 1) and second.status in (0, 1), f"{short_of(ended)}, {short_of(second)}"),
            (0 in (ended.status, second.status), f"both are refused: {short_of(ended)}"),
            (ended.status != 0 or (2, LONG) in kept, "the first put is lost, status 0"),
            (second.status != 0 or (now and (2, FEW) in now.values()), "the second put is lost, status 0"))


def taken_name(line):
    """Another file takes NEW's name while the copy is begun: it stays as it is."""
    usual = ROOMS.room(a=ONE_FILE)
    _end, calls = usual.calls(line)
    ours = [(at, call) for at, call in enumerate(calls, 1)
            if call[1] == "b.img" and call[0] in ("open", "lock", "stat", "truncate", "chmod")]
    for at, call in ours[1:]:
        for kind in ("file", "link"):
            room = ROOMS.room(a=ONE_FILE)
            room.put("mine", b"mine\n" * 500)
            copying = room.begin(line, f"any:{at}:pause=go")
            if not room.await_file("go.reached", copying):
                yield f"call {at}", "not reached: " + short_of(end_of(copying))
                continue
            if kind == "link":
                os.rename(room.path("mine"), room.path("theirs"))
                os.symlink("theirs", room.path("mine"))
            os.rename(room.path("mine"), room.path("b.img"))
            room.put("go", b"")
            end = end_of(copying)
            yield f"{kind}, before {call[0]}, call {at}", wrong_unless(
                (end.status in (0, 1), short_of(end)),
                (room.bytes("b.img") == b"mine\n" * 500, "another's file was written or removed"))


def no_locks(line):
    """A file system without locks, or one where locking fails: refused, and done with `--no-lock`."""
    for how in ("enolck", "eopnotsupp", "eio"):
        for words in ("",) if line.startswith("stops ") else ("", " --wait", " --no-lock"):
            room, usual = ROOMS.room(a=LOGGED), ROOMS.room(a=LOGGED)
            for one in (room, usual):
                os.symlink("a.img", one.path("link.img"))
            before = room.listing()
            end = room.run(line + words, f"lock:1+:{how}")
            if words == " --no-lock":
                expected = usual.run(line)
                same = end.out == expected.out and room.listing() == usual.listing() or line.startswith("run ")
                yield how + words, wrong_unless((end.status == 0, short_of(end)), (same, "another end than with locks"))
                continue
            touched = changed(before, room.listing())
            refused = end.status == 1 and end.err == "xvfs: file 6 Unlockable\n"
            yield how + words, wrong_unless(
                (refused, f"expected file 6 Unlockable: {short_of(end)}"),
                (end.out == b"" or line.startswith("stops "), "something was printed"),
                (not touched, f"{', '.join(touched)}: not to be touched"))


def copies_wait(line):
    """NEW is being made by another program: with `--wait` it is waited for, and then it is there."""
    room = ROOMS.room(a=ONE_FILE)
    first = room.begin(line, "write@b.img:3:pause=go")
    room.await_file("go.reached", first)
    at_once = room.run(line)
    waiting = room.begin(line + " --wait")
    time.sleep(0.1)
    waits = waiting.poll() is None
    room.put("go", b"")
    ended, later = end_of(first), end_of(waiting)
    exists = (1, b"", "xvfs: copy 7 Exists\n")
    yield "another makes it", wrong_unless(
        (ended.status == 0, short_of(ended)), (at_once == exists, "at once: " + short_of(at_once)),
        (waits, "--wait: doesn't wait: " + short_of(later)), (later == exists, "--wait: " + short_of(later)),
        (room.files("b.img") == {1: (2, SHORT)}, "the copy is not whole"))


BIG_FILE = with_big()
LOCKERS = [*LOOKS, *CHANGES, *MAKERS, *DRAWN]
SERIES = [(read_first,), (slow_input,), (piped,), (read_only,), (dawdling_reader,), (renamed,)]
SERIES += [(taken_name, line) for line in ("copy a.img b.img", "rescue a.img b.img", "convert a.img b.img")]
SERIES += [(copies_wait, line) for line in ("copy a.img b.img", "rescue a.img b.img", "convert a.img b.img")]
SERIES += [(no_locks, line) for line in LOCKERS]
