"""Each command with each choice of its standard descriptors closed, as daemons and runners start programs: no
answer is written into a file that was opened, and where an answer had to be printed it is `output 1 Write`."""
import itertools
import os

from rooms import changed
from usual import CHANGES, DRAWN, FEW, LOGGED, LOOKS, MAKERS, ROOMS, SHORT, short_of, wrong_unless

CHOICES = [choice for count in range(4) for choice in itertools.combinations((0, 1, 2), count)]
UNPRINTED = "xvfs: output 1 Write\n"


def closing(choice):
    """A shell's words that start a program so."""
    return 'exec "$@" ' + " ".join(("<&-", ">&-", "2>&-")[fd] for fd in choice)


def room_of():
    room = ROOMS.room(a=LOGGED)
    os.symlink("a.img", room.path("link.img"))
    return room


def judge_end(end, usual, choice):
    is_silent = usual.out == b"" or 1 not in choice
    if is_silent:
        return wrong_unless((end.status == usual.status, short_of(end)), (end.err == "" or 2 in choice, end.err),
                            (1 in choice or usual.out == end.out, "another answer"))
    return wrong_unless((end.status == 1, "an answer that can't be printed: " + short_of(end)),
                        (2 in choice or end.err == UNPRINTED, f"expected {UNPRINTED.strip()}: {short_of(end)}"))


def judge_files(room, line, before):
    """No file is changed but by what the command is for."""
    after = room.listing()
    free = {"a.img", "p.html"} if line in DRAWN else {"a.img"} if line in CHANGES else {MAKERS.get(line)}
    touched = [name for name in changed(before, after) if name not in free]
    return f"{', '.join(touched)}: not to be touched" if touched else None


def judge_change(room, line):
    """A change that may have been made: sound, and the files of before beside it."""
    files = room.files()
    first = (SHORT, FEW) if line == "put a.img few 1" else (SHORT,)
    if files is None or files.get(1, (0, b""))[1] not in first:
        return f"a.img: {room.run('check a.img').err.strip() or 'other bytes in file 1'}"
    return None


def judge_made(room, line, usual_room):
    """What was made is whole, or is not there, or as it was."""
    name = MAKERS[line]
    data = room.bytes(name)
    if data is None or data == usual_room.bytes(name):
        return None
    return None if name == "a.img" and data == LOGGED else f"{name} is not whole"


def closed(line):
    """One command, each choice."""
    usual_room = room_of()
    usual = usual_room.run(line)
    if usual.status != 0:
        yield "no choice", short_of(usual)
    for choice in CHOICES:
        room = room_of()
        before = room.listing()
        # What `run` prints depends on its threads.
        end = room.run(line, shell=closing(choice))
        shown = usual._replace(out=end.out) if line.startswith("run ") and 1 not in choice else usual
        wrong = judge_end(end, shown, choice) or judge_files(room, line, before)
        if wrong is None and line in MAKERS:
            wrong = judge_made(room, line, usual_room)
        elif wrong is None and line not in LOOKS:
            wrong = judge_change(room, line)
        yield f"closed {choice}", wrong


def closed_input():
    """Lines of the input, and none where that is closed."""
    for choice in CHOICES:
        room = room_of()
        given = b"ls a.img\nput a.img few\n"
        end = room.run([], given=None if 0 in choice else given, shell=closing(choice))
        lines = 0 if 0 in choice else 1 if 1 in choice else 2
        files = room.files()
        # A closed input may be one that can't be read, or has no line.
        expected = {"", "xvfs: input 1 Read\n"} if 0 in choice else {UNPRINTED} if lines == 1 else {""}
        yield f"closed {choice}", wrong_unless(
            (end.status == 1 if lines == 1 else 0 in choice or end.status == 0, short_of(end)),
            (2 in choice or end.err in expected, short_of(end)),
            (files is not None and files.get(1) == (2, SHORT), "a.img: not as it was"),
            (files is None or ((2, FEW) in files.values()) == (lines == 2), "a line was left out or done"))


SERIES = [(closed, line) for line in [*LOOKS, *CHANGES, *MAKERS, *DRAWN]] + [(closed_input,)]
