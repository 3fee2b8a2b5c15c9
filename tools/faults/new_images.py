"""What a copied, rescued, converted or replaced image is for others: its permissions and owner, its name's sync, and that
it stays where its answer can't be printed."""
import os
import stat

import image
from rooms import changed
from usual import ONE_FILE, ROOMS, SHORT, short_of, wrong_unless

COPIES = ["copy a.img b.img", "rescue a.img b.img", "convert a.img b.img"]


def mode_of(room, name):
    return stat.S_IMODE(os.lstat(room.path(name)).st_mode)


def masked(mask):
    return f'umask {mask:03o}; exec "$@"'


def modes(line):
    """NEW has OLD's permissions, as far as the umask lets, also where its name is not printed."""
    for mode in (0o600, 0o640, 0o644, 0o666, 0o400, 0o444):
        for mask in (0o022, 0o077, 0o000, 0o002):
            for out in ("", " >/dev/full"):
                room = ROOMS.room(a=ONE_FILE)
                os.chmod(room.path("a.img"), mode)
                end = room.run(line, shell=masked(mask) + out)
                told = (1, "xvfs: output 1 Write\n") if out else (0, "")
                there = os.path.exists(room.path("b.img"))
                has = mode_of(room, "b.img") if there else 0
                yield f"{mode:o}, umask {mask:o}{out}", wrong_unless(
                    ((end.status, end.err) == told, short_of(end)), (there, "there is no NEW"),
                    (has == mode & ~mask, f"NEW has {has:o}"),
                    (room.files("b.img") == {1: (2, SHORT)}, "NEW is not whole"))


def never_wider(line):
    """From its first byte on NEW is for nobody for whom OLD isn't."""
    usual = ROOMS.room(a=ONE_FILE)
    os.chmod(usual.path("a.img"), 0o600)
    _end, calls = usual.calls(line)
    places = [at for at, call in enumerate(calls, 1) if call[1] == "b.img"]
    for at in [*places[:16], *places[16::60], places[-1]]:
        room = ROOMS.room(a=ONE_FILE)
        os.chmod(room.path("a.img"), 0o600)
        room.run(line, f"any:{at}:kill")
        state = os.lstat(room.path("b.img")) if os.path.exists(room.path("b.img")) else None
        wider = state is not None and state.st_size > 0 and stat.S_IMODE(state.st_mode) & 0o177
        yield f"before {calls[at - 1][0]}, call {at}", f"NEW has {stat.S_IMODE(state.st_mode):o}" if wider else None


def folder_sync(line):
    """The folder in which a name is made is synced, but with `--no-sync`; a sync that fails is told."""
    room = ROOMS.room(a=ONE_FILE)
    end, calls = room.calls(line)
    yield "synced", wrong_unless((end.status == 0, short_of(end)),
                                 (any(call[0] == "syncdir" for call in calls), "the folder is not synced"))
    room = ROOMS.room(a=ONE_FILE)
    end, calls = room.calls(line + " --no-sync")
    yield "--no-sync", wrong_unless((end.status == 0, short_of(end)),
                                    (not any(call[0] == "syncdir" for call in calls), "the folder is synced"))
    room = ROOMS.room(a=ONE_FILE)
    before = room.listing()
    end = room.run(line, "syncdir:1+:eio")
    name = line.split()[2] if line.split()[0] != "mkfs" else line.split()[1]
    after, touched = room.bytes(name), changed(before, room.listing())
    files = None if after is None else image.files_of(after)
    yield "its sync fails", wrong_unless(
        (end.status == 1 and end.err.startswith("xvfs: "), short_of(end)),
        (touched in ([], [name]), f"{', '.join(touched)}: not to be touched"),
        (after is None or files is not None, f"{name} is not whole"), (end.out == b"", "something was printed"))


def kept_by_mkfs():
    """`mkfs` over an image of another's keeps its owner and permissions, or is refused and leaves it."""
    for mode in (0o600, 0o640, 0o664, 0o666):
        for strikes in ("", "chmod:1+:eperm", "chmod:1+:eio", "chown:1+:eperm", "chown:1+:eio"):
            if os.geteuid() != 0 and strikes.startswith("chown"):
                continue
            room = ROOMS.room(a=ONE_FILE)
            os.symlink("a.img", room.path("link.img"))
            if os.geteuid() == 0:
                os.chown(room.path("a.img"), 65534, 65534)
            os.chmod(room.path("a.img"), mode)
            before, owner = room.listing(), os.stat(room.path("a.img"))
            for name in ("a.img", "link.img"):
                end = room.run(f"mkfs {name} 200 32", strikes, shell=masked(0o022))
                state, touched = os.stat(room.path("a.img")), changed(before, room.listing())
                kept = (state.st_uid, state.st_gid, state.st_mode) == (owner.st_uid, owner.st_gid, owner.st_mode)
                yield f"{mode:o} {name} {strikes}", wrong_unless(
                    (end.status == (1 if strikes else 0), short_of(end)),
                    (kept, f"owner {state.st_uid}, permissions {stat.S_IMODE(state.st_mode):o}"),
                    (touched == ([] if strikes else ["a.img"]), f"changed: {touched}"))


SERIES = [(series, line) for series in (modes, never_wider) for line in COPIES]
SERIES += [(folder_sync, line) for line in [*COPIES, "mkfs n.img 200 32", "mkfs a.img 200 32"]] + [(kept_by_mkfs,)]
