"""An image on a device, in place: a loop device, where this user can have one."""
import os
import shutil
import subprocess

from rooms import changed
from usual import ROOMS, short_of, wrong_unless

SIZE = 500


class Loop:
    """A loop device over a file of so many blocks; its path is None where there can be none."""

    def __init__(self, room, blocks):
        room.put("backing", os.urandom(blocks * 1024))
        words = ["losetup", "--find", "--show", room.path("backing")]
        made = subprocess.run(words, capture_output=True) if shutil.which("losetup") else None
        self.path = made.stdout.decode().strip() if made is not None and made.returncode == 0 else None

    def __enter__(self):
        return self

    def __exit__(self, *_fault):
        if self.path:
            subprocess.run(["losetup", "--detach", self.path], capture_output=True)

    def bytes(self):
        subprocess.run(["blockdev", "--flushbufs", self.path], capture_output=True)
        with open(self.path, "rb") as file:
            return file.read()


def device():
    """mkfs of just its length, and then each command as on a file."""
    room = ROOMS.room()
    with Loop(room, SIZE) as loop:
        if loop.path is None:
            print("faults: no loop device can be made here, so none was tried")
            return
        before, filled = room.listing(but=("backing",)), loop.bytes()
        for blocks in (SIZE + 1, SIZE - 1):
            end = room.run(f"mkfs {loop.path} {blocks} 32")
            yield f"mkfs of {blocks} blocks", wrong_unless(
                (end.status == 1 and end.err.startswith("xvfs: "), short_of(end)),
                (loop.bytes() == filled, "a device of another length was written"))
        twin = ROOMS.room()
        lines = [f"mkfs IMAGE {SIZE} 32", "check IMAGE", "put IMAGE long", "put IMAGE few --sync", "cat IMAGE 1",
                 "put IMAGE short 2", "ls IMAGE", "df IMAGE", "show IMAGE", "show IMAGE 1",
                 "replay IMAGE script schedule", "replay IMAGE script schedule --stop 3", "show IMAGE log",
                 "check IMAGE", "recover IMAGE --sync", "cat IMAGE 2", "check IMAGE --all"]
        for line in lines:
            end, usual = (room.run(line.replace("IMAGE", loop.path)), twin.run(line.replace("IMAGE", "a.img")))
            yield line, wrong_unless((end == usual, f"{short_of(end)}, on a file {short_of(usual)}"),
                                     (loop.bytes() == twin.bytes(), "other bytes than in a file"))
        end = room.run(f"copy {loop.path} b.img")
        yield "copy", wrong_unless((end.status == 0, short_of(end)),
                                   (room.files("b.img") == twin.files(), "the copy has other files"))
        yield "beside it", wrong_unless((changed(before, room.listing(but=("backing",))) == ["b.img"],
                                         "other files were made"))


SERIES = [(device,)]
