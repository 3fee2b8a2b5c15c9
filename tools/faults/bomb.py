"""`check --all` of an image with some million faults: it tells them, also where memory is scarce."""
import os
import struct

from usual import ROOMS, wrong_unless

BLOCK = 1024
# 100 MB of addresses.
SCARCE = 'ulimit -v 102400; exec "$@"'


def bomb(inodes):
    """An image of 8191 blocks whose files all own, by their blocks of addresses, one block that names itself."""
    room = ROOMS.room()
    room.run("mkfs a.img 8191 1024 --large")
    data = bytearray(room.bytes())
    block = 8000
    data[block * BLOCK:(block + 1) * BLOCK] = struct.pack("<256I", *[block] * 256)
    for number in range(1, inodes):
        struct.pack_into("<4HI13I", data, 33 * BLOCK + number * 64, 2, 0, 0, 1, 0, *[0] * 11, block, block)
    return bytes(data)


def read_all(pipe):
    """How many lines there are, the first and the last."""
    lines, first, last = 0, b"", b""
    while part := os.read(pipe.fileno(), 1 << 20):
        first = first or part.split(b"\n")[0]
        lines, last = lines + part.count(b"\n"), (last + part)[-200:]
    return lines, first.decode(), last.decode("latin-1").splitlines()[-1] if last else ""


def all_told():
    """Thirteen million faults, counted."""
    room = ROOMS.room(a=bomb(220))
    first_fault = room.run("check a.img").err
    running = room.begin("check a.img --all", shell=SCARCE, bufsize=0)
    lines, first, last = read_all(running.stdout)
    err = running.stderr.read().decode()
    yield "to the end", wrong_unless(
        (running.wait() == 1 and err == first_fault, f"status {running.returncode}: {err.strip()}, {lines} lines"),
        ("xvfs: " + first + "\n" == first_fault, f"the first is {first!r}, that of check {first_fault.strip()!r}"),
        (last == f"faults {lines - 1}", f"the last line of {lines} is {last!r}"), (lines > 10**7, f"{lines} lines"))


def cut_short():
    """67 million faults, of which the reader takes some."""
    room = ROOMS.room(a=bomb(1024))
    first_fault = room.run("check a.img").err
    running = room.begin("check a.img --all", shell=SCARCE, bufsize=0)
    taken = b""
    while len(taken) < 4 << 20 and (part := os.read(running.stdout.fileno(), 1 << 16)):
        taken += part
    running.stdout.close()
    err = running.stderr.read().decode()
    first = taken.split(b"\n")[0].decode()
    yield "four million bytes", wrong_unless(
        (len(taken) >= 4 << 20, f"{len(taken)} bytes: {err.strip()}"),
        ("xvfs: " + first + "\n" == first_fault, f"the first is {first!r}, that of check {first_fault.strip()!r}"),
        (running.wait() in (1, -13), f"status {running.returncode}"))


SERIES = [(all_told,), (cut_short,)]
