"""Images whose logs have other lengths, as xv6's mkfs made them up to 2024: `xvfs convert` gives each the log of today,
and the small kernel goes on in the new image."""
import os
import random

from calls import Calls
from checker import Checker, check
from kernel import Kernel
from layout import BLOCK, FILE, INODE_WORDS, LOG, SUPERBLOCK_WORDS, Superblock
from mkfs import mkfs
from programs import Failure, shown
from tree import File, Tree

OLD, NEW = "old.img", "new.img"
# The longest log that has another length, and the shortest.
LOGS = [30, 30, 30, 11, 20, 31]
CALLS = 60


def convert(programs, data, *words):
    """The status, what was told, and the new image; the old one has to stay, and a refusal leaves no file."""
    with open(OLD, "wb") as file:
        file.write(data)
    if os.path.exists(NEW):
        os.remove(NEW)
    status, told = programs.run(programs.xvfs, "convert", OLD, NEW, *words)
    with open(OLD, "rb") as file:
        if file.read() != data:
            raise Failure("convert changed the old image")
    if status != 0:
        if os.path.exists(NEW):
            raise Failure("convert was refused, and left a file")
        return status, told, b""
    with open(NEW, "rb") as file:
        return status, told, file.read()


def superblock(data):
    return Superblock(*SUPERBLOCK_WORDS.unpack_from(data, BLOCK))


def labels(data):
    """Each used inode's numbers of its device."""
    start = superblock(data).inodestart * BLOCK
    inodes = (INODE_WORDS.unpack_from(data, start + number * INODE_WORDS.size)
              for number in range(superblock(data).ninodes))
    return [inode[1:3] if inode[0] else None for inode in inodes]


def old_image(log, seed, size=600):
    """An image with a log of that length, in which the kernel worked for a while; its tree, and its last state
    behind the write of a header."""
    chance = random.Random("conversions %d %d" % (log, seed))
    files = [(b"f%d" % index, chance.randbytes(chance.choice([0, 100, 5000, 14000, 40000]))) for index in range(6)]
    tree = Tree()
    tree.files.update((b"/" + name, File(FILE, data)) for name, data in files)
    data = bytearray(mkfs(files, size, 100, log))
    data[:BLOCK] = chance.randbytes(BLOCK)
    kernel = Kernel(bytes(data))
    calls = Calls(kernel, tree, chance, [])
    for _ in range(CALLS):
        calls.make_one()
    at_header = kernel.image_at_header()
    # A boot, which clears the log.
    return Kernel(calls.stop()).image(), tree, at_header, chance


def refused(programs, data, wanted, *words):
    status, told, _ = convert(programs, data, *words)
    if status != 1 or told != wanted:
        raise Failure("convert tells '%s' in place of '%s'" % (shown(told).strip(), shown(wanted).strip()))


def there_and_back(programs, data, log):
    """The same image for an older kernel, which boots on it."""
    status, told, older = convert(programs, data, "--log", str(log))
    if status != 0:
        raise Failure("convert to a log of %d blocks tells '%s'" % (log, shown(told).strip()))
    before, after = Checker(data), Checker(older)
    if after.faults or before.files != after.files or before.inodes != after.inodes or labels(data) != labels(older):
        raise Failure("the older image has other files: %s" % after.faults[:3])
    if superblock(older).nlog != log or len(older) != len(data) - (LOG - log) * BLOCK:
        raise Failure("the older image has the superblock %s" % (superblock(older),))
    Kernel(older)
    for other in ("10", "32"):
        refused(programs, data, b"xvfs: copy 10 LogRange\n", "--log", other)


def whole(programs, log, seed):
    """Converts one image. The new one, and its tree."""
    data, tree, at_header, chance = old_image(log, seed)
    size = superblock(data).size
    wanted = chance.choice([size + LOG - log, 1000])
    status, told, new = convert(programs, data, *(["--size", str(wanted)] if wanted == 1000 else []))
    line = b"size %d ninodes 100 nblocks %d\n" % (wanted, superblock(new).nblocks if new else 0)
    if status != 0 or told != line:
        raise Failure("convert of a log of %d blocks tells '%s'" % (log, shown(told).strip()))
    before, after = Checker(data), Checker(new)
    if before.faults or after.faults or before.files != after.files or before.inodes != after.inodes:
        raise Failure("the new image has other files: %s" % (before.faults + after.faults)[:3])
    if data[:BLOCK] != new[:BLOCK] or labels(data) != labels(new):
        raise Failure("the new image has another boot block, or other labels")
    there_and_back(programs, new, log)
    count = at_header[2 * BLOCK]
    if count:
        refused(programs, at_header, b"xvfs: copy 9 Logged %d\n" % count)
    refused(programs, data, b"xvfs: mkfs 1 SizeRange\n", "--size", str(size + LOG - log - 1))
    refused(programs, data, b"xvfs: mkfs 1 SizeRange\n", "--size", "8192")
    return new, tree, chance


def wrong_images(programs):
    """What isn't an image of xv6, or has a fault, isn't converted."""
    good = mkfs([(b"file", bytes(20000))], 300, 40, 30)

    def hurt(at, *words):
        data = bytearray(good)
        for place, word in enumerate(words):
            data[at + 4 * place:at + 4 * place + 4] = word.to_bytes(4, "little")
        return bytes(data)

    refused(programs, hurt(BLOCK, 0x10203041), b"xvfs: check 1 BadMagic\n")
    for place, word in ((1, 299), (2, 1), (3, 48), (4, 10), (4, 32), (5, 3), (6, 33), (7, 36)):
        refused(programs, hurt(BLOCK + 4 * place, word), b"xvfs: check 2 BadGeometry\n")
    refused(programs, good[:-BLOCK], b"xvfs: check 2 BadGeometry\n")
    # The file's inode: its first address, and its size.
    inode = 32 * BLOCK + 2 * 64
    refused(programs, hurt(inode + 12, 2), b"xvfs: check 6 BadAddress 2\n")
    refused(programs, hurt(inode + 12, 0xffffffff), b"xvfs: check 6 BadAddress 2\n")
    refused(programs, hurt(inode + 8, 300000), b"xvfs: check 5 BadSize 2\n")
    address = int.from_bytes(good[inode + 12:inode + 16], "little")
    refused(programs, hurt(inode + 16, address), b"xvfs: check 7 TwiceUsed %d\n" % (address + 1))
    refused(programs, hurt(inode + 8, 0, 0), b"xvfs: check 9 LostBlock %d\n" % (address + 1))


def make_conversions(programs):
    wrong_images(programs)
    for seed, log in enumerate(LOGS):
        new, tree, chance = whole(programs, log, seed)
        kernel = Kernel(new)
        if kernel.reclaimed:
            raise Failure("in the new image the kernel freed the inodes %s" % kernel.reclaimed)
        calls = Calls(kernel, tree, chance, [])
        for _ in range(CALLS):
            calls.make_one()
        new = calls.stop()
        files, faults = check(new)
        wrong = faults + tree.differences(files)
        if wrong:
            raise Failure("; ".join(wrong[:3]))
        programs.write(new)
        programs.look(files)
    print("%d images whose logs have %s blocks, converted, with %d calls of the kernel before and behind"
          % (len(LOGS), sorted(set(LOGS)), CALLS))
