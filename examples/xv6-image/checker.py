"""A strict checker of images of xv6, by the format alone: nothing here knows of the kernel beside it, or of this
project's programs.

    checker.py IMAGE         prints each fault, and ends with status 1 where there is one

The image is read as recovery would leave it. It has no fault where it is sound (each block is owned once, the bitmap
says exactly which are used, and sizes fit), the files are a tree (`.` and `..` lead where they have to, names are
names, and each used inode has one), and each inode's count of links is that of the entries, but `.`, that lead to it.
"""
import collections
import struct
import sys

from layout import (ADDRESSES, BLOCK, DEVICE, DIRECT, DIRECTORY, ENTRY, ENTRY_WORDS, INODE_WORDS, MOST_BLOCKS,
                    ROOT, SUPERBLOCK_WORDS, Superblock, name_of, superblock_for)

# A file that was found: its bytes are None for a directory.
Found = collections.namedtuple("Found", "number kind links data")


class Checker:
    def __init__(self, data):
        self.faults, self.files, self.owners, self.inodes = [], {}, {}, {}
        # How many entries lead to each inode.
        self.names = collections.Counter()
        self.blocks = [data[at:at + BLOCK] for at in range(0, len(data), BLOCK)]
        self.superblock = Superblock(*SUPERBLOCK_WORDS.unpack_from(self.blocks[1]))
        wanted = superblock_for(self.superblock.size, self.superblock.ninodes, self.superblock.nlog)
        if self.superblock != wanted or len(data) != self.superblock.size * BLOCK:
            self.tell("the superblock is %s", self.superblock)
            return
        self.first_data = self.superblock.size - self.superblock.nblocks
        self.recover()
        self.look_at_inodes()
        self.look_at_bitmap()
        self.look_at_tree()
        self.look_at_counts()

    def tell(self, text, *words):
        """Adds a fault."""
        words = tuple(word.decode("latin-1") if isinstance(word, bytes) else word for word in words)
        self.faults.append(text % words)

    def recover(self):
        start = self.superblock.logstart
        count, = struct.unpack_from("<I", self.blocks[start])
        if count > self.superblock.nlog - 1:
            self.tell("the log has %d blocks", count)
            return
        homes = struct.unpack_from("<%dI" % count, self.blocks[start], 4)
        lawful = range(self.superblock.inodestart, self.superblock.size)
        if len(set(homes)) != count or not all(home in lawful for home in homes):
            self.tell("the log has the homes %s", homes)
            return
        for place, home in enumerate(homes):
            self.blocks[home] = self.blocks[start + 1 + place]

    # Soundness.

    def look_at_inodes(self):
        for number in range(1, self.superblock.ninodes):
            at = number * INODE_WORDS.size
            block = self.blocks[self.superblock.inodestart + at // BLOCK]
            kind, _major, _minor, links, size, *addresses = INODE_WORDS.unpack_from(block, at % BLOCK)
            if kind == 0:
                continue
            if kind not in range(DIRECTORY, DEVICE + 1) or size > MOST_BLOCKS * BLOCK:
                self.tell("inode %d has type %d and size %d", number, kind, size)
                continue
            self.inodes[number] = Found(number, kind, links, self.bytes_of(number, size, addresses))

    def bytes_of(self, number, size, addresses):
        """The bytes of an inode, whose blocks it owns."""
        needed = (size + BLOCK - 1) // BLOCK
        if self.owns(number, addresses[DIRECT], needed > DIRECT):
            addresses = addresses[:DIRECT] + list(ADDRESSES.unpack(self.blocks[addresses[DIRECT]]))
        else:
            addresses = addresses[:DIRECT]
        data = [self.blocks[block] if self.owns(number, block, index < needed) else bytes(BLOCK)
                for index, block in enumerate(addresses)]
        return b"".join(data)[:size]

    def owns(self, number, block, is_needed):
        """Whether an inode has a block at an address, of which it is the only owner."""
        if block == 0:
            if is_needed:
                self.tell("inode %d lacks an address", number)
            return False
        if not self.first_data <= block < self.superblock.size:
            self.tell("inode %d has the address %d", number, block)
            return False
        if block in self.owners:
            self.tell("block %d is owned by %d and %d", block, self.owners[block], number)
        self.owners[block] = number
        return True

    def look_at_bitmap(self):
        bits = b"".join(self.blocks[self.superblock.bmapstart:self.first_data])
        for block in range(self.superblock.size):
            is_marked = bool(bits[block // 8] & 1 << block % 8)
            if is_marked != (block < self.first_data or block in self.owners):
                self.tell("block %d is %s", block, "lost" if is_marked else "used, and marked as free")

    # The tree.

    def look_at_tree(self):
        root = self.inodes.get(ROOT)
        if not root or root.kind != DIRECTORY:
            self.tell("there is no root")
            return
        paths, left = {ROOT: b"/"}, [(ROOT, ROOT, b"")]
        while left:
            left += self.look_at_directory(*left.pop(), paths)
        for number in self.inodes.keys() - paths.keys():
            self.tell("inode %d has no name", number)

    def look_at_directory(self, number, parent, path, paths):
        """The directories in a directory: number, the number of this one, and path."""
        data, below, names = self.inodes[number].data, [], set()
        if len(data) % ENTRY or len(data) < 2 * ENTRY:
            self.tell("%s/ has %d bytes", path, len(data))
            return below
        self.names[parent] += 1
        entries = list(ENTRY_WORDS.iter_unpack(data))
        if [(to, field.rstrip(b"\0")) for to, field in entries[:2]] != [(number, b"."), (parent, b"..")]:
            self.tell("%s/ begins with %s", path, entries[:2])
        for to, field in entries[2:]:
            if to == 0:
                continue
            name = name_of(field)
            if name in names or name in (b"", b".", b"..") or b"/" in name or any(field[len(name):]):
                self.tell("%s/ has the name %s, which is there already or is none", path, field)
            names.add(name)
            if self.is_new_directory(to, path + b"/" + name, paths):
                below.append((to, number, path + b"/" + name))
        return below

    def is_new_directory(self, number, path, paths):
        """Whether a name leads to a directory, the first one that does."""
        self.names[number] += 1
        found = self.inodes.get(number)
        if not found:
            self.tell("%s leads to %d, which is free", path, number)
            return False
        is_directory = found.kind == DIRECTORY
        if is_directory and number in paths:
            self.tell("%s and %s are one directory", path, paths[number])
            return False
        paths.setdefault(number, path)
        self.files[path] = found._replace(data=None) if is_directory else found
        return is_directory

    def look_at_counts(self):
        for number, found in self.inodes.items():
            if found.links != self.names[number]:
                self.tell("inode %d has %d links, and %d entries lead to it", number, found.links, self.names[number])


def check(data):
    """The files of an image by their paths, and its faults."""
    checker = Checker(data)
    return checker.files, checker.faults


if __name__ == "__main__":
    with open(sys.argv[1], "rb") as FILE:
        _FILES, FAULTS = check(FILE.read())
    print("\n".join(FAULTS or ["no fault"]))
    sys.exit(1 if FAULTS else 0)
