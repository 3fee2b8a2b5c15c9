"""Lays out an image as xv6's own mkfs/mkfs.c does: a root with a name for each file, and the files' blocks one
behind the other in the order in which they were appended.

    mkfs.py IMAGE FILE...
"""
import os
import sys

from layout import (ADDRESSES, BITS_IN_BLOCK, BLOCK, DIRECT, DIRECTORY, ENTRY_WORDS, FILE, INODE_WORDS,
                    INODES_IN_BLOCK, LOG, MOST_BLOCKS, NAME, ROOT, SUPERBLOCK_WORDS, superblock_for)


class Maker:
    def __init__(self, size, inodes, log):
        self.superblock = superblock_for(size, inodes, log)
        self.blocks = [bytearray(BLOCK) for _ in range(size)]
        self.blocks[1][:SUPERBLOCK_WORDS.size] = SUPERBLOCK_WORDS.pack(*self.superblock)
        self.free_inode, self.free_block = ROOT, size - self.superblock.nblocks

    def place(self, number):
        """The block of an inode, and its first byte there."""
        return self.blocks[self.superblock.inodestart + number // INODES_IN_BLOCK], number % INODES_IN_BLOCK * 64

    def inode(self, number):
        return list(INODE_WORDS.unpack_from(*self.place(number)))

    def set_inode(self, number, words):
        INODE_WORDS.pack_into(*self.place(number), *words)

    def new_inode(self, kind):
        number = self.free_inode
        assert number < self.superblock.ninodes, "mkfs: no inode is left"
        self.free_inode += 1
        self.set_inode(number, [kind, 0, 0, 1, 0] + [0] * (DIRECT + 1))
        return number

    def new_block(self):
        assert self.free_block < self.superblock.size, "mkfs: no block is left"
        self.free_block += 1
        return self.free_block - 1

    def block_of(self, addresses, index):
        """The block that holds a file's block of this index, taken where there is none."""
        assert index < MOST_BLOCKS, "mkfs: a file is too large"
        if index < DIRECT:
            addresses[index] = addresses[index] or self.new_block()
            return addresses[index]
        addresses[DIRECT] = addresses[DIRECT] or self.new_block()
        entries = list(ADDRESSES.unpack(self.blocks[addresses[DIRECT]]))
        if entries[index - DIRECT] == 0:
            entries[index - DIRECT] = self.new_block()
            self.blocks[addresses[DIRECT]][:] = ADDRESSES.pack(*entries)
        return entries[index - DIRECT]

    def append(self, number, data):
        words = self.inode(number)
        size, addresses = words[4], words[5:]
        while data:
            start = size % BLOCK
            some = data[:BLOCK - start]
            self.blocks[self.block_of(addresses, size // BLOCK)][start:start + len(some)] = some
            size, data = size + len(some), data[len(some):]
        self.set_inode(number, words[:4] + [size] + addresses)

    def append_name(self, number, name):
        assert 0 < len(name) <= NAME and b"/" not in name, "mkfs: a name is none"
        self.append(ROOT, ENTRY_WORDS.pack(number, name))

    def round_root(self):
        """The root's size goes up to whole blocks. mkfs.c adds a block to one that has whole blocks already, whose
        address is missing then: here it is left as it is."""
        words = self.inode(ROOT)
        words[4] = (words[4] + BLOCK - 1) // BLOCK * BLOCK
        self.set_inode(ROOT, words)

    def mark(self):
        """The first blocks are used, as many as were taken."""
        assert self.free_block < BITS_IN_BLOCK
        for block in range(self.free_block):
            self.blocks[self.superblock.bmapstart][block // 8] |= 1 << block % 8


def mkfs(files, size=2000, inodes=200, log=LOG):
    """An image with these files, pairs of a name and its bytes, in the root. A `_` before a name is left out."""
    maker = Maker(size, inodes, log)
    assert maker.new_inode(DIRECTORY) == ROOT
    maker.append_name(ROOT, b".")
    maker.append_name(ROOT, b"..")
    for name, data in files:
        number = maker.new_inode(FILE)
        maker.append_name(number, name[1:] if name.startswith(b"_") else name)
        maker.append(number, data)
    maker.round_root()
    maker.mark()
    return b"".join(maker.blocks)


def read(path):
    with open(path, "rb") as file:
        return os.fsencode(os.path.basename(path)), file.read()


if __name__ == "__main__":
    with open(sys.argv[1], "wb") as IMAGE:
        IMAGE.write(mkfs(map(read, sys.argv[2:])))
