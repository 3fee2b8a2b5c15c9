"""Blocks, inodes, directories and paths, as kernel/fs.c of xv6-riscv has them, under its names, for one process."""
from layout import (ADDRESSES, BITS_IN_BLOCK, BLOCK, DIRECT, DIRECTORY, ENTRY, ENTRY_WORDS, INODE_WORDS,
                    INODES_IN_BLOCK, MOST_BLOCKS, NAME, ROOT, name_of)
from log import Log, Panic

# Inodes in memory at once.
NINODE = 50


class Inode:
    """An inode in memory."""

    def __init__(self, number):
        self.number, self.references, self.is_valid, self.is_locked = number, 0, False, False
        self.kind = self.major = self.minor = self.links = self.size = 0
        self.addresses = []


def skipelem(path):
    """The first name of a path, cut to 14 bytes, or None, and what is left behind it."""
    name, _slash, rest = path.lstrip(b"/").partition(b"/")
    return name[:NAME] or None, rest.lstrip(b"/")


class FileSystem(Log):
    def __init__(self, data):
        super().__init__(data)
        self.table, self.said, self.reclaimed = {}, [], []
        # The first process is in the root before the disk is read: xv6's userinit.
        self.directory = self.iget(ROOT)
        self.ireclaim()

    # Blocks.

    def balloc(self):
        """The first free block, zeroed; 0 where none is free."""
        for first in range(0, self.superblock.size, BITS_IN_BLOCK):
            home = self.superblock.bmapstart + first // BITS_IN_BLOCK
            some = min(BITS_IN_BLOCK, self.superblock.size - first)
            free = ~int.from_bytes(self.bread(home), "little") & ((1 << some) - 1)
            if free:
                index = (free & -free).bit_length() - 1
                self.log_write(home)[index // 8] |= 1 << index % 8
                self.log_write(first + index)[:] = bytes(BLOCK)
                return first + index
        self.said.append("balloc: out of blocks")
        return 0

    def bfree(self, block):
        home, index = self.superblock.bmapstart + block // BITS_IN_BLOCK, block % BITS_IN_BLOCK
        if not self.bread(home)[index // 8] & 1 << index % 8:
            raise Panic("freeing free block")
        self.log_write(home)[index // 8] &= ~(1 << index % 8)

    # Inodes.

    def place(self, number):
        return self.superblock.inodestart + number // INODES_IN_BLOCK, number % INODES_IN_BLOCK * INODE_WORDS.size

    def on_disk(self, number):
        """An inode's words: type, major, minor, nlink, size and addresses."""
        home, at = self.place(number)
        return INODE_WORDS.unpack_from(self.bread(home), at)

    def ialloc(self, kind):
        """A free inode, which is used from now on; None where none is free."""
        for number in range(1, self.superblock.ninodes):
            if self.on_disk(number)[0] == 0:
                home, at = self.place(number)
                INODE_WORDS.pack_into(self.log_write(home), at, kind, *[0] * (4 + DIRECT + 1))
                return self.iget(number)
        self.said.append("ialloc: no inodes")
        return None

    def iupdate(self, inode):
        home, at = self.place(inode.number)
        INODE_WORDS.pack_into(self.log_write(home), at, inode.kind, inode.major, inode.minor, inode.links, inode.size,
                              *inode.addresses)

    def iget(self, number):
        if number not in self.table:
            if len(self.table) == NINODE:
                raise Panic("iget: no inodes")
            self.table[number] = Inode(number)
        self.table[number].references += 1
        return self.table[number]

    def idup(self, inode):
        inode.references += 1
        return inode

    def ilock(self, inode):
        if inode.references < 1:
            raise Panic("ilock")
        if inode.is_locked:
            raise Panic("no panic of xv6: the only process sleeps for a lock that it holds")
        inode.is_locked = True
        if not inode.is_valid:
            words = self.on_disk(inode.number)
            inode.kind, inode.major, inode.minor, inode.links, inode.size, *inode.addresses = words
            inode.is_valid = True
            if inode.kind == 0:
                raise Panic("ilock: no type")

    def iunlock(self, inode):
        if not inode.is_locked or inode.references < 1:
            raise Panic("iunlock")
        inode.is_locked = False

    def iput(self, inode):
        """Gives a reference back. The last one of an inode without links frees it."""
        if inode.references == 1 and inode.is_valid and inode.links == 0:
            self.itrunc(inode)
            inode.kind = 0
            self.iupdate(inode)
            inode.is_valid = False
        inode.references -= 1
        if inode.references == 0:
            del self.table[inode.number]

    def iunlockput(self, inode):
        self.iunlock(inode)
        self.iput(inode)

    def ireclaim(self):
        """Frees, at boot, each inode that has no links."""
        for number in range(1, self.superblock.ninodes):
            kind, _major, _minor, links = self.on_disk(number)[:4]
            if kind != 0 and links == 0:
                self.reclaimed.append(number)
                inode = self.iget(number)
                with self.transaction():
                    self.ilock(inode)
                    self.iunlock(inode)
                    self.iput(inode)

    # What is in an inode.

    def bmap(self, inode, index):
        """The block of an inode's block of this index, taken where there is none; 0 where none is free."""
        if index < DIRECT:
            inode.addresses[index] = inode.addresses[index] or self.balloc()
            return inode.addresses[index]
        if index >= MOST_BLOCKS:
            raise Panic("bmap: out of range")
        inode.addresses[DIRECT] = inode.addresses[DIRECT] or self.balloc()
        home = inode.addresses[DIRECT]
        if home == 0:
            return 0
        at = (index - DIRECT) * 4
        address = int.from_bytes(self.bread(home)[at:at + 4], "little")
        if address == 0:
            address = self.balloc()
            if address:
                self.log_write(home)[at:at + 4] = address.to_bytes(4, "little")
        return address

    def itrunc(self, inode):
        """Frees an inode's blocks, and leaves it empty."""
        for block in filter(None, inode.addresses[:DIRECT]):
            self.bfree(block)
        if inode.addresses[DIRECT]:
            for block in filter(None, ADDRESSES.unpack(self.bread(inode.addresses[DIRECT]))):
                self.bfree(block)
            self.bfree(inode.addresses[DIRECT])
        inode.addresses, inode.size = [0] * (DIRECT + 1), 0
        self.iupdate(inode)

    def readi(self, inode, offset, count):
        """Up to so many bytes from this offset on."""
        data = b""
        count = max(0, min(count, inode.size - offset))
        while len(data) < count:
            block = self.bmap(inode, (offset + len(data)) // BLOCK)
            if block == 0:
                break
            start = (offset + len(data)) % BLOCK
            data += self.bread(block)[start:start + min(count - len(data), BLOCK - start)]
        return data

    def writei(self, inode, offset, data):
        """How many bytes were written: fewer where no block is free; -1 where they don't fit."""
        if offset > inode.size or offset + len(data) > MOST_BLOCKS * BLOCK:
            return -1
        end, done = offset + len(data), offset
        while done < end:
            block = self.bmap(inode, done // BLOCK)
            if block == 0:
                break
            start = done % BLOCK
            some = data[done - offset:done - offset + BLOCK - start]
            self.log_write(block)[start:start + len(some)] = some
            done += len(some)
        inode.size = max(inode.size, done)
        self.iupdate(inode)
        return done - offset

    # Directories and paths.

    def entries(self, directory, first, panic):
        """The entries from this offset on: offset, number and name. xv6 reads one by one, and panics where one is cut
        off; here a block is read at once."""
        data = None
        for offset in range(first, directory.size, ENTRY):
            start = offset % BLOCK
            if data is None or start == 0:
                data = self.readi(directory, offset - start, BLOCK)
            if start + ENTRY > len(data):
                raise Panic(panic)
            yield (offset, *ENTRY_WORDS.unpack_from(data, start))

    def dirlookup(self, directory, name):
        """The inode to which a name leads, and the offset of its entry; None for both where there is no such name."""
        if directory.kind != DIRECTORY:
            raise Panic("dirlookup not DIR")
        wanted = name_of(name)
        for offset, number, field in self.entries(directory, 0, "dirlookup read"):
            if number != 0 and name_of(field) == wanted:
                return self.iget(number), offset
        return None, None

    def dirlink(self, directory, name, number):
        """Writes a name into the first free entry, or behind the last one. Whether it did."""
        found, _offset = self.dirlookup(directory, name)
        if found:
            self.iput(found)
            return False
        free = directory.size
        for offset, used, _field in self.entries(directory, 0, "dirlink read"):
            if used == 0:
                free = offset
                break
        return self.writei(directory, free, ENTRY_WORDS.pack(number, name_of(name))) == ENTRY

    def namex(self, path, is_parent):
        """The inode at a path, or that of the directory above it with the last name, neither of them locked; None for
        both where there is none."""
        inode = self.iget(ROOT) if path.startswith(b"/") else self.idup(self.directory)
        name, path = skipelem(path)
        while name:
            self.ilock(inode)
            if inode.kind != DIRECTORY:
                self.iunlockput(inode)
                return None, None
            if is_parent and not path:
                self.iunlock(inode)
                return inode, name
            found, _offset = self.dirlookup(inode, name)
            self.iunlockput(inode)
            if not found:
                return None, None
            inode = found
            name, path = skipelem(path)
        if is_parent:
            self.iput(inode)
            return None, None
        return inode, None

    def namei(self, path):
        return self.namex(path, False)[0]

    def nameiparent(self, path):
        return self.namex(path, True)
