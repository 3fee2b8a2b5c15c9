"""Where things stand in an image of xv6: kernel/fs.h and kernel/param.h of xv6-riscv. The two checkers of this
folder, the small kernel and its mkfs have their numbers from here."""
import collections
import struct

BLOCK = 1024
MAGIC = 0x10203040
ROOT = 1
DIRECTORY, FILE, DEVICE = 1, 2, 3
DIRECT, INDIRECT = 12, BLOCK // 4
MOST_BLOCKS = DIRECT + INDIRECT
INODES_IN_BLOCK, BITS_IN_BLOCK = BLOCK // 64, BLOCK * 8
NAME, ENTRY = 14, 16
# The log's header, and 30 logged blocks.
LOG = 31

SUPERBLOCK_WORDS = struct.Struct("<8I")
INODE_WORDS = struct.Struct("<4hI13I")
ENTRY_WORDS = struct.Struct("<H14s")
ADDRESSES = struct.Struct("<%dI" % INDIRECT)

Superblock = collections.namedtuple("Superblock", "magic size nblocks ninodes nlog logstart inodestart bmapstart")


def superblock_for(size, inodes, log=LOG):
    """The superblock of an image of so many blocks and inode numbers, as mkfs.c lays it out."""
    inodestart = 2 + log
    bmapstart = inodestart + inodes // INODES_IN_BLOCK + 1
    first_data = bmapstart + size // BITS_IN_BLOCK + 1
    return Superblock(MAGIC, size, size - first_data, inodes, log, 2, inodestart, bmapstart)


def name_of(field):
    """A name as strncmp reads it: up to its first zero, at most 14 bytes."""
    return field[:NAME].split(b"\0")[0]
