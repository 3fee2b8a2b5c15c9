"""The disk in memory behind xv6's log: kernel/log.c of xv6-riscv, for one process. A block that is changed in a
transaction is kept beside the disk up to the commit, so a panic leaves what the last commit left."""
import contextlib
import struct

from layout import BLOCK, MAGIC, SUPERBLOCK_WORDS, Superblock


class Panic(Exception):
    """xv6's panic, with its text."""


class Log:
    def __init__(self, data):
        self.disk = [bytes(data[at:at + BLOCK]) for at in range(0, len(data), BLOCK)]
        self.superblock = Superblock(*SUPERBLOCK_WORDS.unpack_from(self.disk[1]))
        if self.superblock.magic != MAGIC:
            raise Panic("invalid file system")
        # The blocks of the transaction under way, in the order of logging.
        self.changed, self.is_open = {}, False
        self.recover()
        self.disk_at_header = self.disk

    def image(self):
        """The disk as it stands."""
        return b"".join(self.disk)

    def image_at_header(self):
        """What a power cut in the last commit leaves, behind the write of its header: the log is not empty."""
        return b"".join(self.disk_at_header)

    def bread(self, block):
        """A block as the cache has it."""
        if block >= len(self.disk):
            raise Panic("bread: there is no block %d" % block)
        return self.changed.get(block, self.disk[block])

    def log_write(self, block):
        """A block to be changed, which the commit will write."""
        if len(self.changed) >= self.superblock.nlog - 1:
            raise Panic("too big a transaction")
        if not self.is_open:
            raise Panic("log_write outside of trans")
        if block not in self.changed:
            self.changed[block] = bytearray(self.bread(block))
        return self.changed[block]

    @contextlib.contextmanager
    def transaction(self):
        """From begin_op to end_op, which commits. After a panic nothing is committed."""
        self.is_open = True
        yield
        self.is_open = False
        self.commit()

    def commit(self):
        changed, self.changed = self.changed, {}
        if not changed:
            return
        for place, data in enumerate(changed.values()):
            self.disk[self.superblock.logstart + 1 + place] = bytes(data)
        self.write_header(list(changed))
        self.disk_at_header = list(self.disk)
        for home, data in changed.items():
            self.disk[home] = bytes(data)
        self.write_header([])

    def write_header(self, homes):
        """xv6's write_head: what stands behind the homes stays."""
        words = struct.pack("<%dI" % (1 + len(homes)), len(homes), *homes)
        self.disk[self.superblock.logstart] = words + self.disk[self.superblock.logstart][len(words):]

    def recover(self):
        header = self.disk[self.superblock.logstart]
        count, = struct.unpack_from("<I", header)
        for place, home in enumerate(struct.unpack_from("<%dI" % count, header, 4)):
            self.disk[home] = self.disk[self.superblock.logstart + 1 + place]
        self.write_header([])
