"""A small kernel of xv6's rules, over an image in memory: the system calls on files, as kernel/sysfile.c and
kernel/file.c of xv6-riscv make them. A new Kernel is a boot: it recovers the log, and frees what has no links."""
from fs import FileSystem
from layout import BLOCK, DEVICE, DIRECTORY, ENTRY, FILE
from log import Panic

READ, WRITE, READ_WRITE, CREATE, TRUNCATE = 0, 1, 2, 0x200, 0x400
# The longest path with its zero, the open files of a process, the drivers, and the blocks of one operation.
MAXPATH, NOFILE, NDEV, MAXOPBLOCKS = 128, 16, 10, 10


class OpenFile:
    def __init__(self, inode, mode):
        self.inode, self.offset, self.is_device = inode, 0, inode.kind == DEVICE
        self.is_readable, self.is_writable = not mode & WRITE, bool(mode & (WRITE | READ_WRITE))


class Kernel(FileSystem):
    def __init__(self, data):
        self.files = []
        super().__init__(data)

    # Each answers as in C: -1 where it was refused.

    def open(self, path, mode=READ):
        """An open file, or -1."""
        if len(path) >= MAXPATH:
            return -1
        with self.transaction():
            inode = self.create(path, FILE) if mode & CREATE else self.opened(path, mode)
            if not inode:
                return -1
            wrong = inode.kind == DEVICE and not 0 <= inode.major < NDEV
            if wrong or len(self.files) == NOFILE:
                self.iunlockput(inode)
                return -1
            self.files.append(OpenFile(inode, mode))
            if mode & TRUNCATE and inode.kind == FILE:
                self.itrunc(inode)
            self.iunlock(inode)
        return self.files[-1]

    def opened(self, path, mode):
        """The inode at a path, locked, where it may be opened so."""
        inode = self.namei(path)
        if inode:
            self.ilock(inode)
            if inode.kind == DIRECTORY and mode != READ:
                self.iunlockput(inode)
                return None
        return inode

    def close(self, file):
        self.files.remove(file)
        with self.transaction():
            self.iput(file.inode)
        return 0

    def read(self, file, count):
        """Up to so many bytes from the file's offset on."""
        if not file.is_readable or file.is_device:
            return -1
        self.ilock(file.inode)
        data = self.readi(file.inode, file.offset, count)
        file.offset += len(data)
        self.iunlock(file.inode)
        return data

    def write(self, file, data):
        """Writes from the file's offset on, in pieces that fit into a transaction. All of it, or -1."""
        if not file.is_writable or file.is_device:
            return -1
        most, done = (MAXOPBLOCKS - 1 - 1 - 2) // 2 * BLOCK, 0
        while done < len(data):
            some = data[done:done + most]
            with self.transaction():
                self.ilock(file.inode)
                wrote = self.writei(file.inode, file.offset, some)
                file.offset += max(wrote, 0)
                self.iunlock(file.inode)
            if wrote != len(some):
                return -1
            done += wrote
        return done

    def link(self, old, new):
        if max(len(old), len(new)) >= MAXPATH:
            return -1
        with self.transaction():
            inode = self.namei(old)
            if not inode:
                return -1
            self.ilock(inode)
            if inode.kind == DIRECTORY:
                self.iunlockput(inode)
                return -1
            inode.links += 1
            self.iupdate(inode)
            self.iunlock(inode)
            if self.is_linked(inode, new):
                self.iput(inode)
                return 0
            self.ilock(inode)
            inode.links -= 1
            self.iupdate(inode)
            self.iunlockput(inode)
            return -1

    def is_linked(self, inode, path):
        """Gives an inode one more name. Whether it did."""
        directory, name = self.nameiparent(path)
        if not directory:
            return False
        self.ilock(directory)
        linked = self.dirlink(directory, name, inode.number)
        self.iunlockput(directory)
        return linked

    def unlink(self, path):
        if len(path) >= MAXPATH:
            return -1
        with self.transaction():
            directory, name = self.nameiparent(path)
            if not directory:
                return -1
            self.ilock(directory)
            inode, offset = (None, None) if name in (b".", b"..") else self.dirlookup(directory, name)
            if not inode:
                self.iunlockput(directory)
                return -1
            self.ilock(inode)
            if inode.links < 1:
                raise Panic("unlink: nlink < 1")
            if inode.kind == DIRECTORY and not self.isdirempty(inode):
                self.iunlockput(inode)
                self.iunlockput(directory)
                return -1
            self.drop_name(directory, offset, inode)
            return 0

    def drop_name(self, directory, offset, inode):
        if self.writei(directory, offset, bytes(ENTRY)) != ENTRY:
            raise Panic("unlink: writei")
        if inode.kind == DIRECTORY:
            directory.links -= 1
            self.iupdate(directory)
        self.iunlockput(directory)
        inode.links -= 1
        self.iupdate(inode)
        self.iunlockput(inode)

    def isdirempty(self, directory):
        entries = self.entries(directory, 2 * ENTRY, "isdirempty: readi")
        return all(number == 0 for _offset, number, _field in entries)

    def chdir(self, path):
        if len(path) >= MAXPATH:
            return -1
        with self.transaction():
            inode = self.namei(path)
            if not inode:
                return -1
            self.ilock(inode)
            if inode.kind != DIRECTORY:
                self.iunlockput(inode)
                return -1
            self.iunlock(inode)
            self.iput(self.directory)
        self.directory = inode
        return 0

    def mkdir(self, path):
        return self.make(path, DIRECTORY)

    def mknod(self, path, major, minor):
        return self.make(path, DEVICE, major, minor)

    def make(self, *words):
        if len(words[0]) >= MAXPATH:
            return -1
        with self.transaction():
            inode = self.create(*words)
            if not inode:
                return -1
            self.iunlockput(inode)
            return 0

    def create(self, path, kind, major=0, minor=0):
        """A new inode with this name, locked, or for a file the one that has it; None where it was refused."""
        directory, name = self.nameiparent(path)
        if not directory:
            return None
        self.ilock(directory)
        inode, _offset = self.dirlookup(directory, name)
        if inode:
            self.iunlockput(directory)
            self.ilock(inode)
            if kind == FILE and inode.kind in (FILE, DEVICE):
                return inode
            self.iunlockput(inode)
            return None
        inode = self.ialloc(kind)
        if not inode:
            self.iunlockput(directory)
            return None
        self.ilock(inode)
        inode.major, inode.minor, inode.links = major, minor, 1
        self.iupdate(inode)
        return self.named(directory, name, inode)

    def named(self, directory, name, inode):
        """The new inode with its name and, as a directory, its own two. Where one can't be written it is freed."""
        is_directory = inode.kind == DIRECTORY
        own = not is_directory or (self.dirlink(inode, b".", inode.number)
                                   and self.dirlink(inode, b"..", directory.number))
        if not own or not self.dirlink(directory, name, inode.number):
            inode.links = 0
            self.iupdate(inode)
            self.iunlockput(inode)
            self.iunlockput(directory)
            return None
        if is_directory:
            # For its `..`; its `.` counts nowhere.
            directory.links += 1
            self.iupdate(directory)
        self.iunlockput(directory)
        return inode
