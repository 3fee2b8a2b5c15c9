"""Random system calls of the small kernel, beside the tree that they have to leave."""
from kernel import CREATE, Kernel, READ, READ_WRITE, TRUNCATE, WRITE
from layout import BLOCK, DEVICE, DIRECTORY, FILE, MOST_BLOCKS
from programs import Failure, shown
from tree import File

SIZES = [0, 1, 700, 1024, 3072, 4000, 13000, 20000]
# Over the largest file.
TOO_LARGE = 280000


class Calls:
    def __init__(self, kernel, tree, random, history):
        self.kernel, self.tree, self.random, self.history = kernel, tree, random, history
        # Open files, each with what it is in the tree.
        self.held = []
        self.kinds = 4 * [self.create, self.unlink] + 3 * [self.mkdir, self.write, self.rmdir, self.link]
        self.kinds += [self.mknod, self.hold, self.unlink_held, self.release, self.boot]

    def make_one(self):
        self.random.choice(self.kinds)()

    def made(self, may, answer, *words):
        """Whether the kernel made a call; it has to where it may, unless blocks or inodes ran short."""
        self.history.append("kernel: %s: %s" % (" ".join(map(shown, words)), "done" if answer != -1 else "refused"))
        if answer != -1 and not may or answer == -1 and may and not self.kernel.said:
            raise Failure("%s is %s" % (" ".join(map(shown, words)), "refused" if may else "done, which may not be"))
        self.kernel.said.clear()
        return answer != -1

    def opened(self, path, mode):
        """An open file, or None."""
        there = self.tree.files.get(path)
        may = there.kind != DIRECTORY or mode == READ if there else mode & CREATE and self.tree.is_free(path)
        file = self.kernel.open(path, mode)
        if not self.made(may, file, "open", path, "%#x" % mode):
            return None
        there = self.tree.files.setdefault(path, File(FILE, b""))
        if mode & TRUNCATE and there.kind == FILE:
            there.data = b""
        return file

    def create(self):
        file = self.opened(self.tree.new_path(self.random), WRITE | CREATE)
        if file:
            self.kernel.close(file)

    def mkdir(self):
        path = self.tree.new_path(self.random)
        if self.made(self.tree.is_free(path), self.kernel.mkdir(path), "mkdir", path):
            self.tree.files[path] = File(DIRECTORY)

    def mknod(self):
        path, major = self.tree.new_path(self.random), self.random.randrange(1, 9)
        if self.made(self.tree.is_free(path), self.kernel.mknod(path, major, 0), "mknod", path, str(major)):
            self.tree.files[path] = File(DEVICE, b"")

    def link(self):
        old, new = self.tree.any_path(self.random, FILE, DEVICE, FILE, DIRECTORY), self.tree.new_path(self.random)
        there = self.tree.files.get(old)
        may = there and there.kind != DIRECTORY and self.tree.is_free(new)
        if self.made(may, self.kernel.link(old, new), "link", old, new):
            self.tree.files[new] = there

    def unlink_path(self, path):
        may = path in self.tree.files and self.tree.is_empty(path)
        if self.made(may, self.kernel.unlink(path), "unlink", path):
            del self.tree.files[path]

    def unlink(self):
        self.unlink_path(self.tree.any_path(self.random, FILE, DEVICE))

    def rmdir(self):
        """A directory, an empty one where there is one."""
        empty = [path for path in self.tree.paths(DIRECTORY) if self.tree.is_empty(path) and len(path) < 100]
        self.unlink_path(self.random.choice(empty or [self.tree.any_path(self.random, DIRECTORY)]))

    def write(self):
        mode = self.random.choice([0, TRUNCATE]) | CREATE | self.random.choice([WRITE, READ_WRITE])
        path = self.tree.any_path(self.random, FILE, DEVICE)
        file = self.opened(path, mode)
        if not file:
            return
        there = self.tree.files[path]
        if there.kind == DEVICE:
            self.made(False, self.kernel.write(file, b"x"), "write", path)
        else:
            size = TOO_LARGE if self.random.random() < 0.02 else self.random.choice(SIZES)
            self.write_behind(file, there, self.random.randrange(5000), self.random.randbytes(size))
        self.kernel.close(file)

    def write_behind(self, file, there, skipped, data):
        """Reads over some bytes, where the file may be read, and writes behind them."""
        if file.is_readable and self.kernel.read(file, skipped) != there.data[:skipped]:
            raise Failure("the kernel reads other bytes")
        start = file.offset
        if start + len(data) > MOST_BLOCKS * BLOCK:
            self.kernel.said.append("the file is too large")
        self.made(True, self.kernel.write(file, data), "write", str(start), str(len(data)))
        wrote = file.offset - start
        there.data = there.data[:start] + data[:wrote] + there.data[file.offset:]

    # Files that stay open, and what a boot makes of them.

    def hold(self):
        path = self.tree.any_path(self.random, FILE, DIRECTORY)
        file = self.opened(path, READ) if len(self.held) < 5 else None
        if file:
            self.held.append((file, self.tree.files[path]))

    def unlink_held(self):
        """Takes all names from an open file, which is then there without one."""
        for _file, there in self.held[:1]:
            for path in [path for path, other in self.tree.files.items() if other is there and path]:
                self.unlink_path(path)

    def release(self):
        for file, _there in self.held:
            self.kernel.close(file)
        self.held.clear()

    def orphans(self):
        """The numbers of open files without a name."""
        return sorted({file.inode.number for file, there in self.held if there not in self.tree.files.values()})

    def left(self):
        """The image as it stands, or as a power cut in the last commit leaves it."""
        return self.kernel.image_at_header() if self.random.random() < 0.3 else self.kernel.image()

    def boot(self):
        """A power cut, with files open, and a boot, which has to free those that have no name, and no others."""
        orphans, kernel = self.orphans(), Kernel(self.left())
        self.history.append("kernel: boot, which frees %s" % kernel.reclaimed)
        if kernel.reclaimed != orphans:
            raise Failure("at boot the kernel freed the inodes %s in place of %s" % (kernel.reclaimed, orphans))
        self.kernel = kernel
        self.held.clear()

    def stop(self):
        """Closes all files. What is left."""
        self.release()
        return self.left()
