"""Random commands of xvnames, each by one run of the program, beside the tree that they have to leave."""
import re

from checker import Checker
from layout import BLOCK, DEVICE, DIRECTORY, FILE
from programs import Failure, shown
from tree import File

SIZES = [0, 1, 700, 3072, 4000, 13000, 20000]


class Commands:
    def __init__(self, programs, tree, random, history):
        self.programs, self.tree, self.random, self.history = programs, tree, random, history
        self.kinds = 3 * [self.mkdir, self.mv, self.mv_directory] + 2 * [self.rmdir, self.rm, self.put, self.ln]

    def make_one(self):
        self.random.choice(self.kinds)()

    def made(self, may, blocks, command, *words):
        """Whether xvnames made a command. It has to where it may, unless it lacks so many blocks, or an inode."""
        status, told = self.programs.names(command, *words)
        line = "%s %s" % (command, " ".join(map(shown, words)))
        self.history.append("xvnames %s: %s" % (line, "done" if status == 0 else shown(told).strip()))
        if status == 0 and not may or status == 1 and may and not self.is_short(told, blocks):
            raise Failure("xvnames %s: %s" % (line, shown(told).strip() if may else "done, which may not be"))
        return status == 0

    def is_short(self, told, blocks):
        """Whether it was refused for want of room, and rightly."""
        image = Checker(self.programs.image())
        free_blocks = image.superblock.nblocks - len(image.owners)
        free_inodes = image.superblock.ninodes - 1 - len(image.inodes)
        return (re.match(rb"xvnames: names 10 NoNumber\b", told) and free_inodes == 0
                or re.match(rb"xvnames: names 11 NoBlock\b", told) and free_blocks < blocks)

    def mkdir(self):
        path = self.tree.new_path(self.random)
        if self.made(self.tree.is_free(path), 2, "mkdir", path):
            self.tree.files[path] = File(DIRECTORY)

    def rmdir(self):
        """A directory, an empty one where there is one."""
        empty = [path for path in self.tree.paths(DIRECTORY) if self.tree.is_empty(path)]
        path = self.random.choice(empty or [self.tree.any_path(self.random, DIRECTORY)])
        if self.made(self.tree.is_directory(path) and self.tree.is_empty(path), 0, "rmdir", path):
            del self.tree.files[path]

    def mv(self):
        self.move(self.tree.any_path(self.random, FILE, DEVICE))

    def mv_directory(self):
        self.move(self.tree.any_path(self.random, DIRECTORY))

    def move(self, old):
        new = self.tree.new_path(self.random)
        may = old in self.tree.files and self.tree.may_move(old, new)
        if old != new and self.made(may, 1, "mv", old, new):
            self.tree.move(old, new)

    def rm(self):
        path = self.tree.any_path(self.random, FILE, DEVICE)
        if self.made(path in self.tree.files and not self.tree.is_directory(path), 0, "rm", path):
            del self.tree.files[path]

    def put(self):
        path, data = self.tree.any_path(self.random, FILE), self.random.randbytes(self.random.choice(SIZES))
        there = self.tree.files.get(path)
        if there and there.kind == DEVICE:
            return
        with open("host", "wb") as file:
            file.write(data)
        may = there.kind == FILE if there else self.tree.is_free(path)
        if self.made(may, len(data) // BLOCK + 3, "put", b"host", path):
            self.tree.files.setdefault(path, File(FILE)).data = data

    def ln(self):
        old, new = self.tree.any_path(self.random, FILE, DEVICE, DIRECTORY), self.tree.new_path(self.random)
        may = old in self.tree.files and not self.tree.is_directory(old) and self.tree.is_free(new)
        if self.made(may, 1, "ln", old, new):
            self.tree.files[new] = self.tree.files[old]
