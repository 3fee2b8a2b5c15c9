"""A tree of files as a dictionary, which knows no blocks and no inodes: what two programs that change an image in
turn have to leave in it."""
from layout import DIRECTORY, NAME

NAMES = [b"bin", b"notes.txt", b"a", b"README", b"fourteen_bytes", b"x\xc3\xa9", b"lib", b"usr", b"tmp", b"new file"]
# Paths that are so long are left as they are: xv6 takes less than 128 bytes.
LONG = 100


class File:
    """A file, which may have several names. A directory has no bytes."""

    def __init__(self, kind, data=None):
        self.kind, self.data = kind, data


class Tree:
    """The files by their paths; that of the root is empty."""

    def __init__(self):
        self.files = {b"": File(DIRECTORY)}

    def paths(self, *kinds):
        return [path for path, file in self.files.items() if file.kind in kinds and path]

    def is_directory(self, path):
        return path in self.files and self.files[path].kind == DIRECTORY

    def is_empty(self, path):
        return not any(other.startswith(path + b"/") for other in self.files)

    def is_free(self, path):
        """Whether a new name may be made here."""
        return path not in self.files and self.is_directory(path.rpartition(b"/")[0])

    def may_move(self, old, new):
        return old != b"" and self.is_free(new) and not new.startswith(old + b"/")

    def move(self, old, new):
        for path in [path for path in self.files if path == old or path.startswith(old + b"/")]:
            self.files[new + path[len(old):]] = self.files.pop(path)

    def any_path(self, random, *kinds):
        """A path of one of these kinds, or in some cases one that is none."""
        paths = [path for path in self.paths(*kinds) if len(path) < LONG]
        return random.choice(paths) if paths and random.random() < 0.95 else self.new_path(random)

    def new_path(self, random):
        """A path that is mostly new."""
        directory = random.choice([b""] + [path for path in self.paths(DIRECTORY) if len(path) < LONG])
        name = random.choice(NAMES) + random.choice([b"", b"%d" % random.randrange(9)])
        return directory + b"/" + name[:NAME]

    def differences(self, found):
        """What an image's files, as the checker found them, have otherwise than they should."""
        wrong = ["%s should not be there" % path for path in found.keys() - self.files.keys()]
        wrong += ["%s is not there" % path for path in self.files.keys() - found.keys() - {b""}]
        numbers = {}
        for path in found.keys() & self.files.keys():
            file, there = self.files[path], found[path]
            if (file.kind, file.data) != (there.kind, there.data):
                wrong.append("%s has other bytes, or another type" % path)
            if numbers.setdefault(file, there.number) != there.number:
                wrong.append("%s is not the file of its other names" % path)
        if len(set(numbers.values())) != len(numbers):
            wrong.append("two files are one")
        return wrong
