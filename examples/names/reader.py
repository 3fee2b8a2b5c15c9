"""Reads an image of the xv6 file system by its format alone: nothing here knows of this project's programs.

    reader.py IMAGE          prints a line each file: path, type, links, size and a sum of the bytes

The image is read as recovery would leave it. `read` answers the files by their paths, and what is wrong with
the tree of names: a name of nothing, a file without a name or with two, a directory whose `.` or `..` leads
elsewhere, or a name with something behind its end.
"""
import hashlib
import struct
import sys

BLOCK, ROOT, DIRECTORY = 1024, 1, 1


class Image:
    def __init__(self, data):
        self.blocks = [data[at:at + BLOCK] for at in range(0, len(data), BLOCK)]
        words = struct.unpack_from("<8I", self.blocks[1])
        self.magic, self.size, _blocks, self.ninodes, _nlog, logstart, self.inodestart, _bitmap = words
        logged = struct.unpack_from("<31I", self.blocks[logstart])
        for place in range(logged[0]):
            self.blocks[logged[1 + place]] = self.blocks[logstart + 1 + place]

    def inode(self, number):
        """Type, links, size and addresses."""
        at = number % 16 * 64
        words = struct.unpack_from("<4HI13I", self.blocks[self.inodestart + number // 16], at)
        return words[0], words[3], words[4], words[5:]

    def bytes(self, number):
        _kind, _links, size, addresses = self.inode(number)
        blocks = list(addresses[:12])
        if size > 12 * BLOCK:
            blocks += struct.unpack("<256I", self.blocks[addresses[12]])
        return b"".join(self.blocks[block] for block in blocks[:(size + BLOCK - 1) // BLOCK])[:size]

    def entries(self, number):
        """The used entries of a directory: a number, and the fourteen bytes of the name."""
        data = self.bytes(number)
        pairs = (struct.unpack_from("<H14s", data, at) for at in range(0, len(data) - 15, 16))
        return [pair for pair in pairs if pair[0] != 0]


def read(data, may_link=False):
    """The files by their paths, a directory's path with a slash behind it: type, links and bytes (None of a
    directory). And what is wrong. A file that is no directory may have several names where that is said."""
    image, files, wrong, named = Image(data), {}, [], {ROOT: "/"}
    left = [(ROOT, ROOT, "")]
    if image.inode(ROOT)[0] != DIRECTORY:
        return files, ["there is no root"]
    while left:
        number, parent, path = left.pop()
        own = dict((name.rstrip(b"\0"), to) for to, name in image.entries(number)[:2])
        if own.get(b".") != number or own.get(b"..") != parent:
            wrong.append("%s/ leads to %s by its first two names" % (path, own))
        for to, bytes_of_name in image.entries(number):
            name = bytes_of_name.rstrip(b"\0")
            if name in (b".", b".."):
                continue
            below = path + "/" + name.decode("latin-1")
            if not name or b"\0" in name or b"/" in name:
                wrong.append("%s is no name" % below)
            kind, links, _size, _addresses = image.inode(to) if 0 < to < image.ninodes else (0, 0, 0, ())
            if kind == 0:
                wrong.append("%s leads to %d, which is free" % (below, to))
                continue
            if to in named and may_link and kind != DIRECTORY:
                files[below] = (kind, links, image.bytes(to))
                continue
            if to in named:
                wrong.append("%s and %s are one file" % (below, named[to]))
                continue
            named[to] = below
            is_directory = kind == DIRECTORY
            files[below + "/" * is_directory] = (kind, links, None if is_directory else image.bytes(to))
            if is_directory:
                left.append((to, number, below))
    for number in range(1, image.ninodes):
        if image.inode(number)[0] != 0 and number not in named:
            wrong.append("file %d has no name" % number)
    return files, wrong


if __name__ == "__main__":
    with open(sys.argv[1], "rb") as file:
        FOUND, WRONG = read(file.read())
    for PATH, (KIND, LINKS, BYTES) in sorted(FOUND.items()):
        SUM = "-" if BYTES is None else "%d %s" % (len(BYTES), hashlib.sha256(BYTES).hexdigest()[:16])
        print(PATH, KIND, LINKS, SUM)
    for TEXT in WRONG:
        print("wrong:", TEXT)
    sys.exit(1 if WRONG else 0)
