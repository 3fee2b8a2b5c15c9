"""Whether the strict checker can tell: images with one thing changed, in each of which it has to find that fault."""
import struct

from checker import check
from kernel import CREATE, Kernel, WRITE
from layout import BLOCK, ENTRY, ENTRY_WORDS, INODE_WORDS
from mkfs import mkfs
from programs import Failure


class Wrong:
    """A good image, to be changed: /f is 2 and also /a/g, /a is 3, /a/b is 4, /long is 5, and /e is 6."""

    def __init__(self, data):
        self.data, self.kernel = bytearray(data), Kernel(data)

    def set_word(self, number, word, value):
        """A word of an inode: 0 type, 3 links, 4 size, and from 5 on the addresses."""
        home, at = self.kernel.place(number)
        words = list(self.kernel.on_disk(number))
        words[word] = value
        INODE_WORDS.pack_into(self.data, home * BLOCK + at, *words)

    def set_entry(self, directory, place, number, name):
        """An entry of a directory, within its size."""
        at = self.kernel.on_disk(directory)[5] * BLOCK + place * ENTRY
        ENTRY_WORDS.pack_into(self.data, at, number, name)

    def flip(self, block):
        self.data[self.kernel.superblock.bmapstart * BLOCK + block // 8] ^= 1 << block % 8

    def address(self, number, index):
        return self.kernel.on_disk(number)[5 + index]


def good_image():
    kernel = Kernel(mkfs([(b"f", b"to be")], 400, 40))
    kernel.mkdir(b"/a")
    kernel.mkdir(b"/a/b")
    file = kernel.open(b"/long", CREATE | WRITE)
    kernel.write(file, bytes(14000))
    kernel.close(file)
    kernel.mkdir(b"/e")
    kernel.link(b"/f", b"/a/g")
    return kernel.image()


# What is done to the image, and what the checker then has to tell.
CHANGES = [
    (lambda image: image.set_word(3, 3, 1), "inode 3 has 1 links, and 2 entries lead to it"),
    (lambda image: image.set_word(1, 3, 1), "inode 1 has 1 links, and 3 entries lead to it"),
    (lambda image: image.set_word(4, 3, 2), "inode 4 has 2 links, and 1 entries lead to it"),
    (lambda image: image.set_word(2, 3, 1), "inode 2 has 1 links, and 2 entries lead to it"),
    (lambda image: image.set_word(5, 3, 0), "inode 5 has 0 links, and 1 entries lead to it"),
    (lambda image: image.set_entry(4, 1, 1, b".."), "/a/b/ begins with"),
    (lambda image: image.set_entry(3, 0, 4, b"."), "/a/ begins with"),
    (lambda image: image.set_entry(3, 1, 3, b".."), "/a/ begins with"),
    (lambda image: image.flip(390), "block 390 is lost"),
    (lambda image: image.flip(image.address(2, 0)), "is used, and marked as free"),
    (lambda image: image.flip(5), "block 5 is used, and marked as free"),
    (lambda image: image.set_word(2, 5, image.address(5, 3)), "is owned by 2 and 5"),
    (lambda image: image.set_word(5, 5, 3), "inode 5 has the address 3"),
    (lambda image: image.set_word(5, 17, 0), "inode 5 lacks an address"),
    (lambda image: image.set_word(2, 4, 2000), "inode 2 lacks an address"),
    (lambda image: image.set_word(5, 4, 274433), "inode 5 has type 2 and size 274433"),
    (lambda image: image.set_word(5, 0, 4), "inode 5 has type 4"),
    (lambda image: image.set_entry(1, 5, 5, b"a"), "which is there already or is none"),
    (lambda image: image.set_entry(1, 5, 5, b"a\0b"), "which is there already or is none"),
    (lambda image: image.set_entry(1, 4, 5, b"a/b"), "which is there already or is none"),
    (lambda image: image.set_entry(1, 4, 5, b".."), "which is there already or is none"),
    (lambda image: image.set_entry(1, 4, 0, b""), "inode 5 has no name"),
    (lambda image: image.set_entry(1, 4, 9, b"long"), "/long leads to 9, which is free"),
    (lambda image: image.set_entry(1, 5, 4, b"e"), "are one directory"),
    (lambda image: image.set_word(3, 4, 72), "/a/ has 72 bytes"),
    (lambda image: image.set_word(1, 0, 2), "there is no root"),
    (lambda image: struct.pack_into("<I", image.data, BLOCK + 16, 30), "the superblock is"),
    (lambda image: struct.pack_into("<II", image.data, 2 * BLOCK, 1, 5), "the log has the homes"),
    (lambda image: struct.pack_into("<I", image.data, 2 * BLOCK, 31), "the log has 31 blocks"),
]


def look_at_wrong_images():
    data = good_image()
    if check(data)[1]:
        raise Failure("the checker finds a fault in a good image: %s" % check(data)[1])
    for change, wanted in CHANGES:
        image = Wrong(data)
        change(image)
        faults = check(bytes(image.data))[1]
        if not any(wanted in fault for fault in faults):
            raise Failure("the checker doesn't find '%s', but %s" % (wanted, faults))
    print("the checker: %d wrong images, and the fault of each is found" % len(CHANGES))
