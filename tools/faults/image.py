"""Reads an image by docs/FORMAT.md alone: nothing here knows of this project's programs."""
import hashlib
import struct

BLOCK, NLOG, INODES = 1024, 31, 33
# Where the log ends: what an image holds but for it tells its files.
BEHIND_LOG = (2 + NLOG) * BLOCK


def recovered(image):
    """The image as recovery leaves it, but for the header; None where its log is not lawful."""
    count = struct.unpack_from("<I", image, 2 * BLOCK)[0]
    if count == 0:
        return image
    homes = struct.unpack_from("<%dI" % min(count, 30), image, 2 * BLOCK + 4)
    if count > 30 or len(set(homes)) < count or any(not INODES <= home < len(image) // BLOCK for home in homes):
        return None
    blocks = bytearray(image)
    for place, home in enumerate(homes):
        blocks[home * BLOCK:(home + 1) * BLOCK] = image[(3 + place) * BLOCK:(4 + place) * BLOCK]
    return bytes(blocks)


class Image:
    """A recovered image, small enough for one bitmap block: its files, or why it isn't sound."""

    def __init__(self, image):
        self.image, self.files, self.fault = recovered(image), {}, None
        if len(image) < 2 * BLOCK or len(image) % BLOCK or self.image is None:
            self.fault = "length or log"
            return
        self.magic, self.size, _data, self.ninodes, *_rest = struct.unpack_from("<8I", image, BLOCK)
        if self.magic not in (0x10203040, 0x10203041) or self.size * BLOCK != len(image):
            self.fault = "superblock"
            return
        self.bitmap = (INODES + self.ninodes // 16 + 1) * BLOCK
        self.first_data = self.bitmap // BLOCK + self.size // 8192 + 1
        self.used = set(range(self.first_data))
        for number in range(1, self.ninodes):
            self.read_file(number)
        marked = {block for block in range(self.size) if self.image[self.bitmap + block // 8] >> block % 8 & 1}
        if self.fault is None and marked != self.used:
            self.fault = f"bits of {sorted(marked ^ self.used)[:4]}"

    def read_file(self, number):
        kind, _major, _minor, _links, size, *addresses = struct.unpack_from(
            "<4HI13I", self.image, INODES * BLOCK + number * 64)
        if kind == 0:
            return
        direct = 12 if self.magic == 0x10203040 else 11
        blocks = [self.own(number, address) for address in addresses[:direct]]
        blocks += self.named_by(number, addresses[direct])
        if direct == 11:
            for address in self.named_by(number, addresses[12]):
                blocks += self.named_by(number, address)
        count = -(-size // BLOCK)
        if kind > 3 or len(blocks) < count or 0 in blocks[:count]:
            self.fault = f"file {number}"
            return
        data = b"".join(self.image[block * BLOCK:(block + 1) * BLOCK] for block in blocks[:count])
        self.files[number] = (kind, data[:size])

    def own(self, number, address):
        if address != 0 and (address in self.used or not self.first_data <= address < self.size):
            self.fault = f"file {number}, block {address}"
            return 0
        self.used.update([address] if address else [])
        return address

    def named_by(self, number, address):
        """The blocks that a block of addresses names."""
        if self.own(number, address) == 0:
            return []
        return [self.own(number, entry) for entry in struct.unpack_from("<256I", self.image, address * BLOCK)]


TOLD = {}


def told(image):
    """What the image has, for comparing: its files' numbers, types and bytes, or a text of what is wrong."""
    whole = recovered(image)
    if whole is None:
        return "a log that is not lawful"
    key = hashlib.md5(whole[:2 * BLOCK] + whole[BEHIND_LOG:]).digest()
    if key not in TOLD:
        if len(TOLD) > 4000:
            TOLD.clear()
        read = Image(image)
        TOLD[key] = f"not sound: {read.fault}" if read.fault else files_key(read.files)
    return TOLD[key]


def files_key(files):
    return tuple(sorted((number, kind, data) for number, (kind, data) in files.items()))


def files_of(image):
    """The files by their numbers: type and bytes; None where the image isn't sound."""
    read = Image(image)
    return None if read.fault else read.files
