"""What xv6's own user/usertests.c asks of a kernel's files, of the small kernel: each call has to be done or refused
as there, and the checker finds no fault behind each test."""
from checker import check
from fs import NINODE
from kernel import CREATE, Kernel, READ, READ_WRITE, WRITE
from layout import BLOCK, MOST_BLOCKS
from mkfs import mkfs
from programs import Failure

MODES = {"read": READ, "write": WRITE, "change": READ_WRITE, "create": CREATE}
LINKS = 500

# A call a line, with `!` before one that has to be refused. `put` and `get` open, write or read, and close.
LINES = {
    "linktest": """put lf1 hello; link lf1 lf2; unlink lf1; !open lf1 read; get lf2 hello; !link lf2 lf2; unlink lf2;
        !link lf2 lf1; !link . lf1""",
    "fourteen": """mkdir 12345678901234; mkdir 12345678901234/123456789012345;
        open 123456789012345/123456789012345/123456789012345 create;
        open 12345678901234/12345678901234/12345678901234 read; !mkdir 12345678901234/12345678901234;
        !mkdir 123456789012345/12345678901234; !unlink 123456789012345/12345678901234;
        unlink 12345678901234/12345678901234/12345678901234; unlink 12345678901234/123456789012345;
        unlink 12345678901234""",
    "rmdot": """mkdir dots; chdir dots; !unlink .; !unlink ..; chdir /; !unlink dots/.; !unlink dots/..;
        unlink dots""",
    "dirfile": """open dirfile create; !chdir dirfile; !open dirfile/xx read; !open dirfile/xx create;
        !mkdir dirfile/xx; !unlink dirfile/xx; !link README dirfile/xx; unlink dirfile; !open . change; open . read""",
    "subdir": """mkdir dd; put dd/ff ff; !unlink dd; mkdir /dd/dd; put dd/dd/ff FF; get dd/dd/../ff ff;
        link dd/dd/ff dd/dd/ffff; unlink dd/dd/ff; !open dd/dd/ff read; chdir dd; chdir dd/../../dd;
        chdir dd/../../../dd; chdir ./..; get dd/dd/ffff FF; !open dd/dd/ff read; !open dd/ff/ff create;
        !open dd/xx/ff create; !open dd create; !open dd change; !open dd write; !link dd/ff/ff dd/dd/xx;
        !link dd/xx/ff dd/dd/xx; !link dd/ff dd/dd/ffff; !mkdir dd/ff/ff; !mkdir dd/xx/ff; !mkdir dd/dd/ffff;
        !unlink dd/xx/ff; !unlink dd/ff/ff; !chdir dd/ff; !chdir dd/xx; unlink dd/dd/ffff; unlink dd/ff; !unlink dd;
        unlink dd/dd; unlink dd""",
    "iref": (NINODE + 1) * """mkdir irefd; chdir irefd; !mkdir ; !link README ; !open  create; open xx create;
        unlink xx; """ + (NINODE + 1) * "chdir ..; unlink irefd; " + "chdir /",
}


def put(kernel, path, data):
    """Whether all of it was written."""
    file = kernel.open(path, CREATE | READ_WRITE)
    wrote = -1 if file == -1 else kernel.write(file, data)
    if file != -1:
        kernel.close(file)
    return wrote


def get(kernel, path, data):
    file = kernel.open(path)
    read = kernel.read(file, len(data) + 1)
    kernel.close(file)
    return 0 if read == data else -1


def opened(kernel, path, mode):
    file = kernel.open(path, MODES[mode.decode()])
    return file if file == -1 else kernel.close(file)


def make_line(kernel, line):
    name, *words = line.lstrip("!").split(" ")
    given = [word.encode() for word in words]
    calls = {"put": put, "get": get, "open": opened}
    answer = calls[name](kernel, *given) if name in calls else getattr(kernel, name)(*given)
    if (answer == -1) != line.startswith("!"):
        raise Failure("the kernel %s '%s'" % ("refuses" if answer == -1 else "does", line))


def unlinkread(kernel):
    """An open file without a name is there until it is closed."""
    put(kernel, b"unlinkread", b"hello")
    file = kernel.open(b"unlinkread", READ_WRITE)
    kernel.unlink(b"unlinkread")
    put(kernel, b"unlinkread", b"yyy")
    if kernel.read(file, 100) != b"hello" or kernel.write(file, b"0123456789") != 10:
        raise Failure("the kernel lost the bytes of an open file")
    kernel.close(file)
    kernel.unlink(b"unlinkread")


def writebig(kernel):
    """The largest file, and one byte more."""
    data = b"".join(index.to_bytes(4, "little") * (BLOCK // 4) for index in range(MOST_BLOCKS))
    if put(kernel, b"big", data) != len(data) or get(kernel, b"big", data) or put(kernel, b"big", data + b"x") != -1:
        raise Failure("the largest file is another one")
    kernel.unlink(b"big")


def diskfull(kernel):
    """Without a free block a directory can't grow, and none is made; without a free inode no file."""
    large = [b"big%d" % index for index in range(kernel.superblock.size // MOST_BLOCKS + 1)]
    small = [b"zz%d" % index for index in range(kernel.superblock.ninodes)]
    wrote = [put(kernel, name, bytes(MOST_BLOCKS * BLOCK)) for name in large]
    made = [opened(kernel, name, b"create") for name in small]
    if -1 not in wrote or {0, -1} != set(made) or kernel.mkdir(b"diskfulldir") != -1:
        raise Failure("a full disk takes more")
    for name in large + small:
        kernel.unlink(name)


def bigdir(kernel, count=LINKS):
    """So many names are made in the root and taken out: its size stays."""
    names = [bytes([ord("x"), ord("0") + index // 64, ord("0") + index % 64]) for index in range(count)]
    put(kernel, b"bd", b"")
    answers = {kernel.link(b"bd", name) for name in names} | {kernel.unlink(name) for name in [b"bd"] + names}
    if answers != {0}:
        raise Failure("bigdir fails")


def make_usertests():
    kernel = Kernel(mkfs([(b"README", b"to be, or not to be\n")], 1000, 100))
    files = check(kernel.image())[0]
    for name, lines in LINES.items():
        for line in lines.split(";"):
            make_line(kernel, line.lstrip())
        look(kernel, name, files)
    for test in (unlinkread, writebig, diskfull, bigdir):
        test(kernel)
        look(kernel, test.__name__, files)
    print("the kernel: %d tests of usertests" % (len(LINES) + 4))


def look(kernel, name, files):
    """Behind each test the files are those of before."""
    left, faults = check(kernel.image())
    if faults or left != files:
        raise Failure("behind %s: %s" % (name, "; ".join(faults) or left))
