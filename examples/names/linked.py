"""A file with two names, as xv6 links one: the second entry and the count of links are written into an image by
hand. It is read and written by both names, and one is moved; it goes with its last one. `ln` gives a file a second
name, up to 32,767. Wrong counts of links are refused but by looks, and `recount` puts them right, however often it is
stopped. A directory with two names is refused but by looks at one path, and so is a file without a name, which
`check` tells.

    linked.py PROGRAM FAULTS
"""
import os
import signal
import struct
import subprocess
import sys
import tempfile

from reader import BLOCK, DIRECTORY, ROOT, Image, read

PROGRAM, FAULTS = (os.path.realpath(word) for word in sys.argv[1:])
# The most names that a count of xv6 can say, and how many a directory has of one file.
MOST, NAMES = 32767, 190
# The words of an inode: its type and its count of links.
KIND, LINKS = 0, 3


def fail(text):
    print("names: " + text)
    sys.exit(1)


def run(*words, refused=None):
    ran = subprocess.run([PROGRAM, *words], capture_output=True, timeout=120)
    told = ran.stderr.decode().strip()
    wanted = "" if refused is None else "xvnames: names " + refused
    if (ran.returncode, told) != (0 if refused is None else 1, wanted):
        fail("%s: status %d, %s" % (" ".join(words), ran.returncode, told))
    return ran.stdout


def link(path, number, name):
    """Writes one more entry behind those of the root, and counts the link."""
    with open(path, "rb") as file:
        data = bytearray(file.read())
    image = Image(bytes(data))
    _kind, _links, size, addresses = image.inode(ROOT)

    def place(of):
        return (image.inodestart + of // 16) * BLOCK + of % 16 * 64

    struct.pack_into("<H14s", data, addresses[size // BLOCK] * BLOCK + size % BLOCK, number, name)
    struct.pack_into("<I", data, place(ROOT) + 8, size + 16)
    struct.pack_into("<H", data, place(number) + 6, image.inode(number)[1] + 1)
    with open(path, "wb") as file:
        file.write(data)


def found(names):
    """The image has these files and no others, each with so many links and these bytes."""
    with open("a.img", "rb") as file:
        files, wrong = read(file.read(), may_link=True)
    told = {path: (links, data) for path, (_kind, links, data) in files.items() if data is not None}
    if wrong or told != names:
        fail("%s in place of %s; %s" % (sorted(told), sorted(names), "; ".join(wrong)))


def refuse(*words, refused, printed=b""):
    with open("a.img", "rb") as file:
        before = file.read()
    if run(*words, refused=refused) != printed:
        fail("%s printed something else" % " ".join(words))
    with open("a.img", "rb") as file:
        if file.read() != before:
            fail("%s changed the image" % " ".join(words))


def set_entry(path, directory, name, number):
    """Lets the entry of a name in a directory lead to another number."""
    with open(path, "r+b") as file:
        image = Image(file.read())
        block = image.inode(directory)[3][0]
        at = image.blocks[block].index(name.ljust(14, b"\0")) - 2
        file.seek(block * BLOCK + at)
        file.write(struct.pack("<H", number))


def set_inode(path, number, word, value):
    """Writes one of the first four words of an inode, of two bytes."""
    with open(path, "r+b") as file:
        image = Image(file.read())
        file.seek((image.inodestart + number // 16) * BLOCK + number % 16 * 64 + 2 * word)
        file.write(struct.pack("<H", value))


def give_names(third, second):
    """ln gives names, also in other directories, and refuses what link refuses."""
    run("ln", "a.img", "one", "docs/one")
    run("ln", "a.img", "/docs/./one", "docs/../last")
    found({"/one": (3, third), "/two": (1, second), "/docs/one": (3, third), "/last": (3, third)})
    refuse("ln", "a.img", "none", "new", refused="1 NotFound")
    refuse("ln", "a.img", "one", "none/new", "--explain",
           refused="1 NotFound\none to none/new: a name of it is not there")
    refuse("ln", "a.img", "one", "two/new", refused="2 NotADirectory")
    refuse("ln", "a.img", "docs", "new", "--explain", refused="3 IsADirectory\ndocs: it is a directory")
    refuse("ln", "a.img", "one", "two", "--explain", refused="4 Exists\ntwo: it is there already")
    refuse("mv", "a.img", "one", "two", "--explain", refused="4 Exists\ntwo: it is there already")
    refuse("cp", "a.img", "one", "docs", "--explain",
           refused="23 SameFile\none to docs: both paths lead to the same file")
    refuse("cp", "a.img", "docs/one", "last", refused="23 SameFile")
    refuse("cp", "a.img", "docs", "new", "--explain", refused="3 IsADirectory\ndocs: it is a directory")
    refuse("cp", "a.img", "none", "new", refused="1 NotFound")
    refuse("cp", "a.img", "two", "none/new", refused="1 NotFound")
    refuse("cp", "a.img", "two", "a" * 15, refused="8 NameTooLong")
    refuse("ln", "a.img", "one", "/", refused="6 IsRoot")
    refuse("ln", "a.img", "one", "docs/..", refused="4 Exists")
    refuse("ln", "a.img", "one", "a" * 15, refused="8 NameTooLong")
    run("rm", "a.img", "two")
    run("rm", "a.img", "one")
    found({"/docs/one": (2, third), "/last": (2, third)})
    print("ln: a file with three names, in two directories, which goes with the last of them")


def copy_a_device():
    """A copy is another file than the one that it is of; no device is copied, nor written by a copy."""
    run("mkfs", "a.img", "200", "32", "one", "two")
    run("mkdir", "a.img", "docs")
    run("mkdir", "a.img", "docs/one")
    refuse("cp", "a.img", "one", "docs", "--explain", refused="4 Exists\ndocs: it is there already")
    run("cp", "a.img", "one", "docs/two")
    run("put", "a.img", "three", "one")
    files = {}
    for name in "one", "two", "three":
        with open(name, "rb") as file:
            files[name] = file.read()
    found({"/one": (1, files["three"]), "/two": (1, files["two"]), "/docs/two": (1, files["one"])})
    set_inode("a.img", 3, KIND, 3)
    for words in ("two", "new"), ("one", "two"):
        refuse("cp", "a.img", *words, "--explain",
               refused="22 IsADevice\n%s to %s: one of the two is a device" % words)
    print("cp: a copy keeps its bytes where the file gets others; no device, and no file onto itself")


def counts():
    """Each file's count of links."""
    with open("a.img", "rb") as file:
        image = Image(file.read())
    inodes = {number: image.inode(number) for number in range(1, image.ninodes)}
    return {number: inode[1] for number, inode in inodes.items() if inode[0] != 0}


def put_right(third):
    """Wrong counts are refused where the image would be changed, and put right."""
    with open("a.img", "rb") as file:
        image = file.read()
    if run("recount", "a.img") != b"0\n":
        fail("recount finds wrong counts where none is")
    with open("a.img", "rb") as file:
        if file.read() != image:
            fail("recount changes an image of right counts")
    if run("check", "a.img") != b"":
        fail("check tells a wrong count where none is")
    right, wrong = counts(), {1: 7, 2: 1, 4: 9}
    if right != {1: 2, 2: 2, 4: 1}:
        fail("the counts are %s" % right)
    for number, links in wrong.items():
        set_inode("a.img", number, LINKS, links)
    if sorted(run("tree", "a.img").split()) != [b"docs/", b"docs/one", b"last"]:
        fail("tree of wrong counts lists something else")
    told = [b"/ 1 links 7 names 2", b"/docs/ 4 links 9 names 1", b"/docs/one 2 links 1 names 2", b"/last 2 links 1 names 2"]
    if sorted(run("check", "a.img").splitlines()) != told:
        fail("check tells other counts")
    # The first file that is found has more names than links.
    told = "21 Miscounted 2\na.img: file 2 has not as many links as names; xvnames recount a.img puts that right"
    for words in (("mkdir", "a.img", "new"), ("rm", "a.img", "last"), ("ln", "a.img", "last", "new"),
                  ("put", "a.img", "three", "new"), ("mv", "a.img", "last", "new"), ("rmdir", "a.img", "docs")):
        refuse(*words, "--explain", refused=told)
    stops = stop_recounting(right, wrong, third)
    print("wrong counts: read, not changed, and put right, also behind each of %d stops" % stops)


def stop_recounting(right, wrong, third):
    """Recounts, killed before each write in turn: names and bytes stay, and a second recount puts all right. How
    many stops."""
    with open("a.img", "rb") as file:
        image = file.read()
    for at in range(1, 10**6):
        with open("a.img", "wb") as file:
            file.write(image)
        env = dict(os.environ, LD_PRELOAD=FAULTS, FAULTS_FILE="a.img", FAULTS_CALL="write", FAULTS_AT=str(at),
                   FAULTS_HOW="kill")
        ran = subprocess.run([PROGRAM, "recount", "a.img"], capture_output=True, timeout=120, env=env)
        left = counts()
        if any(links not in (right[number], wrong[number]) for number, links in left.items()) or len(left) != 3:
            fail("a stop of recount before write %d leaves the counts %s" % (at, left))
        found({"/docs/one": (left[2], third), "/last": (left[2], third)})
        if ran.returncode == 0:
            if left != right or ran.stdout != b"3\n":
                fail("recount leaves the counts %s" % left)
            return at - 1
        if ran.returncode != -signal.SIGKILL:
            fail("recount: status %d before write %d" % (ran.returncode, at))
        run("recount", "a.img")
        if counts() != right:
            fail("recount behind a stop leaves the counts %s" % counts())


def look_without_a_tree():
    """In files that are no tree, a path is followed as far as it leads; what needs a tree is refused."""
    if run("ls", "a.img") != b"docs 4 type 1 size 48\nmore 4 type 1 size 48\n":
        fail("ls of a directory with two names lists something else")
    for words in ("tree", "a.img"), ("get", "-r", "a.img", "docs", "folder"), ("recount", "a.img"), ("rm", "a.img", "more"):
        refuse(*words, refused="13 NoTree")
    refuse("check", "a.img", "--explain", refused="13 NoTree\na.img: its files are no tree of directories",
           printed=b"/more/ 4 second name\n")


def lose_a_name():
    """The only name of a file is wiped out: the other files are read, and check tells which one lacks a name."""
    run("mkfs", "a.img", "200", "32", "one", "two")
    run("mkdir", "a.img", "docs")
    run("put", "a.img", "three", "docs/three")
    with open("a.img", "rb") as file:
        image = file.read()
    if run("stat", "a.img", "docs/three") != b"5 type 2 size 20 links 1\n":
        fail("stat tells something else")
    if run("stat", "a.img", "/") != b"1 type 1 size 80 links 2\n":
        fail("stat of the root tells something else")
    set_entry("a.img", 4, b"three", 0)
    set_entry("a.img", ROOT, b"two", 0)
    with open("a.img", "rb") as file:
        lost = file.read()
    refuse("check", "a.img", refused="13 NoTree",
           printed=b"no name 3 type 2 size 5120 links 1\nno name 5 type 2 size 20 links 1\n")
    refuse("tree", "a.img", refused="13 NoTree")
    if run("ls", "a.img") != b"one 2 type 2 size 19\ndocs 4 type 1 size 48\n":
        fail("ls lists something else where a file has no name")
    with open("one", "rb") as file:
        if run("cat", "a.img", "one") != file.read():
            fail("cat writes something else where a file has no name")
    run("get", "a.img", "one", "got")
    refuse("cat", "a.img", "two", refused="1 NotFound")
    with open("a.img", "rb") as file:
        if file.read() != lost or lost == image:
            fail("a look changed an image")
    print("files without a name: told by check, and the others are read")


def put_where_all_is_used():
    """A file gets others of the same size where no block is free, since the image is made anew; in an image with two
    names it is refused before anything is written."""
    run("mkfs", "a.img", "200", "32", "two")
    run("put", "a.img", "long", "rest")
    with open("same", "wb") as file:
        file.write(b"s" * os.path.getsize("long"))
    refuse("put", "a.img", "same", "new", refused="11 NoBlock")
    run("put", "a.img", "same", "rest")
    if run("cat", "a.img", "rest") != b"s" * os.path.getsize("long"):
        fail("put over a file where all is used leaves something else")
    os.link("a.img", "two-names.img")
    refuse("put", "a.img", "long", "rest", refused="11 NoBlock")
    refuse("cp", "a.img", "rest", "new", refused="11 NoBlock")
    os.remove("two-names.img")
    print("a file gets others of the same size where no block is free")


def have_many_names():
    """A file has as many names as its count can say: directories are made as files, and get their type by hand."""
    files, left = [], MOST - 1
    while left > 0:
        here, name = min(left, NAMES), "d%d" % len(files)
        data = struct.pack("<H14sH14s", len(files) + 3, b".", ROOT, b"..")
        data += b"".join(struct.pack("<H14s", 2, b"n%d" % k) for k in range(here))
        with open(name, "wb") as file:
            file.write(data)
        files, left = files + [name], left - here
    run("mkfs", "a.img", "1000", "200", "three", *files)
    for number in range(3, 3 + len(files)):
        set_inode("a.img", number, KIND, DIRECTORY)
    run("recount", "a.img")
    if counts()[2] != MOST or counts()[ROOT] != len(files) + 1:
        fail("recount of many names leaves %s" % counts())
    refuse("ln", "a.img", "three", "new", "--explain",
           refused="20 TooManyLinks\nthree: as many names lead to the file as its count can say")
    run("rm", "a.img", "d0/n0")
    run("ln", "a.img", "d1/n0", "new")
    print("a file with %d names gets no other" % MOST)


def main():
    first, second, third = b"to be, or not to be", bytes(range(256)) * 20, b"that is the question"
    for name, data in (("one", first), ("two", second), ("three", third), ("long", b"long" * 38400)):
        with open(name, "wb") as file:
            file.write(data)
    run("mkfs", "a.img", "200", "32", "one", "two")
    link("a.img", 2, b"again")
    found({"/one": (2, first), "/two": (1, second), "/again": (2, first)})
    run("mkdir", "a.img", "docs")
    run("mv", "a.img", "again", "docs/again")
    run("put", "a.img", "three", "one")
    found({"/one": (2, third), "/two": (1, second), "/docs/again": (2, third)})
    if run("cat", "a.img", "docs/again") != third:
        fail("cat writes something else")
    run("rm", "a.img", "docs/again")
    found({"/one": (1, third), "/two": (1, second)})
    give_names(third, second)
    put_right(third)
    run("rm", "a.img", "docs/one")
    run("rm", "a.img", "last")
    found({})
    if run("ls", "a.img") != b"docs 4 type 1 size 48\n":
        fail("a file is there still, or more")
    link("a.img", 4, b"more")
    look_without_a_tree()
    print("a file with two names: read and written by both, one moved, one removed, and the file with the last")
    lose_a_name()
    put_where_all_is_used()
    copy_a_device()
    have_many_names()


if __name__ == "__main__":
    with tempfile.TemporaryDirectory() as folder:
        os.chdir(folder)
        main()
