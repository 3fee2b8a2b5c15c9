"""Chosen images that xvnames and the small kernel have in turn."""
from checker import check
from kernel import Kernel
from layout import DIRECTORY, INODE_WORDS
from mkfs import mkfs
from programs import Failure, shown
from usertests import bigdir
from wrong_images import Wrong, good_image


def expect(programs, wanted, command, *words):
    """A command ends with this status. What it told."""
    status, told = programs.names(command, *words)
    if status != wanted:
        line = " ".join(map(shown, (command, *words)))
        raise Failure("xvnames %s: status %d, %s" % (line, status, shown(told).strip()))
    return told


def whole(programs, data):
    """The files of an image, in which the checker finds no fault, and of which the programs find the same."""
    files, faults = check(data)
    if faults:
        raise Failure("; ".join(faults))
    programs.write(data)
    programs.look(files)
    return files


def parent_stays(programs):
    """The kernel takes a directory out of one that xvnames made; that one stays, now and behind a boot."""
    programs.write(mkfs([]))
    expect(programs, 0, "mkdir", "/a")
    expect(programs, 0, "mkdir", "/a/b")
    kernel = Kernel(programs.image())
    answers = kernel.unlink(b"/a"), kernel.unlink(b"/a/b"), kernel.mkdir(b"/a/c"), kernel.unlink(b"/a/c")
    if answers != (-1, 0, 0, 0):
        raise Failure("the kernel answers %s" % (answers,))
    rebooted = Kernel(kernel.image())
    files = whole(programs, rebooted.image())
    told = expect(programs, 0, "ls", "/")
    if rebooted.reclaimed or list(files) != [b"/a"] or not told.startswith(b"a 2 type 1 "):
        raise Failure("a boot frees %s, and leaves %s" % (rebooted.reclaimed, shown(told).strip()))
    print("/a of xvnames stays where the kernel takes /a/b out of it")


def behind_bigdir(data, *count):
    """What bigdir of usertests leaves: a root that keeps the size of 500 names more, or of so many."""
    kernel = Kernel(data)
    bigdir(kernel, *count)
    return kernel.image()


def use_large(programs, data, size):
    """ls, tree, put, rm, mkdir and rmdir in a root of so many bytes."""
    whole(programs, data)
    if Kernel(data).on_disk(1)[4] != size:
        raise Failure("the root has another size than %d" % size)
    with open("host", "wb") as file:
        file.write(b"to be, or not to be\n" * 200)
    before = expect(programs, 0, "ls", "/")
    added = ("put", "host", "/put"), ("mkdir", "/made")
    for words in added:
        expect(programs, 0, *words)
    if len(expect(programs, 0, "ls", "/").splitlines()) != len(before.splitlines()) + len(added):
        raise Failure("ls doesn't list what was added")
    whole(programs, programs.image())
    for words in ("rm", "/put"), ("rm", "/f7"), ("rmdir", "/made"):
        expect(programs, 0, *words)
    files = whole(programs, programs.image())
    whole(programs, behind_bigdir(programs.image(), 20))
    print("a root of %d bytes, with %d files: listed, put into and taken from" % (size, len(files)))


def large_directories(programs):
    """The root that bigdir leaves, and those of mkfs with 191 and 500 files."""
    files = [(b"f%d" % index, b"file %d\n" % index) for index in range(500)]
    use_large(programs, behind_bigdir(mkfs(files[:12])), 8240)
    use_large(programs, mkfs(files[:191], 3000, 700), 4096)
    use_large(programs, mkfs(files, 3000, 700), 8192)


def set_links(data, number, links):
    """The image with another count of links in an inode."""
    home, at = Kernel(data).place(number)
    at += home * 1024
    words = list(INODE_WORDS.unpack_from(data, at))
    words[3] = links
    return data[:at] + INODE_WORDS.pack(*words) + data[at + INODE_WORDS.size:]


def wrong_counts(programs):
    """An image with a wrong count is read, and no command changes it but recount, which puts the count right."""
    kernel = Kernel(mkfs([(b"f", b"to be")]))
    for path in (b"/a", b"/a/b", b"/a/c"):
        kernel.mkdir(path)
    kernel.link(b"/f", b"/a/c/g")
    right = kernel.image()
    wrong = set_links(set_links(set_links(right, 3, 1), 2, 1), 1, 7)
    programs.write(wrong)
    if sorted(expect(programs, 0, "tree").splitlines()) != [b"a/", b"a/b/", b"a/c/", b"a/c/g", b"f"]:
        raise Failure("tree of wrong counts lists something else")
    with open("host", "wb") as file:
        file.write(b"not to be")
    for words in (("mkdir", "/d"), ("rmdir", "/a/b"), ("rm", "/f"), ("mv", "/a/b", "/b"), ("put", "host", "/h"),
                  ("ln", "/f", "/h")):
        expect(programs, 1, *words)
        if programs.image() != wrong:
            raise Failure("xvnames %s changed an image with wrong counts" % words[0])
    expect(programs, 0, "recount")
    files = whole(programs, programs.image())
    if files != check(right)[0]:
        raise Failure("recount left %s" % (files,))
    expect(programs, 0, "mkdir", "/d")
    files = whole(programs, programs.image())
    if files[b"/d"].kind != DIRECTORY:
        raise Failure("mkdir behind recount made no directory")
    print("wrong counts: the image is read, not changed, and put right")


def names_end_at_a_zero(programs):
    """A name is what stands before its first zero; where that is nothing, has a slash or is there already, there is no
    tree."""
    image = Wrong(good_image())
    image.set_entry(1, 4, 5, b"long\0er")
    image.set_entry(3, 1, 1, b"..\0b")
    programs.write(image.data)
    if b"long 5 type 2 size 14000" not in expect(programs, 0, "ls", "/").splitlines():
        raise Failure("ls doesn't list a name up to its first zero")
    expect(programs, 0, "rm", "/long")
    expect(programs, 0, "mv", "/a", "/e/a")
    files = whole(programs, programs.image())
    if sorted(files) != [b"/e", b"/e/a", b"/e/a/b", b"/e/a/g", b"/f"]:
        raise Failure("rm and mv leave %s" % sorted(files))
    for name in b"", b"\0f", b"a/b", b"/", b"f\0b", b"..\0b", b".":
        image = Wrong(good_image())
        image.set_entry(1, 4, 5, name)
        programs.write(image.data)
        for words in ("tree",), ("rm", "/f"):
            told = expect(programs, 1, *words)
            if b"names 13 NoTree" not in told or programs.image() != image.data:
                raise Failure("a name %s: %s: %s" % (name, words[0], shown(told).strip()))
    print("names: up to their first zero, and none that is empty, has a slash or is there twice")
