"""Folders of the system that are put into images: `put -r`. What an image holds is told by reader.py, which knows
the format alone.

    folders.py PROGRAM FAULTS.SO
"""
import os
import shutil
import signal
import subprocess
import sys
import tempfile

from reader import read

PROGRAM, FAULTS = os.path.realpath(sys.argv[1]), os.path.realpath(sys.argv[2])
TREE = {"a": b"", "b": b"x", "docs/": None, "docs/piece": bytes(range(256)) * 12, "docs/more": b"m" * 3073,
        "docs/old/": None, "docs/old/deep/": None, "docs/old/deep/fourteen.bytes": b"f" * 20000, "empty/": None,
        "z": b"z" * 700}


def fail(text):
    print("names: " + text)
    sys.exit(1)


def run(*words, status=0, **env):
    ran = subprocess.run([PROGRAM, *words], capture_output=True, env=dict(os.environ, **env), timeout=60)
    if status is not None and ran.returncode != status:
        fail("%s: status %d, %s" % (" ".join(words), ran.returncode, ran.stderr.decode().strip()))
    return ran


def found(path):
    """What an independent reader finds: each path with its bytes."""
    with open(path, "rb") as file:
        files, wrong = read(file.read())
    if wrong:
        fail("%s: %s" % (path, "; ".join(wrong)))
    return {name: data for name, (_kind, _links, data) in files.items()}


def bytes_of(path):
    with open(path, "rb") as file:
        return file.read()


def make(folder, tree, names):
    """A folder of the system, its files made in this order."""
    os.mkdir(folder)
    for name in sorted(name for name in tree if name.endswith("/")):
        os.mkdir(os.path.join(folder, name))
    for name in names:
        with open(os.path.join(folder, name), "wb") as file:
            file.write(tree[name])


def below(path, tree):
    return {path + name: data for name, data in tree.items()}


def put():
    """Into the root, into a new directory, and again over what is there."""
    names = [name for name in TREE if not name.endswith("/")]
    make("host", TREE, names)
    make("tsoh", TREE, reversed(names))
    images = []
    for folder in "host", "tsoh", "host/":
        run("mkfs", "a.img", "2000", "200")
        told = run("put", "-r", "a.img", folder, "/").stdout
        if told or found("a.img") != below("/", TREE):
            fail("put -r put something else, or told something")
        images.append(bytes_of("a.img"))
    if len(set(images)) != 1:
        fail("put -r makes other images of the same folder")
    run("put", "a.img", "host/z", "/docs/kept")
    run("put", "a.img", "host/z", "/docs/more")
    run("put", "-r", "a.img", "host", "new")
    run("put", "-r", "a.img", "host/", "/")
    tree = {**below("/", TREE), **below("/new/", TREE), "/new/": None, "/docs/kept": TREE["z"]}
    if found("a.img") != tree:
        fail("put -r over what is there left something else")
    run("get", "-r", "a.img", "/new", "back")
    if subprocess.run(["diff", "-r", "host", "back"], capture_output=True).returncode != 0:
        fail("get -r brings other files back")
    if run("check", "a.img").stdout:
        fail("put -r left wrong counts")
    return len(tree)


def refused():
    """Each leaves the image as it was, with nothing beside it, and tells why."""
    run("mkfs", "small.img", "200", "16")
    run("put", "small.img", "host/b", "/file")
    whole, count = bytes_of("small.img"), 0
    for name in "link", "pipe", "long", "many", "large", "raw":
        shutil.copytree("host/docs/old", name)
    os.symlink("deep", "link/deep/link")
    os.mkfifo("pipe/deep/pipe")
    with open("long/deep/fifteen.bytes..", "wb"):
        pass
    with open(b"raw/deep/\xff", "wb"):
        pass
    for number in range(14):
        os.mkdir("many/%d" % number)
    for number in range(8):
        with open("large/%d" % number, "wb") as file:
            file.write(b"l" * 20000)
    for name, path, told in (
            ("link", "/", "put 8 Special"), ("pipe", "/", "put 8 Special"), ("long", "/", "names 8 NameTooLong"),
            ("raw", "/", "names 19 BadName"), ("many", "/", "names 10 NoNumber"), ("large", "/", "names 11 NoBlock"),
            ("none", "/", "put 6 File"), ("", "/", "put 6 File"), ("host/z", "/", "put 6 File"),
            ("link/deep/link", "/", "names 11 NoBlock"), ("host", "/file", "names 4 Exists"),
            ("host", "/file/new", "names 2 NotADirectory"), ("host", "/new/new", "names 1 NotFound"),
            ("host", "/fifteen.bytes..", "names 8 NameTooLong")):
        if told == "names 11 NoBlock" and name == "link/deep/link":
            os.remove("link/deep/link")
            os.symlink("../../large", "link/deep/link")
        ran = run("put", "-r", "small.img", name, path, status=1)
        if ran.stdout or ran.stderr.decode() != "xvnames: %s\n" % told:
            fail("put -r %s %s told %s" % (name, path, ran.stderr.decode().strip()))
        if bytes_of("small.img") != whole or os.path.exists("small.img.xvfs-new"):
            fail("put -r %s %s changed something" % (name, path))
        count += 1
    os.link("small.img", "second.img")
    ran = run("put", "-r", "small.img", "host/empty", "/", status=1)
    if ran.stderr != b"xvnames: put 9 NoPlace\n" or bytes_of("second.img") != whole:
        fail("put -r into an image with two names")
    return count + 1


def stopped():
    """Killed before some of its writes, it leaves the old image or the new."""
    run("mkfs", "b.img", "2000", "200")
    old = bytes_of("b.img")
    run("put", "-r", "b.img", "host", "/new")
    new, stops = bytes_of("b.img"), 0
    for at in [1, 2, 3, 10, 100, 1000, 1990, 1999, 2000, 2001]:
        with open("b.img", "wb") as file:
            file.write(old)
        ran = run("put", "-r", "b.img", "host", "/new", status=None, LD_PRELOAD=FAULTS, FAULTS_FILE="b.img.xvfs-new",
                  FAULTS_CALL="write", FAULTS_AT=str(at), FAULTS_HOW="kill")
        if ran.returncode not in (0, -signal.SIGKILL):
            fail("put -r: status %d before write %d" % (ran.returncode, at))
        if bytes_of("b.img") != (new if ran.returncode == 0 else old):
            fail("put -r: stopped before write %d it left another image" % at)
        stops += ran.returncode != 0
    if not stops:
        fail("put -r was never stopped")
    return stops


if __name__ == "__main__":
    with tempfile.TemporaryDirectory() as folder:
        os.chdir(folder)
        count = put()
        print("put -r: %d files and folders, as they are in the folder; %d refusals that change nothing; %d stops, each "
              "of which left the old image" % (count, refused(), stopped()))
