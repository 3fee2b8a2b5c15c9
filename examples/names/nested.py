"""Changes of a tree of 200 files in nested directories, each by one run of the program, beside a plain model
that is a dictionary; and chosen changes killed before each of their writes.

    nested.py PROGRAM FAULTS.SO
"""
import itertools
import os
import random
import signal
import subprocess
import sys
import tempfile

from reader import read

PROGRAM, FAULTS = os.path.realpath(sys.argv[1]), os.path.realpath(sys.argv[2])
FILES, PIECE = 200, 3072
random.seed(20)


def fail(text):
    print("names: " + text)
    sys.exit(1)


def run(*words, status=0, **env):
    ran = subprocess.run([PROGRAM, *words], capture_output=True, env=dict(os.environ, **env), timeout=60)
    if status is not None and ran.returncode != status:
        fail("%s: status %d, %s" % (" ".join(words), ran.returncode, ran.stderr.decode().strip()))
    return ran


def found(path):
    """What an independent reader finds: each path with its bytes."""
    with open(path, "rb") as file:
        files, wrong = read(file.read())
    if wrong:
        fail("%s: %s" % (path, "; ".join(wrong)))
    return {name: data for name, (_kind, _links, data) in files.items()}


class Model:
    """The tree as a dictionary, and the image beside it."""

    def __init__(self):
        self.files = {}
        run("mkfs", "a.img", "4000", "400")

    def directories(self):
        return ["/"] + [path for path in self.files if path.endswith("/")]

    def plain(self):
        return [path for path in self.files if not path.endswith("/")]

    def new_path(self):
        return random.choice(self.directories()) + "n%d" % random.randrange(10**6)

    def mkdir(self):
        path = self.new_path()
        self.files[path + "/"] = None
        return "mkdir", "a.img", path

    def put(self, path=None, size=None):
        path = path or (random.choice(self.plain()) if self.plain() and random.random() < 0.2 else self.new_path())
        data = random.randbytes(random.choice([0, 1, 700, PIECE, 4000, 20000]) if size is None else size)
        with open("host", "wb") as file:
            file.write(data)
        self.files[path] = data
        return "put", "a.img", "host", path

    def remove(self):
        path = random.choice(self.plain())
        del self.files[path]
        return "rm", "a.img", path

    def mkdir_all(self):
        path = self.new_path()
        last = path + "/old/first"
        for made in path, path + "/old", last:
            self.files[made + "/"] = None
        return "mkdir", "a.img", last, "-p"

    def remove_all(self):
        path = random.choice(self.directories()[1:])
        for below in [below for below in self.files if below.startswith(path)]:
            del self.files[below]
        return "rm", "a.img", path[:-1], "-r"

    def remove_directory(self):
        empty = [path for path in self.directories()[1:] if not any(p != path and p.startswith(path) for p in self.files)]
        if not empty:
            return self.mkdir()
        path = random.choice(empty)
        del self.files[path]
        return "rmdir", "a.img", path[:-1]

    def move(self):
        path, new = random.choice(self.plain()), self.new_path()
        self.files[new] = self.files.pop(path)
        return "mv", "a.img", path, new

    def copy(self, is_long, over=False):
        """A copy under a new path, or in place of another file."""
        path = random.choice([path for path in self.plain() if (len(self.files[path]) > PIECE) == is_long])
        to = random.choice([other for other in self.plain() if other != path]) if over else self.new_path()
        self.files[to] = self.files[path]
        return "cp", "a.img", path, to

    def copy_into(self, is_long):
        """A copy under the file's own name in another directory."""
        path = random.choice([path for path in self.plain() if (len(self.files[path]) > PIECE) == is_long])
        name = path.rsplit("/", 1)[1]
        into = random.choice([to for to in self.directories() if to + name not in self.files and to + name + "/" not in self.files])
        self.files[into + name] = self.files[path]
        return "cp", "a.img", path, into

    def move_directory(self):
        movable = [path for path in self.directories()[1:]]
        path = random.choice(movable) if movable else None
        into = [to for to in self.directories() if path is None or not to.startswith(path)]
        if path is None:
            return self.mkdir()
        new = random.choice(into) + "n%d" % random.randrange(10**6) + "/"
        for old in [old for old in self.files if old.startswith(path)]:
            self.files[new + old[len(path):]] = self.files.pop(old)
        return "mv", "a.img", path[:-1], new[:-1]


def partly(left, before, after):
    """Whether a tree has what both have, and of the rest some of what one of them has."""
    either = {**before, **after}
    return all(path in either and left[path] == either[path] for path in left) and \
        all(path in left for path in before if path in after)


def stopped(words, before, after):
    """Runs a change, killed before each of its writes in turn, each time from the same image. How many stops. A
    put or copy of more bytes than one call writes is written into a new image, which takes the old one's name: of
    its writes, a block each, some are chosen, and the last. A change by several transactions may be made in part."""
    with open("a.img", "rb") as file:
        image = file.read()
    is_anew = words[0] == "put" and os.path.getsize("host") > PIECE or words[0] == "cp" and len(before[words[2]]) > PIECE

    def stops_at(at):
        with open("a.img", "wb") as file:
            file.write(image)
        ran = run(*words, status=None, LD_PRELOAD=FAULTS, FAULTS_FILE="a.img.xvfs-new" if is_anew else "a.img",
                  FAULTS_CALL="write", FAULTS_AT=str(at), FAULTS_HOW="kill")
        left = found("a.img")
        if ran.returncode not in (0, -signal.SIGKILL):
            fail("%s: status %d before write %d" % (" ".join(words), ran.returncode, at))
        if ran.returncode == 0 and left != after:
            fail("%s made something else" % " ".join(words))
        whole = left == before or left == after and not is_anew
        if ran.returncode != 0 and not whole and not (words[-1] in ("-p", "-r") and partly(left, before, after)):
            fail("%s: stopped before write %d it left another tree" % (" ".join(words), at))
        return ran.returncode != 0

    if not is_anew:
        return next(at for at in itertools.count(1) if not stops_at(at)) - 1
    last, behind, stops = 0, 1, 0
    while stops_at(behind):
        last, behind, stops = behind, 2 * behind, stops + 1
    while behind - last > 1:
        middle = (last + behind) // 2
        if stops_at(middle):
            last, stops = middle, stops + 1
        else:
            behind = middle
    # As who goes on behind a stop: the change is made.
    stops_at(behind)
    return stops


def main():
    model, changes, stops = Model(), 0, 0
    kinds = [model.mkdir, model.put, model.put, model.put, model.put, model.put, model.move, model.move_directory,
             model.remove, model.remove_directory]
    while len(model.plain()) < FILES:
        kind = random.choice(kinds)
        if kind in (model.move, model.remove) and not model.plain():
            continue
        run(*kind())
        changes += 1
        if changes % 25 == 0 and found("a.img") != model.files:
            fail("after %d changes the tree is another one" % changes)
    if found("a.img") != model.files:
        fail("the tree is another one")
    listed = sorted(run("tree", "a.img").stdout.decode().splitlines())
    if listed != sorted(path[1:] for path in model.files):
        fail("tree lists something else")
    for path in random.sample(model.plain(), 20):
        if run("cat", "a.img", path).stdout != model.files[path]:
            fail("cat %s writes something else" % path)
    chosen = [model.mkdir, model.move, model.move_directory, model.remove, model.remove_directory,
              lambda: model.put(model.new_path(), 0), lambda: model.put(model.new_path(), PIECE),
              lambda: model.put(random.choice(model.plain()), 700), lambda: model.put(random.choice(model.plain()), PIECE),
              lambda: model.put(model.new_path(), 10000), lambda: model.put(random.choice(model.plain()), 10000),
              lambda: model.copy(False), lambda: model.copy(False, True), lambda: model.copy_into(False),
              lambda: model.copy(True), lambda: model.copy(True, True), lambda: model.copy_into(True),
              model.mkdir_all, model.remove_all, model.remove_all]
    for change in chosen:
        before = dict(model.files)
        stops += stopped(change(), before, model.files)
    print("%d changes of a tree with %d files and %d directories; %d stops, each of which left a whole tree"
          % (changes, len(model.plain()), len(model.directories()), stops))


if __name__ == "__main__":
    with tempfile.TemporaryDirectory() as folder:
        os.chdir(folder)
        main()
