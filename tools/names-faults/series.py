"""The series of faults of `xvnames`, and what each run has to come to."""
import concurrent.futures
import itertools
import os
import re
import signal
import subprocess
import sys
import tempfile

from reader import read

PROGRAM, WORK = os.path.realpath(sys.argv[1]), sys.argv[2]
MOST = 10**6 if "--all" in sys.argv[3:] else 25
PIECE = 3072
TOLD = re.compile(r"xvnames: [a-z]+ \d+ [A-Z][A-Za-z]*( \d+)?\n")
HOWS = {
    "write": ["eio", "enospc", "zero", "short", "eintr", "kill"],
    "read": ["eio", "short", "zero"],
    "fdatasync": ["eio", "kill"],
}
SMALL, LONG = b"small " * 100, b"0123456789abcdef" * 1000
COMMANDS = {
    "mkdir": ["mkdir", "a.img", "/docs/new"],
    "mkdir -p": ["mkdir", "a.img", "/docs/new/first", "-p"],
    "rmdir": ["rmdir", "a.img", "/docs/empty"],
    "rm": ["rm", "a.img", "/docs/long"],
    "rm -r": ["rm", "a.img", "/docs", "-r"],
    "mv of a file": ["mv", "a.img", "/first", "/docs/moved"],
    "mv of a directory": ["mv", "a.img", "/docs", "/others/docs"],
    "put of a small file": ["put", "a.img", "small", "/new"],
    "put over a file": ["put", "a.img", "small", "/docs/long"],
    "put of a long file": ["put", "a.img", "long", "/new"],
    "put of a long file over another": ["put", "a.img", "long", "/docs/long"],
    "put of a long file into an image with two names": ["put", "two.img", "long", "/new"],
    "cp of a small file": ["cp", "a.img", "/first", "/docs"],
    "cp over a file": ["cp", "a.img", "/first", "/docs/long"],
    "cp of a long file": ["cp", "a.img", "/docs/long", "/new"],
    "cp of a long file within an image with two names": ["cp", "two.img", "/docs/long", "/new"],
    "cp with --sync": ["cp", "a.img", "/first", "/new", "--sync"],
    "put with --sync": ["put", "a.img", "small", "/new", "--sync"],
}
MKFS = ["mkfs", "b.img", "400", "64", "small"]
LOOKS = {
    "ls": ["ls", "a.img", "/docs"],
    "tree": ["tree", "a.img"],
    "cat": ["cat", "a.img", "/docs/long"],
    "get": ["get", "a.img", "/docs/long", "out"],
}


def closing(closed):
    """The words of a shell that starts a program with these of its standard descriptors closed."""
    shell = 'exec "$@" ' + " ".join(("<&-", ">&-", "2>&-")[fd] for fd in closed)
    return ["sh", "-c", shell, "sh"] if closed else []


class Trial:
    """A run of the program over an image of its own, in a folder of its own."""

    def __init__(self, image, words, closed=(), **env):
        self.folder = tempfile.TemporaryDirectory(dir=WORK)
        self.words = words
        self.put("a.img", image)
        if words[1] == "two.img":
            os.link(self.path("a.img"), self.path("two.img"))
        self.put("small", SMALL)
        self.put("long", LONG)
        ran = subprocess.run([*closing(closed), PROGRAM, *words], cwd=self.folder.name, env=dict(os.environ, **env),
                             stdin=subprocess.DEVNULL, capture_output=True, timeout=60)
        self.status, self.out, self.err = ran.returncode, ran.stdout, ran.stderr.decode()

    def path(self, name):
        return os.path.join(self.folder.name, name)

    def put(self, name, data):
        with open(self.path(name), "wb") as file:
            file.write(data)

    def bytes(self, name):
        if not os.path.exists(self.path(name)):
            return None
        with open(self.path(name), "rb") as file:
            return file.read()

    def tree(self):
        """The files by their paths, and what is wrong with the tree."""
        files, wrong = read(self.bytes("a.img"))
        return {path: data for path, (_kind, _links, data) in files.items()}, wrong


def made():
    """An image with some files and directories."""
    with tempfile.TemporaryDirectory(dir=WORK) as folder:
        for name, data in ("small", SMALL), ("long", LONG):
            with open(os.path.join(folder, name), "wb") as file:
                file.write(data)
        for words in (["mkfs", "a.img", "400", "64"], ["mkdir", "a.img", "/docs"], ["mkdir", "a.img", "/others"],
                      ["mkdir", "a.img", "/docs/empty"], ["put", "a.img", "small", "/first"],
                      ["put", "a.img", "long", "/docs/long"]):
            subprocess.run([PROGRAM, *words], cwd=folder, check=True, capture_output=True)
        with open(os.path.join(folder, "a.img"), "rb") as file:
            return file.read()


BASE = made()


def begun(left, before, after):
    """Whether a long file has a beginning of its bytes, and all else is as before. So it may be only where the image
    stands in a file with two names."""
    changed = [path for path in after if after[path] is not None and before.get(path) != after[path]]
    if len(changed) != 1 or len(after[changed[0]]) <= PIECE:
        return False
    one = dict(before)
    one[changed[0]] = left.get(changed[0])
    return left == one and left[changed[0]] is not None and after[changed[0]].startswith(left[changed[0]])


def partly(left, before, after):
    """Whether a tree has what both have, and besides some of what one of them has: of a change by several
    transactions some were made."""
    either = {**before, **after}
    return all(path in either and left[path] == either[path] for path in left) and \
        all(path in left for path in before if path in after)


def judge(trial, usual, has_failed):
    """Why an end is not as it should be."""
    (before, _), (after, _) = BASE_TREE, usual.tree()
    left, wrong = trial.tree()
    if wrong:
        return "; ".join(wrong)
    may_be_part = trial.words[-1] in ("-p", "-r") and partly(left, before, after) \
        or trial.words[1] == "two.img" and begun(left, before, after)
    if left not in (before, after) and not may_be_part:
        return "the tree is neither that of before nor that of the change"
    if trial.status == 0:
        if has_failed:
            return "status 0"
        return None if left == after and trial.out == usual.out and trial.err == "" else "status 0, and not all was done"
    if trial.status == -signal.SIGKILL:
        return None
    if trial.status == 2 and trial.err.startswith("error: out of memory"):
        return None if left == before else "status 2, and the tree is another one"
    if trial.status != 1 or not TOLD.fullmatch(trial.err):
        return f"status {trial.status}: {trial.err.strip()}"
    return None


def judge_look(trial, usual):
    """A look changes nothing, and prints what it prints, or a beginning, or is refused."""
    if trial.bytes("a.img") != BASE:
        return "the image was written"
    if trial.status == 0:
        same = trial.out == usual.out and trial.bytes("out") == usual.bytes("out")
        return None if same else "status 0, and another answer"
    if trial.status == 2 and trial.err.startswith("error: out of memory"):
        return None
    if trial.status != 1 or not TOLD.fullmatch(trial.err):
        return f"status {trial.status}: {trial.err.strip()}"
    return None if usual.out.startswith(trial.out) else "refused behind another answer"


def places(count):
    return range(1, count + 1, max(1, -(-count // MOST)))


def count_calls(words, call):
    """How many calls of that kind a run makes."""
    low, high = 0, 1
    shows = lambda n: Trial(BASE, words, **fault(words, call, n, "kill")).status == -signal.SIGKILL
    while shows(high):
        low, high = high, high * 2
    while high - low > 1:
        middle = (low + high) // 2
        low, high = (middle, high) if shows(middle) else (low, middle)
    return low


def fault(words, call, at, how):
    """The fault of a call for the image that is written, which of a long put or copy is a new one beside the old."""
    is_anew = words[:3] in (["put", "a.img", "long"], ["cp", "a.img", "/docs/long"]) and call != "read"
    return {"LD_PRELOAD": WORK + "/faults.so", "FAULTS_FILE": words[1] + ".xvfs-new" * is_anew, "FAULTS_CALL": call,
            "FAULTS_AT": str(at), "FAULTS_HOW": how}


def calls(words, call, how, usual, is_look):
    for at in places(count_calls(words, call)):
        trial = Trial(BASE, words, **fault(words, call, at, how))
        if is_look:
            yield at, judge_look(trial, usual)
        else:
            yield at, judge(trial, usual, how in ("eio", "enospc", "zero") and call != "read")


def allocations(words, usual, is_look):
    counting = Trial(BASE, words, LD_PRELOAD=WORK + "/refuse.so", COUNT_ALLOCATIONS=WORK + "/count-%d" % hash(tuple(words)))
    with open(WORK + "/count-%d" % hash(tuple(words)), "rb") as file:
        count = len(file.read())
    if counting.status != 0:
        yield "its count", f"status {counting.status}"
    for at in places(count):
        trial = Trial(BASE, words, LD_PRELOAD=WORK + "/refuse.so", REFUSE_ALLOCATION=str(at))
        yield at, judge_look(trial, usual) if is_look else judge(trial, usual, False)


def closed_descriptors(words, usual):
    """Each choice of closed standard descriptors: no answer is written into a file that was opened, and one that
    had to be printed is `output 1 Write`."""
    is_look, made = words in LOOKS.values(), "b.img" if words == MKFS else "out"
    for closed in [choice for count in range(4) for choice in itertools.combinations((0, 1, 2), count)]:
        trial = Trial(BASE, words, closed=closed)
        unprinted = 1 in closed and usual.out != b""
        told = "xvnames: output 1 Write\n" if unprinted and 2 not in closed else ""
        left, wrong = trial.tree()
        (before, _), (after, _) = BASE_TREE, usual.tree()
        if (trial.status, trial.err) != (1 if unprinted else 0, told):
            yield f"closed {closed}", f"status {trial.status}: {trial.err.strip()}"
        elif wrong or left not in (before, after) or (is_look or words == MKFS) and trial.bytes("a.img") != BASE:
            yield f"closed {closed}", "the image is another one: " + "; ".join(wrong)
        elif trial.bytes(made) not in (None, usual.bytes(made)):
            yield f"closed {closed}", f"{made} is another one"
        else:
            same = 1 in closed or trial.out == usual.out and trial.bytes(made) == usual.bytes(made)
            yield f"closed {closed}", None if same else "another answer"


def without_locks(words):
    """A file system without locks: refused, and nothing is changed."""
    for how in ("enolck", "eopnotsupp", "eio"):
        trial = Trial(BASE, words, LD_PRELOAD=WORK + "/strikes.so", STRIKES_IN=os.path.realpath(WORK),
                      STRIKES="lock:1+:" + how)
        left = trial.bytes("a.img") == BASE and trial.bytes("b.img") is None and trial.bytes("out") is None
        refused = (trial.status, trial.err) == (1, "xvnames: file 6 Unlockable\n")
        yield "no lock, " + how, None if left and refused else f"status {trial.status}: {trial.err.strip()}"


def series():
    for is_look, commands in (False, COMMANDS), (True, LOOKS):
        for name, words in commands.items():
            usual = Trial(BASE, words)
            if usual.status != 0:
                yield name, iter([("undisturbed", usual.err.strip())])
                continue
            for call, hows in HOWS.items():
                if is_look and call != "read" or call == "fdatasync" and words[0] not in ("put", "cp", "mkdir"):
                    continue
                for how in hows:
                    yield f"{name}, {call} {how}", calls(words, call, how, usual, is_look)
            yield f"{name}, each allocation refused", allocations(words, usual, is_look)
    for words in [*COMMANDS.values(), *LOOKS.values(), MKFS]:
        ends = itertools.chain(closed_descriptors(words, Trial(BASE, words)), without_locks(words))
        yield f"{' '.join(words)}, closed descriptors and no locks", ends


BASE_TREE = Trial(BASE, ["tree", "a.img"]).tree()


def tried(one):
    name, ends = one
    runs, bad = 0, []
    for at, why in ends:
        runs += 1
        if why:
            bad.append(f"{name}, at {at}: {why}")
    return name, runs, bad


def main():
    if BASE_TREE[1]:
        print("the image that is tried has no whole tree: " + "; ".join(BASE_TREE[1]))
        return 1
    with concurrent.futures.ThreadPoolExecutor(os.cpu_count()) as pool:
        results = list(pool.map(tried, series()))
    for _name, _runs, bad in results:
        for line in bad[:3]:
            print(line)
    print(f"{len(results)} series, {sum(runs for _, runs, _ in results)} runs, {sum(bool(bad) for _, _, bad in results)} not as they should be")
    return any(bad for _, _, bad in results)


sys.exit(main())
