"""Faults of the calls that move an image's bytes, power cuts, and two programs at once: the series, and what each
run has to come to."""
import collections
import fcntl
import hashlib
import os
import re
import signal
import subprocess
import sys
import tempfile
import time

PROGRAM, WORK = os.path.realpath(sys.argv[1]), sys.argv[2]
MOST = 10**6 if "--all" in sys.argv[3:] else 60
HOWS = {
    "write": ["eio", "enospc", "zero", "short", "eintr", "kill"],
    "lseek": ["eio"],
    "read": ["eio", "short", "zero"],
    "fdatasync": ["eio", "kill"],
    "ftruncate": ["eio"],
}
# Where the log ends: what an image holds but for it tells its files.
BEHIND_LOG = 33 * 1024


class Trial:
    """A run of the program over an image of its own, in a folder of its own."""

    def __init__(self, image, words, call=None, at=0, how=None, power=None, over="a.img", names=1):
        self.folder = tempfile.TemporaryDirectory(dir=WORK)
        self.image = os.path.join(self.folder.name, "a.img")
        if image is not None:
            self.put("a.img", image)
        if names == 2:
            os.link(self.image, self.image + ".name")
        for name, text in FILES.items():
            self.put(name, text)
        env = dict(os.environ, LD_PRELOAD=WORK + "/faults.so", FAULTS_FILE=over)
        if call:
            env.update(FAULTS_CALL=call, FAULTS_AT=str(at), FAULTS_HOW=how)
        if power is not None:
            env["FAULTS_LOG"] = os.path.join(self.folder.name, "notes")
        ran = subprocess.run([PROGRAM, *words], cwd=self.folder.name, env=env, capture_output=True, timeout=60)
        self.status, self.out, self.err = ran.returncode, ran.stdout.decode(), ran.stderr.decode()
        if power is not None:
            subprocess.run([WORK + "/cut", over, "notes", str(power)], cwd=self.folder.name, check=True)

    def begin(self, *words, over=None):
        """A program that runs beside; over a file at whose third write it waits for the file `go`."""
        env = dict(os.environ)
        if over:
            env.update(LD_PRELOAD=WORK + "/faults.so", FAULTS_FILE=over, FAULTS_CALL="write", FAULTS_AT="3",
                       FAULTS_HOW="pause", FAULTS_UNTIL="go")
        running = subprocess.Popen([PROGRAM, *words], cwd=self.folder.name, stdout=subprocess.PIPE,
                                   stderr=subprocess.PIPE, env=env)
        while over and running.poll() is None and not self.has_bytes(over):
            time.sleep(0.001)
        return running

    def has_bytes(self, name):
        path = os.path.join(self.folder.name, name)
        return os.path.exists(path) and os.path.getsize(path) > 0

    def put(self, name, text):
        with open(os.path.join(self.folder.name, name), "wb") as file:
            file.write(text)

    def run(self, *words):
        return subprocess.run([PROGRAM, *words], cwd=self.folder.name, capture_output=True, timeout=60)

    def bytes(self):
        with open(self.image, "rb") as file:
            return file.read()

    def checked(self):
        """What `check` says of the image."""
        ran = self.run("check", "a.img")
        return (ran.stdout or ran.stderr).decode().strip()

    def files(self):
        """What tells the files of the image, once it is recovered; None where it isn't sound."""
        if not self.checked().startswith("sound") or self.run("recover", "a.img").returncode != 0:
            return None
        return hashlib.md5(self.bytes()[BEHIND_LOG:]).hexdigest()


def made(*words):
    trial = Trial(None, ["mkfs", "a.img", *words])
    return trial.bytes()


def script():
    lines = [f"{p} create 2" for p in range(4)]
    for turn in range(12):
        for p in range(4):
            kind = (turn + p) % 6
            if kind == 0:
                lines.append(f"{p} trunc {p + 1}")
            elif kind == 4:
                lines.append(f"{p} remove {5 + p}")
            elif kind == 5:
                lines.append(f"{p} create 2")
            else:
                lines.append(f"{p} fill {(p + turn) % 4 + 1} 0 2500 {turn * 4 + p:02x}")
    return "\n".join(lines) + "\n"


def schedule():
    return " ".join("0 1 2 3 " * 6 + "0! 1! 2! 3!" for _ in range(40)) + "\n"


FILES = {"script": script().encode(), "schedule": schedule().encode()}
BASE = made("200", "32")


def replayed_states(sync):
    """How many groups were told where a stop of the run left these files."""
    states, n = collections.defaultdict(set), 0
    while True:
        n += 1
        trial = Trial(BASE, [*replay_words(sync), "--stop", str(n)])
        states[trial.files()].add(int(re.findall(r"committed (\d+)", trial.out)[-1]))
        if f"stopped before write {n}\n" not in trial.out:
            return states


def replay_words(sync):
    return ["replay", "a.img", "script", "schedule", *(["--sync"] if sync else [])]


def places(count, most=MOST):
    return range(1, count + 1, max(1, -(-count // most)))


def count_calls(words, call, image, over="a.img", names=1):
    """How many calls of that kind a run makes."""
    low, high = 0, 1
    shows = lambda n: Trial(image, words, call, n, "kill", over=over, names=names).status == -signal.SIGKILL
    while shows(high):
        low, high = high, high * 2
    while high - low > 1:
        middle = (low + high) // 2
        low, high = (middle, high) if shows(middle) else (low, middle)
    return low


def is_failure(how):
    """Whether the program has to tell of it; else it has to go on."""
    return how in ("eio", "enospc", "zero")


def judge_groups(trial, how, states, told, later):
    """The ends of a replay: whole groups, as many as were told and at most so many more."""
    kept, final = states.get(trial.files()), max(max(counts) for counts in states.values())
    if kept is None:
        return f"the image is not one of whole groups: {trial.checked()}"
    if how == "kill":
        return None if trial.status == -signal.SIGKILL else f"status {trial.status}"
    if not is_failure(how):
        return None if trial.status == 0 and final in kept else f"status {trial.status}, {kept} groups"
    if trial.status != 1 or not re.fullmatch(told, trial.err):
        return f"status {trial.status}: {trial.err.strip()}"
    committed = re.findall(r"^committed (\d+)$", trial.out, re.M)
    count = int(committed[-1]) if committed else 0
    is_right = any(count <= groups <= count + later for groups in kept)
    return None if is_right else f"{count} groups told, {kept} kept"


def replay(call, how, sync):
    told = r"xvfs: (disk 1 DiskFault \d+|recover 1 Disk|file 1 Open)\n"
    if call == "fdatasync":
        told = r"xvfs: (disk 2 SyncFault|recover 4 Sync)\n"
    for at in places(COUNTS[call, sync]):
        trial = Trial(BASE, replay_words(sync), call, at, how)
        yield at, judge_groups(trial, how, STATES[sync], told, 1 if call == "fdatasync" else 0)


def power_cut(seed):
    """Before each write of a run that syncs: what was written since the last sync is lost in part."""
    for at in places(COUNTS["write", True]):
        trial = Trial(BASE, replay_words(True), "write", at, "kill", power=seed * 1000 + at)
        yield at, judge_groups(trial, "kill", STATES[True], "", 0)
    trial = Trial(BASE, replay_words(True), power=seed)
    yield "its end", judge_groups(trial, "none", STATES[True], "", 0)


def run(call, how, sync):
    """Threads: how many groups there are depends on their turns."""
    words = ["run", "a.img", "script", "--workers", "2", *(["--sync"] if sync else [])]
    for at in places(COUNTS[call, sync] // 4):
        trial = Trial(BASE, words, call, at, how)
        expected = -signal.SIGKILL if how == "kill" else 1 if is_failure(how) else 0
        if trial.files() is None:
            yield at, f"the image is not sound: {trial.checked()}"
        elif trial.status not in (expected, 0):
            yield at, f"status {trial.status}: {trial.err.strip()}"
        else:
            yield at, None


def recover(call, how):
    words = ["recover", "a.img", "--sync"]
    for at in places(count_calls(words, call, LOGGED)):
        trial = Trial(LOGGED, words, call, at, how)
        if trial.files() != LOGGED_FILES:
            yield at, f"other files: {trial.checked()}"
        elif is_failure(how) and trial.status != 1:
            yield at, f"status {trial.status}"
        else:
            yield at, None


def mkfs(call, how, old):
    """A new image, or one in place of an old one, which is kept where the new one isn't made."""
    words = ["mkfs", "a.img", "200", "32"]
    for at in places(200 if call == "write" else 1):
        trial = Trial(old, words, call, at, how, over="a.img.xvfs-new")
        if how in ("short", "eintr"):
            good = trial.status == 0 and trial.bytes() == BASE
        elif old is None:
            good = trial.status in (1, -signal.SIGKILL) and not os.path.exists(trial.image)
        else:
            good = trial.status in (1, -signal.SIGKILL) and trial.bytes() == old
        beside = os.path.exists(trial.image + ".xvfs-new")
        good = good and beside == (trial.status == -signal.SIGKILL)
        if beside:
            good = good and trial.run(*words).returncode == 0 and trial.bytes() == BASE
            good = good and not os.path.exists(trial.image + ".xvfs-new")
        yield at, None if good else f"status {trial.status}: {trial.checked()}"


def put(call, how, seed=None):
    """A new file beside one that is there: the old one stays, and the new one is a first part; with a seed
    also where it syncs an image with two names, and the power is cut."""
    words = ["put", "a.img", "long", *(["--sync"] if seed else [])]
    names = 2 if seed else 1
    for at in places(count_calls(words, call, ONE_FILE, names=names)):
        trial = Trial(ONE_FILE, words, call, at, how, power=seed and seed * 1000 + at, names=names)
        whole = trial.run("recover", "a.img").returncode == 0 and trial.checked().startswith("sound")
        old, new = trial.run("cat", "a.img", "1").stdout, trial.run("cat", "a.img", "2").stdout
        if not whole or old != FILES["short"] or not FILES["long"].startswith(new):
            yield at, f"{trial.checked()}, {len(old)} and {len(new)} bytes"
        elif trial.status == 0 and new != FILES["long"]:
            yield at, f"status 0, {len(new)} of {len(FILES['long'])} bytes"
        else:
            yield at, None


def put_over(call, how, seed=None):
    """In place of a file, with room for both: its old bytes are there, or the new ones, as its own or a new file's."""
    words = ["put", "a.img", "long", "1", *(["--sync"] if seed else [])]
    names = 2 if seed else 1
    for at in places(count_calls(words, call, ONE_FILE, names=names)):
        trial = Trial(ONE_FILE, words, call, at, how, power=seed and seed * 1000 + at, names=names)
        whole = trial.run("recover", "a.img").returncode == 0 and trial.checked().startswith("sound")
        numbers = [line.split()[0] for line in trial.run("ls", "a.img").stdout.decode().splitlines()]
        files = {number: trial.run("cat", "a.img", number).stdout for number in numbers}
        new = [text for number, text in files.items() if (number, text) != ("1", FILES["short"])]
        kept = FILES["long"] in new or files.get("1") == FILES["short"]
        if not whole or not kept or len(files) > 2 or not all(FILES["long"].startswith(text) for text in new):
            yield at, f"{trial.checked()}, files of {[len(text) for text in files.values()]} bytes"
        elif trial.status == 0 and files != {"1": FILES["long"]}:
            yield at, f"status 0, {len(files)} files"
        else:
            yield at, None


def put_anew(call, how, inum, seed=None):
    """By way of a new file: the image is as it was, to the byte, or has all of the bytes; with a seed the power
    is cut, too."""
    words, over = ["put", "a.img", "long", *inum, "--sync"], "a.img.xvfs-new"
    usual = Trial(ONE_FILE, words).bytes()
    for at in places(count_calls(words, call, ONE_FILE, over)):
        trial = Trial(ONE_FILE, words, call, at, how, power=seed and seed * 1000 + at, over=over)
        done = trial.status == 0 if how in ("short", "eintr") else trial.status in (1, -signal.SIGKILL)
        good = done and trial.bytes() == (usual if trial.status == 0 else ONE_FILE)
        beside = os.path.exists(os.path.join(trial.folder.name, over))
        good = good and beside == (trial.status == -signal.SIGKILL)
        if beside:
            good = good and trial.run(*words).returncode == 0 and trial.bytes() == usual
        yield at, None if good else f"status {trial.status}: {trial.err.strip()}, {trial.checked()}"


def put_few(call, how, inum, seed=None):
    """As few bytes as one write moves: the files stay as they were, or all of the bytes are there."""
    words = ["put", "a.img", "few", *inum, *(["--sync"] if seed else [])]
    before = {"1": FILES["short"]}
    after = {**before, inum[0] if inum else "2": FILES["few"]}
    for at in places(count_calls(words, call, ONE_FILE)):
        trial = Trial(ONE_FILE, words, call, at, how, power=seed and seed * 1000 + at)
        whole = trial.run("recover", "a.img").returncode == 0 and trial.checked().startswith("sound")
        numbers = [line.split()[0] for line in trial.run("ls", "a.img").stdout.decode().splitlines()]
        files = {number: trial.run("cat", "a.img", number).stdout for number in numbers}
        if not whole or files not in (before, after):
            yield at, f"{trial.checked()}, files of {[len(text) for text in files.values()]} bytes"
        elif trial.status == 0 and files != after:
            yield at, f"status 0, {len(files)} files"
        else:
            yield at, None


def syncs():
    """How often a command syncs the file that it writes."""
    for line, over, least, most in [
            ("put a.img short", "a.img", 1, 1), ("put a.img short --no-sync", "a.img", 0, 0),
            ("put a.img short --sync", "a.img", 6, 6), ("put a.img long --sync", "a.img", 0, 0),
            ("put a.img long --sync", "a.img.xvfs-new", 2, 2),
            ("mkfs a.img 200 32", "a.img.xvfs-new", 1, 1), ("mkfs a.img 200 32 --no-sync", "a.img.xvfs-new", 0, 0),
            ("copy a.img b.img", "b.img", 2, 2), ("copy a.img b.img --sync", "b.img", 2, 2),
            ("copy a.img b.img --no-sync", "b.img", 1, 1)]:
        count = count_calls(line.split(), "fdatasync", ONE_FILE, over)
        yield line, None if least <= count <= most else f"{count} syncs"


def judge_copy(trial, expected):
    """A copy that was cut short is no image, one that was refused is gone, and any other is whole."""
    new = os.path.join(trial.folder.name, "b.img")
    if trial.status not in expected:
        return f"status {trial.status}: {trial.err.strip()}"
    if not os.path.exists(new):
        return None if trial.status == 1 else "there is no copy"
    told = trial.run("check", "b.img")
    if told.returncode == 0:
        bytes_there = trial.run("cat", "b.img", "1").stdout
        return None if bytes_there == FILES["short"] else f"a sound copy with {len(bytes_there)} bytes"
    is_none = told.stderr == b"xvfs: check 1 BadMagic\n" and trial.status == -signal.SIGKILL
    return None if is_none else f"{told.stderr.decode().strip()} after status {trial.status}"


def copy(call, how):
    for at in places(200 if call == "write" else 2 if call == "fdatasync" else 1):
        trial = Trial(ONE_FILE, ["copy", "a.img", "b.img"], call, at, how, over="b.img")
        yield at, judge_copy(trial, [-signal.SIGKILL if how == "kill" else 1 if is_failure(how) else 0])


def copy_cut(seed):
    """The power is cut before a write, or after the end."""
    for at in [*places(200), 0]:
        trial = Trial(ONE_FILE, ["copy", "a.img", "b.img"], "write", at, "kill", seed * 1000 + at, "b.img")
        yield at, judge_copy(trial, [-signal.SIGKILL if at else 0])


def at_once(other):
    """Two programs at once on an image: each does all that it is asked for, or is refused at once."""
    for at in range(1, min(MOST, 60) + 1):
        trial = Trial(ONE_FILE, ["check", "a.img"])
        words = [["put", "a.img", "long"], [other, "a.img", "short" if other == "put" else "1"]]
        running = [subprocess.Popen([PROGRAM, *one], cwd=trial.folder.name, stdout=subprocess.PIPE,
                                    stderr=subprocess.PIPE) for one in words]
        ends = [(process.communicate(timeout=60), process.returncode) for process in running]
        yield at, judge_pair(trial, words, ends)


def judge_pair(trial, words, ends):
    if not trial.checked().startswith("sound"):
        return trial.checked()
    for (command, _image, name), ((out, err), status) in zip(words, ends):
        if status != 0:
            if err != b"xvfs: file 4 Locked\n" or out:
                return f"{command}: {err.decode().strip()}"
        elif command == "put" and trial.run("cat", "a.img", out.decode().strip()).stdout != FILES[name]:
            return f"put: other bytes in file {out.decode().strip()}"
        elif command == "cat" and out != FILES["short"]:
            return f"cat: {len(out)} bytes"
    files = len(trial.run("ls", "a.img").stdout.splitlines())
    put = sum(1 for (command, _image, _name), (_out, status) in zip(words, ends) if command == "put" and status == 0)
    return None if files == 1 + put else f"{files} files after {put} puts"


def ended(running):
    out, err = running.communicate(timeout=60)
    return running.returncode, out.decode(), err.decode()


LOCKED = (1, "", "xvfs: file 4 Locked\n")
DONE = (0, "size 200 ninodes 32 nblocks 163\n", "")


def replaced(old):
    """A put and another mkfs while an image is made: both wait for its new file, or are refused."""
    for at in range(1, 11):
        trial = Trial(old, ["--version"])
        first = trial.begin("mkfs", "a.img", "200", "32", over="a.img.xvfs-new")
        ends = [ended(trial.begin("mkfs", "a.img", "200", "32"))]
        waiting = [trial.begin("mkfs", "a.img", "200", "32", "--wait")] if at % 2 == 0 else []
        waiting += [trial.begin("put", "a.img", "long", "--wait")] if old else []
        time.sleep(0.02)
        trial.put("go", b"")
        ends.append(ended(first))
        waited = [ended(running) for running in waiting]
        files = trial.run("ls", "a.img").stdout.decode()
        right = ends == [LOCKED, DONE] and all(end in (DONE, (0, "1\n", "")) for end in waited)
        right = right and trial.checked().startswith("sound") and not os.path.exists(trial.image + ".xvfs-new")
        if old and files:
            right = right and files.startswith("1 type 2 size 40000 ") and files.count("\n") == 1
            right = right and trial.run("cat", "a.img", "1").stdout == FILES["long"]
        # Only another mkfs may have replaced what was put.
        right = right and bool(files) == bool(old) if at % 2 else right
        yield at, None if right else f"{ends}, {waited}, files {files!r}, {trial.checked()}"


def waiting():
    """Two mkfs and a put at once, each of which waits: the image is that of the last of them."""
    for at in range(1, 21):
        trial = Trial(BASE if at % 2 else None, ["--version"])
        words = [["mkfs", "a.img", "200", "32", "--wait"]] * 2 + [["put", "a.img", "long", "--wait"]]
        ends = [ended(running) for running in [trial.begin(*one) for one in words]]
        files = trial.run("ls", "a.img").stdout.decode()
        right = ends[:2] == [DONE, DONE] and trial.checked().startswith("sound")
        early = [] if at % 2 else [(1, "", f"xvfs: file {fault}\n") for fault in ("1 Open", "2 Length")]
        right = right and ends[2] in [(0, "1\n", ""), *early]
        right = right and (not files or trial.run("cat", "a.img", "1").stdout == FILES["long"])
        yield at, None if right else f"{ends}, files {files!r}, {trial.checked()}"


def named():
    """A new file has just got the name of the image from its maker, who has it yet: another mkfs waits for it."""
    for stays in (False, True):
        trial = Trial(BASE, ["--version"])
        new = trial.image + ".xvfs-new"
        os.link(trial.image, new)
        with open(new, "rb") as held:
            fcntl.flock(held, fcntl.LOCK_EX)
            ends = [ended(trial.begin("mkfs", "a.img", "200", "32"))]
            waiting = trial.begin("mkfs", "a.img", "200", "32", "--wait")
            time.sleep(0.1)
            waits = waiting.poll() is None
            if not stays:
                os.remove(new)
        ends.append(ended(waiting))
        right = waits and ends == [LOCKED, (1, "", "xvfs: file 5 Exists\n") if stays else DONE]
        yield int(stays), None if right else f"{ends}, waits {waits}"


def looked_at():
    """The new file of a copy, while that is made: nobody else may look at it or make it anew."""
    for at in range(1, 11):
        trial = Trial(ONE_FILE, ["--version"])
        copying = trial.begin("copy", "a.img", "b.img", over="b.img")
        others = [["check", "b.img"], ["mkfs", "b.img", "200", "32"], ["put", "b.img", "short"], ["ls", "b.img"]]
        ends = [ended(trial.begin(*words)) for words in others]
        ends.append(ended(trial.begin("copy", "a.img", "b.img")))
        looking = trial.begin("check", "b.img", "--wait")
        trial.put("go", b"")
        right = ended(copying) == (0, "copied 1\n", "") and ended(looking) == (0, "sound log 0 files 1\n", "")
        right = right and ends == [LOCKED] * 4 + [(1, "", "xvfs: copy 7 Exists\n")]
        right = right and trial.run("cat", "b.img", "1").stdout == FILES["short"]
        yield at, None if right else f"{ends}"


FILES["short"] = bytes(range(256)) * 9
FILES["few"] = bytes(range(255, -1, -1)) * 12
FILES["long"] = b"".join(b"%07d\n" % n for n in range(5000))
STATES = {sync: replayed_states(sync) for sync in (False, True)}
COUNTS = {(call, sync): count_calls(replay_words(sync), call, BASE)
          for sync in (False, True) for call in ("write", "lseek", "read", "fdatasync")}
ONE_FILE = Trial(BASE, ["put", "a.img", "short"]).bytes()
LOGGED = LOGGED_FILES = None
for stop in range(1, 40):
    trial = Trial(BASE, ["replay", "a.img", "script", "schedule", "--stop", str(stop)])
    logged = re.match(r"sound log (\d+)", trial.checked())
    if logged and int(logged.group(1)) >= 3:
        LOGGED, LOGGED_FILES = trial.bytes(), trial.files()
        break

SERIES = [(replay, call, how, sync) for sync in (False, True) for call in ("write", "lseek", "read")
          for how in HOWS[call]]
SERIES += [(replay, "fdatasync", how, True) for how in HOWS["fdatasync"]]
SERIES += [(power_cut, seed) for seed in (1, 2, 3)]
SERIES += [(run, call, how, sync) for sync in (False, True) for call in ("write", "lseek") for how in HOWS[call]]
SERIES += [(recover, call, how) for call in ("write", "lseek", "fdatasync") for how in HOWS[call]]
SERIES += [(mkfs, call, how, old) for old in (None, ONE_FILE) for call in ("write", "fdatasync", "ftruncate")
           for how in HOWS[call]]
SERIES += [(copy, call, how) for call in ("write", "fdatasync", "ftruncate") for how in HOWS[call]]
SERIES += [(at_once, other) for other in ("put", "cat")]
SERIES += [(replaced, old) for old in (None, BASE)] + [(waiting,), (named,), (looked_at,)]
SERIES += [(copy_cut, seed) for seed in (1, 2, 3)]
SERIES += [(put, call, how) for call in ("write", "lseek") for how in HOWS[call]]
SERIES += [(put, "write", "kill", seed) for seed in (1, 2, 3)] + [(syncs,)]
SERIES += [(put_over, call, how) for call in ("write", "lseek") for how in HOWS[call]]
SERIES += [(put_over, "write", "kill", seed) for seed in (1, 2, 3)]
SERIES += [(put_anew, call, how, inum) for inum in ([], ["1"]) for call in ("write", "lseek", "fdatasync", "ftruncate")
           for how in HOWS[call]]
SERIES += [(put_anew, "write", "kill", inum, seed) for inum in ([], ["1"]) for seed in (1, 2)]
SERIES += [(put_few, call, how, inum) for inum in ([], ["1"]) for call in ("write", "lseek") for how in HOWS[call]]
SERIES += [(put_few, "write", "kill", inum, seed) for inum in ([], ["1"]) for seed in (1, 2)]
