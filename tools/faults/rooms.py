"""Runs of the program in folders of their own, struck by strikes.so, and what they leave there."""
import collections
import os
import re
import stat
import subprocess
import tempfile
import time

import image

End = collections.namedtuple("End", "status out err")
REFUSAL = re.compile(r"xv(fs|names): [a-z]+ \d+ [A-Z][A-Za-z]*( \d+)?\n")


class Rooms:
    """Where the rooms of one program are made."""

    def __init__(self, program, work, files):
        self.program, self.work, self.files = program, work, files

    def room(self, **images):
        return Room(self, images)


class Room:
    """A folder with files, in which the program runs."""

    def __init__(self, rooms, images):
        self.rooms = rooms
        self.folder = tempfile.TemporaryDirectory(dir=rooms.work)
        for name, data in {**rooms.files, **{f"{name}.img": data for name, data in images.items()}}.items():
            self.put(name, data)

    def path(self, name):
        return os.path.join(self.folder.name, name)

    def put(self, name, data):
        with open(self.path(name), "wb") as file:
            file.write(data)

    def bytes(self, name="a.img"):
        """The bytes of a file; None where there is none."""
        if not os.path.lexists(self.path(name)):
            return None
        with open(self.path(name), "rb") as file:
            return file.read()

    def files(self, name="a.img"):
        """An image's files, recovered, by their numbers: type and bytes; None where there is no sound image."""
        data = self.bytes(name)
        return None if data is None else image.files_of(data)

    def begin(self, line, strikes="", shell="exec \"$@\"", log=None, trace=None, **more):
        """A program that runs, with the words of a line, beside what is tried, in a shell's words."""
        env = dict(os.environ)
        if strikes or log or trace:
            env.update(LD_PRELOAD=self.rooms.work + "/strikes.so", STRIKES_IN=os.path.realpath(self.folder.name),
                       STRIKES=strikes)
            env.update({"STRIKES_LOG": log} if log else {})
            env.update({"STRIKES_TRACE": trace, "STRIKES_TRACED": "a.img"} if trace else {})
        words = [self.rooms.program, *(line.split() if isinstance(line, str) else line)]
        # The library is not loaded beside the shell.
        preload = env.pop("LD_PRELOAD", None)
        if preload:
            words = ["env", "LD_PRELOAD=" + preload, *words]
        if shell != "exec \"$@\"":
            words = ["sh", "-c", shell, "sh", *words]
        settings = {"stdin": subprocess.DEVNULL, "stdout": subprocess.PIPE, "stderr": subprocess.PIPE, **more}
        return subprocess.Popen(words, cwd=self.folder.name, env=env, **settings)

    def run(self, line, strikes="", given=None, **more):
        running = self.begin(line, strikes, **({"stdin": subprocess.PIPE} if given is not None else {}), **more)
        return end_of(running, given)

    def calls(self, line, **more):
        """The calls of a run, as strikes.c tells them, and its end."""
        log = tempfile.mktemp(dir=self.rooms.work)
        end = self.run(line, log=log, **more)
        if not os.path.exists(log):
            return end, []
        with open(log) as file:
            lines = [one.split() for one in file]
        os.unlink(log)
        return end, lines

    def listing(self, but=()):
        """Each file by its name: kind, permissions, names it has, bytes or where it leads."""
        found = {}
        for name in os.listdir(self.folder.name):
            state, path = os.lstat(self.path(name)), self.path(name)
            data = None
            if stat.S_ISREG(state.st_mode):
                data = self.bytes(name)
            elif stat.S_ISLNK(state.st_mode):
                data = os.readlink(path)
            if name not in but:
                found[name] = (stat.filemode(state.st_mode), state.st_nlink, data)
        return found

    def await_file(self, name, running=None):
        for _ in range(4000):
            if os.path.exists(self.path(name)):
                return True
            if running is not None and running.poll() is not None:
                return False
            time.sleep(0.0005)
        return False


def end_of(running, given=None, wait=60):
    """How a program ends; with status None where it doesn't."""
    try:
        out, err = running.communicate(input=given, timeout=wait)
    except subprocess.TimeoutExpired:
        running.kill()
        out, err = running.communicate()
        return End(None, out or b"", (err or b"").decode())
    return End(running.returncode, out or b"", (err or b"").decode())


def changed(before, after):
    """The names whose files differ between two listings."""
    return sorted(name for name in {**before, **after} if before.get(name) != after.get(name))
