"""xvfs and xvnames, which are run over an image file."""
import re
import subprocess

from layout import DIRECTORY, ROOT

IMAGE = "turns.img"


class Failure(Exception):
    """Something is not as it has to be."""


def shown(word):
    return word.decode("utf-8", "backslashreplace") if isinstance(word, bytes) else word


class Programs:
    def __init__(self, xvfs, xvnames):
        self.xvfs, self.xvnames = xvfs, xvnames

    @staticmethod
    def write(data):
        with open(IMAGE, "wb") as file:
            file.write(data)

    @staticmethod
    def image():
        with open(IMAGE, "rb") as file:
            return file.read()

    @staticmethod
    def run(program, *words):
        """The status, 0 or 1, and what was told: standard output where the command was done, or the refusal."""
        ran = subprocess.run([program, *words], capture_output=True, timeout=60)
        refused = ran.returncode == 1 and re.match(rb"xv\w+: \w+ \d+ \w+", ran.stderr)
        if ran.returncode != 0 and not refused:
            raise Failure("%s: status %d, %s" % (" ".join(map(shown, words)), ran.returncode, shown(ran.stderr)))
        return ran.returncode, ran.stdout if ran.returncode == 0 else ran.stderr

    def names(self, command, *words):
        return self.run(self.xvnames, command, IMAGE, *words)

    def look(self, files):
        """xvfs finds the image sound, and xvnames lists these files."""
        status, told = self.run(self.xvfs, "check", IMAGE)
        count = len({found.number for found in files.values()} | {ROOT})
        if status != 0 or not re.fullmatch(rb"sound log \d+ files %d\n" % count, told):
            raise Failure("xvfs check, of %d files: %s" % (count, shown(told).strip()))
        status, told = self.names("tree")
        if status != 0:
            raise Failure("xvnames tree: %s" % shown(told).strip())
        wanted = sorted(path[1:] + b"/" * (found.kind == DIRECTORY) for path, found in files.items())
        if sorted(told.split(b"\n")[:-1]) != wanted:
            raise Failure("xvnames tree lists another tree")
