"""Makes one page that walks through runs, stop by stop, from what the program prints and writes.

    make.py XVFS PAGE DATA.json     the page of the runs in runs.py, and their data alone

The image at the opening is that of mkfs; the bytes of write N are those of its block after `replay --stop N+1`.
Each stop is recovered by the program, too, and what its `ls` and `cat` tell stands in the page, which compares it with
its own recovery. The page needs nothing but itself.
"""
import json
import os
import re
import shutil
import subprocess
import sys
import tempfile

from runs import RUNS

BLOCK = 1024
HERE = os.path.dirname(os.path.realpath(__file__))
STEP = re.compile(r"step (.*)")
WRITE = re.compile(r"write (\d+) block (\d+) (.*)")
TURN = re.compile(r"(\d+) (\w+)(.*)")
PARTS = {"log": "log", "header": "header", "home": "home", "clear": "clear"}


class Failed(Exception):
    pass


class Program:
    def __init__(self, path, folder):
        self.path, self.folder = path, folder

    def told(self, *words):
        ran = subprocess.run([self.path, *words], cwd=self.folder, capture_output=True, timeout=60)
        if ran.returncode != 0:
            raise Failed("%s: %s" % (" ".join(words), ran.stderr.decode().strip()))
        return ran.stdout

    def lines(self, *words):
        return self.told(*words).decode().splitlines()

    def image(self, name):
        with open(os.path.join(self.folder, name), "rb") as file:
            data = file.read()
        return [data[at:at + BLOCK] for at in range(0, len(data), BLOCK)]

    def write(self, name, text):
        with open(os.path.join(self.folder, name), "w", encoding="ascii") as file:
            file.write(text)

    def copy(self, old, new):
        shutil.copy(os.path.join(self.folder, old), os.path.join(self.folder, new))


def changes(old, new):
    """Where two blocks differ: the first place and the bytes of each run, over gaps of at most four bytes."""
    found, at = [], 0
    while at < BLOCK:
        if old[at] == new[at]:
            at += 1
            continue
        end = last = at
        while end < BLOCK and end - last <= 4:
            if old[end] != new[end]:
                last = end
            end += 1
        found.append([at, new[at:last + 1].hex()])
        at = last + 1
    return found


def read_lines(lines):
    """The steps, the writes and the turns that `replay --steps --writes` tells."""
    steps, writes, turns = [], [], []
    for line in lines:
        if found := STEP.fullmatch(line):
            steps.append({"process": turns[-1]["process"], "deed": found[1]})
        elif found := WRITE.fullmatch(line):
            what = found[3].split()
            write = {"block": int(found[2]), "part": PARTS[what[0]], "what": found[3], "step": len(steps) - 1}
            if what[0] == "header":
                write["group"] = int(what[4])
            writes.append(write)
        elif found := TURN.fullmatch(line):
            turns.append({"process": int(found[1]), "came": found[2], "more": found[3].strip(), "from": len(steps)})
    for turn, following in zip(turns, [*(turn["from"] for turn in turns[1:]), len(steps)]):
        turn["to"] = following
    return steps, writes, turns


def files_of(program):
    """The files of an image as the program recovers and tells them: number, type, length and first bytes."""
    program.told("recover", "recovered.img")
    files = []
    for line in program.lines("ls", "recovered.img"):
        number, kind, length = re.match(r"(\d+) type (\d+) size (\d+)", line).groups()
        files.append([int(number), int(kind), int(length), program.told("cat", "recovered.img", number)[:64].hex()])
    return files


def stops_of(program, writes):
    """What the program leaves before each write, and at the end. It notes what each write changed."""
    now, stops = program.image("opening.img"), []
    for count in range(len(writes) + 1):
        program.copy("opening.img", "a.img")
        stop = ["--stop", str(count + 1)] if count < len(writes) else []
        lines = program.lines("replay", "a.img", "script", "schedule", *stop)
        new = program.image("a.img")
        if count > 0:
            block = writes[count - 1]["block"]
            if any(old != is_now for at, (old, is_now) in enumerate(zip(now, new)) if at != block):
                raise Failed("write %d changed another block than %d" % (count, block))
            writes[count - 1]["changes"] = changes(now[block], new[block])
        now = new
        program.copy("a.img", "recovered.img")
        committed = next(int(line.split()[1]) for line in lines if line.startswith("committed "))
        stops.append({"committed": committed, "files": files_of(program)})
    return stops


def data_of(path, run):
    """All that the page has of a run."""
    with tempfile.TemporaryDirectory() as folder:
        program = Program(path, folder)
        program.write("script", "".join(line + "\n" for line in run["script"]))
        program.write("schedule", run["schedule"] + "\n")
        program.told("mkfs", "opening.img", str(run["size"]), str(run["ninodes"]))
        program.copy("opening.img", "a.img")
        lines = program.lines("replay", "a.img", "script", "schedule", "--steps", "--writes")
        steps, writes, turns = read_lines(lines)
        stops = stops_of(program, writes)
        opening = {block: re.sub("(00)+$", "", data.hex()) for block, data in enumerate(program.image("opening.img")) if any(data)}
        version = program.told("--version").decode().strip()
    return {**run, "opening": opening, "steps": steps, "writes": writes, "turns": turns, "stops": stops, "version": version}


def page_of(told):
    """The page with that data, in which nothing else is named."""
    def part(name):
        with open(os.path.join(HERE, name), encoding="utf-8") as file:
            return file.read()

    data = json.dumps(told, separators=(",", ":")).replace("</", "<\\/")
    page = part("page.html")
    for mark, text in (("/* page.css */", part("page.css")), ("/* data */", data), ("/* disk.js */", part("disk.js")),
                       ("/* page.js */", part("page.js"))):
        page = page.replace(mark, text)
    return page


def main():
    path, page, data = os.path.realpath(sys.argv[1]), *sys.argv[2:]
    told = [data_of(path, run) for run in RUNS]
    for out, text in ((page, page_of(told)), (data, json.dumps(told))):
        with open(out, "w", encoding="utf-8") as file:
            file.write(text)


if __name__ == "__main__":
    try:
        main()
    except Failed as failed:
        sys.exit("explorer: %s" % failed)
