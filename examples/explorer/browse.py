"""Opens pages in a browser without a window, moves through them as a person does, and compares what is seen there with
the program.

    browse.py BROWSER XVFS DATA.json PAGE FAILED [PAGE..] [--pictures FOLDER]

PAGE is that of the runs in DATA.json, and the further ones are the program's, each of one run. In FAILED a stop is told
to have failed: its band is dark there, and the page's own recovery differs. Of PAGE:

- at each stop of each run, in the program's order, the files and the count of groups are what `xvfs recover`, `ls` and
  `cat` tell; in each wrong order the fault is what `xvfs check` says of the image that stands on the page's disk;
- each key and the mouse lead where they should, and each question's button to a stop that its answer tells.

Of each page: the foot says that no stop differs from the program, the steps are all seen at once, each text has the
contrast that WCAG asks for as AA, by day and by night, also at 400 pixels, and nothing is asked for beside the page.
"""
import base64
import json
import os
import re
import subprocess
import sys
import tempfile

from browser import Browser, Refused

HERE = os.path.dirname(os.path.realpath(__file__))
CONTRAST = 4.5
KINDS = ["free", "directory", "file", "device"]
SCREENS = [(1280, 800, "light"), (1280, 800, "dark"), (1920, 1080, "light"), (400, 800, "light"), (400, 800, "dark")]
# What is pressed one by one in the run of PLACE, from behind its first step, and where that leads.
PLACE = "run=2"
PRESSED = [("ArrowRight", 2), ("ArrowRight", 3), ("ArrowLeft", 2), ("PageDown", 5), ("PageDown", 6), ("PageUp", 5), ("End", 42),
           ("PageUp", 41), ("Home", 0), ("ArrowLeft", 0), ("PageDown", 5)]
# The pictures that are kept: of which place, on which screen.
PICTURES = {"homes-first": ("run=2&order=homes&step=38", 0), "never-synced": ("run=2&disk=never&step=38", 1)}


class Looker:
    """A browser, and what was found wrong in it."""

    def __init__(self, program, xvfs):
        self.browser, self.xvfs = Browser(program), os.path.realpath(xvfs)
        self.bad, self.stops, self.images, self.texts = 0, 0, 0, 0
        with open(os.path.join(HERE, "look.js"), encoding="utf-8") as file:
            self.look = file.read()

    def open(self, page, place):
        self.browser.open(os.path.realpath(page), place)
        self.browser.value(self.look)

    def fault(self, text):
        self.bad += 1
        if self.bad < 9:
            print("explorer: in the browser: " + text)

    def seen(self):
        return self.browser.value("seenRecovered()")

    def place(self):
        """Behind which step the run stops, by what the page says."""
        return int(re.match(r"step (\d+) of", self.browser.value("document.getElementById('place').textContent"))[1])

    def stops_of(self, written):
        """From the beginning on, by Page Down, the first place behind each number of writes."""
        self.browser.key("Home")
        for count in range(written + 1):
            if count:
                self.browser.key("PageDown")
            yield count


def row_of(file):
    """A file's row on the page, from what the program tells."""
    number, kind, length, start = file
    shown = "".join(chr(byte) if 31 < byte < 127 else "·" for byte in bytes.fromhex(start)[:18])
    return [str(number), KINDS[kind], str(length), shown + ("…" if length > 18 else "")]


def hold_run(looker, page, place, run):
    """Each stop of a run in the program's order."""
    looker.open(page, "run=%d" % place)
    for count in looker.stops_of(len(run["writes"])):
        told, seen = run["stops"][count], looker.seen()
        looker.stops += 1
        wanted = [row_of(file) for file in told["files"]]
        groups = "✓ sound, with exactly the first %d group%s" % (told["committed"], "" if told["committed"] == 1 else "s")
        if seen["text"] != groups or seen["files"] != wanted:
            looker.fault("%s, behind write %d: the page has %s %s, the program %s %s"
                         % (run["title"], count, seen["text"], seen["files"], groups, wanted))


def checked(looker, folder):
    """What `xvfs check` says of the image on the page's disk: the fault, or nothing."""
    image = os.path.join(folder, "a.img")
    with open(image, "wb") as file:
        file.write(base64.b64decode(looker.browser.value("seenImage()")))
    ran = subprocess.run([looker.xvfs, "check", image], capture_output=True, text=True, timeout=60)
    return re.sub(r"^xvfs: check \d+ ", "", ran.stderr.strip())


def hold_orders(looker, page, place, run, folder):
    """Each stop of a run in the wrong orders."""
    for order in ("homes", "header", "none"):
        looker.open(page, "run=%d&order=%s" % (place, order))
        writes = len(run["writes"]) if order != "none" else sum(write["part"] == "home" for write in run["writes"])
        for count in looker.stops_of(writes):
            seen, fault = looker.seen(), checked(looker, folder)
            looker.images += 1
            # An image that is sound may have files that no number of groups gives.
            others = "the files are not those" in seen["text"] and not fault
            if not others and (seen["bad"] != bool(fault) or fault not in seen["text"]):
                looker.fault("%s, order %s, behind write %d: the page says %s, and check %s"
                             % (run["title"], order, count, seen["text"], fault or "nothing"))


def hold_keys(looker, page):
    """The keys, and the mouse on a step."""
    looker.open(page, PLACE)
    for key, wanted in PRESSED:
        looker.browser.key(key)
        if looker.place() != wanted:
            looker.fault("%s leads behind step %d in place of %d" % (key, looker.place(), wanted))
    box = looker.browser.value("(({ left, top, width }) => [left, top, width])(document.querySelectorAll('#steps rect')[6].getBoundingClientRect())")
    step = looker.browser.value("document.querySelectorAll('#steps rect title')[6].textContent")
    looker.browser.click(box[0] + box[2] / 2, box[1] + 5)
    if not step.startswith("step %d," % looker.place()):
        looker.fault("a click on %s leads behind step %d" % (step, looker.place()))


def hold_questions(looker, page, place, run):
    """Each question's button leads where its answer is seen."""
    for number, asked in enumerate(run["questions"]):
        looker.open(page, "run=%d" % place)
        looker.browser.value("document.querySelectorAll('#questions button')[%d].click()" % number)
        breaks = asked.get("order", "log") != "log" or asked.get("loses", False)
        seen = looker.seen()
        if looker.place() != asked["step"] or seen["bad"] != breaks:
            looker.fault("%s: its answer is shown behind step %d: %s" % (asked["question"], looker.place(), seen["text"]))


def hold_look(looker, page, place, least):
    """What each screen has of a page, and what the page asks for; few steps may be moved along on a narrow screen."""
    for width, height, scheme in SCREENS:
        where = "%s#%s, %d pixels, %s" % (os.path.basename(page), place, width, scheme)
        looker.browser.screen(width, height, scheme)
        looker.open(page, place)
        looker.browser.value("for (const each of document.querySelectorAll('details')) each.open = true")
        found, size = looker.browser.value("faint(%f)" % CONTRAST), looker.browser.value("measures()")
        looker.texts += found["count"]
        if found["faint"]:
            looker.fault("%s: of little contrast: %s" % (where, ", ".join(found["faint"][:3])))
        if size["beyond"] > 0 or (width > 400 and size["stepsBeyond"] > 0):
            looker.fault("%s: the page goes %d pixels beyond, the steps %d" % (where, size["beyond"], size["stepsBeyond"]))
        if width > 400 and (size["font"] < least or size["verdict"] > height):
            looker.fault("%s: its text has %.1f pixels, and the verdict ends at %d" % (where, size["font"], size["verdict"]))
        if len(looker.browser.requests()) != 1 or looker.browser.faults():
            looker.fault("%s: asks for %s, and throws %s" % (where, looker.browser.requests(), looker.browser.faults()))
    looker.browser.screen(*SCREENS[0])


def hold_foot(looker, page, place):
    looker.open(page, place)
    foot = looker.browser.value("document.getElementById('foot').textContent")
    if looker.browser.value("document.body.dataset.differing") != "0" or "At all " not in foot:
        looker.fault("%s#%s: %s" % (os.path.basename(page), place, foot))


def hold_failed(looker, page):
    """The page of a run of which a stop is told to have failed."""
    looker.open(page, "step=6")
    shown = looker.browser.value("document.getElementById('tried').textContent + Array.from(document.querySelectorAll('#steps title'),"
                                 " (each) => each.textContent).join() + document.querySelectorAll('#steps .broken').length")
    wanted = ("a stop before write 3: stopped before write 3: file 1 differs", "a stop before write 4: not tried")
    if looker.browser.value("document.body.dataset.differing") != "1" or not shown.endswith("1") or not all(text in shown for text in wanted):
        looker.fault("a stop that failed isn't shown: %s" % shown)


def take_pictures(looker, page, folder):
    for name, (place, screen) in PICTURES.items():
        looker.browser.screen(*SCREENS[screen])
        looker.open(page, place)
        with open(os.path.join(folder, name + ".png"), "wb") as file:
            file.write(looker.browser.picture())


def hold_all(looker, page, failed, others, runs):
    looker.browser.screen(*SCREENS[0])
    with tempfile.TemporaryDirectory() as folder:
        for place, run in enumerate(runs):
            hold_foot(looker, page, "run=%d" % place)
            hold_run(looker, page, place, run)
            hold_orders(looker, page, place, run, folder)
            hold_questions(looker, page, place, run)
    hold_keys(looker, page)
    hold_failed(looker, failed)
    for place in ("run=2&order=homes&disk=no&step=38", "run=2&disk=never&step=38", "run=3&step=180", "run=5&step=20"):
        hold_look(looker, page, place, 16)
    for other in others:
        hold_foot(looker, other, "step=9")
        hold_look(looker, other, "step=9", 16)
        hold_look(looker, other, "step=9&order=homes", 16)


def main():
    words = sys.argv[1:]
    pictures = words.index("--pictures") if "--pictures" in words else len(words)
    program, xvfs, data, page, failed, *others = words[:pictures]
    with open(data, encoding="utf-8") as file:
        runs = json.load(file)
    try:
        looker = Looker(program, xvfs)
    except Refused as refused:
        sys.exit("explorer: %s" % refused)
    try:
        hold_all(looker, page, failed, others, runs)
        if words[pictures:]:
            take_pictures(looker, page, words[pictures + 1])
    except Refused as refused:
        looker.fault(str(refused))
    finally:
        looker.browser.end()
    print("explorer: in a browser %d stops and %d images of wrong orders compared with the program, %d pages and %d texts looked at,"
          " %d not as they should be" % (looker.stops, looker.images, 2 + len(others), looker.texts, looker.bad))
    return looker.bad > 0


sys.exit(main())
