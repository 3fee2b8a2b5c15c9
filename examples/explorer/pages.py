"""Has the program make the page of each run, and of two long ones, and reads them; and of each at its stops.

    pages.py XVFS FOLDER         FOLDER/page-N.html, the pages; stops-N.html, held-N.html, those of `stops`

In each stand just the objects that `replay --json` prints of the same run, and nothing of it ends a script. In a page of
`stops` stand as many stops as were tried, and as many images as it prints.
"""
import json
import os
import re
import sys

from make import Failed, Program
from runs import RUNS

DATA = re.compile(r'<script type="application/json" id="data">\n(.*?)</script>', re.S)


def long_run(title, writes):
    """A run of so many writes into files, by two processes in turns."""
    script = ["0 create 2", "1 create 2"]
    script += ["%d write %d %d 61626364" % (place % 2, place % 2 + 1, place // 2 * 4) for place in range(writes)]
    return {"title": title, "size": 200, "ninodes": 16, "script": script, "schedule": " ".join(["0!", "1!"] * (writes + 8))}


def page_of(program, run, path):
    """The lines of JSON in the page of a run."""
    program.write("script", "".join(line + "\n" for line in run["script"]))
    program.write("schedule", run["schedule"] + "\n")
    program.told("mkfs", "opening.img", str(run["size"]), str(run["ninodes"]))
    program.copy("opening.img", "a.img")
    told = program.lines("replay", "a.img", "script", "schedule", "--picture", path)
    program.copy("opening.img", "b.img")
    objects = program.lines("replay", "b.img", "script", "schedule", "--json")
    program.copy("opening.img", "c.img")
    if told != program.lines("replay", "c.img", "script", "schedule"):
        raise Failed("%s: other lines are printed with the page" % run["title"])
    if program.image("a.img") != program.image("b.img"):
        raise Failed("%s: the page's replay leaves another image" % run["title"])
    return read_page(run, path, objects)[0]


def read_page(run, path, objects):
    """The page, and its lines of JSON, which tell just these steps and turns."""
    with open(path, encoding="utf-8") as file:
        page = file.read()
    if page.count("</script") != 3 or "<!--" in page:
        raise Failed("%s: something ends a script of the page" % run["title"])
    lines = DATA.search(page)[1].splitlines()
    if [line for line in lines if line.startswith(('{"step"', '{"event"'))] != objects[:-1]:
        raise Failed("%s: the page has other steps than replay --json" % run["title"])
    return page, lines


def stops_page_of(program, run, path, held):
    """The page of a run at its stops, over the new image of `stops`: the steps are those of a replay over one."""
    program.write("script", "".join(line + "\n" for line in run["script"]))
    program.write("schedule", run["schedule"] + "\n")
    words = ["script", "schedule", *(["--held"] if held else [])]
    told = program.lines("stops", *words, "--picture", path)
    if told != program.lines("stops", *words):
        raise Failed("%s: other lines are printed with the page of stops" % run["title"])
    program.told("mkfs", "a.img", "48", "16")
    objects = program.lines("replay", "a.img", "script", "schedule", "--json", *(["--sync"] if held else []))
    page, lines = read_page(run, path, objects)
    tried = [json.loads(line) for line in lines if line.startswith(('{"passed"', '{"failed"'))]
    syncs = sum('"deed":"sync"' in line for line in objects)
    if len(tried) != 1 + json.loads(objects[-1])["writes"] + syncs or any("failed" in stop for stop in tried):
        raise Failed("%s: the page has other stops" % run["title"])
    if told != ["images %d" % sum(stop["passed"] for stop in tried)]:
        raise Failed("%s: the page has other images than stops prints" % run["title"])
    return page


def fail_one(page, path):
    """The page as it would be if the program had found at the stop before write 3 that one doesn't pass."""
    lines = DATA.search(page)[1].splitlines()
    place = lines.index('{"passed":1,"stop":"write","number":3}')
    why = "stopped before write 3: file 1 differs\n"
    failed = lines[:place] + ['{"failed":1,"stop":"write","number":3,"bytes":"%s"}' % why.encode().hex()]
    with open(path, "w", encoding="utf-8") as file:
        file.write(page.replace("\n".join(lines), "\n".join(failed)))


def main():
    folder = os.path.realpath(sys.argv[2])
    program = Program(os.path.realpath(sys.argv[1]), folder)
    runs = [*RUNS, long_run("400 steps", 20), long_run("5,000 steps", 276)]
    pages = [page_of(program, run, os.path.join(folder, "page-%d.html" % place)) for place, run in enumerate(runs)]
    tried = []
    for place, run in enumerate(runs[:-1]):
        tried.append(stops_page_of(program, run, os.path.join(folder, "stops-%d.html" % place), False))
        tried.append(stops_page_of(program, run, os.path.join(folder, "held-%d.html" % place), True))
    fail_one(tried[0], os.path.join(folder, "failed.html"))
    pages += tried
    named = [page for page in pages if re.search(r'src="|href="|url\(|://', page)]
    if named:
        raise Failed("%d pages name something else" % len(named))
    print("explorer: %d pages of the program, the largest of %d KiB, with the objects of replay --json"
          % (len(pages), max(map(len, pages)) // 1024))


if __name__ == "__main__":
    try:
        main()
    except Failed as failed:
        sys.exit("explorer: %s" % failed)
