#!/usr/bin/env python3
"""Remakes what a command prints as text from the one value that it prints with --json.

    values.py KIND <VALUE >TEXT

A KIND is ls, df, check, faults (of check --all), show, file (of show with a number), log (of show log), recover
or stops; of xvnames entries (of ls), stat, paths (of tree), counts (of check) or flaws (of check where the
files are no tree). Nothing but the value is read, and each field of it has to be known here.
"""
import json
import sys

KEY = ("b boot s super l log i inodes m bitmap a addresses "
       "0-9 data by the file's last digit . free * logged")


def fields(value, names):
    """The fields of an object, which has these and no others, in this order."""
    if list(value) != names.split():
        sys.exit("values: %s are not the fields of %s" % (names, value))
    return value


def ls(files):
    for file in files:
        fields(file, "inode type links size blocks")
        if type(file["links"]) is not int:
            sys.exit("values: %s are no links" % file["links"])
        yield "{inode} type {type} size {size} blocks {blocks}".format(**file)


def df(usage):
    fields(usage, "blocks used_blocks free_blocks inodes used_inodes free_inodes")
    yield "blocks {blocks} used {used_blocks} free {free_blocks}".format(**usage)
    yield "inodes {inodes} used {used_inodes} free {free_inodes}".format(**usage)


def check(report):
    fields(report, "sound log files")
    if report["sound"] is not True:
        sys.exit("values: it is not sound")
    yield "sound log {log} files {files}".format(**report)


def faults(found):
    for fault in found:
        place = list(fault)[2:]
        if place not in ([], ["inode"], ["block"]):
            sys.exit("values: a fault names %s" % place)
        yield "check {code} {name}".format(**fault) + "".join(" %d" % fault[name] for name in place)
    yield "faults %d" % len(found)


def show(drawn):
    signs = fields(drawn, "signs")["signs"]
    for first in range(0, len(signs), 64):
        yield "%4d %s" % (first, signs[first:first + 64])
    yield KEY


def file(owned):
    for block in fields(owned, "inode blocks")["blocks"]:
        fields(block, "block depth")
        yield "%d%s" % (block["block"], " addresses" if block["depth"] else "")


def log(held):
    homes = fields(held, "log")["log"]
    yield "log n %d" % len(homes)
    for place, home in enumerate(homes):
        yield "log %d home %d %s" % (place, fields(home, "home area")["home"], home["area"])


def recover(done):
    yield "recovered {recovered}".format(**fields(done, "recovered"))


def stops(left):
    yield "images {images}".format(**fields(left, "images"))


def entries(files):
    for file in files:
        fields(file, "name number type links size")
        yield "{name} {number} type {type} size {size}".format(**file)


def stat(file):
    fields(file, "number type links size")
    yield "{number} type {type} size {size} links {links}".format(**file)


def paths(files):
    for file in files:
        yield fields(file, "path number type links size")["path"]


def counts(files):
    for file in files:
        yield "{path} {number} links {links} names {names}".format(**fields(file, "path number links names"))


def flaws(files):
    for file in files:
        if "fault" in file:
            yield "{path} {number} {fault}".format(**fields(file, "path number fault"))
        elif "path" in file:
            yield from counts([file])
        else:
            yield "no name " + "".join(stat(file))


def main():
    printed = sys.stdin.buffer.read()
    if printed.count(b"\n") != 1 or not printed.endswith(b"\n") or not printed.isascii():
        sys.exit("values: it is not one line of ASCII")
    # A name is bytes, and each character of its string stands for one.
    for text in globals()[sys.argv[1]](json.loads(printed)):
        sys.stdout.buffer.write(text.encode("latin-1") + b"\n")


main()
