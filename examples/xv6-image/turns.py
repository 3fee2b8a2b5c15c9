"""Hands images to and fro between xvnames and the small kernel of xv6's rules. After each turn `xvfs check` has to
say that the image is sound, `xvnames tree` to list the tree that both should have left, and the strict checker to
find no fault, in the counts of links either.

    turns.py XVFS XVNAMES [--seed SEED] [--round ROUND] [--alone ROUNDS]

A failure tells seed, round and the last calls; with these words it comes again. Before that the kernel alone has all
turns, in so many images as --alone says.
"""
import argparse
import collections
import os
import random
import sys
import tempfile

import rows
from calls import Calls
from checker import check
from commands import Commands
from conversions import make_conversions
from kernel import Kernel
from layout import FILE
from log import Panic
from mkfs import mkfs
from programs import Failure, Programs
from tree import File, Tree
from usertests import make_usertests
from wrong_images import look_at_wrong_images

# In each image so many turns, each of so many commands of xvnames and calls of the kernel.
ROUNDS, TURNS, COMMANDS, CALLS = 40, 3, 5, 12
# The most calls, and the most faults, that a failure tells.
TOLD = 20


class Round:
    """An image of xv6's mkfs, and the tree that it should have."""

    def __init__(self, programs, seed, number):
        self.random = random.Random("%d %d" % (seed, number))
        self.programs, self.tree, self.history = programs, Tree(), collections.deque(maxlen=TOLD)
        files = [(b"f%d" % index, self.random.randbytes(self.random.choice([0, 100, 5000, 14000])))
                 for index in range(self.random.randrange(8))]
        for name, data in files:
            self.tree.files[b"/" + name] = File(FILE, data)
        # In some rounds blocks or inodes run short.
        size, inodes = self.random.choice([(600, 100), (600, 100), (600, 24), (200, 100)])
        self.data = mkfs(files, size, inodes)

    def kernel_turn(self, count):
        kernel = Kernel(self.data)
        if kernel.reclaimed:
            raise Failure("at boot the kernel freed the inodes %s" % kernel.reclaimed)
        calls = Calls(kernel, self.tree, self.random, self.history)
        for _ in range(count):
            calls.make_one()
        self.data = calls.stop()

    def commands_turn(self, count):
        self.programs.write(self.data)
        commands = Commands(self.programs, self.tree, self.random, self.history)
        for _ in range(count):
            commands.make_one()
        self.data = self.programs.image()

    def look(self):
        """Whether the image is the tree, by the checker and by the programs."""
        files, faults = check(self.data)
        wrong = faults + self.tree.differences(files)
        if wrong:
            raise Failure("; ".join(wrong[:TOLD]))
        if self.programs:
            self.programs.write(self.data)
            self.programs.look(files)

    def make(self):
        self.look()
        for _ in range(TURNS):
            self.kernel_turn(CALLS)
            self.look()
            self.commands_turn(COMMANDS)
            self.look()

    def make_alone(self):
        for _ in range(TURNS):
            self.kernel_turn(10 * CALLS)
            self.look()


def make_rounds(programs, seed, numbers):
    """Makes rounds, and tells of the first failure how it comes again."""
    for number in numbers:
        made = Round(programs, seed, number)
        try:
            if programs:
                made.make()
            else:
                made.make_alone()
        except Exception as fault:
            print("seed %d, round %d; the last calls:" % (seed, number))
            print("\n".join("    " + line for line in made.history))
            raise Failure(told(fault)) from fault


def told(fault):
    """What is told of a fault: its text, and where it is no test that failed, what it is."""
    return str(fault) if isinstance(fault, Failure) else "%s: %s" % (type(fault).__name__, fault)


def read_words():
    parser = argparse.ArgumentParser()
    parser.add_argument("xvfs")
    parser.add_argument("xvnames")
    parser.add_argument("--seed", type=int, default=1)
    parser.add_argument("--round", type=int)
    parser.add_argument("--alone", type=int, default=10)
    return parser.parse_args()


def main(words, programs):
    look_at_wrong_images()
    make_usertests()
    make_rounds(None, words.seed, range(words.alone))
    print("the kernel alone: %d calls in %d images" % (10 * TURNS * CALLS * words.alone, words.alone))
    rows.parent_stays(programs)
    rows.wrong_counts(programs)
    rows.names_end_at_a_zero(programs)
    numbers = range(ROUNDS) if words.round is None else [words.round]
    make_rounds(programs, words.seed, numbers)
    print("%d images, each in turn with the kernel, for %d calls, and with xvnames, for %d commands"
          % (len(numbers), TURNS * CALLS, TURNS * COMMANDS))
    rows.large_directories(programs)
    make_conversions(programs)


if __name__ == "__main__":
    WORDS = read_words()
    PROGRAMS = Programs(os.path.abspath(WORDS.xvfs), os.path.abspath(WORDS.xvnames))
    with tempfile.TemporaryDirectory() as FOLDER:
        os.chdir(FOLDER)
        try:
            main(WORDS, PROGRAMS)
        except (Failure, Panic) as fault:
            print("xv6-image: %s" % told(fault))
            sys.exit(1)
