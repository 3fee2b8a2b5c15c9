#!/usr/bin/env python3
"""Boots the kernel again and again and kills it, each time at a moment by chance: kills.py KERNEL DISK TIMES

What the kernel told as kept has to be found at the next boot, and at most one record more of each process.
"""
import os
import random
import select
import subprocess
import sys
import time

EMULATOR = ['qemu-system-x86_64', '-accel', 'tcg', '-cpu', 'qemu64', '-m', '64', '-display', 'none',
            '-monitor', 'none', '-no-reboot', '-serial', 'stdio']
PROCESSES = 4
PATIENCE = 60  # seconds until the kernel runs


class Kept:
    """How many records of each process may not be lost."""

    def __init__(self):
        self.records = [0] * PROCESSES
        self.told = 0

    def hear(self, line):
        """Takes a line of the kernel."""
        words = line.split()
        if words[:1] == ['halt']:
            sys.exit('kills: the kernel says: ' + line)
        if len(words) != 3 or words[0] not in ('kept', 'found'):
            return
        process, number = int(words[1]), int(words[2])
        least = self.records[process]
        if words[0] == 'kept':
            if number != least:
                sys.exit('kills: record %d of process %d is told behind %d' % (number, process, least))
            self.told += 1
            self.records[process] = number + 1
        elif not least <= number <= least + 1:
            sys.exit('kills: process %d has %d records, and %d were kept' % (process, number, least))
        else:
            self.records[process] = number


def lines_of(stream, until):
    """The whole lines that a stream gives until a moment that `until` tells, or its end."""
    left = b''
    while time.time() < until():
        ready, _, _ = select.select([stream], [], [], 0.01)
        more = os.read(stream.fileno(), 65536) if ready else None
        if more == b'':
            return
        *lines, left = (left + (more or b'')).split(b'\n')
        yield from (line.decode('ascii', 'replace') for line in lines)
    while True:
        more = os.read(stream.fileno(), 65536) if select.select([stream], [], [], 0)[0] else b''
        if not more:
            return
        *lines, left = (left + more).split(b'\n')
        yield from (line.decode('ascii', 'replace') for line in lines)


def run(kernel, disk, kept):
    """Boots it, and kills it while it runs; one time in four perhaps before. Whether it ran."""
    drive = 'file=%s,if=ide,format=raw,cache=writeback' % disk
    words = EMULATOR + ['-kernel', kernel, '-drive', drive]
    emulator = subprocess.Popen(words, stdin=subprocess.DEVNULL, stdout=subprocess.PIPE)
    try:
        begun = time.time()
        is_early = kept.told and random.random() < 0.25
        end = begun + (random.uniform(0.05, 0.6) if is_early else PATIENCE)
        runs = False
        for line in lines_of(emulator.stdout, lambda: end):
            kept.hear(line)
            if line.startswith('runs') and not runs:
                runs = True
                end = min(end, time.time() + random.uniform(0.05, 1.0))
    finally:
        emulator.kill()
        emulator.wait()
    if not runs and not is_early:
        sys.exit('kills: the kernel does not run within %d seconds' % PATIENCE)
    return runs


def main():
    kernel, disk, times = sys.argv[1:]
    kept = Kept()
    ran = sum(run(kernel, disk, kept) for _ in range(int(times)))
    print('%s kills, %d of them while processes ran; %d records were kept, and none was lost'
          % (times, ran, kept.told))


main()
