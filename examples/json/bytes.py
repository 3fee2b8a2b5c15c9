#!/usr/bin/env python3
"""Holds the bytes of the writes of `replay --json` against the image that the replay left.

    bytes.py IMAGE <OBJECTS

Each block has those of its last write.
"""
import json
import sys

with open(sys.argv[1], "rb") as file:
    image = file.read()
writes = [each for each in map(json.loads, sys.stdin) if "write" in each and "step" in each]
for block, content in {each["block"]: each["bytes"] for each in writes}.items():
    if image[1024 * block:1024 * (block + 1)] != bytes.fromhex(content).ljust(1024, b"\0"):
        sys.exit("bytes: block %d has others than those of its last write" % block)
