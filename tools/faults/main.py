"""Tries every series, a few at a time, and prints each end that is not as it should be."""
import concurrent.futures
import os
import sys
import traceback

import bomb
import calls
import descriptors
import devices
import failed_syncs
import locking
import new_files
import new_images
import series

PARTS = [series, failed_syncs, bomb, descriptors, new_files, locking, new_images, calls, devices]


def name_of(one):
    """A series by its function and its words; an image is none."""
    return " ".join([one[0].__name__, *["" if isinstance(word, bytes) else str(word) for word in one[1:]]]).strip()


def told_wrong(one):
    try:
        return [f"{name_of(one)}: at {at}: {wrong}" for at, wrong in one[0](*one[1:]) if wrong]
    except Exception:
        return [f"{name_of(one)}: the trial itself ended: {traceback.format_exc()}"]


ALL = [one for part in PARTS for one in part.SERIES]
with concurrent.futures.ThreadPoolExecutor(os.cpu_count()) as pool:
    found = [line for lines in pool.map(told_wrong, ALL) for line in lines]
print("\n".join(found + [f"faults: {len(ALL)} series, {len(found)} ends that are not as they should be"]))
sys.exit(1 if found else 0)
