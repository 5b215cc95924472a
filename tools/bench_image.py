#!/usr/bin/env python3
"""Times the check of the largest image: a benchmark, not a test.

    (cd crates/image_cases && rt run </dev/null) && tools/bench_image.py crates/image_cases/out/image_cases

The program is run on many copies of the image, and on as many images of one byte too many, which it refuses at once:
the difference is the check, without the reading of digits.
"""
import os
import subprocess
import sys
import time

sys.path.insert(0, os.path.dirname(__file__))
import tree_image

COPIES = 200


def seconds(image):
    lines = (image.hex() + "\n").encode() * COPIES
    start = time.perf_counter()
    subprocess.run([sys.argv[1]], input=lines, stdout=subprocess.DEVNULL, check=True)
    return time.perf_counter() - start


full = tree_image.full()
assert tree_image.check(full) == "image ok 64 512 64 256" and len(full) == 32768
whole = min(seconds(full) for _ in range(5))
rest = min(seconds(full + b"\0") for _ in range(5))
print(f"{(whole - rest) / COPIES * 1e6:.0f} microseconds an image (with its digits: {whole / COPIES * 1e6:.0f})")
